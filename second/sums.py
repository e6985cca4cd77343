"""Sums and rounding: whole numbers, and polynomials as lists of them.

A polynomial is a list of n whole numbers, coefficient 0 first.
"""


def centred(v, m):
    """The centred remainder of v by m.

    For odd m this runs from -floor(m/2) to floor(m/2). For even m the upper
    end m/2 belongs to it and the lower end -m/2 does not. One rule does both:
    only what lies above floor(m/2) goes down by m.
    """
    r = v % m
    return r - m if r > m // 2 else r


def low(numbers, v):
    """The low part of v: centred by q first, then by 2^d."""
    return centred(centred(v, numbers.q), 1 << numbers.d)


def high(numbers, v):
    """The high part of v. The division leaves nothing over."""
    return (centred(v, numbers.q) - low(numbers, v)) // (1 << numbers.d)


def centred_polynomial(p, m):
    return [centred(v, m) for v in p]


def added(p, o):
    return [v + u for v, u in zip(p, o)]


def subtracted(p, o):
    return [v - u for v, u in zip(p, o)]


def plain_product(p, o):
    """p times o with x^n = -1, by the definition: every pair of terms."""
    n = len(p)
    result = [0] * n
    for i, v in enumerate(p):
        for j, u in enumerate(o):
            if i + j < n:
                result[i + j] += v * u
            else:
                result[i + j - n] -= v * u
    return result


def product(p, o):
    """The same product, quicker.

    Both polynomials are evaluated at a power of 256 so large that the
    coefficients of the result do not run into one another. Then one product
    of whole numbers holds all coefficients as its digits.
    """
    n = len(p)
    size = _digit_size(p, o)
    digits = _signed_digits(_evaluated(p, size) * _evaluated(o, size), size, 2 * n)
    return [digits[i] - digits[i + n] for i in range(n)]


def _digit_size(p, o):
    """Bytes of a digit that holds any coefficient of p, o and the result, and its sign.

    A polynomial of zeros counts as if it had a 1: the other must fit all the same.
    """
    largest = len(p) * max(1, *map(abs, p)) * max(1, *map(abs, o))
    return largest.bit_length() // 8 + 1


def _evaluated(p, size):
    """p at x = 256^size. Negative coefficients are gathered apart."""
    above = b"".join(max(v, 0).to_bytes(size, "little") for v in p)
    below = b"".join(max(-v, 0).to_bytes(size, "little") for v in p)
    return int.from_bytes(above, "little") - int.from_bytes(below, "little")


def _signed_digits(whole, size, count):
    """The digits of `whole` to the base 256^size, each of them centred.

    Half the base is added to every digit, so that none is negative while the
    bytes are cut, and is taken off again.
    """
    half = 1 << (8 * size - 1)
    halves = int.from_bytes(half.to_bytes(size, "little") * count, "little")
    data = (whole + halves).to_bytes(size * count, "little")
    return [int.from_bytes(data[at:at + size], "little") - half
            for at in range(0, size * count, size)]


def sparse(n, positions, signs):
    """The polynomial with these signs at these positions and 0 elsewhere."""
    p = [0] * n
    for position, sign in zip(positions, signs):
        p[position] = sign
    return p


def sum_of_largest(h, p):
    """The sum of the h largest absolute values of p."""
    return sum(sorted(map(abs, p), reverse=True)[:h])


def check_s(numbers, s):
    return sum_of_largest(numbers.h, s) <= numbers.S


def check_e(numbers, e_i):
    return sum_of_largest(numbers.h, e_i) <= numbers.E


def low_part_passes(numbers, w):
    """The first test on a coefficient of w_i."""
    return abs(low(numbers, w)) < (1 << (numbers.d - 1)) - numbers.E


def size_passes(numbers, w):
    """The second test on a coefficient of w_i. w is centred by q."""
    return abs(w) < numbers.q // 2 - numbers.E


def w_passes(numbers, w_i):
    return all(low_part_passes(numbers, w) and size_passes(numbers, w) for w in w_i)


def z_passes(numbers, z):
    """The test on z, as it is: z is not reduced before."""
    return all(abs(v) <= numbers.z_bound for v in z)


def t_passes(numbers, t):
    return all(0 <= v < numbers.q for v in t)


def fits_signed_byte(v):
    return -128 <= v <= 127
