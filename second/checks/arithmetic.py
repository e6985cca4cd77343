"""Sums and rounding beyond the twelve: laws at many values, and the quick product."""

import random

from sets import MESSAGE_LIMIT, ROSTER_LIMIT, SET_I
from sums import (centred, fits_signed_byte, high, low, plain_product, product,
                  sum_of_largest)


def set_numbers(expect):
    expect("half of q", SET_I.q // 2, 171788288)
    expect("B less S", SET_I.z_bound, 523733)
    expect("limits", (MESSAGE_LIMIT, ROSTER_LIMIT), (32768, 32766))
    expect("t fits its width", SET_I.q <= 1 << SET_I.t_width, True)
    expect("one subtraction brings a into range", 1 << SET_I.t_width <= 2 * SET_I.q, True)
    expect("one subtraction brings y into range",
           1 << SET_I.z_width <= 2 * SET_I.y_range, True)
    expect("n is 2 to the position's width", SET_I.n, 1 << SET_I.position_width)


def centring(expect):
    for m in range(1, 20):
        values = {centred(v, m) for v in range(-3 * m, 3 * m)}
        least = -(m // 2) if m % 2 else -(m // 2) + 1
        expect(f"range by {m}", values, set(range(least, m // 2 + 1)))
        expect(f"same class by {m}",
               all((centred(v, m) - v) % m == 0 for v in range(-3 * m, 3 * m)), True)


def rounding(expect):
    half, step = SET_I.q // 2, 1 << SET_I.d
    rng = random.Random(3)
    values = [rng.randrange(-SET_I.q, 2 * SET_I.q) for _ in range(500)]
    values += [-half, half, half + 1, -half - 1, 0, SET_I.q]
    for v in values:
        parts = high(SET_I, v) * step + low(SET_I, v)
        expect(f"parts of {v}", parts, centred(v, SET_I.q))
    expect("largest high part", high(SET_I, half), 41)
    expect("least high part", high(SET_I, -half), -41)


def largest(expect):
    expect("the largest stand last", sum_of_largest(3, [1, 1, 1, 9, -9, 9]), 27)
    expect("more than there are", sum_of_largest(5, [1, -2]), 3)
    expect("none", sum_of_largest(0, [1, -2]), 0)


def signed_byte(expect):
    for v, fits in [(-129, False), (-128, True), (0, True), (127, True), (128, False)]:
        expect(f"{v}", fits_signed_byte(v), fits)


def products(expect):
    rng = random.Random(4)
    for n in (1, 2, 3, 4, 8, 16, 33):
        for size in (0, 1, 127, SET_I.B, SET_I.q):
            p = [rng.randint(-size, size) for _ in range(n)]
            o = [rng.randint(-size, size) for _ in range(n)]
            expect(f"n = {n}, size {size}", product(p, o), plain_product(p, o))
            ends = [size] * n, [-size] * n
            expect(f"n = {n}, ends {size}", product(*ends), plain_product(*ends))
            expect(f"n = {n}, {size} times zeros", product(p, [0] * n), [0] * n)
            expect(f"n = {n}, zeros times {size}", product([0] * n, p), [0] * n)


def whole_products(expect):
    rng = random.Random(5)
    a = [rng.randrange(SET_I.q) for _ in range(SET_I.n)]
    y = [rng.randint(-SET_I.B, SET_I.B) for _ in range(SET_I.n)]
    s = [rng.randint(-127, 127) for _ in range(SET_I.n)]
    c = [rng.randint(-1, 1) for _ in range(SET_I.n)]
    expect("a y at n = 1024", product(a, y), plain_product(a, y))
    expect("s c at n = 1024", product(s, c), plain_product(s, c))


GROUPS = [("numbers of set I", set_numbers), ("centred remainder", centring),
          ("low and high part", rounding), ("sum of the largest", largest),
          ("what fits a signed byte", signed_byte), ("quick product, small", products),
          ("quick product, n = 1024", whole_products)]
