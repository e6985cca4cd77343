"""SHAKE256, the seven streams with their marks, and the candidate rules."""

import hashlib

from answers import DONE, LENGTH
from sets import DIGEST_BYTES, SEED_BYTES

# The last hexadecimal digit of each stream's mark.
A, Y, RAND, MESSAGE_DIGEST, KEY_DIGEST, CHALLENGE, POSITIONS = range(1, 8)

A_BYTES = 4              # of one candidate for a
Y_BYTES = 3              # of one candidate for y
POSITION_BYTES = 3       # of one candidate for Enc: two of position, one of sign
POSITION_CANDIDATES = 256


def shake256(message, out_len):
    """An entry of its own. It refuses nothing."""
    return DONE, hashlib.shake_256(message).digest(out_len)


def stream(numbers, purpose, inputs, length):
    """The first bytes of the stream for one purpose."""
    return hashlib.shake_256(numbers.stream_mark(purpose) + inputs).digest(length)


# The candidate rules.

def number_candidates(data, size, width):
    """The whole candidates in data: the low bits of each `size` bytes."""
    mask = (1 << width) - 1
    return [int.from_bytes(data[at:at + size], "little") & mask
            for at in range(0, len(data) - size + 1, size)]


def position_candidates(data, width):
    """The whole candidates in data, each a position and a sign."""
    mask = (1 << width) - 1
    return [(int.from_bytes(data[at:at + 2], "little") & mask,
             -1 if data[at + 2] & 1 else 1)
            for at in range(0, len(data) - POSITION_BYTES + 1, POSITION_BYTES)]


def take_values(candidates, span, needed):
    """The values taken from candidates for the range from 0 to span - 1.

    There must be at least as many candidates as values needed. A candidate
    that is too large can be spared only while the ones after it suffice.
    """
    values = []
    for index, candidate in enumerate(candidates):
        still_needed = needed - len(values)
        if still_needed == 0:
            break
        remaining = len(candidates) - index - 1
        if candidate < span:
            values.append(candidate)
        elif remaining < still_needed:
            values.append(candidate - span)
    return values


def take_places(n, candidates, needed):
    """The positions taken, in the order drawn, and the sign of each.

    There must be at least as many candidates as positions needed, and no more
    than n may be needed. A sign always comes from the candidate at hand.
    """
    positions, signs, taken = [], [], set()
    for index, (position, sign) in enumerate(candidates):
        still_needed = needed - len(positions)
        if still_needed == 0:
            break
        remaining = len(candidates) - index - 1
        if position in taken:
            if remaining >= still_needed:
                continue
            position = next_free(n, taken, position)
        positions.append(position)
        signs.append(sign)
        taken.add(position)
    return positions, signs


def next_free(n, taken, position):
    """The first free position above this one, going on from n - 1 to 0."""
    while position in taken:
        position = (position + 1) % n
    return position


# The entries over a lent stream. The output's length says how many are needed.

def take_a(numbers, lent, out_len):
    candidates = number_candidates(lent, A_BYTES, numbers.t_width)
    if out_len > len(candidates):
        return LENGTH, None
    return DONE, take_values(candidates, numbers.q, out_len)


def take_y(numbers, lent, out_len):
    candidates = number_candidates(lent, Y_BYTES, numbers.z_width)
    if out_len > len(candidates):
        return LENGTH, None
    values = take_values(candidates, numbers.y_range, out_len)
    return DONE, [value - numbers.B for value in values]


def take_positions(numbers, lent, positions_len, signs_len):
    candidates = position_candidates(lent, numbers.position_width)
    if positions_len != signs_len:
        return LENGTH, None
    if positions_len > len(candidates) or positions_len > numbers.n:
        return LENGTH, None
    return DONE, take_places(numbers.n, candidates, positions_len)


# The seven streams.

def drawn_a(numbers, seed_a):
    """a_1..a_k. One stream and one count serve all of them."""
    n, needed = numbers.n, numbers.k * numbers.n
    data = stream(numbers, A, seed_a, 4 * needed * A_BYTES)
    values = take_a(numbers, data, needed)[1]
    return [values[at:at + n] for at in range(0, needed, n)]


def drawn_y(numbers, rand, counter):
    data = stream(numbers, Y, rand + counter.to_bytes(2, "little"),
                  2 * numbers.n * Y_BYTES)
    return take_y(numbers, data, numbers.n)[1]


def drawn_rand(numbers, seed_y, r, message_digest):
    return stream(numbers, RAND, seed_y + r + message_digest, SEED_BYTES)


def digest_of_message(numbers, message):
    """G(message)."""
    return stream(numbers, MESSAGE_DIGEST, message, DIGEST_BYTES)


def digest_of_key(numbers, packed_t):
    """g, over the packed t_1..t_k without mark and seed."""
    return stream(numbers, KEY_DIGEST, packed_t, DIGEST_BYTES)


def hash_of_high_parts(numbers, high_parts, message_digest, g):
    """H. The high parts of all k polynomials come in a row and fit a signed byte."""
    signed = bytes(v % 256 for v in high_parts)
    return stream(numbers, CHALLENGE, signed + message_digest + g, SEED_BYTES)


def enc(numbers, c):
    """Enc: the h positions of the challenge, with their signs."""
    data = stream(numbers, POSITIONS, c, POSITION_CANDIDATES * POSITION_BYTES)
    return take_positions(numbers, data, numbers.h, numbers.h)[1]
