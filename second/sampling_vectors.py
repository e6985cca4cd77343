"""The vector program's cases of the candidate rules over a lent stream, and of the seven streams:

    a needed, stream          y needed, stream      p needed, signs, stream   over a lent stream
    d seed_a                  s counter, rand       e c'                      drawn
    m message                 g packed t_1..t_k     r seed_y, r, G            hashed
    c G, g, high parts

Over a lent stream the line has the answer's number and the
outputs after the call, whose bytes are A5 before it. a_1..a_k and y are written as SHAKE256 of
their values.
"""

import random

from answers import DONE
from cases import UNTOUCHED, case, hashed, number
from records import pack, pack_signed, packed_t
from sets import DIGEST_BYTES, SEED_BYTES, SET_I
from streams import (A_BYTES, POSITION_BYTES, Y_BYTES, digest_of_key, digest_of_message, drawn_a,
                     drawn_rand, drawn_y, enc, hash_of_high_parts, take_a, take_positions,
                     take_y)

MOST = 2048              # places of an output in the program
COUNTERS = [1, 2, 255, 256, 1024, 65535]
MESSAGE_LENGTHS = [0, 1, *range(133, 139), 1000, 4096, 8191]


# Over a lent stream.

def lent_a(stream, needed):
    answer, values = take_a(SET_I, stream, needed)
    out = pack(values, 32) if answer == DONE else UNTOUCHED * (4 * needed)
    return case(b"a", number(needed) + stream, bytes([answer]), out)


def lent_y(stream, needed):
    answer, values = take_y(SET_I, stream, needed)
    out = pack_signed(values, 32) if answer == DONE else UNTOUCHED * (4 * needed)
    return case(b"y", number(needed) + stream, bytes([answer]), out)


def lent_positions(stream, needed, signs):
    answer, taken = take_positions(SET_I, stream, needed, signs)
    out = places_bytes(taken) if answer == DONE else UNTOUCHED * (2 * needed + signs)
    return case(b"p", number(needed) + number(signs) + stream, bytes([answer]), out)


def places_bytes(taken):
    positions, signs = taken
    return pack(positions, 16) + pack_signed(signs, 8)


def candidates(rng, size, width, numbers):
    """The numbers as candidates. What lies above their low bits is drawn."""
    return b"".join((number | rng.getrandbits(8 * size - width) << width).to_bytes(size, "little")
                    for number in numbers)


def places(rng, positions):
    """The positions as candidates, with drawn signs."""
    return b"".join(candidates(rng, 2, SET_I.position_width, [position]) + rng.randbytes(1)
                    for position in positions)


def value_cases(rng, lent, size, width, span):
    """Cases of one of the two rules for values below span."""
    highest = (1 << width) - 1

    def of(numbers):
        return candidates(rng, size, width, numbers)

    for length in range(size):
        yield from (lent(rng.randbytes(length), needed) for needed in (0, 1, 2))
    for trailing in range(size):
        stream = rng.randbytes(10 * size + trailing)
        yield from (lent(stream, needed) for needed in (0, 1, 9, 10, 11))
    edges = [span - 1, span, highest, 0, 1, highest, span, span - 1]
    yield from (lent(of(edges), needed) for needed in range(len(edges) + 1))
    outside = of([highest] * 40)
    yield from (lent(outside, needed) for needed in (0, 1, 20, 39, 40, 41))
    last_inside = of([span] * 20 + [span - 1] * 5)
    yield from (lent(last_inside, needed) for needed in (1, 5, 6, 24, 25, 26))
    for _ in range(30):   # a third out of range, and often too few remain
        held = rng.randint(1, 60)
        numbers = [rng.randint(span, highest) if rng.random() < 0.35 else rng.randrange(span)
                   for _ in range(held)]
        yield lent(of(numbers), rng.randint(held // 2, held))
    yield lent(of(rng.randint(0, highest) for _ in range(2000)), 600)
    yield lent(rng.randbytes(MOST * size), MOST)
    yield lent(rng.randbytes(MOST * size - 1), MOST)


def position_cases(rng):
    n = SET_I.n
    for length in range(POSITION_BYTES):
        yield from (lent_positions(rng.randbytes(length), needed, needed) for needed in (0, 1, 2))
    for trailing in range(POSITION_BYTES):
        stream = rng.randbytes(10 * POSITION_BYTES + trailing)
        yield from (lent_positions(stream, needed, needed) for needed in (0, 1, 9, 10, 11))
    for needed, signs in ((5, 6), (6, 5), (0, 1), (1, 0), (11, 10), (10, 11), (n + 1, n)):
        yield lent_positions(rng.randbytes(10 * POSITION_BYTES), needed, signs)
    for position in (0, 7, n - 1):   # the same position again and again
        stream = places(rng, [position] * 40)
        yield from (lent_positions(stream, needed, needed) for needed in (0, 1, 2, 39, 40, 41))
    turning = places(rng, [n - 2, n - 1, n - 1, 0, 0, n - 2, 1, n - 1])
    yield from (lent_positions(turning, needed, needed) for needed in range(9))
    for _ in range(30):   # few positions, so that many repeat, and often too few remain
        held = rng.randint(1, 60)
        start = rng.choice([0, 500, n - 10])
        stream = places(rng, [(start + rng.randrange(20)) % n for _ in range(held)])
        needed = rng.randint(held // 2, held)
        yield lent_positions(stream, needed, needed)
    whole = places(rng, [rng.randrange(n) for _ in range(n)])
    yield lent_positions(whole, n, n)
    yield lent_positions(whole, n - 1, n - 1)
    yield lent_positions(places(rng, [3] * n), n, n)
    more = rng.randbytes((n + 2) * POSITION_BYTES)
    yield from (lent_positions(more, needed, needed) for needed in (n, n + 1))


def lent_cases(rng):
    yield from value_cases(rng, lent_a, A_BYTES, SET_I.t_width, SET_I.q)
    yield from value_cases(rng, lent_y, Y_BYTES, SET_I.z_width, SET_I.y_range)
    yield from position_cases(rng)


# Drawn.

def drawn_cases(rng):
    for _ in range(8):
        seed = rng.randbytes(SEED_BYTES)
        values = [value for polynomial in drawn_a(SET_I, seed) for value in polynomial]
        yield case(b"d", seed, hashed(pack(values, 32)))
    for _ in range(4):
        rand = rng.randbytes(SEED_BYTES)
        for counter in COUNTERS:
            values = drawn_y(SET_I, rand, counter)
            yield case(b"s", number(counter) + rand, hashed(pack_signed(values, 32)))
    for _ in range(24):
        c = rng.randbytes(SEED_BYTES)
        yield case(b"e", c, places_bytes(enc(SET_I, c)))


# Hashed.

def hashed_cases(rng):
    for length in MESSAGE_LENGTHS:
        message = rng.randbytes(length)
        yield case(b"m", message, digest_of_message(SET_I, message))
    for _ in range(2):
        packed = packed_t(SET_I, [rng.randrange(SET_I.q) for _ in range(SET_I.k * SET_I.n)])
        yield case(b"g", packed, digest_of_key(SET_I, packed))
    for _ in range(6):
        seed_y, r = rng.randbytes(SEED_BYTES), rng.randbytes(SEED_BYTES)
        digest = rng.randbytes(DIGEST_BYTES)
        yield case(b"r", seed_y + r + digest, drawn_rand(SET_I, seed_y, r, digest))
    for furthest in (0, 1, 41, 127):
        yield challenge(rng, [rng.randint(-furthest, furthest) for _ in range(SET_I.k * SET_I.n)])
    for few in ([], [-128], [-1, 0, 1], [127] * 54, [-41] * 55):
        yield challenge(rng, few)


def challenge(rng, high_parts):
    digest, g = rng.randbytes(DIGEST_BYTES), rng.randbytes(DIGEST_BYTES)
    return case(b"c", digest + g + pack_signed(high_parts, 8),
                hash_of_high_parts(SET_I, high_parts, digest, g))


def sampling_cases():
    rng = random.Random("sampling_vectors")
    return [*lent_cases(rng), *drawn_cases(rng), *hashed_cases(rng)]
