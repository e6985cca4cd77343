"""SHAKE256, the streams, and the candidate rules over lent streams."""

import hashlib
import random
from dataclasses import replace
from itertools import product

from sets import SET_I
from streams import (digest_of_key, digest_of_message, drawn_a, drawn_rand, drawn_y, enc,
                     hash_of_high_parts, shake256, take_a, take_positions, take_y)

EMPTY_DIGEST = "46b9dd2b0ba88d13233b3feb743eeb243fcd52ea62b81b82b50c27646ed5762f"
NOTHING = (1, None)

# Half of the candidates for a and y do not serve.
SCANT = replace(SET_I, n=4, k=2, q=257, t_width=9, B=64, z_width=8)
# Every position is needed.
CROWDED = replace(SET_I, n=64, h=64, position_width=6)


def shake(expect):
    expect("empty message", shake256(b"", 32), (0, bytes.fromhex(EMPTY_DIGEST)))
    expect("no output", shake256(b"", 0), (0, b""))
    for length in (0, 135, 136, 137):
        expect(f"{length} bytes in: a longer output begins alike",
               shake256(bytes(length), 1000)[1][:40], shake256(bytes(length), 40)[1])


def spelled(mark, *inputs):
    """A long piece of a stream, spelled without streams.py."""
    return hashlib.shake_256(bytes.fromhex(mark) + b"".join(inputs)).digest(65536)


def marks_and_inputs(expect):
    """Each stream against its mark and inputs, spelled out here."""
    rng = random.Random(6)
    seed, r = rng.randbytes(32), rng.randbytes(32)
    digest, g = rng.randbytes(40), rng.randbytes(40)
    expect("53 11", sum(drawn_a(SET_I, seed), []),
           take_a(SET_I, spelled("5311", seed), 4096)[1])
    expect("53 12", drawn_y(SET_I, seed, 258),
           take_y(SET_I, spelled("5312", seed, b"\x02\x01")[:6144], 1024)[1])
    expect("53 13", drawn_rand(SET_I, seed, r, digest),
           spelled("5313", seed, r, digest)[:32])
    expect("53 14", digest_of_message(SET_I, b"team"), spelled("5314", b"team")[:40])
    expect("53 15", digest_of_key(SET_I, bytes(14848)), spelled("5315", bytes(14848))[:40])
    expect("53 16", hash_of_high_parts(SET_I, [0, 41, -41, -1], digest, g),
           spelled("5316", bytes([0, 41, 215, 255]), digest, g)[:32])
    expect("53 17", enc(SET_I, seed),
           take_positions(SET_I, spelled("5317", seed)[:768], 25, 25)[1])


def drawn_without_end(expect):
    """Drawing that never runs short: what does not serve is skipped, always."""
    for i in range(4):
        seed = bytes([i, 200 - i]) * 16
        cut = [int.from_bytes(data, "little") % 2**29
               for data in pieces(spelled("5311", seed), 4)]
        expect("a", sum(drawn_a(SET_I, seed), []), [v for v in cut if v < SET_I.q][:4096])
        cut = [int.from_bytes(data, "little") % 2**20
               for data in pieces(spelled("5312", seed, bytes([i, 1])), 3)]
        expect("y", drawn_y(SET_I, seed, 256 + i),
               [v - 524287 for v in cut if v < 1048575][:1024])
        places = {}
        for first, second, third in pieces(spelled("5317", seed), 3):
            if len(places) < 25:
                places.setdefault((first + 256 * second) % 1024, (-1) ** third)
        expect("Enc", enc(SET_I, seed), (list(places), list(places.values())))


def pieces(data, size):
    return [data[at:at + size] for at in range(0, len(data) - size + 1, size)]


def drawn_forms(expect):
    """How many are drawn, and from what ranges."""
    for i in range(3):
        seed = bytes([i]) * 32
        a, y = drawn_a(SET_I, seed), drawn_y(SET_I, seed, 1)
        positions, signs = enc(SET_I, seed)
        expect("a's form", [len(a_i) for a_i in a], [1024] * 4)
        expect("a's range", all(0 <= v < SET_I.q for a_i in a for v in a_i), True)
        expect("y's form", (len(y), max(map(abs, y)) <= SET_I.B), (1024, True))
        expect("positions", (len(positions), len(set(positions))), (25, 25))
        expect("signs", (len(signs), set(signs)), (25, {-1, 1}))


def a_bytes(*candidates):
    return b"".join(v.to_bytes(4, "little") for v in candidates)


def y_bytes(*candidates):
    return b"".join(v.to_bytes(3, "little") for v in candidates)


def position_bytes(*candidates):
    """Candidates as (position, sign)."""
    return b"".join(p.to_bytes(2, "little") + bytes([s < 0]) for p, s in candidates)


def lent_a(expect):
    q, top = SET_I.q, (1 << 29) - 1
    expect("in order", take_a(SET_I, a_bytes(5, 6, 7), 2), (0, [5, 6]))
    expect("skipped", take_a(SET_I, a_bytes(q, 6, 7), 2), (0, [6, 7]))
    expect("taken less q", take_a(SET_I, a_bytes(q, 6, 7), 3), (0, [0, 6, 7]))
    expect("skipped, then taken less q",
           take_a(SET_I, a_bytes(q, top, q + 3, 7), 3), (0, [top - q, 3, 7]))
    expect("last of range", take_a(SET_I, a_bytes(q - 1, 1), 1), (0, [q - 1]))
    expect("high bits not read", take_a(SET_I, a_bytes((7 << 29) + 5), 1), (0, [5]))
    expect("trailing bytes", take_a(SET_I, a_bytes(8) + b"\1\1\1", 1), (0, [8]))
    expect("trailing bytes are none", take_a(SET_I, a_bytes(8) + b"\1\1\1", 2), NOTHING)
    expect("too many", take_a(SET_I, a_bytes(8), 2), NOTHING)
    expect("none of none", take_a(SET_I, b"", 0), (0, []))
    expect("none of some", take_a(SET_I, a_bytes(8), 0), (0, []))
    expect("one of none", take_a(SET_I, b"", 1), NOTHING)


def lent_y(expect):
    B, top = SET_I.B, (1 << 20) - 1
    expect("less B", take_y(SET_I, y_bytes(0, B, 2 * B), 3), (0, [-B, 0, B]))
    expect("skipped", take_y(SET_I, y_bytes(top, 6), 1), (0, [6 - B]))
    expect("taken less range", take_y(SET_I, y_bytes(top, 6), 2), (0, [-B, 6 - B]))
    expect("high bits not read", take_y(SET_I, y_bytes((15 << 20) + 5), 1), (0, [5 - B]))
    expect("trailing bytes", take_y(SET_I, y_bytes(8) + b"\1\1", 1), (0, [8 - B]))
    expect("too many", take_y(SET_I, y_bytes(8) + b"\1\1", 2), NOTHING)
    expect("none of none", take_y(SET_I, b"", 0), (0, []))


def lent_positions(expect):
    def take(candidates, needed, tail=b""):
        return take_positions(SET_I, position_bytes(*candidates) + tail, needed, needed)

    expect("in order", take([(9, 1), (3, -1)], 2), (0, ([9, 3], [1, -1])))
    for older, repeated, fresh in product((1, -1), repeat=3):
        expect("skipped, with the fresh sign",
               take([(3, older), (3, repeated), (5, fresh)], 2),
               (0, ([3, 5], [older, fresh])))
    expect("next free", take([(3, 1), (3, -1), (5, 1)], 3), (0, ([3, 4, 5], [1, -1, 1])))
    expect("next free past others",
           take([(3, 1), (4, 1), (3, -1)], 3), (0, ([3, 4, 5], [1, 1, -1])))
    expect("from the end on to 0",
           take([(1023, 1), (1023, -1), (0, 1)], 3), (0, ([1023, 0, 1], [1, -1, 1])))
    every = [5] * 1024
    expect("all positions", take([(p, -1) for p in every], 1024),
           (0, (list(range(5, 1024)) + list(range(5)), [-1] * 1024)))
    expect("more than n", take([(p % 1024, 1) for p in range(1030)], 1025), NOTHING)
    expect("high bits not read",
           take_positions(SET_I, bytes([3, 0xFC, 0xFE]), 1, 1), (0, ([3], [1])))
    expect("trailing bytes", take([(3, 1)], 1, b"\7\0"), (0, ([3], [1])))
    expect("too many", take([(3, 1)], 2, b"\7\0"), NOTHING)
    expect("unlike outputs",
           take_positions(SET_I, position_bytes((3, 1), (4, 1)), 2, 1), NOTHING)
    expect("none of none", take([], 0), (0, ([], [])))


def short_streams(expect):
    """Every count over one stream with many candidates that do not serve."""
    rng = random.Random(7)
    tops = [rng.choice([SET_I.q + i, i]) for i in range(12)]
    for needed in range(13):
        number, values = take_a(SET_I, a_bytes(*tops), needed)
        expect(f"{needed} of 12 from a", (number, values),
               (0, values_by_hand(tops, SET_I.q, needed)))
    expect("13 of 12 from a", take_a(SET_I, a_bytes(*tops), 13), NOTHING)


def drawn_short(expect):
    """Sets so small that their own streams run short, so that counts show.

    The streams are cut here to 4kn, 2n and 256 candidates by hand.
    """
    for i in range(400):
        seed = bytes([i % 256, i // 256]) * 16
        cut = [int.from_bytes(data, "little") % 512
               for data in pieces(spelled("5311", seed)[:32 * 4], 4)]
        expect("a", sum(drawn_a(SCANT, seed), []), values_by_hand(cut, 257, 8))
        cut = [int.from_bytes(data, "little") % 256
               for data in pieces(spelled("5312", seed, b"\1\0")[:8 * 3], 3)]
        expect("y", drawn_y(SCANT, seed, 1),
               [v - 64 for v in values_by_hand(cut, 129, 4)])
    for i in range(40):
        seed = bytes([i]) * 32
        cut = [((first + 256 * second) % 64, (-1) ** third)
               for first, second, third in pieces(spelled("5317", seed)[:256 * 3], 3)]
        expect("Enc", enc(CROWDED, seed), places_by_hand(64, cut, 64))


def values_by_hand(candidates, span, needed):
    """The rule said the other way round: how many may be skipped at all."""
    spare, values = len(candidates) - needed, []
    for candidate in candidates:
        if len(values) == needed:
            break
        if candidate < span:
            values.append(candidate)
        elif spare > 0:
            spare -= 1
        else:
            values.append(candidate - span)
    return values


def places_by_hand(n, candidates, needed):
    """The same for positions."""
    spare, places = len(candidates) - needed, {}
    for position, sign in candidates:
        if len(places) == needed:
            break
        if position not in places:
            places[position] = sign
        elif spare > 0:
            spare -= 1
        else:
            upward = list(range(position + 1, n)) + list(range(position))
            places[next(p for p in upward if p not in places)] = sign
    return list(places), list(places.values())


GROUPS = [("SHAKE256", shake), ("marks and inputs of the streams", marks_and_inputs),
          ("drawing without end", drawn_without_end),
          ("forms of what is drawn", drawn_forms), ("lent stream for a", lent_a),
          ("lent stream for y", lent_y), ("lent stream for positions", lent_positions),
          ("lent streams that run short", short_streams),
          ("drawn streams that run short", drawn_short)]
