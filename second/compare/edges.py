"""Inputs of each entry at its limits, by the entry's name: what is just in and what is just out."""

from itertools import product

from checks.candidates import a_bytes, position_bytes, y_bytes
from checks.damage import with_bit_flipped, with_byte, with_field
from checks.envelopes import OLD_MARK
from checks.keys_and_signatures import FULL, HEAVY
from checks.samples import (enveloped, make_sample_key, sample, sign_whole, sign_whole_roster,
                            signed_envelope)
from compare import valid
from compare.valid import TOP_Y, written
from sets import BUDGET_LIMIT, MESSAGE_LIMIT, ROSTER_LIMIT, SET_I
from streams import POSITION_CANDIDATES

BLOCK = 136   # of SHAKE256
TOP_A = (1 << SET_I.t_width) - 1
EMPTY = bytes(1024)
BOTH_ENDS = b"\x81\x7f" + bytes(1022)   # -127 and 127
T_ENDS = (0, 1023, 1024, 4095)          # the ends of t_1, the start of t_2, the end of t_4


def make_key(rng):
    base = valid.make_key(rng)
    for s, e in [(FULL, FULL * 4), (FULL[::-1], FULL[::-1] * 4), (BOTH_ENDS, BOTH_ENDS * 4),
                 (EMPTY, EMPTY * 4), (HEAVY[::-1], FULL * 4), (FULL, HEAVY + FULL * 3),
                 (FULL, FULL * 3 + HEAVY[::-1]), (HEAVY, HEAVY * 4)]:
        yield dict(base, s=s, e=e)
    for at in (0, 1023, 1024, 5119):
        row = with_byte(base["s"] + base["e"], at, 0x80)
        yield dict(base, s=row[:1024], e=row[1024:])


def secret_of(s, e):
    return make_sample_key(SET_I, s, e, bytes(32), bytes(32))[1][1]


def sign(rng):
    made, base = sample(), dict(valid.sign(rng), budget=BUDGET_LIMIT)
    for length in (0, 1, BLOCK - 1, BLOCK, MESSAGE_LIMIT, MESSAGE_LIMIT + 1):
        yield dict(base, message=rng.randbytes(length))
    own = dict(base, secret=made.secret, message=made.message, r=made.r)
    yield from signed_otherwise(own, made.counter)


def signed_otherwise(own, counter):
    """With other budgets than the counter that passes, other outputs and other secrets."""
    for budget in (0, 1, counter - 1, counter, BUDGET_LIMIT, BUDGET_LIMIT + 1, 2**32 - 1):
        yield dict(own, budget=budget)
    for more in (-1, 1):
        yield dict(own, signature_len=SET_I.signature_length + more)
    yield dict(own, secret=with_bit_flipped(own["secret"], 5225))   # another g
    for s in (FULL, EMPTY, BOTH_ENDS):
        yield dict(own, secret=secret_of(s, s * 4))


def sign_roster(rng):
    made, base = sample(), dict(valid.sign_roster(rng), budget=BUDGET_LIMIT)
    for team, length in [(0, 0), (1, 1), (255, BLOCK - 5), (256, BLOCK - 4), (1207, BLOCK - 3),
                         (65535, ROSTER_LIMIT), (7, ROSTER_LIMIT + 1), (7, ROSTER_LIMIT + 2)]:
        yield dict(base, team=team, roster=rng.randbytes(length))
    own = dict(base, secret=made.secret, team=made.team, roster=made.message, r=made.r)
    counter = sign_whole_roster(SET_I, made.secret, made.team, made.message, made.r)[1]
    yield from signed_otherwise(own, counter)


def check(rng):
    made = sample()
    for length in (0, 1, BLOCK, MESSAGE_LIMIT):
        message = rng.randbytes(length)
        signature = sign_whole(SET_I, made.secret, message, made.r)[2]
        base = dict(public=made.public, message=message, signature=signature)
        yield base
        yield dict(base, message=message + b"\0")
    yield dict(base, public=sample(seed=1).public)
    for value, at in product((SET_I.z_bound, -SET_I.z_bound, SET_I.z_bound + 1), (0, 1023)):
        yield dict(base, signature=with_field(base["signature"], 2, 20, at, value))
    for value, at in product((0, SET_I.q - 1, SET_I.q), T_ENDS):
        yield dict(base, public=with_field(base["public"], 2, 29, at, value))


def write_public(rng):
    for value, at in product((0, SET_I.q - 1, SET_I.q, TOP_A, TOP_A + 1, 2**32 - 1), T_ENDS):
        base = valid.write_public(rng)
        base["t"][at] = value
        yield base


def read_public(rng):
    base = valid.read_public(rng)
    for value, at in product((0, SET_I.q - 1, SET_I.q, TOP_A), T_ENDS):
        yield dict(base, record=with_field(base["record"], 2, 29, at, value))


def write_secret(rng):
    base = valid.write_secret(rng)
    for byte, at in product((0x7F, 0x80, 0x81), (0, 1023, 1024, 5119)):
        row = with_byte(base["s"] + base["e"], at, byte)
        yield dict(base, s=row[:1024], e=row[1024:])


def read_secret(rng):
    base = valid.read_secret(rng)
    for byte, at in product((0x7F, 0x80, 0x81), (2, 1025, 1026, 5121, 5122, 5225)):
        yield dict(base, record=with_byte(base["record"], at, byte))


def write_signature(rng):
    sizes = (0, SET_I.z_bound, SET_I.z_bound + 1, 1 << 19, 2**31 - 1)
    values = [sign * size for size in sizes for sign in (1, -1)] + [-2**31]
    for value, at in product(values, (0, 1023)):
        base = valid.write_signature(rng)
        base["z"][at] = value
        yield base


def read_signature(rng):
    base = valid.read_signature(rng)
    values = (0, -1, SET_I.z_bound, -SET_I.z_bound, SET_I.z_bound + 1, -SET_I.z_bound - 1,
              (1 << 19) - 1, -(1 << 19))
    for value, at in product(values, (0, 1, 1023)):
        yield dict(base, record=with_field(base["record"], 2, 20, at, value))


def write_envelope(rng):
    signature = valid.read_signature(rng)["record"]
    for team, length in [(0, 0), (1, 1), (255, 255), (256, 256), (65535, ROSTER_LIMIT),
                         (7, ROSTER_LIMIT + 1), (7, ROSTER_LIMIT + 2), (7, 65535), (7, 65536)]:
        base = written(team, rng.randbytes(length), signature)
        yield base
        for more in (-1, 1, -65536):
            yield dict(base, envelope_len=max(0, base["envelope_len"] + more))


def and_others(envelope):
    """An envelope, and others that differ from it by a byte: too few, too many, or another."""
    yield from (envelope, envelope[:-1], envelope + b"\0", OLD_MARK + envelope[2:])
    for at in (2, 3):   # the team number
        yield with_bit_flipped(envelope, at)


def read_envelope(rng):
    signature = valid.read_signature(rng)["record"]
    for team, length in [(0, 0), (1, 1), (255, 255), (256, 256), (65535, ROSTER_LIMIT)]:
        for envelope in and_others(enveloped(SET_I, team, rng.randbytes(length), signature)):
            yield dict(envelope=envelope)
    for length in (ROSTER_LIMIT + 1, ROSTER_LIMIT + 2, 65535):
        over = (b"\x51\x15\x07\x00" + length.to_bytes(2, "little") + rng.randbytes(length)
                + signature)
        yield dict(envelope=over)
    for length in range(8):
        yield dict(envelope=over[:length])


def open_envelope(rng):
    made, team = sample(), 1207
    for length in (0, 1, BLOCK - 4, ROSTER_LIMIT):
        roster = rng.randbytes(length)
        for envelope in and_others(signed_envelope(SET_I, made.secret, team, roster, made.r)):
            yield dict(public=made.public, envelope=envelope)
        for message in (roster, team.to_bytes(2, "big") + roster):   # signed in its place
            signature = sign_whole(SET_I, made.secret, message, made.r)[2]
            envelope = enveloped(SET_I, team, roster, signature)
            yield dict(public=made.public, envelope=envelope)
            yield dict(public=made.public, envelope=OLD_MARK + envelope[2:])
    for inputs in read_envelope(rng):
        for public in (made.public, b""):
            yield dict(inputs, public=public)


def take_a(rng):
    some = a_bytes(*(rng.choice([SET_I.q + i, i, TOP_A]) for i in range(12)))
    none = a_bytes(*[TOP_A] * 12) + b"\1\1\1"
    for needed in range(14):
        yield dict(lent=some, out_len=needed)
        yield dict(lent=none, out_len=needed)
    for candidate in (SET_I.q - 1, SET_I.q, (7 << 29) + 5):
        yield dict(lent=a_bytes(candidate, 1), out_len=1)
    yield dict(lent=b"", out_len=0)
    yield dict(lent=b"", out_len=1)
    yield dict(lent=rng.randbytes(16 * 4096), out_len=4096)


def take_y(rng):
    some = y_bytes(*(rng.choice([TOP_Y, 0, 2 * SET_I.B]) for _ in range(12)))
    none = y_bytes(*[TOP_Y] * 12) + b"\1\1"
    for needed in range(14):
        yield dict(lent=some, out_len=needed)
        yield dict(lent=none, out_len=needed)
    for candidate in (0, SET_I.B, 2 * SET_I.B, TOP_Y, (15 << 20) + 5):
        yield dict(lent=y_bytes(candidate, 1), out_len=1)
    yield dict(lent=b"", out_len=0)
    yield dict(lent=b"", out_len=1)
    yield dict(lent=rng.randbytes(6 * 1024), out_len=1024)


def take_positions(rng):
    def take(candidates, positions, signs):
        return dict(lent=position_bytes(*candidates), positions_len=positions, signs_len=signs)
    few = [(rng.choice([3, 4, 1022, 1023]), rng.choice([-1, 1])) for _ in range(12)]
    for needed in range(14):
        yield take(few, needed, needed)
    for position in (0, 5, 1023):
        yield take([(position, rng.choice([-1, 1])) for _ in range(1024)], 1024, 1024)
    for needed in (1023, 1024, 1025):
        yield take([(p % 1024, 1) for p in range(1030)], needed, needed)
    for positions, signs in ((2, 1), (1, 2), (0, 1), (1, 0), (2, 3)):
        yield take(few, positions, signs)
    yield dict(lent=bytes([3, 0xFC, 0xFE]), positions_len=1, signs_len=1)
    yield dict(lent=b"", positions_len=0, signs_len=0)
    yield dict(lent=rng.randbytes(3 * POSITION_CANDIDATES), positions_len=25, signs_len=25)


def shake256(rng):
    lengths = (0, 1, BLOCK - 1, BLOCK, BLOCK + 1, 2 * BLOCK)
    for length, out_len in product(lengths, lengths):
        yield dict(message=rng.randbytes(length), out_len=out_len)
    yield dict(message=rng.randbytes(40000), out_len=5000)
