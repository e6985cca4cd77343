"""Public, secret and signature records: lengths, round trips, refusals."""

import random

from checks.damage import (Fault, by, expect_faults, other_marks, with_byte, with_field,
                           wrong_lengths, wrong_output_lengths)
from records import (ENVELOPE, PUBLIC, SECRET, SIGNATURE, pack, pack_signed, read_public,
                     read_secret, read_signature, signed_bytes, unpack, unpack_signed,
                     write_public, write_secret, write_signature)
from sets import SET_I

ROUNDS = 5


def nothing(number):
    return number, None


def lengths(expect):
    expect("public", SET_I.public_length, 14882)
    expect("secret", SET_I.secret_length, 5226)
    expect("signature", SET_I.signature_length, 2594)
    expect("stretch of t", SET_I.t_bytes, 3712)
    marks = [SET_I.record_mark(kind).hex() for kind in (PUBLIC, SECRET, SIGNATURE, ENVELOPE)]
    expect("marks", marks, ["5111", "5112", "5113", "5115"])


def random_public(rng):
    return dict(t=[rng.randrange(SET_I.q) for _ in range(4096)],
                seed_a=rng.randbytes(32), record_len=14882)


def random_secret(rng):
    def coefficients(count):
        return bytes(rng.randint(-127, 127) % 256 for _ in range(count))
    return dict(s=coefficients(1024), e=coefficients(4096), seed_a=rng.randbytes(32),
                seed_y=rng.randbytes(32), g=rng.randbytes(40), record_len=5226)


def random_signature(rng):
    return dict(z=[rng.randint(-523733, 523733) for _ in range(1024)],
                c=rng.randbytes(32), record_len=2594)


def write(entry):
    return lambda inputs: entry(SET_I, **inputs)


def round_trips(expect):
    rng = random.Random(8)
    for _ in range(ROUNDS):
        public = random_public(rng)
        number, record = write_public(SET_I, **public)
        expect("public written", (number, len(record), record[:2].hex()), (0, 14882, "5111"))
        expect("public read", read_public(SET_I, record, 4096, 32),
               (0, (public["t"], public["seed_a"])))
        secret = random_secret(rng)
        number, record = write_secret(SET_I, **secret)
        expect("secret written", (number, len(record), record[:2].hex()), (0, 5226, "5112"))
        expect("secret read", read_secret(SET_I, record, 1024, 4096, 32, 32, 40),
               (0, tuple(list(secret.values())[:5])))
        signature = random_signature(rng)
        number, record = write_signature(SET_I, **signature)
        expect("signature written", (number, len(record), record[:2].hex()),
               (0, 2594, "5113"))
        expect("signature read", read_signature(SET_I, record, 1024, 32),
               (0, (signature["z"], signature["c"])))


def packing(expect):
    """Values at odd widths, from end to end of their range."""
    for width in (1, 5, 8, 11, 20, 29):
        top = (1 << width) - 1
        values = [0, top, 1 % (top + 1), top // 2, top, 0, 0]
        data = pack(values, width)
        expect(f"bytes at {width}", len(data), -(-7 * width // 8))
        expect(f"values at {width}", unpack(data, width, 7), values)
        half = 1 << (width - 1)
        values = [-half, half - 1, 0, -1, -half]
        expect(f"signed values at {width}",
               unpack_signed(pack_signed(values, width), width, 5), values)
    expect("signed bytes", signed_bytes(b"\x00\x01\x7f\x80\x81\xff"),
           [0, 1, 127, -128, -127, -1])


def layout(expect):
    """Where each value stands, found by hand."""
    t = [0] * 4096
    t[0], t[1024], t[4095] = 1, 2, SET_I.q - 1
    record = write_public(SET_I, t, bytes(range(32)), 14882)[1]
    expect("t_1 first", record[2:6].hex(), "01000000")
    expect("t_2 in its own stretch", record[2 + 3712:6 + 3712].hex(), "02000000")
    expect("t_4 last", int.from_bytes(record[:14850], "little") >> (14850 * 8 - 29),
           SET_I.q - 1)
    expect("seed_a at the end", record[14850:], bytes(range(32)))
    record = write_secret(SET_I, b"\1" * 1024, b"\xff" * 4096, b"a" * 32, b"y" * 32,
                          b"g" * 40, 5226)[1]
    expect("secret spelled", record, b"\x51\x12" + b"\1" * 1024 + b"\xff" * 4096
           + b"a" * 32 + b"y" * 32 + b"g" * 40)
    record = write_signature(SET_I, [-1, 0] * 512, b"c" * 32, 2594)[1]
    expect("signature spelled", record,
           b"\x51\x13" + bytes.fromhex("ffff0f0000") * 512 + b"c" * 32)


def edges(expect):
    """The last value that is in, and the first that is out."""
    for value, number in [(0, 0), (SET_I.q - 1, 0), (SET_I.q, 5), (2**32 - 1, 5)]:
        for at in (0, 1500, 4095):
            t = [0] * 4096
            t[at] = value
            expect(f"t {value} at {at}", write_public(SET_I, t, bytes(32), 14882)[0], number)
    for byte, number in [(0x7F, 0), (0x80, 5), (0x81, 0)]:
        for at in (0, 1023, 1024, 5119):
            row = with_byte(bytes(5120), at, byte)
            expect(f"secret byte {byte} at {at}",
                   write_secret(SET_I, row[:1024], row[1024:], bytes(32), bytes(32),
                                bytes(40), 5226)[0], number)
    for value, number in [(523733, 0), (523734, 9), (524288, 9), (2**31 - 1, 9),
                          (-523733, 0), (-523734, 9), (-524288, 9), (-2**31, 9)]:
        for at in (0, 1023):
            z = [0] * 1024
            z[at] = value
            expect(f"z {value} at {at}", write_signature(SET_I, z, bytes(32), 2594)[0],
                   number)


def read_edges(expect):
    record = write_public(SET_I, [0] * 4096, bytes(32), 14882)[1]
    for value, number in [(SET_I.q - 1, 0), (SET_I.q, 5), (2**29 - 1, 5)]:
        for at in (0, 4095):
            damaged = with_field(record, 2, 29, at, value)
            expect(f"t {value} at {at} read", read_public(SET_I, damaged, 4096, 32)[0],
                   number)
    record = write_signature(SET_I, [0] * 1024, bytes(32), 2594)[1]
    for value, number in [(523733, 0), (523734, 9), (524287, 9),
                          (-523733, 0), (-523734, 9), (-524288, 9)]:
        for at in (0, 1023):
            damaged = with_field(record, 2, 20, at, value)
            expect(f"z {value} at {at} read", read_signature(SET_I, damaged, 1024, 32)[0],
                   number)


def put_in_list(name, at, value):
    def put(row):
        row = list(row)
        if row:
            row[at] = value
        return row
    return by(name, put)


# Inputs of each entry, and faults of them in the order of its tests.

def write_public_faults():
    faults = ([Fault("t short", 1, by("t", lambda t: t[:-1])),
               Fault("t long", 1, by("t", lambda t: t + [0, 0]))]
              + wrong_lengths("seed_a") + wrong_output_lengths("record_len")
              + [Fault("t = q", 5, put_in_list("t", 0, SET_I.q)),
                 Fault("last t", 5, put_in_list("t", -1, 2**32 - 1))])
    return random_public(random.Random(9)), faults


def read_public_faults():
    record = write_public(SET_I, **random_public(random.Random(9)))[1]
    faults = (wrong_lengths("record") + wrong_output_lengths("t_len")
              + wrong_output_lengths("seed_a_len") + other_marks("record", b"\x51\x11")
              + [Fault("t = q", 5, by("record", lambda r: with_field(r, 2, 29, 0, SET_I.q))),
                 Fault("last t", 5,
                       by("record", lambda r: with_field(r, 2, 29, 4095, 2**29 - 1)))])
    return dict(record=record, t_len=4096, seed_a_len=32), faults


def write_secret_faults():
    faults = []
    for name in ("s", "e", "seed_a", "seed_y", "g"):
        faults += wrong_lengths(name)
    faults += wrong_output_lengths("record_len")
    faults += [Fault("s byte", 5, by("s", lambda s: with_byte(s, 0, 0x80))),
               Fault("e byte", 5, by("e", lambda e: with_byte(e, -1, 0x80)))]
    return random_secret(random.Random(10)), faults


def read_secret_faults():
    record = write_secret(SET_I, **random_secret(random.Random(10)))[1]
    faults = wrong_lengths("record")
    for name in ("s_len", "e_len", "seed_a_len", "seed_y_len", "g_len"):
        faults += wrong_output_lengths(name)
    faults += other_marks("record", b"\x51\x12")
    faults += [Fault("s byte", 5, by("record", lambda r: with_byte(r, 2, 0x80))),
               Fault("e byte", 5, by("record", lambda r: with_byte(r, 5121, 0x80)))]
    return dict(record=record, s_len=1024, e_len=4096, seed_a_len=32, seed_y_len=32,
                g_len=40), faults


def write_signature_faults():
    faults = ([Fault("z short", 1, by("z", lambda z: z[:-1])),
               Fault("z long", 1, by("z", lambda z: z + [0, 0]))]
              + wrong_lengths("c") + wrong_output_lengths("record_len")
              + [Fault("first z", 9, put_in_list("z", 0, 523734)),
                 Fault("last z", 9, put_in_list("z", -1, -523734))])
    return random_signature(random.Random(11)), faults


def read_signature_faults():
    record = write_signature(SET_I, **random_signature(random.Random(11)))[1]
    faults = (wrong_lengths("record") + wrong_output_lengths("z_len")
              + wrong_output_lengths("c_len") + other_marks("record", b"\x51\x13")
              + [Fault("first z", 9, by("record", lambda r: with_field(r, 2, 20, 0, 523734))),
                 Fault("last z", 9,
                       by("record", lambda r: with_field(r, 2, 20, 1023, -524288)))])
    return dict(record=record, z_len=1024, c_len=32), faults


def public_refusals(expect):
    expect_faults(expect, "write public", *write_public_faults(), write(write_public), nothing)
    expect_faults(expect, "read public", *read_public_faults(), write(read_public), nothing)


def secret_refusals(expect):
    expect_faults(expect, "write secret", *write_secret_faults(), write(write_secret), nothing)
    expect_faults(expect, "read secret", *read_secret_faults(), write(read_secret), nothing)


def signature_refusals(expect):
    expect_faults(expect, "write signature", *write_signature_faults(),
                  write(write_signature), nothing)
    expect_faults(expect, "read signature", *read_signature_faults(),
                  write(read_signature), nothing)


GROUPS = [("lengths and marks of records", lengths), ("round trips of records", round_trips),
          ("packing", packing), ("layout of records", layout),
          ("edges of values, written", edges), ("edges of values, read", read_edges),
          ("refusals of public", public_refusals), ("refusals of secret", secret_refusals),
          ("refusals of signature", signature_refusals)]
