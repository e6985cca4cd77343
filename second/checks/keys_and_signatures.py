"""Key making, signing and checking at set I."""

import random

from checks.damage import (Fault, by, expect_faults, other_marks, set_to, with_bit_flipped,
                           with_byte, with_field, wrong_lengths, wrong_output_lengths)
from checks.samples import make_sample_key, sample, secrets, sign_whole
from records import read_public, read_secret, read_signature, signed_bytes
from scheme import check, make_key, sign
from sets import SET_I
from streams import digest_of_key, drawn_a
from sums import plain_product

SEEDS = range(4)

# Secrets that are just too large: their sums are 555, and the largest stand last.
HEAVY = bytes(999) + b"\x16" * 24 + b"\x1b"
# The same with 554, which passes.
FULL = bytes(999) + b"\x16" * 24 + b"\x1a"


def whole(expect):
    """Keys and signatures over a few seeds."""
    for seed in SEEDS:
        made = sample(seed=seed)
        expect("signed", (made.number, 1 <= made.counter <= 1024), (0, True))
        expect("checked", check(SET_I, made.public, made.message, made.signature), 0)
        again = sign(SET_I, made.secret, made.message, made.r, made.counter, 2594)
        expect("same with the least budget", again, (0, made.counter, made.signature))
        z = read_signature(SET_I, made.signature, 1024, 32)[1][0]
        expect("z has both signs", min(z) < 0 < max(z), True)


def smallest_counter(expect):
    """Counters: some r passes at once and some r does not."""
    made, seen = sample(), {}
    for i in range(40):
        r = bytes([i]) * 32
        number, counter, signature = sign_whole(SET_I, made.secret, b"counter", r)
        expect("signed", number, 0)
        seen.setdefault(counter > 1, (r, counter, signature))
        if len(seen) == 2:
            break
    r, counter, signature = seen[False]
    expect("budget 1", sign_whole(SET_I, made.secret, b"counter", r, 1), (0, 1, signature))
    r, counter, signature = seen[True]
    for budget in {1, counter - 1}:
        expect(f"budget {budget} below {counter}",
               sign_whole(SET_I, made.secret, b"counter", r, budget), (8, 0, None))
    expect("budget of the counter",
           sign_whole(SET_I, made.secret, b"counter", r, counter), (0, counter, signature))


def budgets(expect):
    made = sample()
    for budget in (0, 1025, 2**32 - 1):
        expect(f"budget {budget}",
               sign_whole(SET_I, made.secret, made.message, made.r, budget), (4, 0, None))
    expect("budget 1024", sign_whole(SET_I, made.secret, made.message, made.r, 1024),
           (0, made.counter, made.signature))
    number, counter, _ = sign_whole(SET_I, made.secret, made.message, made.r, 1)
    expect("budget 1", (number, counter), (0, 1) if made.counter == 1 else (8, 0))


def messages(expect):
    made, data = sample(), random.Random(12).randbytes(32769)
    for length in (0, 1, 32768):
        number, _, signature = sign_whole(SET_I, made.secret, data[:length], made.r)
        expect(f"{length} bytes signed", number, 0)
        expect(f"{length} bytes checked",
               check(SET_I, made.public, data[:length], signature), 0)
        expect(f"{length} bytes and one more",
               check(SET_I, made.public, data[:length] + b"\0", signature),
               3 if length == 32768 else 11)
    expect("32769 bytes signed", sign_whole(SET_I, made.secret, data, made.r), (3, 0, None))
    expect("32769 bytes checked", check(SET_I, made.public, data, made.signature), 3)


def key_by_definition(expect):
    """One t_i by the plain product, and what else the records hold."""
    made = sample()
    t, seed_a = read_public(SET_I, made.public, 4096, 32)[1]
    parts = read_secret(SET_I, made.secret, 1024, 4096, 32, 32, 40)[1]
    g = digest_of_key(SET_I, made.public[2:14850])
    expect("public seed", seed_a, made.seed_a)
    expect("secret parts", parts, (made.s, made.e, made.seed_a, made.seed_y, g))
    a_4, e_4 = drawn_a(SET_I, seed_a)[3], signed_bytes(made.e)[3072:]
    products = plain_product(a_4, signed_bytes(made.s))
    expect("t_4", t[3072:], [(v + u) % SET_I.q for v, u in zip(products, e_4)])


def secrets_at_the_edge(expect):
    """Secrets whose sums are exactly S and E make a key; with -127 too, if they pass."""
    seed = bytes(32)
    number, (public, secret) = make_sample_key(SET_I, FULL, FULL * 4, seed, seed)
    expect("554 everywhere", number, 0)
    number, _, signature = sign_whole(SET_I, secret, b"", seed)
    expect("signed", number, 0)
    expect("checked", check(SET_I, public, b"", signature), 0)
    few = b"\x81\x7f" + bytes(1022)
    expect("-127 and 127", make_sample_key(SET_I, few, few * 4, seed, seed)[0], 0)
    none = bytes(1024)
    expect("zeros", make_sample_key(SET_I, none, none * 4, seed, seed)[0], 0)


def another_g(expect):
    """Signing does not compare g. Its signature is then refused."""
    made = sample()
    other = with_bit_flipped(made.secret, 5225)
    number, counter, signature = sign_whole(SET_I, other, made.message, made.r)
    expect("signed", (number, counter >= 1), (0, True))
    expect("checked", check(SET_I, made.public, made.message, signature), 11)
    expect("read", read_signature(SET_I, signature, 1024, 32)[0], 0)


def put_stretch(name, at, stretch):
    return by(name, lambda data: data[:at] + stretch + data[at + len(stretch):])


def byte_at(name, at, value):
    return by(name, lambda data: with_byte(data, at, value) if data else data)


def key_faults():
    """Inputs of key making, and faults of them in the order of its tests."""
    s, e = secrets(SET_I, random.Random(13))
    inputs = dict(s=s, e=e, seed_a=bytes(32), seed_y=bytes(32), public_len=14882,
                  secret_len=5226)
    faults = []
    for name in ("s", "e", "seed_a", "seed_y"):
        faults += wrong_lengths(name)
    faults += wrong_output_lengths("public_len") + wrong_output_lengths("secret_len")
    faults += [Fault("s byte", 5, byte_at("s", 0, 0x80)),
               Fault("e_1 byte", 5, byte_at("e", 0, 0x80)),
               Fault("e_4 byte", 5, byte_at("e", 3072, 0x80)),
               Fault("heavy s", 6, set_to("s", HEAVY)),
               Fault("heavy e_1", 7, put_stretch("e", 0, HEAVY)),
               Fault("heavy e_4", 7, put_stretch("e", 3072, HEAVY))]
    return inputs, faults


def key_refusals(expect):
    inputs, faults = key_faults()
    expect_faults(expect, "make key", inputs, faults,
                  lambda inputs: make_key(SET_I, **inputs), lambda number: (number, None))


def signing_faults(name, *lengths):
    """Faults of signing, in the order of its tests. What has this name is too long."""
    return (
        wrong_lengths("secret") + wrong_lengths("r") + wrong_output_lengths("signature_len")
        + other_marks("secret", b"\x51\x12")
        + [Fault(f"{name} of {length}", 3, set_to(name, bytes(length))) for length in lengths]
        + [Fault("budget 0", 4, set_to("budget", 0)),
           Fault("budget 1025", 4, set_to("budget", 1025)),
           Fault("s byte", 5, byte_at("secret", 2, 0x80)),
           Fault("e_4 byte", 5, byte_at("secret", 1026 + 3072, 0x80)),
           Fault("heavy s", 6, put_stretch("secret", 2, HEAVY)),
           Fault("heavy e_1", 7, put_stretch("secret", 1026, HEAVY)),
           Fault("heavy e_4", 7, put_stretch("secret", 1026 + 3072, HEAVY))])


def sign_faults():
    """Inputs of signing, and those faults."""
    made = sample()
    inputs = dict(secret=made.secret, message=b"", r=made.r, budget=1024, signature_len=2594)
    return inputs, signing_faults("message", 32769)


def sign_refusals(expect):
    inputs, faults = sign_faults()
    expect_faults(expect, "sign", inputs, faults, lambda inputs: sign(SET_I, **inputs),
                  lambda number: (number, 0, None))


def refusals_before_8(expect):
    """With a budget that does not suffice, the earlier numbers still come first."""
    made = next(sample(seed=seed) for seed in range(20) if sample(seed=seed).counter > 1)
    inputs = dict(secret=made.secret, message=made.message, r=made.r,
                  budget=made.counter - 1, signature_len=2594)
    expect("8 alone", sign(SET_I, **inputs), (8, 0, None))
    for number, secret in [(1, made.secret[:-1]),
                           (2, b"\x51\x13" + made.secret[2:]),
                           (5, with_byte(made.secret, 1025, 0x80)),
                           (6, made.secret[:2] + HEAVY + made.secret[1026:]),
                           (7, made.secret[:2050] + HEAVY + made.secret[3074:])]:
        expect(f"{number} before 8", sign(SET_I, **dict(inputs, secret=secret)),
               (number, 0, None))


def check_faults():
    """The same of checking."""
    made = sample()
    inputs = dict(public=made.public, message=made.message, signature=made.signature)

    def field(name, width, at, value):
        return by(name, lambda data: with_field(data, 2, width, at, value))

    def flip(name, at):
        return by(name, lambda data: with_bit_flipped(data, at))
    faults = (
        wrong_lengths("public") + wrong_lengths("signature")
        + other_marks("public", b"\x51\x11") + other_marks("signature", b"\x51\x13")
        + [Fault("long message", 3, set_to("message", bytes(32769))),
           Fault("t = q", 5, field("public", 29, 0, SET_I.q)),
           Fault("last t", 5, field("public", 29, 4095, 2**29 - 1)),
           Fault("first z", 9, field("signature", 20, 0, 523734)),
           Fault("last z", 9, field("signature", 20, 1023, -524288)),
           Fault("c'", 11, flip("signature", 2593)),
           Fault("z", 11, flip("signature", 4)),
           Fault("message", 11, by("message", lambda message: message + b"\0")),
           Fault("seed_a", 11, flip("public", 14881)),
           Fault("t", 11, flip("public", 6))])
    return inputs, faults


def check_refusals(expect):
    inputs, faults = check_faults()
    expect_faults(expect, "check", inputs, faults,
                  lambda inputs: check(SET_I, **inputs), lambda number: number)
    made, other = sample(), sample(seed=1)
    expect("another key", check(SET_I, other.public, made.message, made.signature), 11)
    expect("another signature", check(SET_I, made.public, made.message, other.signature), 11)


GROUPS = [("keys and signatures", whole), ("smallest counter", smallest_counter),
          ("budgets", budgets), ("message lengths", messages),
          ("a key by the definition", key_by_definition),
          ("secrets at the edge", secrets_at_the_edge), ("another g", another_g),
          ("refusals of key making", key_refusals), ("refusals of signing", sign_refusals),
          ("refusals before 8", refusals_before_8), ("refusals of checking", check_refusals)]
