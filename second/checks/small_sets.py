"""The same code at other numbers: what set I cannot show, or not quickly."""

import random
from dataclasses import replace

from checks.damage import with_bit_flipped
from checks.samples import (SMALL, make_sample_key, polynomial, sample, secrets, sign_whole,
                            sign_whole_roster)
from envelope import open_envelope
from program import line
from records import write_signature
from scheme import check
from sums import check_e, check_s

# y is so small that z hardly ever passes.
TIGHT = replace(SMALL, B=127, z_width=8)
# y is small enough that z passes about every third time.
MIDDLING = replace(SMALL, B=1023, z_width=11)
# Nearly every attempt has a high part above 127.
TALL = replace(SMALL, d=20)
# A high part of 128 is rare, -128 is as rare and fits, and z hardly ever passes.
SELDOM = replace(TIGHT, q=2**29 - 3, d=21)


def whole(expect):
    for numbers in (SMALL, MIDDLING):
        for seed in range(10):
            made = sample(numbers, seed)
            expect("signed", made.number, 0)
            expect("checked", check(numbers, made.public, made.message, made.signature), 0)
            expect("opened", open_envelope(numbers, made.public, made.envelope),
                   (0, made.team, 6, len(made.message)))
            expect("line", line(numbers, made.public + made.envelope),
                   f"ROSTER team={made.team} bytes={len(made.message)} ok\n")
            expect("other message", check(numbers, made.public, b"", made.signature), 11)
            joined = made.envelope[2:4] + made.message
            signed = sign_whole_roster(numbers, made.secret, made.team, made.message, made.r)
            expect("roster signed", signed, sign_whole(numbers, made.secret, joined, made.r))
            for at in (2, 3):
                expect("other team", open_envelope(numbers, made.public,
                                                   with_bit_flipped(made.envelope, at)),
                       (11, 0, 0, 0))


def every_budget(expect):
    """Below the counter 8, from the counter on the same signature."""
    for seed in range(10):
        made = sample(MIDDLING, seed)
        for budget in range(1, made.counter + 3):
            wanted = ((8, 0, None) if budget < made.counter
                      else (0, made.counter, made.signature))
            expect(f"budget {budget}", sign_whole(MIDDLING, made.secret, made.message,
                                                  made.r, budget), wanted)


def secret_of(numbers, seed):
    rng = random.Random(seed)
    s, e = secrets(numbers, rng)
    return make_sample_key(numbers, s, e, rng.randbytes(32), rng.randbytes(32))[1]


def none_passes(expect):
    """All 1,024 counters fail."""
    secret = secret_of(TIGHT, 1)[1]
    expect("budget 1024", sign_whole(TIGHT, secret, b"none", bytes(32)), (8, 0, None))


def high_part_in_signing(expect):
    secret = secret_of(TALL, 2)[1]
    expect("10", sign_whole(TALL, secret, b"tall", bytes(32)), (10, 0, None))
    expect("4 before 10", sign_whole(TALL, secret, b"tall", bytes(32), 0), (4, 0, None))


def high_part_later(expect):
    """Some counter meets 10: with a budget below it 8, from it on 10."""
    late = 0
    for seed in range(5):
        secret = secret_of(SELDOM, seed)[1]
        numbers = [sign_whole(SELDOM, secret, b"late", bytes(32), budget)[0]
                   for budget in range(1, 60)]
        meets = numbers.index(10) if 10 in numbers else len(numbers)
        expect("8, then 10 for good", numbers,
               [8] * meets + [10] * (len(numbers) - meets))
        late += 0 < meets < len(numbers)
    expect("met late at least twice", late >= 2, True)


def high_part_in_checking(expect):
    public = secret_of(TALL, 3)[0]
    signature = write_signature(TALL, [TALL.z_bound] * TALL.n, bytes(32),
                                TALL.signature_length)[1]
    expect("10", check(TALL, public, b"", signature), 10)
    worse = signature[:2] + b"\xff\xff\x07" + signature[5:]
    expect("9 before 10", check(TALL, public, b"", worse), 9)
    expect("3 before 10", check(TALL, public, bytes(32769), signature), 3)
    envelope = b"\x51\x15\1\0\0\0" + signature
    expect("10 of opening", open_envelope(TALL, public, envelope), (10, 0, 0, 0))
    expect("10 of the program", line(TALL, public + envelope), "REFUSED 10\n")


def marks_follow_the_set(expect):
    numbers = replace(SMALL, mark_digit=3)
    made = sample(numbers)
    marks = [record[:2].hex() for record in (made.public, made.secret, made.signature,
                                             made.envelope)]
    expect("marks", marks, ["5131", "5132", "5133", "5135"])
    expect("checked", check(numbers, made.public, made.message, made.signature), 0)
    expect("another set's marks", check(SMALL, made.public, made.message, made.signature), 2)


def checks_take_their_own_bound(expect):
    """E and S need not be equal: each check goes by its own."""
    s_wide, e_wide = replace(SMALL, S=500, E=30), replace(SMALL, S=30, E=500)
    rng = random.Random(4)
    heavy = bytes(13) + b"\x28\xd8\x28"
    light = polynomial(replace(SMALL, S=30), rng, check_s)
    light_e = polynomial(replace(SMALL, E=30), rng, check_e)
    seed = bytes(32)
    expect("heavy s under S", make_sample_key(s_wide, heavy, light_e * 2, seed, seed)[0], 0)
    expect("heavy e over E", make_sample_key(s_wide, light, heavy * 2, seed, seed)[0], 7)
    expect("heavy e under E", make_sample_key(e_wide, light, heavy * 2, seed, seed)[0], 0)
    expect("heavy s over S", make_sample_key(e_wide, heavy, light_e * 2, seed, seed)[0], 6)


GROUPS = [("small set, whole", whole), ("small set, every budget", every_budget),
          ("small set, no counter passes", none_passes),
          ("small set, 10 in signing", high_part_in_signing),
          ("small set, 10 at a later counter", high_part_later),
          ("small set, 10 in checking", high_part_in_checking),
          ("small set, marks", marks_follow_the_set),
          ("small set, S and E apart", checks_take_their_own_bound)]
