"""Keys and signatures to try things on, the same in every run."""

import random
from dataclasses import replace
from functools import lru_cache
from types import SimpleNamespace

from envelope import envelope_length, sign_roster, write_envelope
from scheme import make_key, sign
from sets import BUDGET_LIMIT, SET_I
from sums import check_e, check_s

DEVIATION = 8.5

# A small set on which everything is quick. Its z is seldom refused.
SMALL = replace(SET_I, n=16, k=2, h=3, E=70, S=70, position_width=4)


def polynomial(numbers, rng, passes):
    """A small polynomial that passes its check, as signed bytes."""
    while True:
        p = [round(rng.gauss(0, DEVIATION)) for _ in range(numbers.n)]
        if passes(numbers, p):
            return bytes(v % 256 for v in p)


def secrets(numbers, rng):
    s = polynomial(numbers, rng, check_s)
    e = b"".join(polynomial(numbers, rng, check_e) for _ in range(numbers.k))
    return s, e


def make_sample_key(numbers, s, e, seed_a, seed_y):
    return make_key(numbers, s, e, seed_a, seed_y,
                    numbers.public_length, numbers.secret_length)


def sign_whole(numbers, secret, message, r, budget=BUDGET_LIMIT):
    return sign(numbers, secret, message, r, budget, numbers.signature_length)


def sign_whole_roster(numbers, secret, team, roster, r, budget=BUDGET_LIMIT):
    return sign_roster(numbers, secret, team, roster, r, budget, numbers.signature_length)


def enveloped(numbers, team, roster, signature):
    return write_envelope(numbers, team, roster, signature,
                          envelope_length(numbers, len(roster)))[1]


def signed_envelope(numbers, secret, team, roster, r):
    signature = sign_whole_roster(numbers, secret, team, roster, r)[2]
    return enveloped(numbers, team, roster, signature)


@lru_cache(maxsize=None)
def sample(numbers=SET_I, seed=0):
    """A key, a message signed with it, and the envelope of the same bytes as a roster."""
    rng = random.Random(seed)
    s, e = secrets(numbers, rng)
    seed_a, seed_y, r = rng.randbytes(32), rng.randbytes(32), rng.randbytes(32)
    message = rng.randbytes(100 + seed)
    team = rng.randrange(65536)
    public, secret = make_sample_key(numbers, s, e, seed_a, seed_y)[1]
    number, counter, signature = sign_whole(numbers, secret, message, r)
    envelope = signed_envelope(numbers, secret, team, message, r)
    return SimpleNamespace(s=s, e=e, seed_a=seed_a, seed_y=seed_y, r=r, message=message,
                           team=team, public=public, secret=secret, number=number,
                           counter=counter, signature=signature, envelope=envelope)
