"""Random inputs of each entry that pass its tests, by the entry's name."""

import records
from checks.candidates import position_bytes, y_bytes
from checks.record_forms import random_public, random_secret, random_signature
from checks.samples import enveloped, sample, secrets, signed_envelope
from envelope import envelope_length
from sets import BUDGET_LIMIT, SET_I

KEYS = 3   # that the cases share
TOP_Y = (1 << SET_I.z_width) - 1   # the one candidate for y that is out of range


def some_key(rng):
    return sample(seed=rng.randrange(KEYS))


def make_key(rng):
    s, e = secrets(SET_I, rng)
    return dict(s=s, e=e, seed_a=rng.randbytes(32), seed_y=rng.randbytes(32),
                public_len=SET_I.public_length, secret_len=SET_I.secret_length)


def sign(rng):
    return dict(secret=some_key(rng).secret, message=rng.randbytes(rng.randrange(400)),
                r=rng.randbytes(32), budget=rng.choice([1, 2, 4, 8, BUDGET_LIMIT]),
                signature_len=SET_I.signature_length)


def sign_roster(rng):
    inputs = sign(rng)
    inputs["roster"] = inputs.pop("message")
    return dict(inputs, team=rng.randrange(65536))


def check(rng):
    made = some_key(rng)
    return dict(public=made.public, message=made.message, signature=made.signature)


write_public, write_secret, write_signature = random_public, random_secret, random_signature


def read_public(rng):
    record = records.write_public(SET_I, **write_public(rng))[1]
    return dict(record=record, t_len=4096, seed_a_len=32)


def read_secret(rng):
    record = records.write_secret(SET_I, **write_secret(rng))[1]
    return dict(record=record, s_len=1024, e_len=4096, seed_a_len=32, seed_y_len=32, g_len=40)


def read_signature(rng):
    record = records.write_signature(SET_I, **write_signature(rng))[1]
    return dict(record=record, z_len=1024, c_len=32)


def some_roster(rng):
    """A team number and a roster."""
    return rng.randrange(65536), rng.randbytes(rng.randrange(400))


def written(team, roster, signature):
    """Inputs of writing an envelope."""
    return dict(team=team, roster=roster, signature=signature,
                envelope_len=envelope_length(SET_I, len(roster)))


def write_envelope(rng):
    return written(*some_roster(rng), read_signature(rng)["record"])


def read_envelope(rng):
    return dict(envelope=enveloped(SET_I, *some_roster(rng), read_signature(rng)["record"]))


def open_envelope(rng):
    made = some_key(rng)
    return dict(public=made.public,
                envelope=signed_envelope(SET_I, made.secret, *some_roster(rng), made.r))


def take_a(rng):
    held = rng.randrange(60)
    return dict(lent=rng.randbytes(4 * held + rng.randrange(4)), out_len=rng.randint(0, held))


def take_y(rng):
    """About every fourth candidate is out of range."""
    held = rng.randrange(60)
    candidates = [rng.randrange(1 << 24) if rng.random() < 0.75 else TOP_Y
                  for _ in range(held)]
    return dict(lent=y_bytes(*candidates) + rng.randbytes(rng.randrange(3)),
                out_len=rng.randint(0, held))


def take_positions(rng):
    """Candidates of a narrow stretch, so that many positions are taken already."""
    held, start, spread = rng.randrange(60), rng.randrange(1024), rng.choice([4, 40, 1024])
    candidates = [((start + rng.randrange(spread)) % 1024, rng.choice([-1, 1]))
                  for _ in range(held)]
    needed = rng.randint(0, held)
    return dict(lent=position_bytes(*candidates) + rng.randbytes(rng.randrange(3)),
                positions_len=needed, signs_len=needed)


def shake256(rng):
    return dict(message=rng.randbytes(rng.randrange(700)), out_len=rng.randrange(700))
