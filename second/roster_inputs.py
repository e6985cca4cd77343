"""The inputs that are kept for the roster program, each with its line, and longer ones that are not kept.

The kept ones are below crates/roster/tests/, a file NAME.in with a file NAME.out; the accepted one is also the program's own
stdin. They are one signed roster, and damage to it for each number that the program can answer.
"""

import os
import random
import subprocess

from checks.damage import with_bit_flipped, with_field
from checks.envelopes import OLD_MARK
from checks.samples import make_sample_key, secrets, signed_envelope
from program import line
from sets import SET_I

TEAM = 1207
ROSTER = """Mountain rescue, valley post. On call from Sunday 06:00 to Monday 06:00.
Leader: A. Moser. Second: J. Brandl. Medic: S. Okafor. Driver: L. Huber.
Dog team: M. Steiner with Kira. Relief after 18:00: T. Wagner, P. Lang.
""".encode()
SIGNATURE_BYTES = SET_I.signature_length


def signed_roster():
    """A public record, and the envelope of a roster that was signed with its key."""
    rng = random.Random("roster")
    s, e = secrets(SET_I, rng)
    seed_a, seed_y, r = rng.randbytes(32), rng.randbytes(32), rng.randbytes(32)
    public, secret = make_sample_key(SET_I, s, e, seed_a, seed_y)[1]
    return public, signed_envelope(SET_I, secret, TEAM, ROSTER, r)


def kept():
    """Each kept input by its name."""
    public, envelope = signed_roster()
    end = len(envelope) - SIGNATURE_BYTES

    def in_signature(change):
        return public + envelope[:end] + change(envelope[end:])
    return {
        "accepted": public + envelope,
        "empty": b"",
        "refused_1_public_record_short": public[:-1],
        "refused_1_envelope_short": public + envelope[:-1],
        "refused_1_bytes_after": public + envelope + b"\n",
        "refused_2_mark": public + b"\x51\x13" + envelope[2:],
        "refused_2_old_mark": public + OLD_MARK + envelope[2:],
        "refused_3_length": public + envelope[:4] + b"\xff\x7f" + envelope[6:],
        "refused_5_t": with_field(public, 2, 29, 0, SET_I.q) + envelope,
        "refused_9_z": in_signature(lambda s: with_field(s, 2, 20, 7, 523734)),
        "refused_11_roster_changed": public + with_bit_flipped(envelope, 40),
        "refused_11_team_changed": public + with_bit_flipped(envelope, 2),
    }


def long_inputs():
    """Inputs that are longer than any envelope: what is held of them has to decide."""
    public, envelope = signed_roster()
    tail = bytes(1 << 20)
    return {
        "long": public + envelope + tail,
        "long, another mark": public + b"\x51\x11" + envelope[2:] + tail,
        "long, L too large": public + envelope[:4] + b"\xff\xff" + envelope[6:] + tail,
        "longest L, one byte more": public + envelope[:4] + b"\xfe\x7f" + bytes(32766 + SIGNATURE_BYTES + 1),
    }


def files():
    """Each file's path below crates/, and its bytes."""
    for name, data in kept().items():
        answer = line(SET_I, data).encode()
        yield os.path.join("roster", "tests", name + ".in"), data
        yield os.path.join("roster", "tests", name + ".out"), answer
        if name == "accepted":
            yield os.path.join("roster", "stdin"), data
            yield os.path.join("roster", "stdout"), answer


def run(program, tests):
    """Runs the program on every kept input and every long one. Answers the exit status."""
    cases = {}
    for file in sorted(os.listdir(tests)):
        name, kind = os.path.splitext(file)
        if kind == ".in":
            cases[name] = (content(tests, name + ".in"), content(tests, name + ".out"))
    for name, data in long_inputs().items():
        cases[name] = (data, line(SET_I, data).encode())
    passed = failed = 0
    for name, (data, wanted) in cases.items():
        got = subprocess.run([program], input=data, stdout=subprocess.PIPE).stdout
        if got == wanted:
            passed += 1
        else:
            failed += 1
            print(f"{name}: {got!r} and not {wanted!r}")
    print(f"{passed} passed, {failed} failed")
    return 1 if failed or not passed else 0


def content(folder, name):
    with open(os.path.join(folder, name), "rb") as source:
        return source.read()
