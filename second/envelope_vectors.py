"""The vector program's cases of rosters: signed, and their envelopes written, read and opened.

They go on in the memory of scheme_vectors.py. The roster is what stands there after the first two
bytes of the message, which are the team number's where the joined bytes are signed as a message.
"""

import random
from contextlib import contextmanager

from answers import DONE, HASH, LENGTH, MARK, MESSAGE, VALUE, Z
from checks.envelopes import OLD_MARK
from envelope import HEAD_BYTES, LENGTH_AT, TEAM_AT, envelope_length, two_bytes
from scheme_vectors import (ENVELOPE, KN, MESSAGE_AT, N, PUBLIC, R_AT, SIGNATURE, SIGNING,
                            answered, flipped, fullest, given, lent, new_key, ordinary,
                            other_lengths, other_marks, other_rooms, refusals,
                            refusals_in_order, signing_cases, spoilt, spoilt_field)
from sets import BUDGET_LIMIT, MARK_BYTES, ROSTER_LIMIT, SEED_BYTES, SET_I

TEAM = 1207
ROSTER_AT = MESSAGE_AT + 2
ROSTER_BYTES = 300
SIGNED_AT = ENVELOPE + HEAD_BYTES + ROSTER_BYTES   # the signature record in that envelope
TOO_LONG = (ROSTER_LIMIT + 1, ROSTER_LIMIT + 2)

# What a call that can pass is given. Reading and opening are given nothing beside the records.
SIGNING_ROSTER = dict(r=(R_AT, SEED_BYTES), roster=(ROSTER_AT, ROSTER_BYTES),
                      budget=BUDGET_LIMIT, team=TEAM)
NOTHING = {}


def written_and_opened(machine, length, team, opened):
    """The envelope of so much of the roster with the signature that its record holds: it is
    written and read, and opening it answers this number."""
    machine.lengths[ENVELOPE] = envelope_length(SET_I, length)
    answered(machine, machine.write_envelope, dict(roster=(ROSTER_AT, length), team=team), DONE)
    answered(machine, machine.read_envelope, NOTHING, DONE)
    answered(machine, machine.open_envelope, NOTHING, opened)


# What can be wrong with an envelope.

def long_roster(number, length, room_for):
    """A roster above the limit, and an envelope whose length is that for so many bytes."""
    @contextmanager
    def wrong(machine, inputs):
        inputs.update(roster=(ROSTER_AT, length))
        with machine.lent(ENVELOPE, envelope_length(SET_I, room_for)):
            yield
    return number, wrong


def named(number, length):
    """L is another."""
    return spoilt(number, ENVELOPE + LENGTH_AT, two_bytes(length))


def head_tests():
    """By the four tests that reading and opening begin with, in their order."""
    total = envelope_length(SET_I, ROSTER_BYTES)
    return [
        [lent(ENVELOPE, length) for length in (HEAD_BYTES - 1, MARK_BYTES, 1, 0)],
        [spoilt(MARK, ENVELOPE, OLD_MARK), *other_marks(ENVELOPE),
         *(spoilt(MARK, ENVELOPE, SET_I.record_mark(kind)) for kind in (1, 2, 3))],
        [named(MESSAGE, length) for length in (*TOO_LONG, 65535)],
        [*(lent(ENVELOPE, length) for length in (total - 1, total + 1, HEAD_BYTES,
                                                 envelope_length(SET_I, 0))),
         *(named(LENGTH, length) for length in (ROSTER_BYTES - 1, ROSTER_BYTES + 1, 0,
                                                ROSTER_LIMIT))]]


def outside_z(start):
    """By the test on z of a signature record from start on."""
    bound = SET_I.z_bound
    return [spoilt_field(Z, start, SET_I.z_width, index, value) for index, value in
            ((0, bound + 1), (1, -bound - 1), (N - 1, -2**19))]


def only_hashed(number):
    """What reading accepts and opening does not: the team number, the roster, z and c'."""
    at = SIGNED_AT - ENVELOPE
    return [*(flipped(number, ENVELOPE, place) for place in
              (TEAM_AT, TEAM_AT + 1, HEAD_BYTES, at - 1, at + MARK_BYTES,
               at + SET_I.signature_length - 1)),
            spoilt(number, ENVELOPE + TEAM_AT, TEAM.to_bytes(2, "big")),
            spoilt_field(number, SIGNED_AT, SET_I.z_width, 0, SET_I.z_bound)]


# The cases.

def blank_cases(machine):
    """Before anything is written all bytes of the envelope are A5."""
    answered(machine, machine.read_envelope, NOTHING, MARK)
    answered(machine, machine.open_envelope, NOTHING, MARK)


def whole_cases(machine, rng):
    """Rosters of several lengths, of which three are about a block of SHAKE256. The joined bytes,
    signed as a message, have the same signature."""
    new_key(machine, rng, lambda: ordinary(rng))
    for team, length in ((0, 0), (1, 1), (255, 131), (256, 132), (4660, 133),
                         (TEAM, ROSTER_BYTES), (65535, ROSTER_LIMIT)):
        machine.write(R_AT, rng.randbytes(SEED_BYTES))
        machine.write(MESSAGE_AT, two_bytes(team))
        joined = dict(message=(MESSAGE_AT, 2 + length))
        answered(machine, machine.sign_roster,
                 dict(SIGNING_ROSTER, roster=(ROSTER_AT, length), team=team), DONE)
        answered(machine, machine.check, joined, DONE)
        answered(machine, machine.check, dict(message=(ROSTER_AT, length)), HASH)
        written_and_opened(machine, length, team, DONE)
        answered(machine, machine.sign, dict(SIGNING, **joined), DONE)


def too_long_cases(machine):
    """The longest roster's envelope made longer, with the signature record where it would be."""
    for length in TOO_LONG:
        wrongs = [named(MESSAGE, length), lent(ENVELOPE, envelope_length(SET_I, length)),
                  spoilt(MESSAGE, ENVELOPE + HEAD_BYTES + length, machine.record(SIGNATURE))]
        for call in (machine.read_envelope, machine.open_envelope):
            answered(machine, call, NOTHING, MESSAGE, *wrongs)
    answered(machine, machine.open_envelope, NOTHING, DONE)


def writing_cases(machine):
    """What writing refuses. The team is another than in the envelope that stands there."""
    inputs = dict(roster=(ROSTER_AT, ROSTER_BYTES), team=TEAM + 1)
    refusals(machine, machine.write_envelope, inputs,
             other_rooms(SIGNATURE, SET_I.signature_length)
             + other_rooms(ENVELOPE, envelope_length(SET_I, ROSTER_BYTES))
             + other_lengths(dict(roster=inputs["roster"]))
             + [given(LENGTH, roster=(ROSTER_AT, 65536 + ROSTER_BYTES)),   # L would be the same
                long_roster(LENGTH, ROSTER_LIMIT + 1, ROSTER_LIMIT),
                long_roster(LENGTH, ROSTER_LIMIT + 1, ROSTER_LIMIT + 2),
                long_roster(LENGTH, ROSTER_LIMIT + 2, ROSTER_LIMIT)]
             + other_marks(SIGNATURE)
             + [long_roster(MESSAGE, length, length) for length in TOO_LONG]
             + outside_z(SIGNATURE))
    written_and_opened(machine, ROSTER_BYTES, TEAM + 1, HASH)
    written_and_opened(machine, ROSTER_BYTES, TEAM, DONE)


def reading_cases(machine):
    refusals_in_order(machine, machine.read_envelope, NOTHING,
                      [*head_tests(), other_marks(SIGNATURE, SIGNED_AT), outside_z(SIGNED_AT)])
    for wrong in only_hashed(DONE):
        answered(machine, machine.read_envelope, NOTHING, DONE, wrong)


def opening_cases(machine):
    t_width = SET_I.t_width
    refusals_in_order(machine, machine.open_envelope, NOTHING,
                      [*head_tests(), other_rooms(PUBLIC, SET_I.public_length),
                       other_marks(PUBLIC) + other_marks(SIGNATURE, SIGNED_AT),
                       [spoilt_field(VALUE, PUBLIC, t_width, index, value)
                        for index, value in ((0, SET_I.q), (KN - 1, 2**29 - 1))],
                       outside_z(SIGNED_AT),
                       only_hashed(HASH) + [flipped(HASH, PUBLIC, MARK_BYTES),
                                            flipped(HASH, PUBLIC, SET_I.public_length - 1)]])


def otherwise_signed(machine):
    """Signatures on other bytes than the two of the team number, low first, and then the roster."""
    joined = (MESSAGE_AT, 2 + ROSTER_BYTES)
    machine.write(MESSAGE_AT, TEAM.to_bytes(2, "big"))
    for message in ((ROSTER_AT, ROSTER_BYTES), joined):
        answered(machine, machine.sign, dict(SIGNING, message=message), DONE)
        written_and_opened(machine, ROSTER_BYTES, TEAM, HASH)
        for call in (machine.read_envelope, machine.open_envelope):
            answered(machine, call, NOTHING, MARK, spoilt(MARK, ENVELOPE, OLD_MARK))
    answered(machine, machine.sign_roster, dict(SIGNING_ROSTER, team=TEAM + 256), DONE)
    written_and_opened(machine, ROSTER_BYTES, TEAM, HASH)
    machine.write(MESSAGE_AT, two_bytes(TEAM))
    answered(machine, machine.sign, dict(SIGNING, message=joined), DONE)
    written_and_opened(machine, ROSTER_BYTES, TEAM, DONE)


def envelope_cases(machine):
    rng = random.Random("envelope_vectors")
    blank_cases(machine)
    whole_cases(machine, rng)
    too_long_cases(machine)
    new_key(machine, rng, lambda: fullest(rng, 26))
    answered(machine, machine.open_envelope, NOTHING, HASH)   # the envelope is another key's
    signing_cases(machine, machine.sign_roster, SIGNING_ROSTER,
                  *(dict(roster=(ROSTER_AT, length)) for length in TOO_LONG))
    written_and_opened(machine, ROSTER_BYTES, TEAM, DONE)
    writing_cases(machine)
    reading_cases(machine)
    opening_cases(machine)
    otherwise_signed(machine)
