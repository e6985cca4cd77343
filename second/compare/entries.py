"""The entries: their parameters in the header's order, this program's own function,
and the numbers that can occur.

The own function answers (number, values): a value for each output and each number
that comes back, in the parameters' order, with None for an output that stays as it was.

10 is no number of signing, checking or opening here: at set I every high part fits.
"""

from collections import namedtuple

from compare.face import I8, I32, SIZE, U8, U16, U32, Given, Lent, Output, Returned
from envelope import open_envelope, read_envelope, sign_roster, write_envelope
from records import (read_public, read_secret, read_signature, write_public, write_secret,
                     write_signature)
from scheme import check, make_key, sign
from sets import SET_I
from streams import shake256, take_a, take_positions, take_y

Entry = namedtuple("Entry", "name parameters own numbers")


def one(function):
    """Of a function with one output."""
    def own(inputs):
        number, output = function(SET_I, **inputs)
        return number, [output]
    return own


def several(function, count):
    """Of a function with several outputs."""
    def own(inputs):
        number, outputs = function(SET_I, **inputs)
        return number, [None] * count if outputs is None else list(outputs)
    return own


def counted(function):
    """Of a function that answers the counter too."""
    def own(inputs):
        number, counter, signature = function(SET_I, **inputs)
        return number, [signature, counter]
    return own


def own_check(inputs):
    return check(SET_I, **inputs), []


def own_shake256(inputs):
    number, output = shake256(**inputs)
    return number, [output]


def stretches(function):
    """Of a function that answers the team number and where the roster stands."""
    def own(inputs):
        number, team, start, length = function(SET_I, **inputs)
        return number, [team, start, length]
    return own


def lent(*names):
    return [Lent(name, U8) for name in names]


def outputs(*names):
    return [Output(name, U8) for name in names]


ROSTER = [Returned("team", U16), Returned("roster_start", SIZE), Returned("roster_len", SIZE)]

ENTRIES = [
    Entry("make_key",
          lent("s", "e", "seed_a", "seed_y") + outputs("public_len", "secret_len"),
          several(make_key, 2), {0, 1, 5, 6, 7}),
    Entry("sign",
          lent("secret", "message", "r") + [Given("budget", U32)]
          + outputs("signature_len") + [Returned("counter", U16)],
          counted(sign), {0, 1, 2, 3, 4, 5, 6, 7, 8}),
    Entry("sign_roster",
          lent("secret") + [Given("team", U16)] + lent("roster", "r")
          + [Given("budget", U32)] + outputs("signature_len") + [Returned("counter", U16)],
          counted(sign_roster), {0, 1, 2, 3, 4, 5, 6, 7, 8}),
    Entry("check", lent("public", "message", "signature"), own_check, {0, 1, 2, 3, 5, 9, 11}),
    Entry("write_public", [Lent("t", U32)] + lent("seed_a") + outputs("record_len"),
          one(write_public), {0, 1, 5}),
    Entry("read_public", lent("record") + [Output("t_len", U32)] + outputs("seed_a_len"),
          several(read_public, 2), {0, 1, 2, 5}),
    Entry("write_secret", lent("s", "e", "seed_a", "seed_y", "g") + outputs("record_len"),
          one(write_secret), {0, 1, 5}),
    Entry("read_secret",
          lent("record") + outputs("s_len", "e_len", "seed_a_len", "seed_y_len", "g_len"),
          several(read_secret, 5), {0, 1, 2, 5}),
    Entry("write_signature", [Lent("z", I32)] + lent("c") + outputs("record_len"),
          one(write_signature), {0, 1, 9}),
    Entry("read_signature", lent("record") + [Output("z_len", I32)] + outputs("c_len"),
          several(read_signature, 2), {0, 1, 2, 9}),
    Entry("write_envelope",
          [Given("team", U16)] + lent("roster", "signature") + outputs("envelope_len"),
          one(write_envelope), {0, 1, 2, 3, 9}),
    Entry("read_envelope", lent("envelope") + ROSTER, stretches(read_envelope),
          {0, 1, 2, 3, 9}),
    Entry("open_envelope", lent("public", "envelope") + ROSTER, stretches(open_envelope),
          {0, 1, 2, 3, 5, 9, 11}),
    Entry("take_a", lent("lent") + [Output("out_len", U32)], one(take_a), {0, 1}),
    Entry("take_y", lent("lent") + [Output("out_len", I32)], one(take_y), {0, 1}),
    Entry("take_positions",
          lent("lent") + [Output("positions_len", U16), Output("signs_len", I8)],
          several(take_positions, 2), {0, 1}),
    Entry("shake256", lent("message") + outputs("out_len"), own_shake256, {0}),
]
