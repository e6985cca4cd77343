"""The envelope: its roster signed, and itself written, read and opened.

What is signed is the team number's two bytes, as they stand in the envelope,
and then the roster.

Reading and opening answer (number, team, start, length): the roster is the
stretch of the envelope from start on, and the signature record follows it.
On refusal team, start and length are 0.
"""

from answers import DONE, LENGTH, MARK, MESSAGE, Z
from records import ENVELOPE, SIGNATURE, has_mark, signature_z
from scheme import check, sign
from sets import MARK_BYTES, ROSTER_LIMIT
from sums import z_passes

TEAM_AT = MARK_BYTES
LENGTH_AT = TEAM_AT + 2
HEAD_BYTES = LENGTH_AT + 2


def envelope_length(numbers, roster_len):
    return HEAD_BYTES + roster_len + numbers.signature_length


def two_bytes(value):
    """A number in two bytes, low first, as team numbers and L stand in the envelope."""
    return value.to_bytes(2, "little")


def sign_roster(numbers, secret, team, roster, r, budget, signature_len):
    """Answers as signing does, on the team number's two bytes and then the roster."""
    return sign(numbers, secret, two_bytes(team) + roster, r, budget, signature_len)


def write_envelope(numbers, team, roster, signature, envelope_len):
    """Answers (number, envelope). team is a number of two bytes."""
    if (len(signature) != numbers.signature_length
            or envelope_len != envelope_length(numbers, len(roster))):
        return LENGTH, None
    if not has_mark(numbers, signature, SIGNATURE):
        return MARK, None
    if len(roster) > ROSTER_LIMIT:
        return MESSAGE, None
    if not z_passes(numbers, signature_z(numbers, signature)):
        return Z, None
    head = numbers.record_mark(ENVELOPE) + two_bytes(team) + two_bytes(len(roster))
    return DONE, head + roster + signature


def named_length(envelope):
    """L, of an envelope that holds its head."""
    return int.from_bytes(envelope[LENGTH_AT:HEAD_BYTES], "little")


def form_refusal(numbers, envelope):
    """The four tests that reading and opening share, in their own order."""
    if len(envelope) < HEAD_BYTES:
        return LENGTH
    if not has_mark(numbers, envelope, ENVELOPE):
        return MARK
    if named_length(envelope) > ROSTER_LIMIT:
        return MESSAGE
    if len(envelope) != envelope_length(numbers, named_length(envelope)):
        return LENGTH
    return DONE


def roster_and_signature(envelope):
    """The two stretches of an envelope that passed the four tests."""
    end = HEAD_BYTES + named_length(envelope)
    return envelope[HEAD_BYTES:end], envelope[end:]


def contents(envelope):
    team = int.from_bytes(envelope[TEAM_AT:LENGTH_AT], "little")
    return DONE, team, HEAD_BYTES, named_length(envelope)


def refused(number):
    return number, 0, 0, 0


def read_envelope(numbers, envelope):
    """Without the hash: the four tests, then the signature's mark and z."""
    refusal = form_refusal(numbers, envelope)
    if refusal != DONE:
        return refused(refusal)
    signature = roster_and_signature(envelope)[1]
    if not has_mark(numbers, signature, SIGNATURE):
        return refused(MARK)
    if not z_passes(numbers, signature_z(numbers, signature)):
        return refused(Z)
    return contents(envelope)


def open_envelope(numbers, public, envelope):
    """The four tests, then checking with the public record what is signed."""
    refusal = form_refusal(numbers, envelope)
    if refusal != DONE:
        return refused(refusal)
    roster, signature = roster_and_signature(envelope)
    refusal = check(numbers, public, envelope[TEAM_AT:LENGTH_AT] + roster, signature)
    if refusal != DONE:
        return refused(refusal)
    return contents(envelope)
