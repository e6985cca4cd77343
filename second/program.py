"""The roster program: the one line that it writes for its whole input."""

from answers import DONE, LENGTH
from envelope import open_envelope


def line(numbers, data):
    """data is a public record, then an envelope."""
    if len(data) < numbers.public_length:
        return refused_line(LENGTH)
    public, envelope = data[:numbers.public_length], data[numbers.public_length:]
    number, team, _, length = open_envelope(numbers, public, envelope)
    if number != DONE:
        return refused_line(number)
    return f"ROSTER team={team} bytes={length} ok\n"


def refused_line(number):
    return f"REFUSED {number}\n"
