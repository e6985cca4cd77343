"""Damaged inputs: each fault alone, and every two faults together."""

from collections import namedtuple
from itertools import combinations

# A fault changes the inputs, a dictionary, so that the entry answers number.
Fault = namedtuple("Fault", "name number change")


def expect_faults(expect, entry, inputs, faults, answer, refusal):
    """Tries faults that stand in the order of the entry's tests.

    Of two faults the earlier test decides. It is applied last, so that a
    shortened input is shortened after all else.
    """
    for fault in faults:
        expect(f"{entry}: {fault.name}", answer(changed(inputs, fault)),
               refusal(fault.number))
    for first, second in combinations(faults, 2):
        expect(f"{entry}: {first.name} with {second.name}",
               answer(changed(inputs, second, first)), refusal(first.number))


def changed(inputs, *faults):
    result = dict(inputs)
    for fault in faults:
        fault.change(result)
    return result


def set_to(name, value):
    def change(inputs):
        inputs[name] = value
    return change


def by(name, function):
    """The change that puts function(input) in place of the input."""
    def change(inputs):
        inputs[name] = function(inputs[name])
    return change


def wrong_lengths(name):
    """A lent input that is empty, one short, or two long."""
    return [Fault(f"{name} empty", 1, set_to(name, b"")),
            Fault(f"{name} short", 1, by(name, lambda data: data[:-1])),
            Fault(f"{name} long", 1, by(name, lambda data: data + data[:1] * 2))]


def wrong_output_lengths(name):
    """An output that is empty, one short, or two long."""
    return [Fault(f"{name} 0", 1, set_to(name, 0)),
            Fault(f"{name} short", 1, by(name, lambda length: length - 1)),
            Fault(f"{name} long", 1, by(name, lambda length: length + 2))]


def other_marks(name, mark):
    """Marks that differ in the first byte, in the second, and in both."""
    first, second = mark
    marks = [bytes([first + 2, second]), bytes([first, second ^ 0x80]), b"\0\0"]
    return [Fault(f"{name} mark {other.hex()}", 2,
                  by(name, lambda data, other=other: other + data[2:]))
            for other in marks]


def with_byte(data, at, value):
    at %= len(data)
    return data[:at] + bytes([value]) + data[at + 1:]


def with_bit_flipped(data, at, bit=0):
    return with_byte(data, at, data[at] ^ (1 << bit))


def with_field(data, start, width, index, value):
    """data whose bits from byte `start` on have `value` as field `index`."""
    whole = int.from_bytes(data, "little")
    place = 8 * start + width * index
    mask = ((1 << width) - 1) << place
    whole = (whole & ~mask) | ((value % (1 << width)) << place)
    return whole.to_bytes(len(data), "little")
