"""Calls of the library, by the names of include/maesikkong.h.

Every buffer has guards on both sides and holds random bytes before the call, so
that a byte that is written shows, in the buffer or beside it. A slice of no
length is a null pointer every other time.
"""

import ctypes
import os
from collections import namedtuple
from ctypes import (c_int8 as I8, c_int32 as I32, c_size_t as SIZE, c_uint8 as U8,
                    c_uint16 as U16, c_uint32 as U32)

LIBRARY = os.path.join(os.path.dirname(os.path.abspath(__file__)), "..", "..", "target",
                       "face", "libmaesikkong.so")
GUARD = 64   # bytes

# What a parameter can be. Its name is the input's, of which it has a type of number.
Lent = namedtuple("Lent", "name type")           # a slice that is read: the input is its values
Output = namedtuple("Output", "name type")       # a slice that is written: the input is its length
Given = namedtuple("Given", "name type")         # a number
Returned = namedtuple("Returned", "name type")   # a number that comes back: no input


def load():
    return ctypes.CDLL(os.path.normpath(LIBRARY))


class Buffer:
    def __init__(self, rng, held, null=False):
        self.held = held
        self.guards = rng.randbytes(GUARD), rng.randbytes(GUARD)
        self.memory = ctypes.create_string_buffer(self.with_guards(held), 2 * GUARD + len(held))
        self.address = None if null else ctypes.addressof(self.memory) + GUARD

    def with_guards(self, data):
        return self.guards[0] + data + self.guards[1]

    def holds(self, data):
        """Whether it holds exactly this, and its guards are as they were."""
        return self.memory.raw == self.with_guards(data)

    def now(self):
        return self.memory.raw[GUARD:-GUARD]


def raw(kind, values):
    """Numbers as they lie in memory."""
    return values if isinstance(values, bytes) else bytes((kind * len(values))(*values))


def buffers(entry, inputs, rng):
    """One for each parameter but the given numbers, by name."""
    made = {}
    for parameter in entry.parameters:
        size = ctypes.sizeof(parameter.type)
        if isinstance(parameter, Lent):
            held = raw(parameter.type, inputs[parameter.name])
        elif isinstance(parameter, Output):
            held = rng.randbytes(size * inputs[parameter.name])
        elif isinstance(parameter, Returned):
            held = rng.randbytes(size)
        else:
            continue
        made[parameter.name] = Buffer(rng, held, null=not held and rng.random() < 0.5)
    return made


def call(library, entry, inputs, made):
    """The number that the library answers."""
    types, arguments = [], []
    for parameter in entry.parameters:
        if isinstance(parameter, Given):
            types.append(parameter.type)
            arguments.append(inputs[parameter.name])
            continue
        types.append(ctypes.c_void_p)
        arguments.append(made[parameter.name].address)
        if not isinstance(parameter, Returned):
            types.append(SIZE)
            arguments.append(len(made[parameter.name].held) // ctypes.sizeof(parameter.type))
    function = getattr(library, "maesikkong_" + entry.name)
    function.argtypes, function.restype = types, U8
    return function(*arguments)
