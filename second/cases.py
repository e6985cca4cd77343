"""A case of the vector program: a letter and a piece, and the bytes of its line."""

from streams import shake256

UNTOUCHED = b"\xa5"   # each byte of an output before a call


def case(letter, piece, *output):
    """The case's bytes, and those of its line."""
    return letter + len(piece).to_bytes(2, "little") + piece, b"".join(output)


def number(value):
    return value.to_bytes(4, "little")


def hashed(data):
    return shake256(data, 32)[1]
