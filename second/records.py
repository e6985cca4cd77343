"""The public, secret and signature records: written from values, read into them.

s and e are bytes, one signed byte a coefficient. t and z are lists of whole
numbers. Each entry answers (number, outputs), with None as outputs on refusal.
"""

from answers import DONE, LENGTH, MARK, VALUE, Z
from sets import DIGEST_BYTES, MARK_BYTES, SEED_BYTES, bytes_for
from sums import t_passes, z_passes

# The last hexadecimal digit of each record's mark. 4 was that of an envelope
# whose team number was not signed.
PUBLIC, SECRET, SIGNATURE, ENVELOPE = 1, 2, 3, 5

MINUS_128 = 0x80


# Values at a width of bits, the lowest bit of the lowest byte first.

def pack(values, width):
    """values[i] is digit i, to the base 2^width, of one whole number."""
    whole = 0
    for i, value in enumerate(values):
        whole |= value << (width * i)
    return whole.to_bytes(bytes_for(width * len(values)), "little")


def unpack(data, width, count):
    whole = int.from_bytes(data, "little")
    mask = (1 << width) - 1
    return [(whole >> (width * i)) & mask for i in range(count)]


def pack_signed(values, width):
    """Two's complement. The values must fit."""
    return pack([value % (1 << width) for value in values], width)


def unpack_signed(data, width, count):
    half = 1 << (width - 1)
    return [value - 2 * half if value >= half else value
            for value in unpack(data, width, count)]


def signed_bytes(data):
    """The signed value of each byte."""
    return [byte - 256 if byte >= 128 else byte for byte in data]


def has_mark(numbers, record, kind):
    return record[:MARK_BYTES] == numbers.record_mark(kind)


def cut(data, *lengths):
    """Stretches of data, of these lengths, one after another."""
    parts, at = [], 0
    for length in lengths:
        parts.append(data[at:at + length])
        at += length
    return parts


# Public.

def packed_t(numbers, t):
    """t_1..t_k, each in a stretch of its own."""
    n = numbers.n
    return b"".join(pack(t[at:at + n], numbers.t_width)
                    for at in range(0, numbers.k * n, n))


def public_parts(numbers, record):
    """The mark, the packed t_1..t_k and seed_a of a record of the right length."""
    return cut(record, MARK_BYTES, numbers.k * numbers.t_bytes, SEED_BYTES)


def public_t(numbers, record):
    """t_1..t_k in a row. Each is read from its own stretch."""
    t = []
    for stretch in cut(public_parts(numbers, record)[1], *[numbers.t_bytes] * numbers.k):
        t += unpack(stretch, numbers.t_width, numbers.n)
    return t


def write_public(numbers, t, seed_a, record_len):
    if (len(t) != numbers.k * numbers.n or len(seed_a) != SEED_BYTES
            or record_len != numbers.public_length):
        return LENGTH, None
    if not t_passes(numbers, t):
        return VALUE, None
    return DONE, numbers.record_mark(PUBLIC) + packed_t(numbers, t) + seed_a


def read_public(numbers, record, t_len, seed_a_len):
    """Outputs: t, seed_a."""
    if (len(record) != numbers.public_length or t_len != numbers.k * numbers.n
            or seed_a_len != SEED_BYTES):
        return LENGTH, None
    if not has_mark(numbers, record, PUBLIC):
        return MARK, None
    t = public_t(numbers, record)
    if not t_passes(numbers, t):
        return VALUE, None
    return DONE, (t, public_parts(numbers, record)[2])


# Secret.

def secret_parts(numbers, record):
    """The mark, s, e, seed_a, seed_y and g of a record of the right length."""
    return cut(record, MARK_BYTES, numbers.n, numbers.k * numbers.n,
               SEED_BYTES, SEED_BYTES, DIGEST_BYTES)


def write_secret(numbers, s, e, seed_a, seed_y, g, record_len):
    if (len(s) != numbers.n or len(e) != numbers.k * numbers.n
            or len(seed_a) != SEED_BYTES or len(seed_y) != SEED_BYTES
            or len(g) != DIGEST_BYTES or record_len != numbers.secret_length):
        return LENGTH, None
    if MINUS_128 in s or MINUS_128 in e:
        return VALUE, None
    return DONE, numbers.record_mark(SECRET) + s + e + seed_a + seed_y + g


def read_secret(numbers, record, s_len, e_len, seed_a_len, seed_y_len, g_len):
    """Outputs: s, e, seed_a, seed_y, g."""
    if (len(record) != numbers.secret_length or s_len != numbers.n
            or e_len != numbers.k * numbers.n or seed_a_len != SEED_BYTES
            or seed_y_len != SEED_BYTES or g_len != DIGEST_BYTES):
        return LENGTH, None
    if not has_mark(numbers, record, SECRET):
        return MARK, None
    _, s, e, seed_a, seed_y, g = secret_parts(numbers, record)
    if MINUS_128 in s or MINUS_128 in e:
        return VALUE, None
    return DONE, (s, e, seed_a, seed_y, g)


# Signature.

def signature_parts(numbers, record):
    """The mark, the packed z and c' of a record of the right length."""
    return cut(record, MARK_BYTES, numbers.z_bytes, SEED_BYTES)


def signature_z(numbers, record):
    return unpack_signed(signature_parts(numbers, record)[1], numbers.z_width, numbers.n)


def write_signature(numbers, z, c, record_len):
    if (len(z) != numbers.n or len(c) != SEED_BYTES
            or record_len != numbers.signature_length):
        return LENGTH, None
    if not z_passes(numbers, z):
        return Z, None
    return DONE, numbers.record_mark(SIGNATURE) + pack_signed(z, numbers.z_width) + c


def read_signature(numbers, record, z_len, c_len):
    """Outputs: z, c'."""
    if (len(record) != numbers.signature_length or z_len != numbers.n
            or c_len != SEED_BYTES):
        return LENGTH, None
    if not has_mark(numbers, record, SIGNATURE):
        return MARK, None
    z = signature_z(numbers, record)
    if not z_passes(numbers, z):
        return Z, None
    return DONE, (z, signature_parts(numbers, record)[2])
