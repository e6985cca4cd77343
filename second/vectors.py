"""The vectors of the vector program: its standard input and what it must write.

The cases are made from fixed seeds, and the lines by this program alone. A case is a letter and a
piece, whose length of two bytes stands before it, and for each case a line is written in
hexadecimal. A number in a piece has four bytes. Every number has its low byte first.

Here are the cases of the sponge, which stays between them:

    <   absorbs the bytes at once      (   absorbs them one at a time
    >   squeezes as many at once       )   squeezes them one at a time
    =   squeezes 136 bytes             .   begins anew with a blank sponge

The others are in sampling_vectors.py, scheme_vectors.py and envelope_vectors.py, and the inputs of
the roster program in roster_inputs.py.
"""

import hashlib
import os
import random

import roster_inputs
from cases import case, number
from envelope_vectors import envelope_cases
from sampling_vectors import sampling_cases
from scheme_vectors import Machine, scheme_cases

BLOCK = 136

# FIPS 202's examples for SHAKE256: the message, and how its published output of 512 bytes begins.
# Written here are the first 64 bytes of each; all 512 are asked of both programs.
PUBLISHED = [
    (b"",
     "46b9dd2b0ba88d13233b3feb743eeb243fcd52ea62b81b82b50c27646ed5762f"
     "d75dc4ddd8c0f200cb05019d67b592f6fc821c49479ab48640292eacb3b7c4be"),
    (b"\xa3" * 200,
     "cd8a920ed141aa0407a22d59288652e9d9f1a7ee0c1e7c1ca699424da84a904d"
     "2d700caae7396ece96604440577da4f3aa22aeb8857f961c4cd8e06f0ae6610b"),
]
PUBLISHED_LENGTH = 512

EDGES = [0, 1, BLOCK - 1, BLOCK, BLOCK + 1, 2 * BLOCK - 1, 2 * BLOCK, 2 * BLOCK + 1]
RANDOM_CASES = 40


class Row:
    """Steps of the sponge, from a blank one on: each a case.

    The sponge is the message absorbed since it was blank, and the number of
    bytes squeezed of it, or None while absorbing has not ended.
    """

    def __init__(self):
        self.steps = [case(b".", b"")]
        self.message = b""
        self.taken = None

    def absorb(self, data, each=False):
        self.steps.append(case(b"(" if each else b"<", data))
        if each and not data:
            return self   # nothing is done
        if self.taken is not None:
            self.message, self.taken = b"", None   # an absorb after a squeeze begins afresh
        self.message += data
        return self

    def squeeze(self, length, each=False):
        output = b"" if each and not length else self.take(length)
        self.steps.append(case(b")" if each else b">", number(length), output))
        return self

    def squeeze_block(self):
        self.steps.append(case(b"=", b"", self.take(BLOCK)))
        return self

    def take(self, length):
        start = self.taken or 0
        self.taken = start + length   # also after a squeeze of nothing, which ends absorbing
        return hashlib.shake_256(self.message).digest(self.taken)[start:]


def published_cases():
    for message, begins in PUBLISHED:
        output = hashlib.shake_256(message).digest(PUBLISHED_LENGTH)
        if not output.hex().startswith(begins):
            raise ValueError("SHAKE256 here is not that of FIPS 202")
        yield Row().absorb(message).squeeze(PUBLISHED_LENGTH)
        yield Row().absorb(message, each=True).squeeze(PUBLISHED_LENGTH, each=True)


def edge_cases(rng):
    """Messages and outputs about the length of a block, at once and in blocks."""
    for message_length in EDGES:
        message = rng.randbytes(message_length)
        for length in EDGES:
            yield Row().absorb(message).squeeze(length)
        yield Row().absorb(message, each=True).squeeze_block().squeeze_block()
    yield Row().squeeze(BLOCK)
    yield Row().squeeze_block()
    yield Row().squeeze(32, each=True)


def order_cases(rng):
    """What an absorb after a squeeze does, and a squeeze or an absorb of nothing."""
    for each in (False, True):
        yield Row().absorb(b"ab").squeeze(5, each).absorb(b"c", each).squeeze(8)
        yield Row().absorb(b"ab").squeeze_block().absorb(b"c", each).squeeze_block()
        yield Row().absorb(b"ab").squeeze(0, each).absorb(b"c", each).squeeze(8)
        yield Row().absorb(b"ab").squeeze(0, each).squeeze(8, each)
        yield Row().absorb(b"ab").squeeze(5).absorb(b"", each).squeeze(8)
        yield Row().absorb(b"ab").absorb(b"", each).absorb(b"c", each).squeeze(8)
        yield Row().absorb(b"ab", each).squeeze(BLOCK).absorb(b"", each).absorb(b"c").squeeze(8)
    message = rng.randbytes(3 * BLOCK)
    for place in (1, BLOCK - 1, BLOCK):
        yield Row().absorb(message).squeeze(place).absorb(message).squeeze(32)
        yield Row().absorb(message).squeeze(place).squeeze_block().squeeze(place)


def random_cases(rng):
    """Messages in pieces of uneven size, with pieces of nothing, and outputs likewise."""
    for _ in range(RANDOM_CASES):
        row = Row()
        for size in uneven(rng, rng.choice([40, 400, 4000])):
            row.absorb(rng.randbytes(size), each=rng.random() < 0.3)
        for size in uneven(rng, rng.choice([40, 400, 2000])):
            if rng.random() < 0.2:
                row.squeeze_block()
            row.squeeze(size, each=rng.random() < 0.3)
        yield row


def uneven(rng, most):
    """Up to nine sizes, some of them 0, that sum to at most `most`."""
    marks = sorted(rng.randint(0, most) for _ in range(rng.randint(1, 7)))
    sizes = [end - start for start, end in zip([0] + marks, marks)]
    for _ in range(rng.randint(0, 2)):
        sizes.insert(rng.randint(0, len(sizes)), 0)
    return sizes


def sponge_cases():
    rng = random.Random("shake_vectors")
    rows = [*published_cases(), *edge_cases(rng), *order_cases(rng), *random_cases(rng)]
    return [step for row in rows for step in row.steps]


def memory_cases():
    """Those over the program's memory, which stays between them."""
    machine = Machine()
    scheme_cases(machine)
    envelope_cases(machine)
    return machine.cases


def files():
    """Each file's path below crates/, and its bytes."""
    cases = [*sponge_cases(), *sampling_cases(), *memory_cases()]
    yield os.path.join("vectors", "stdin"), b"".join(given for given, _ in cases)
    yield os.path.join("vectors", "stdout"), b"".join(line.hex().encode() + b"\n"
                                                      for _, line in cases)
    yield from roster_inputs.files()


def write(crates):
    for path, data in files():
        place = os.path.join(crates, path)
        os.makedirs(os.path.dirname(place), exist_ok=True)
        with open(place, "wb") as out:
            out.write(data)
        print(f"{path}: {len(data)} bytes")
    return 0


def check(crates):
    """Compares the files with what is made now. Answers the exit status."""
    passed = failed = 0
    for path, data in files():
        found = difference(read(os.path.join(crates, path)), data)
        if found:
            failed += 1
            print(f"{path}: {found}")
        else:
            passed += 1
    print(f"{passed} passed, {failed} failed")
    return 1 if failed else 0


def read(path):
    try:
        with open(path, "rb") as source:
            return source.read()
    except OSError:
        return None


def difference(got, wanted):
    """What tells the two apart in words, or nothing where they are the same."""
    if got is None:
        return "missing"
    if got == wanted:
        return ""
    at = next((i for i, (a, b) in enumerate(zip(got, wanted)) if a != b), min(len(got), len(wanted)))
    line = wanted.count(b"\n", 0, at) + 1
    return f"differs at byte {at}, line {line}; {len(got)} bytes and not {len(wanted)}"
