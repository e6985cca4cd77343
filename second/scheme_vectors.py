"""The vector program's cases of whole keys, signatures and checks, and of the three records.

The program keeps a memory between these cases and those of envelope_vectors.py. A place is the
start and the length of a stretch of it. The three records and the envelope have their places, and
what the calls are given has others:

    W start, bytes                                            writes into the memory
    K places of secret, public, s, e, seed_a, seed_y          makes a key
    S places of signature, secret, message, r; budget         signs
    C places of public, message, signature                    checks
    P places of public, t, seed_a                 Q lengths   writes, reads the public record
    E places of secret, s, e, seed_a, seed_y, g   F lengths   the secret record
    Z places of signature, z, c'                  Y lengths   the signature record
    R places of signature, secret, roster, r; budget, team    signs a roster
    V places of envelope, roster, signature; team             writes an envelope
    N place of envelope                                       reads it
    O places of public, envelope                              opens it

Where a record is read, its place stands before the lengths of the outputs. The line has the
answer's number, after signing the counter in two bytes, and SHAKE256 of each output after the call:
of a record's whole room where it is written. Outputs that are read into are full of bytes A5 before.
After reading or opening an envelope it has the number, the team number in two bytes and SHAKE256 of
two stretches: after reading of the roster and of the signature record, after opening of the roster
twice, by the length that comes back and by the entry that gives the roster itself. On refusal the
roster is empty, and the signature record's stretch starts after the head. None of them goes on past
the envelope's end.
"""

import random
from contextlib import ExitStack, contextmanager
from itertools import chain, combinations, groupby

import records
from answers import (BUDGET, CHECK_E, CHECK_S, DONE, HASH, LENGTH, MARK, MESSAGE, NO_COUNTER,
                     VALUE, Z)
from cases import UNTOUCHED, case, hashed, number as number_bytes
from envelope import (HEAD_BYTES, envelope_length, open_envelope, read_envelope, sign_roster,
                      two_bytes, write_envelope)
from records import (MINUS_128, cut, pack, pack_signed, read_public, read_secret, read_signature,
                     signed_bytes, unpack, unpack_signed, write_public, write_secret,
                     write_signature)
from scheme import check, make_key, sign
from sets import (BUDGET_LIMIT, DIGEST_BYTES, MARK_BYTES, MESSAGE_LIMIT, SEED_BYTES, SET_I,
                  bytes_for)
from sums import check_e, check_s, sum_of_largest

PUBLIC, SECRET, SIGNATURE, ENVELOPE = range(65536, 65536 + 4 * 16384, 16384)
ROOMS = {PUBLIC: 16384, SECRET: 16384, SIGNATURE: 16384, ENVELOPE: 40960}
KINDS = {PUBLIC: records.PUBLIC, SECRET: records.SECRET, SIGNATURE: records.SIGNATURE,
         ENVELOPE: records.ENVELOPE}   # in their marks
MEMORY = 524288
N, KN = SET_I.n, SET_I.k * SET_I.n

# Where each value starts in the memory. PUBLIC, SECRET, SIGNATURE and ENVELOPE are where those do.
MESSAGE_AT = 64          # before it is room for the piece
R_AT = 33000
S_AT = 34000
E_AT = S_AT + N
SEED_A_AT = E_AT + KN
SEED_Y_AT = SEED_A_AT + SEED_BYTES
G_AT = SEED_Y_AT + SEED_BYTES
T_AT = 40000
Z_AT = 57000
C_AT = 62000

# What a call that can pass is given, in the order of its places or lengths.
KEY = dict(s=(S_AT, N), e=(E_AT, KN), seed_a=(SEED_A_AT, SEED_BYTES),
           seed_y=(SEED_Y_AT, SEED_BYTES))
SIGNING = dict(r=(R_AT, SEED_BYTES), message=(MESSAGE_AT, 40), budget=BUDGET_LIMIT)
CHECKING = dict(message=(MESSAGE_AT, 40))
WRITE_PUBLIC = dict(t=(T_AT, 4 * KN), seed_a=(SEED_A_AT, SEED_BYTES))
READ_PUBLIC = dict(t=KN, seed_a=SEED_BYTES)
WRITE_SECRET = dict(KEY, g=(G_AT, DIGEST_BYTES))
READ_SECRET = dict(s=N, e=KN, seed_a=SEED_BYTES, seed_y=SEED_BYTES, g=DIGEST_BYTES)
WRITE_SIGNATURE = dict(z=(Z_AT, 4 * N), c=(C_AT, SEED_BYTES))
READ_SIGNATURE = dict(z=N, c=SEED_BYTES)


class Machine:
    """The program's memory, and the cases so far: each with its bytes and those of its line."""

    def __init__(self):
        self.memory = bytearray(UNTOUCHED * MEMORY)
        self.lengths = {PUBLIC: SET_I.public_length, SECRET: SET_I.secret_length,
                        SIGNATURE: SET_I.signature_length,
                        ENVELOPE: envelope_length(SET_I, 0)}   # lent of each
        self.counter = 0   # of the last signature
        self.cases = []

    def case(self, letter, places, number, *output, also=()):
        """A call with its places, then what it is given beside them."""
        piece = b"".join(map(number_bytes, [*sum(places, ()), *also]))
        self.cases.append(case(letter, piece, bytes([number]), *output))

    def write(self, start, data):
        self.cases.append(case(b"W", number_bytes(start) + data))
        self.memory[start:start + len(data)] = data

    @contextmanager
    def written(self, start, data):
        """The bytes stand in the memory for a while."""
        before = self.stretch((start, len(data)))
        self.write(start, data)
        yield
        self.write(start, before)

    @contextmanager
    def lent(self, record, length):
        """So many bytes of a record are lent for a while."""
        before = self.lengths[record]
        self.lengths[record] = length
        yield
        self.lengths[record] = before

    # What stands in the memory.

    def place(self, record):
        """The place of what is lent of a record."""
        return record, self.lengths[record]

    def record(self, record):
        return self.stretch(self.place(record))

    def room(self, record):
        return self.lengths[record]

    def stretch(self, place):
        start, length = place
        return bytes(self.memory[start:start + length])

    def after(self, record, number, made):
        """Takes what a call wrote into a record. Answers SHAKE256 of its room after the call."""
        if number == DONE:
            self.memory[record:record + len(made)] = made
        return hashed(self.stretch((record, ROOMS[record])))

    # The calls. Each answers its number.

    def make_key(self, *places):
        number, made = make_key(SET_I, *map(self.stretch, places), self.room(PUBLIC),
                                self.room(SECRET))
        public, secret = made or (None, None)
        self.case(b"K", [self.place(SECRET), self.place(PUBLIC), *places], number,
                  self.after(PUBLIC, number, public), self.after(SECRET, number, secret))
        return number

    def sign(self, r, message, budget):
        number, self.counter, made = sign(SET_I, self.record(SECRET), self.stretch(message),
                                          self.stretch(r), budget, self.room(SIGNATURE))
        self.case(b"S", [self.place(SIGNATURE), self.place(SECRET), message, r], number,
                  two_bytes(self.counter), self.after(SIGNATURE, number, made), also=[budget])
        return number

    def sign_roster(self, r, roster, budget, team):
        number, self.counter, made = sign_roster(SET_I, self.record(SECRET), team,
                                                 self.stretch(roster), self.stretch(r), budget,
                                                 self.room(SIGNATURE))
        self.case(b"R", [self.place(SIGNATURE), self.place(SECRET), roster, r], number,
                  two_bytes(self.counter), self.after(SIGNATURE, number, made),
                  also=[budget, team])
        return number

    def check(self, message):
        number = check(SET_I, self.record(PUBLIC), self.stretch(message), self.record(SIGNATURE))
        self.case(b"C", [self.place(PUBLIC), message, self.place(SIGNATURE)], number)
        return number

    def write_public(self, t, seed_a):
        values = unpack(self.stretch(t), 32, t[1] // 4)
        return self.wrote(b"P", [t, seed_a], PUBLIC,
                          write_public(SET_I, values, self.stretch(seed_a), self.room(PUBLIC)))

    def write_secret(self, *places):
        return self.wrote(b"E", places, SECRET,
                          write_secret(SET_I, *map(self.stretch, places), self.room(SECRET)))

    def write_signature(self, z, c):
        values = unpack_signed(self.stretch(z), 32, z[1] // 4)
        return self.wrote(b"Z", [z, c], SIGNATURE,
                          write_signature(SET_I, values, self.stretch(c), self.room(SIGNATURE)))

    def write_envelope(self, roster, team):
        return self.wrote(b"V", [roster, self.place(SIGNATURE)], ENVELOPE,
                          write_envelope(SET_I, team, self.stretch(roster),
                                         self.record(SIGNATURE), self.room(ENVELOPE)),
                          also=[team])

    def wrote(self, letter, places, record, answered, also=()):
        number, made = answered
        self.case(letter, [self.place(record), *places], number,
                  self.after(record, number, made), also=also)
        return number

    def read_public(self, *lengths):
        number, values = read_public(SET_I, self.record(PUBLIC), *lengths)
        return self.read(b"Q", PUBLIC, lengths, (4, 1), number,
                         values and (pack(values[0], 32), values[1]))

    def read_secret(self, *lengths):
        return self.read(b"F", SECRET, lengths, (1,) * 5,
                         *read_secret(SET_I, self.record(SECRET), *lengths))

    def read_signature(self, *lengths):
        number, values = read_signature(SET_I, self.record(SIGNATURE), *lengths)
        return self.read(b"Y", SIGNATURE, lengths, (4, 1), number,
                         values and (pack_signed(values[0], 32), values[1]))

    def read(self, letter, record, lengths, sizes, number, outputs):
        """Outputs of so many values, each of so many bytes."""
        outputs = outputs or [UNTOUCHED * (length * size)
                              for length, size in zip(lengths, sizes)]
        self.case(letter, [self.place(record)], number, *map(hashed, outputs), also=lengths)
        return number

    def read_envelope(self):
        envelope = self.record(ENVELOPE)
        number, team, _, length = read_envelope(SET_I, envelope)
        roster, signature = cut(envelope[HEAD_BYTES:], length, SET_I.signature_length)
        self.case(b"N", [self.place(ENVELOPE)], number, two_bytes(team), hashed(roster),
                  hashed(signature))
        return number

    def open_envelope(self):
        envelope = self.record(ENVELOPE)
        number, team, start, length = open_envelope(SET_I, self.record(PUBLIC), envelope)
        roster = envelope[start:start + length]
        self.case(b"O", [self.place(PUBLIC), self.place(ENVELOPE)], number, two_bytes(team),
                  hashed(roster), hashed(roster))
        return number


# What can be wrong with a call: the number that it alone gives, and how long it lasts, a context
# over the machine and what the call is given.

def given(number, **others):
    """The call is given something else."""
    @contextmanager
    def wrong(_, inputs):
        inputs.update(others)
        yield
    return number, wrong


def lent(record, length):
    return LENGTH, lambda machine, _: machine.lent(record, length)


def spoilt(number, start, data):
    """Other bytes stand in the memory."""
    return number, lambda machine, _: machine.written(start, data)


def spoilt_field(number, record, width, index, value):
    """Value `index` of a record's packed values, which start after the mark, is another."""
    def wrong(machine, _):
        first, place = divmod(8 * MARK_BYTES + width * index, 8)
        length = bytes_for(place + width)
        whole = int.from_bytes(machine.stretch((record + first, length)), "little")
        whole &= ~(((1 << width) - 1) << place)
        whole |= value % (1 << width) << place
        return machine.written(record + first, whole.to_bytes(length, "little"))
    return number, wrong


def flipped(number, record, at):
    """One bit of a record is the other."""
    return number, lambda machine, _: machine.written(
        record + at, bytes([machine.memory[record + at] ^ 1]))


def other_marks(record, start=None):
    """Marks that differ in the first byte, in the second, and in both: of the record, or of one of
    its kind that starts elsewhere."""
    first, second = SET_I.record_mark(KINDS[record])
    return [spoilt(MARK, record if start is None else start, bytes(mark))
            for mark in ([first ^ 2, second], [first, second ^ 0x80], [second, first])]


def other_rooms(record, length):
    return [lent(record, other) for other in (length - 1, length + 1, 0)]


def other_lengths(inputs):
    """An input or output that is one short, one long, or empty."""
    wrong = []
    for name, named in inputs.items():
        if isinstance(named, tuple):
            start, length = named
            size = 4 if name in ("t", "z") else 1   # bytes of a value
            others = [(start, length - size), (start, length + size), (start, 0)]
        else:
            others = [named - 1, named + 1, 0]
        wrong += [given(LENGTH, **{name: other}) for other in others]
    return wrong


def answered(machine, call, inputs, number, *wrongs):
    """A case that is meant to answer this number, with what is wrong."""
    inputs = dict(inputs)
    with ExitStack() as stack:
        for _, wrong in wrongs:
            stack.enter_context(wrong(machine, inputs))
        got = call(*inputs.values())
    if got != number:
        raise ValueError(f"{call.__name__} answered {got} and not {number}")


def refusals_in_order(machine, call, inputs, tests):
    """What is wrong by each test, each alone, and then the first of each test by two: the earlier
    test counts."""
    for wrong in chain(*tests):
        answered(machine, call, inputs, wrong[0], wrong)
    for one, other in combinations([test[0] for test in tests], 2):
        answered(machine, call, inputs, one[0], one, other)


def refusals(machine, call, inputs, wrongs):
    """The same of a call whose tests have rising numbers: the lower counts."""
    tests = [list(test) for _, test in groupby(wrongs, key=lambda wrong: wrong[0])]
    refusals_in_order(machine, call, inputs, tests)


# Secrets: polynomials of small coefficients.

def ordinary(rng):
    """As they are drawn for a key: they pass, and most are far from the bound."""
    while True:
        p = [round(rng.gauss(0, 8.5)) for _ in range(N)]
        if check_s(SET_I, p) and check_e(SET_I, p):
            return p


def fullest(rng, *largest):
    """The h largest sum to 554, with these among them. The others are as large as that allows."""
    rest, places = SET_I.E - sum(map(abs, largest)), SET_I.h - len(largest)
    level = rest // places
    tops = [level + (i < rest % places) for i in range(places)]
    low = [rng.randint(-level, level) for _ in range(N - SET_I.h)]
    p = [*largest, *(v * rng.choice((-1, 1)) for v in tops), *low]
    rng.shuffle(p)
    if sum_of_largest(SET_I.h, p) != SET_I.E:
        raise ValueError("another sum than the one that is meant")
    return p


def new_key(machine, rng, polynomial):
    """A key of such polynomials as s and e_1..e_k, with fresh seeds."""
    row = [v for _ in range(1 + SET_I.k) for v in polynomial()]
    machine.write(S_AT, pack_signed(row, 8) + rng.randbytes(2 * SEED_BYTES))
    answered(machine, machine.make_key, KEY, DONE)


def minus_128(start):
    """A byte of s and bytes of e that are -128: the first, the last, one in e_3."""
    return [spoilt(VALUE, start + at, bytes([MINUS_128]))
            for at in (0, N - 1, N, N + KN - 1, 3 * N + 500)]


def too_large(machine, start):
    """The smallest secrets that do not pass: the largest coefficient of a fullest one is larger."""
    wrong = []
    row = signed_bytes(machine.stretch((start, N + KN)))
    for i in range(1 + SET_I.k):
        at = max(range(i * N, i * N + N), key=lambda at: abs(row[at]))
        larger = row[at] + (1 if row[at] > 0 else -1)
        wrong.append(spoilt(CHECK_E if i else CHECK_S, start + at,
                            pack_signed([larger], 8)))
    return wrong


# The cases.

def blank_cases(machine):
    """Before anything is written all bytes are A5, and what is refused leaves them so."""
    answered(machine, machine.make_key, KEY, CHECK_S)
    answered(machine, machine.make_key, KEY, LENGTH, given(LENGTH, seed_y=(MEMORY - 536, 1000)))
    answered(machine, machine.sign, SIGNING, MARK)
    answered(machine, machine.check, CHECKING, MARK)
    answered(machine, machine.read_public, READ_PUBLIC, MARK)
    answered(machine, machine.read_secret, READ_SECRET, MARK)
    answered(machine, machine.read_signature, READ_SIGNATURE, MARK)


def signed_and_checked(machine, rng, length):
    """A signature with a fresh r on so much of the message, and then with other budgets."""
    machine.write(R_AT, rng.randbytes(SEED_BYTES))
    place = dict(message=(MESSAGE_AT, length))
    answered(machine, machine.sign, dict(SIGNING, **place), DONE)
    counter = machine.counter
    answered(machine, machine.check, place, DONE)
    answered(machine, machine.sign, dict(SIGNING, budget=counter, **place), DONE)
    if counter > 1:
        answered(machine, machine.sign, dict(SIGNING, budget=counter - 1, **place), NO_COUNTER)


def signed_at_once(machine, rng):
    """A signature whose first counter passes."""
    number = NO_COUNTER
    while number != DONE:
        r = rng.randbytes(SEED_BYTES)
        number = sign(SET_I, machine.record(SECRET), machine.stretch(SIGNING["message"]), r, 1,
                      SET_I.signature_length)[0]
    machine.write(R_AT, r)
    answered(machine, machine.sign, dict(SIGNING, budget=1), DONE)
    answered(machine, machine.check, CHECKING, DONE)


def whole_cases(machine, rng):
    """Keys of ordinary secrets, with signatures on messages of several lengths."""
    machine.write(MESSAGE_AT, rng.randbytes(MESSAGE_LIMIT + 1))
    for lengths in ((0, 1, MESSAGE_LIMIT), (2, 135, 1000)):
        new_key(machine, rng, lambda: ordinary(rng))
        for length in lengths:
            signed_and_checked(machine, rng, length)
        long = dict(message=(MESSAGE_AT, MESSAGE_LIMIT + 1))
        answered(machine, machine.sign, dict(SIGNING, **long), MESSAGE)
        answered(machine, machine.check, long, MESSAGE)
    signed_at_once(machine, rng)


def edge_cases(machine, rng):
    """Keys of the fullest secrets, and what is refused of them."""
    for largest in ((127, -127, 127, -127), (26,)):
        new_key(machine, rng, lambda: fullest(rng, *largest))
        answered(machine, machine.check, CHECKING, HASH)   # the signature is another key's
        signed_and_checked(machine, rng, 40)
    refusals(machine, machine.make_key, KEY,
             other_lengths(KEY) + other_rooms(PUBLIC, SET_I.public_length)
             + other_rooms(SECRET, SET_I.secret_length) + minus_128(S_AT)
             + too_large(machine, S_AT))


def signing_cases(machine, call, inputs, *too_long):
    """What signing refuses of the key that the records hold."""
    wrongs = (other_lengths(dict(r=inputs["r"])) + other_rooms(SECRET, SET_I.secret_length)
              + other_rooms(SIGNATURE, SET_I.signature_length) + other_marks(SECRET)
              + [given(MESSAGE, **other) for other in too_long]
              + [given(BUDGET, budget=budget) for budget in (0, 1025, 65536, 65537, 2**32 - 1)]
              + minus_128(SECRET + MARK_BYTES) + too_large(machine, SECRET + MARK_BYTES))
    refusals(machine, call, inputs, wrongs)
    answered(machine, call, inputs, DONE)
    short = dict(inputs, budget=machine.counter - 1)
    answered(machine, call, short, NO_COUNTER)
    for number, wrong in dict(wrongs).items():
        answered(machine, call, short, number, (number, wrong))


def checking_cases(machine, rng):
    """What checking refuses of the signature that the records hold."""
    answered(machine, machine.check, CHECKING, DONE)
    t_width, z_width, bound = SET_I.t_width, SET_I.z_width, SET_I.z_bound
    wrongs = (other_rooms(PUBLIC, SET_I.public_length)
              + other_rooms(SIGNATURE, SET_I.signature_length)
              + other_marks(PUBLIC) + other_marks(SIGNATURE)
              + [given(MESSAGE, message=(MESSAGE_AT, MESSAGE_LIMIT + 1))]
              + [spoilt_field(VALUE, PUBLIC, t_width, index, value) for index, value in
                 ((0, SET_I.q), (1023, 2**29 - 1), (1024, SET_I.q), (KN - 1, SET_I.q))]
              + [spoilt_field(Z, SIGNATURE, z_width, index, value) for index, value in
                 ((0, bound + 1), (1, -bound - 1), (500, -2**19), (N - 1, 2**19 - 1))]
              + [flipped(HASH, SIGNATURE, SET_I.signature_length - 1),
                 flipped(HASH, SIGNATURE, MARK_BYTES + SET_I.z_bytes),
                 flipped(HASH, SIGNATURE, MARK_BYTES), flipped(HASH, PUBLIC, MARK_BYTES),
                 flipped(HASH, PUBLIC, SET_I.public_length - 1),
                 given(HASH, message=(MESSAGE_AT, 39)), given(HASH, message=(MESSAGE_AT, 41)),
                 given(HASH, message=(MESSAGE_AT + 1, 40)),
                 spoilt_field(HASH, PUBLIC, t_width, KN - 1, SET_I.q - 1),
                 spoilt_field(HASH, SIGNATURE, z_width, 0, bound),
                 spoilt_field(HASH, SIGNATURE, z_width, N - 1, -bound)])
    refusals(machine, machine.check, CHECKING, wrongs)
    with_another_g(machine, rng)


def with_another_g(machine, rng):
    """A secret record whose g is another signs, and the signature is refused."""
    at = SET_I.secret_length - DIGEST_BYTES
    with machine.written(SECRET + at, rng.randbytes(DIGEST_BYTES)):
        answered(machine, machine.sign, SIGNING, DONE)
        answered(machine, machine.check, CHECKING, HASH)
    answered(machine, machine.sign, SIGNING, DONE)
    answered(machine, machine.check, CHECKING, DONE)


def public_cases(machine, rng):
    refusals(machine, machine.read_public, READ_PUBLIC,
             other_lengths(READ_PUBLIC) + other_rooms(PUBLIC, SET_I.public_length)
             + other_marks(PUBLIC)
             + [spoilt_field(VALUE, PUBLIC, SET_I.t_width, index, value) for index, value in
                ((0, SET_I.q), (KN - 1, 2**29 - 1))])
    answered(machine, machine.read_public, READ_PUBLIC, DONE)
    t = [0, SET_I.q - 1, *(rng.randrange(SET_I.q) for _ in range(KN - 4)), SET_I.q - 1, 0]
    machine.write(T_AT, pack(t, 32))
    refusals(machine, machine.write_public, WRITE_PUBLIC,
             other_lengths(WRITE_PUBLIC) + other_rooms(PUBLIC, SET_I.public_length)
             + [spoilt(VALUE, T_AT + 4 * index, pack([value], 32)) for index, value in
                ((0, SET_I.q), (1023, 2**29), (KN - 1, 2**32 - 1))])
    answered(machine, machine.write_public, WRITE_PUBLIC, DONE)
    answered(machine, machine.read_public, READ_PUBLIC, DONE)


def secret_cases(machine, rng):
    refusals(machine, machine.read_secret, READ_SECRET,
             other_lengths(READ_SECRET) + other_rooms(SECRET, SET_I.secret_length)
             + other_marks(SECRET) + minus_128(SECRET + MARK_BYTES))
    answered(machine, machine.read_secret, READ_SECRET, DONE)
    row = [127, -127, *(rng.randint(-127, 127) for _ in range(N + KN - 4)), -127, 127]
    machine.write(S_AT,
                  pack_signed(row, 8) + rng.randbytes(2 * SEED_BYTES + DIGEST_BYTES))
    refusals(machine, machine.write_secret, WRITE_SECRET,
             other_lengths(WRITE_SECRET) + other_rooms(SECRET, SET_I.secret_length)
             + minus_128(S_AT))
    answered(machine, machine.write_secret, WRITE_SECRET, DONE)
    answered(machine, machine.read_secret, READ_SECRET, DONE)


def signature_cases(machine, rng):
    bound = SET_I.z_bound
    refusals(machine, machine.read_signature, READ_SIGNATURE,
             other_lengths(READ_SIGNATURE) + other_rooms(SIGNATURE, SET_I.signature_length)
             + other_marks(SIGNATURE)
             + [spoilt_field(Z, SIGNATURE, SET_I.z_width, index, value) for index, value in
                ((0, bound + 1), (N - 1, -bound - 1), (1, -2**19))])
    answered(machine, machine.read_signature, READ_SIGNATURE, DONE)
    z = [bound, -bound, *(rng.randint(-bound, bound) for _ in range(N - 4)), -bound, bound]
    machine.write(Z_AT, pack_signed(z, 32))
    machine.write(C_AT, rng.randbytes(SEED_BYTES))
    refusals(machine, machine.write_signature, WRITE_SIGNATURE,
             other_lengths(WRITE_SIGNATURE) + other_rooms(SIGNATURE, SET_I.signature_length)
             + [spoilt(Z, Z_AT + 4 * index, pack_signed([value], 32)) for index, value in
                ((0, bound + 1), (N - 1, -bound - 1), (500, 2**31 - 1), (501, -2**31))])
    answered(machine, machine.write_signature, WRITE_SIGNATURE, DONE)
    answered(machine, machine.read_signature, READ_SIGNATURE, DONE)


def scheme_cases(machine):
    rng = random.Random("scheme_vectors")
    blank_cases(machine)
    whole_cases(machine, rng)
    edge_cases(machine, rng)
    signing_cases(machine, machine.sign, SIGNING, dict(message=(MESSAGE_AT, MESSAGE_LIMIT + 1)))
    checking_cases(machine, rng)
    public_cases(machine, rng)
    secret_cases(machine, rng)
    signature_cases(machine, rng)
