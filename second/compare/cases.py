"""The cases of each entry: at its limits, each fault alone, and at random, whole and damaged."""

import ctypes

from checks import envelopes, keys_and_signatures, record_forms
from checks.damage import Fault, by, changed, with_bit_flipped
from compare import edges, valid
from compare.face import Given, Output, Returned


def more_than_held(size, *names):
    """Faults of a stream whose candidates have so many bytes."""
    def ask(inputs):
        for name in names:
            inputs[name] = len(inputs["lent"]) // size + 1

    def faults():
        inputs = {"lent": bytes(range(60)), **{name: 5 for name in names}}
        return inputs, [Fault("one more than held", 1, ask),
                        Fault("no stream", 1, by("lent", lambda lent: b""))]
    return faults


# Inputs of each entry, and its faults: the assertions' own, but for the streams.
FAULTS = {
    "make_key": keys_and_signatures.key_faults,
    "sign": keys_and_signatures.sign_faults,
    "sign_roster": envelopes.sign_roster_faults,
    "check": keys_and_signatures.check_faults,
    "write_public": record_forms.write_public_faults,
    "read_public": record_forms.read_public_faults,
    "write_secret": record_forms.write_secret_faults,
    "read_secret": record_forms.read_secret_faults,
    "write_signature": record_forms.write_signature_faults,
    "read_signature": record_forms.read_signature_faults,
    "write_envelope": envelopes.write_faults,
    "read_envelope": envelopes.read_faults,
    "open_envelope": envelopes.open_faults,
    "take_a": more_than_held(4, "out_len"),
    "take_y": more_than_held(3, "out_len"),
    "take_positions": more_than_held(3, "positions_len", "signs_len"),
    "shake256": lambda: ({}, []),
}


def cases(entry, rng, count):
    """All cases of the entry, each as (name, inputs), with so many at random."""
    for i, inputs in enumerate(getattr(edges, entry.name)(rng)):
        yield f"edge {i}", inputs
    inputs, faults = FAULTS[entry.name]()
    for fault in faults:
        yield fault.name, changed(inputs, fault)
    for i in range(count):
        inputs = getattr(valid, entry.name)(rng)
        if i % 3 == 1:
            inputs = damaged(rng, inputs, faults)
        elif i % 3 == 2:
            inputs = shaken(rng, entry, inputs)
        yield f"random {i}", inputs


def damaged(rng, inputs, faults):
    """With one to three of the faults, that of the earliest test last, as in the assertions."""
    count = min(len(faults), rng.randint(1, 3))
    chosen = sorted(rng.sample(range(len(faults)), count), reverse=True)
    return changed(inputs, *(faults[i] for i in chosen))


def shaken(rng, entry, inputs):
    """With one input changed at random, whatever it means."""
    parameter = rng.choice([p for p in entry.parameters if not isinstance(p, Returned)])
    value = inputs[parameter.name]
    if isinstance(parameter, Output):
        value = max(0, value + rng.choice([-1000, -2, -1, 1, 2, 1000]))
    elif isinstance(parameter, Given):
        value = random_number(rng, parameter.type)
    elif isinstance(value, bytes):
        value = shaken_bytes(rng, value)
    else:
        value = shaken_numbers(rng, value, random_number(rng, parameter.type))
    return {**inputs, parameter.name: value}


def random_number(rng, kind):
    return kind(rng.randrange(1 << 8 * ctypes.sizeof(kind))).value


def shaken_bytes(rng, data):
    """A bit flipped, cut off, longer, or all anew."""
    way = rng.randrange(5)
    if way < 2 and data:
        return with_bit_flipped(data, rng.randrange(len(data)), rng.randrange(8))
    if way == 2:
        return data[:rng.randrange(len(data) + 1)]
    if way == 3:
        return rng.randbytes(len(data))
    return data + rng.randbytes(rng.randint(1, 9))


def shaken_numbers(rng, values, other):
    """One number replaced by the other, cut off, or longer."""
    at, way = rng.randrange(len(values)), rng.randrange(3)
    if way == 0:
        return values[:at] + [other] + values[at + 1:]
    return values[:at] if way == 1 else values + [other]
