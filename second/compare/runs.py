"""Goes through every entry's cases and counts."""

import argparse
import random
import time

from checks.tally import Tally
from compare.cases import cases
from compare.entries import ENTRIES
from compare.face import LIBRARY, Output, Returned, buffers, call, load, raw

CASES = 60   # at random, for each entry


def run(arguments):
    """Prints a line for each entry and the count last. Answers the exit status."""
    parser = argparse.ArgumentParser(prog="python3 second compare")
    parser.add_argument("--cases", type=int, default=CASES,
                        help="how many random cases each entry gets beside its fixed ones")
    parser.add_argument("--seed", default="1")
    options = parser.parse_args(arguments)
    total = Tally()
    try:
        library = load()
    except OSError as error:
        total.expect("the library (scripts/face builds it)", str(error), LIBRARY)
    else:
        for entry in ENTRIES:
            total.add(compare(library, entry, options))
    print(f"{total.passed} passed, {total.failed} failed")
    return 1 if total.failed else 0


def compare(library, entry, options):
    rng = random.Random(f"{options.seed} {entry.name}")
    tally, seen, began = Tally(), set(), time.time()
    try:
        for name, inputs in cases(entry, rng, options.cases):
            number, found = outcome(library, entry, inputs, rng)
            tally.expect(f"{entry.name}, {name}", found, [])
            seen.add(number)
    except Exception as error:   # an entry that breaks off has failed
        tally.expect(f"{entry.name} broke off", repr(error), "no error")
    tally.expect(f"{entry.name}, the numbers that were answered", sorted(seen),
                 sorted(entry.numbers))
    print(f"{entry.name}: {tally.passed} of {tally.passed + tally.failed}, answered "
          f"{' '.join(map(str, sorted(seen)))}, {time.time() - began:.1f} s", flush=True)
    return tally


def outcome(library, entry, inputs, rng):
    """The number that the library answers, and in words all that differs."""
    made = buffers(entry, inputs, rng)
    number = call(library, entry, inputs, made)
    own_number, values = entry.own(inputs)
    found = [] if number == own_number else [f"it answers {number} and not {own_number}"]
    return number, found + differences(entry, made, values)


def differences(entry, made, values):
    """Which buffers hold what they should not. All but outputs on success keep what they held."""
    found, values = [], iter(values)
    for parameter in entry.parameters:
        if parameter.name not in made:
            continue
        buffer = made[parameter.name]
        wanted = buffer.held
        if isinstance(parameter, Returned):
            wanted = raw(parameter.type, [next(values)])
        elif isinstance(parameter, Output):
            value = next(values)
            wanted = wanted if value is None else raw(parameter.type, value)
        if not buffer.holds(wanted):
            found.append(f"{parameter.name}: {place(buffer.now(), wanted)}")
    return found


def place(now, wanted):
    at = next((i for i, (a, b) in enumerate(zip(now, wanted)) if a != b), None)
    return "beside it" if at is None else f"byte {at} is {now[at]} and not {wanted[at]}"
