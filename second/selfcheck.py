"""Runs every group of assertions and counts them."""

from checks import (arithmetic, candidates, envelopes, keys_and_signatures, record_forms,
                    small_sets, twelve_sums)
from checks.tally import Tally

MODULES = [twelve_sums, arithmetic, candidates, record_forms, keys_and_signatures,
           envelopes, small_sets]


def run():
    """Prints a line for each group and the count last. Answers the exit status."""
    total = Tally()
    for module in MODULES:
        for name, group in module.GROUPS:
            total.add(run_group(name, group))
    print(f"{total.passed} passed, {total.failed} failed")
    return 1 if total.failed else 0


def run_group(name, group):
    tally = Tally()
    try:
        group(tally.expect)
    except Exception as error:   # a group that breaks off has failed
        tally.expect(f"{name} broke off", repr(error), "no error")
    print(f"{name}: {tally.passed} of {tally.passed + tally.failed}", flush=True)
    return tally
