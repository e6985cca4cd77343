"""The second program: qTESLA-p-I records, signatures and roster envelopes.

It is written from the scope paper and its change requests alone and shares
nothing with the proved crates, so that the two can be compared. From the
repository's root:

    python3 second selfcheck    runs its own assertions; the last line counts them
    python3 second roster       the roster program: standard input to one line
    python3 second inputs PROGRAM   runs the proved roster program on its kept inputs and compares its lines
    python3 second vectors [DIR]    writes the vector program's stdin and stdout below crates/, or DIR
    python3 second vectors --check  compares those files with what it would write
    python3 second compare [--cases N] [--seed S]
                                compares every entry of target/face/libmaesikkong.so with its own

sets.py has the numbers of a set, answers.py the numbers that come back,
sums.py the arithmetic, streams.py SHAKE256 and what is drawn from it,
records.py, scheme.py and envelope.py the entries, program.py the line,
vectors.py the vector program's files, with sampling_vectors.py,
scheme_vectors.py, envelope_vectors.py and roster_inputs.py. checks/ holds the
assertions, compare/ the comparison in bulk with the library that scripts/face
builds.
"""

import os
import sys

sys.dont_write_bytecode = True   # running leaves no files behind

CRATES = os.path.join(os.path.dirname(os.path.dirname(os.path.abspath(__file__))), "crates")


def selfcheck():
    import selfcheck as assertions
    return assertions.run()


def roster():
    from program import line
    from sets import SET_I
    sys.stdout.write(line(SET_I, sys.stdin.buffer.read()))
    return 0


def vectors(*where):
    import vectors as programs
    if where == ("--check",):
        return programs.check(CRATES)
    return programs.write(*where or (CRATES,))


def inputs(program):
    import roster_inputs
    return roster_inputs.run(program, os.path.join(CRATES, "roster", "tests"))


def compare(*options):
    from compare.runs import run
    return run(options)


def main(arguments):
    commands = {("selfcheck", 0): selfcheck, ("roster", 0): roster, ("inputs", 1): inputs,
                ("vectors", 0): vectors, ("vectors", 1): vectors,
                ("compare", 0): compare, ("compare", 2): compare, ("compare", 4): compare}
    command = commands.get((arguments[0], len(arguments) - 1)) if arguments else None
    if command is None:
        sys.stderr.write(__doc__)
        return 2
    return command(*arguments[1:])


if __name__ == "__main__":
    sys.exit(main(sys.argv[1:]))
