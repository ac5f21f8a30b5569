#!/usr/bin/env python3
"""Times the factored form on sources with long lists of cubes, and fails where one takes too long.

  bench/rewriting.py [SECONDS] [WORD ..]

Each source has ten inputs and one output, and is written as a PLA of its minterms:

- the product of all ten complemented inputs, whose expansion at plain literals has all 1,024 terms: the most that the form may have;
- functions whose expansion has so many random terms of the 1,024;
- random functions that are 1 at so many of the 1,024 points. Their expansions have about half of the terms.

For each the script prints the numbers of terms, cubes, gates, faults, vectors and undetectable faults, and the processor seconds of the
synthesis in factored form; beside them those of the Reddy form, which reads and expands the same source but rewrites nothing and looks for no
test; and, where Berkeley ABC is installed, the number of cubes that its `&exorcism` has. With WORDs it takes only the sources whose names
hold one of them.

The program is the one that `rt run` or `rt ci` left in crates/andexor/out, or that the variable ANDEXOR names. The status is 0 where each
synthesis ends with status 0 within SECONDS (by default 60), 1 where one does not (it is ended after ten times as many), and 2 where the
program is missing.
"""
import os
import random
import sys
import tempfile

import as_blif
import berkeley
import program

INPUTS = 10
POINTS = 1 << INPUTS
NUMBERS = ("terms", "cubes", "gates", "faults", "vectors", "unchanged")


def values_of(terms):
    """The function that is the EXOR of these terms, sets of plain inputs as numbers: its value at each point."""
    values = [int(point in terms) for point in range(POINTS)]
    for bit in (1 << k for k in range(INPUTS)):
        for point in range(POINTS):
            if point & bit:
                values[point] ^= values[point ^ bit]
    return values


def pla(values):
    rows = [f"{point:0{INPUTS}b} 1" for point, value in enumerate(values) if value]
    return "".join(line + "\n" for line in [f".i {INPUTS}", ".o 1", *rows, ".e"])


def sources():
    draw = random.Random(1)
    yield "all 1024 terms", values_of(set(range(POINTS)))
    for count in (64, 128, 256, 512, 768, 1000):
        yield f"{count} random terms", values_of(set(draw.sample(range(POINTS), count)))
    for count in (8, 32, 128, 512, 896):
        ones = set(draw.sample(range(POINTS), count))
        yield f"{count} random points", [int(point in ones) for point in range(POINTS)]


def cubes_of_abc(folder, path):
    if berkeley.ABC is None:
        return ""
    source = program.write(folder, "source.blif", "\n".join(as_blif.cover(path)) + "\n")
    _, cubes = berkeley.exorcism(source, 0, os.path.join(folder, "out.esop"))
    return f", &exorcism {cubes} cubes"


def is_in_time(folder, name, values, seconds):
    path = program.write(folder, "in.pla", pla(values))
    made = program.synth(folder, path, "factored", seconds=10 * seconds)
    plain = program.synth(folder, path, "reddy", seconds=10 * seconds)
    good = made.status == 0 and made.seconds <= seconds
    told = "ended" if made.status is None else f"status {made.status}"
    if made.status == 0:
        told = " ".join(f"{number} {made.number(number)}" for number in NUMBERS)
    print(
        f"{name}: {told}: {made.seconds:.2f} s (Reddy form {plain.seconds:.2f}){cubes_of_abc(folder, path)}" + ("" if good else " -- NOT KEPT"),
        flush=True,
    )
    return good


def main(seconds, words):
    if program.is_missing():
        return 2
    with tempfile.TemporaryDirectory() as folder:
        asked = [source for source in sources() if not words or any(word in source[0] for word in words)]
        kept = [is_in_time(folder, name, values, seconds) for name, values in asked]
    return int(not all(kept))


if __name__ == "__main__":
    words = sys.argv[1:]
    if "--help" in words:
        sys.exit(__doc__)
    most = float(words.pop(0)) if words and words[0].isdecimal() else 60.0
    sys.exit(main(most, words))
