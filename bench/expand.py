#!/usr/bin/env python3
"""Times the expansion of random tables, and fails where it is slow.

  bench/expand.py [RUNS]

A table has 12 or 16 inputs and one output, and a row for each point where the output is 1, about half of the points: some 2,000 and 32,000
rows of minterms. From outside only the whole program can be timed, so the script parts the time by three sources:

- whole: the table itself. The program reads it, expands it, and makes and writes the network and its vectors (status 0).
- reading: the same rows and then a line with a fault. The program reads all, refuses it and ends (status 5).
- expansion: a table with more such outputs, each of its own random points, so many that their terms together pass the limit. The program
  reads it, expands all outputs, and refuses it before it makes a network (status 7); what is left after reading (measured for these rows
  too) is divided by the number of outputs. The limit on seconds is on this.

Each source is run RUNS times (by default 5), and the least processor seconds count. The program is the one that `rt run` or `rt ci` left in
crates/andexor/out, or that the variable ANDEXOR names. The status is 0 where the expansions keep the limits, 1 where one does not or a
run ends otherwise than the list says, and 2 where the program is missing.
"""
import random
import sys
import tempfile
from typing import NamedTuple

import program


class Case(NamedTuple):
    inputs: int
    # the outputs of the source that has too many terms: each has about half of 2 to the inputs, and the limit on all is 65,536
    outputs: int
    most_seconds: float


CASES = [Case(12, 48, 0.2), Case(16, 3, 5.0)]


def rows(inputs, outputs):
    """The rows of a table whose outputs are each 1 at about half of the points."""
    draw = random.Random(inputs * 100 + outputs)
    marks = [format(draw.getrandbits(outputs), f"0{outputs}b") for _ in range(1 << inputs)]
    return [f"{point:0{inputs}b} {outs}" for point, outs in enumerate(marks) if "1" in outs]


def text(inputs, outputs, lines, end):
    return "".join(line + "\n" for line in [f".i {inputs}", f".o {outputs}", *lines, end])


def least_seconds(folder, source, status, runs):
    """The least time of the runs, each of which must end with the status."""
    path = program.write(folder, "in.pla", source)
    times = []
    for _ in range(runs):
        done = program.synth(folder, path)
        times.append(done.seconds)
        if done.status != status:
            sys.exit(f"status {done.status}, not {status}: {done.report.strip()}")
    return min(times)


def keeps_limit(folder, case, runs):
    inputs, outputs, most = case
    table, wide = rows(inputs, 1), rows(inputs, outputs)
    whole = least_seconds(folder, text(inputs, 1, table, ".e"), 0, runs)
    reading = least_seconds(folder, text(inputs, 1, table, ".fault"), 5, runs)
    wide_reading = least_seconds(folder, text(inputs, outputs, wide, ".fault"), 5, runs)
    wide_refused = least_seconds(folder, text(inputs, outputs, wide, ".e"), 7, runs)
    expansion = (wide_refused - wide_reading) / outputs
    rest = whole - reading - expansion
    print(
        f"{inputs} inputs, {len(table)} rows: whole {whole:.3f} s: reading {reading:.3f}, expansion {expansion:.3f} (limit {most}), "
        f"network, vectors and texts {rest:.3f}"
    )
    return expansion <= most


def main(runs):
    if program.is_missing():
        return 2
    with tempfile.TemporaryDirectory() as folder:
        kept = [keeps_limit(folder, case, runs) for case in CASES]
    return int(not all(kept))


if __name__ == "__main__":
    if len(sys.argv) > 2 or not all(word.isdecimal() and int(word) > 0 for word in sys.argv[1:]):
        sys.exit(__doc__)
    sys.exit(main(int(sys.argv[1]) if len(sys.argv) == 2 else 5))
