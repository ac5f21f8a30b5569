#!/usr/bin/env python3
"""Compares plain literals with a searched polarity, source by source.

  bench/searched.py [SECONDS]

For each source of bench/sources, and for random rows over 16 inputs and 8 outputs whose expansions at plain literals have about 20,000
terms, it prints the terms at plain literals and at the polarity that `--polarity search` chooses, that polarity, and the processor
seconds of both runs.

The program is the one that `rt run` or `rt ci` left in crates/andexor/out, or that the variable ANDEXOR names. The status is 0 where each
run ends with status 0 within SECONDS (by default 60) and no search has more terms than the plain literals, 1 where one does not, and 2
where the program is missing.
"""
import os
import random
import sys
import tempfile

import program


def random_rows(inputs, outputs, rows, literals, complemented, seed):
    """Rows of so many literals each, a part of them complemented, each row for one output."""
    draw = random.Random(seed)
    lines = [f".i {inputs}", f".o {outputs}"]
    for k in range(rows):
        row = ["-"] * inputs
        for j in draw.sample(range(inputs), literals):
            row[j] = "0" if draw.random() < complemented else "1"
        outs = "".join("1" if o == k % outputs else "0" for o in range(outputs))
        lines.append("".join(row) + " " + outs)
    return "".join(line + "\n" for line in [*lines, ".e"])


def compare(folder, name, source, seconds):
    plain = program.synth(folder, source, polarity="positive", seconds=seconds)
    searched = program.synth(folder, source, polarity="search", seconds=seconds)
    if plain.status != 0 or searched.status != 0:
        print(f"{name:24} status {plain.status} and {searched.status} after {plain.seconds:.2f} and {searched.seconds:.2f} s")
        return False
    terms, fewer = plain.number("terms"), searched.number("terms")
    digits = next(line.split()[1] for line in searched.report.splitlines() if line.startswith("polarity "))
    print(f"{name:24} {terms:7} terms, searched {fewer:7}   {plain.seconds:6.2f} s, searched {searched.seconds:6.2f} s   {digits}")
    return fewer <= terms


def main():
    if program.is_missing():
        return 2
    seconds = float(sys.argv[1]) if len(sys.argv) > 1 else 60.0
    good = True
    with tempfile.TemporaryDirectory() as folder:
        for source in program.sources():
            good &= compare(folder, os.path.basename(source), source, seconds)
        for literals, rows in ((8, 110), (10, 140), (12, 75)):
            path = program.write(folder, "rows.pla", random_rows(16, 8, rows, literals, 0.6, 1))
            good &= compare(folder, f"{rows} rows of {literals}", path, seconds)
    return 0 if good else 1


if __name__ == "__main__":
    sys.exit(main())
