#!/usr/bin/env python3
"""Compares the two forms, at plain literals and at a searched polarity, source by source, and checks each pair.

  bench/forms.py [SECONDS]

For each source of bench/sources it prints four lines, one for each form (Reddy, factored) and polarity (positive, search): the numbers of
terms, cubes, gates, faults, vectors and faults that no vector detects, as the report tells them, and the processor seconds of the run and
of `check` on the pair that it wrote. Cubes stand in factored form alone. A source with too many terms for a form (status 7) is told as such,
and the faults whose tree is too wide to be written, where there are some, by their names. At the end stand the seconds of the largest
factored network at plain literals, the one of most gates: its synthesis makes the evidence trees, and its check goes through them.

The program is the one that `rt run` or `rt ci` left in crates/andexor/out, or that the variable ANDEXOR names. The status is 0 where each
run ends with status 0, or in factored form with 7, within SECONDS (by default 60), no factored form has more cubes than terms, no Reddy
form has a fault that no vector detects, and each check ends with status 0, or leaves no fault but those of trees that are too wide; 1 where
one does not; and 2 where the program is missing.
"""
import os
import sys
import tempfile

import program

NUMBERS = ("terms", "cubes", "gates", "faults", "vectors", "unchanged")
POLARITIES = ("positive", "search")


def wide_faults(folder):
    """The faults of the vector file that stand without a tree, as the report of a check names what it does not prove."""
    lines = [line.split() for line in program.read(folder, program.VEC).splitlines() if line.startswith("unchanged ")]
    return ["miss " + " ".join(words[1:-1]) for words in lines if words[-1] == "wide"]


def is_checked(checked, wide):
    """With status 0 nothing is left, and with 1 just the faults of trees that are too wide."""
    return checked.status == int(len(wide) > 0) and checked.number("wrong") == 0 and checked.misses() == wide


def is_good(form, made):
    if form == "factored":
        return made.status == program.TOO_MANY_TERMS or made.status == 0 and made.number("cubes") <= made.number("terms")
    return made.status == 0 and made.number("unchanged") == 0


def line(front, made, checked):
    if made.status == program.TOO_MANY_TERMS:
        return f"{front} too many terms   {made.seconds:6.2f} s"
    if made.status != 0:
        return f"{front} status {made.status}   {made.seconds:6.2f} s"
    numbers = "".join(f"{'-' if made.number(number) is None else made.number(number):>10}" for number in NUMBERS)
    return f"{front}{numbers}   {made.seconds:6.2f} s   {checked.seconds:6.2f} s"


def compared(folder, source, form, polarity, seconds):
    """Prints the line of one form and polarity. The run, its check, and whether both are as they have to be."""
    front = f"{os.path.basename(source):24} {form:8} {polarity:8}"
    made = program.synth(folder, source, form, polarity, seconds)
    if made.status != 0:
        print(line(front, made, None), flush=True)
        return made, None, is_good(form, made)
    checked = program.run(folder, ["check", program.NET, program.VEC], seconds)
    wide = wide_faults(folder)
    good = is_checked(checked, wide)
    print(line(front, made, checked) + ("" if good else f"   NOT CHECKED: status {checked.status}"), flush=True)
    for fault in wide:
        print(f"{'':24} too wide a tree: {fault}")
    return made, checked, good and is_good(form, made)


def main():
    if program.is_missing():
        return 2
    seconds = float(sys.argv[1]) if len(sys.argv) > 1 else 60.0
    good, largest = True, None
    print(f"{'':42}" + "".join(f"{number:>10}" for number in NUMBERS) + "      synth      check")
    with tempfile.TemporaryDirectory() as folder:
        for source in program.sources():
            for form in program.FORMS:
                for polarity in POLARITIES:
                    made, checked, right = compared(folder, source, form, polarity, seconds)
                    good = good and right
                    if form == "factored" and polarity == "positive" and checked is not None:
                        found = made.number("gates"), source, made, checked
                        largest = found if largest is None or found[0] > largest[0] else largest
    if largest is not None:
        gates, source, made, checked = largest
        print(f"largest factored: {os.path.basename(source)}, {gates} gates: synth {made.seconds:.2f} s, check {checked.seconds:.2f} s")
    return 0 if good else 1


if __name__ == "__main__":
    sys.exit(main())
