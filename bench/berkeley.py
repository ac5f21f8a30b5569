#!/usr/bin/env python3
"""Asks Berkeley ABC (Debian's `berkeley-abc`) for what other scripts of this folder compare.

  bench/berkeley.py exorcism SOURCE OUTPUTS ESOP

SOURCE is BLIF with so many outputs. The script prints the number of cubes that `&exorcism` has for each output alone, added up, and the
number that it has where the outputs share cubes; and writes the latter's text to ESOP.
"""
import os
import re
import shutil
import subprocess
import sys
import tempfile
from typing import NamedTuple

ABC = shutil.which("berkeley-abc") or shutil.which("abc")
# for `&fftest`, single faults at 0 and 1: of the output of each AND node, and of both its inputs
NODE_OUTPUTS = "-A 2"
NODE_INPUTS = "-S (((a&~p)|q)&((b&~r)|s))"
# ABC does not end on some networks, as `&fftest` on one without an AND gate
MOST_SECONDS = 60


def is_missing():
    """Says that there is no ABC, where there is none."""
    if ABC is None:
        print("berkeley-abc is missing")
    return ABC is None


def asked(commands, folder="."):
    """What ABC prints for these commands, and nothing where it does not end."""
    try:
        done = subprocess.run([ABC, "-q", commands], cwd=folder, capture_output=True, text=True, timeout=MOST_SECONDS, check=False)
    except subprocess.TimeoutExpired:
        return ""
    return re.sub("\x1b\\[[0-9;]*m", "", done.stdout)


def cubes_in(path):
    """The number of cubes that an ESOP-PLA text of ABC says it has."""
    with open(path, encoding="ascii") as file:
        return int(re.search(r"^\.p (\d+)$", file.read(), re.M).group(1))


def exorcism(source, outputs, esop):
    """The number of cubes of each output alone, and of all together, whose text is written to `esop`."""
    with tempfile.TemporaryDirectory() as folder:
        alone = []
        for output in range(outputs):
            path = os.path.join(folder, "alone.esop")
            asked(f"read_blif {source}; strash; cone -a -O {output}; strash; &get; &exorcism {path}")
            alone.append(cubes_in(path))
            os.remove(path)
        asked(f"read_blif {source}; strash; &get; &exorcism {esop}")
        return sum(alone), cubes_in(esop)


class Testing(NamedTuple):
    nodes: int
    tests: int
    untestable: int


def fftest(net, model):
    """What `&fftest` says of the single faults of this model in the AND nodes that ABC makes of the netlist; None where there is no node."""
    found = re.search(r"and =\s*(\d+)", asked(f"read_blif {net}; strash; print_stats"))
    if found is None or found.group(1) == "0":
        return None
    with tempfile.TemporaryDirectory() as folder:
        # it writes the untestable faults beside the netlist
        copy = shutil.copy(net, folder)
        said = asked(f"read_blif {copy}; strash; &get; &fftest {model} -b -c -u", folder)
    tests = re.search(r"is UNSAT after (\d+) iterations", said)
    untestable = re.search(r"Dumped (\d+) untestable", said)
    if tests is None or (untestable is None and "There is no untestable faults" not in said):
        return None
    return Testing(int(found.group(1)), int(tests.group(1)), int(untestable.group(1)) if untestable else 0)


def main(words):
    if len(words) != 4 or words[0] != "exorcism" or not words[2].isdecimal():
        sys.exit(__doc__)
    if is_missing():
        return 2
    alone, shared = exorcism(words[1], int(words[2]), words[3])
    print(f"{alone} output by output, {shared} where outputs share cubes")
    return 0


if __name__ == "__main__":
    sys.exit(main(sys.argv[1:]))
