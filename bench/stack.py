#!/usr/bin/env python3
"""Runs `andexor check` and `andexor synth` with a small stack on the deepest tree of evidence that a file can hold.

  bench/stack.py [KIBIBYTES ..]

The source has 255 inputs and one output, the AND of all of them and of the complement of the last: its value is 0 at every point, and a
tree that says so for the output held at 0 splits at each input in turn, 255 deep, with 256 leaves. Four trees are checked: that one, one
with its second subtrees first in depth (all splits before any leaf, which reads no further), one without its last leaf, and one with a
leaf more. The first proves the fault; the others prove nothing. Then the source is made in factored form, and what is written is checked.

For each size of the stack (by default 8,192, 1,024, 512 and 256 KiB) each command is run with that limit, and the script prints its
status and line `proved`. The status of the script is 0 where each run at 8,192 KiB has the status that is wanted, 1 where one has not,
and 2 where the program is missing.
"""
import os
import resource
import subprocess
import sys
import tempfile

import program

INPUTS = 255
NEEDED = 8192


def netlist():
    names = [f"x{i + 1}" for i in range(INPUTS)]
    lines = [".model deep", ".inputs " + " ".join(names), ".outputs f"]
    lines += [".names " + " ".join(names) + " all", "1" * INPUTS + " 1"]
    lines += [f".names x{INPUTS} low", "0 1", ".names all low f", "11 1", ".end"]
    return "".join(line + "\n" for line in lines), names


def vectors(names, tree):
    lines = ["andexor-vectors 1", "form factored", "inputs " + " ".join(names), "outputs f", "polarity " + "1" * INPUTS]
    lines += ["vector " + "0" * INPUTS + " 0", f"unchanged stem f 0 {tree}", "end"]
    return "".join(line + "\n" for line in lines)


def trees():
    whole = "SL" * INPUTS + "L"
    return [("whole", whole, 1), ("splits alone", "S" * INPUTS, 0), ("a leaf short", whole[:-1], 0), ("a leaf more", whole + "L", 0)]


def run(words, kibibytes):
    limit = kibibytes << 10
    done = subprocess.run(words, stdout=subprocess.PIPE, stderr=subprocess.PIPE, preexec_fn=lambda: resource.setrlimit(resource.RLIMIT_STACK, (limit, limit)))
    report = done.stdout.decode(errors="replace").split("\n")
    proved = next((line for line in report if line.startswith("proved ")), "-")
    return done.returncode, proved


def main(sizes):
    if program.is_missing():
        return 2
    andexor = program.PROGRAM
    bad = 0
    with tempfile.TemporaryDirectory() as folder:
        net, vec = os.path.join(folder, "deep.blif"), os.path.join(folder, "deep.vec")
        text, names = netlist()
        with open(net, "w") as file:
            file.write(text)
        for size in sizes:
            for what, tree, proved in trees():
                with open(vec, "w") as file:
                    file.write(vectors(names, tree))
                status, line = run([andexor, "check", net, vec], size)
                good = status == 1 and line == f"proved {proved}"
                bad += size == NEEDED and not good
                print(f"{size} KiB, {what}: status {status}, {line}")
            made, tests = os.path.join(folder, "made.blif"), os.path.join(folder, "made.vec")
            status, _ = run([andexor, "synth", "--kind", "blif", "--form", "factored", net, made, tests], size)
            print(f"{size} KiB, synth of the source: status {status}")
            bad += size == NEEDED and status != 0
            status, line = run([andexor, "check", made, tests], size)
            print(f"{size} KiB, check of what it wrote: status {status}, {line}")
            bad += size == NEEDED and status != 0
    return 1 if bad else 0


if __name__ == "__main__":
    if not all(word.isdigit() for word in sys.argv[1:]):
        sys.exit(__doc__)
    sys.exit(main([int(word) for word in sys.argv[1:]] or [NEEDED, 1024, 512, 256]))
