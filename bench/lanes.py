#!/usr/bin/env python3
"""Times `andexor grade` beside a yardstick in C, bench/lanes.c, which works in lanes of 512.

  bench/lanes.py [WORD ...]

Each netlist gets random vectors with the responses that bench/fault_sim.py works out: `layers` and `small layers` are random gates in layers
of 64, `multiplier` has 32 bits, `chain` is one of buffers. A word takes the netlists whose names begin with it. A line tells the processor
seconds of `grade`, with reading and writing, and of the yardstick, without, and how many times as long `grade` takes; the numbers of faults
and of detected faults have to be the same. The status is 0 where they are, 1 where they are not, and 2 where the program or the C compiler
is missing. The program is the one that `rt run` or `rt ci` left in crates/andexor/out, or that the variable ANDEXOR names.
"""
import os
import random
import shutil
import subprocess
import sys
import tempfile

import circuits
import fault_sim
import program

WIDTH = 64
OR, AND = ["1- 1", "-1 1"], ["11 1"]


def layers(count):
    """Gates in layers, each of the gate above it in the layer before and of a near one of that layer."""
    draw = random.Random(1)
    above = [f"i{k}" for k in range(WIDTH)]
    inputs, lines, read, names = above, [], set(), []
    for first in range(0, count, WIDTH):
        layer = [f"n{k}" for k in range(first, min(first + WIDTH, count))]
        for k, name in enumerate(layer):
            pins = [above[k], above[(k + draw.choice([-2, -1, 1, 2])) % WIDTH]]
            read.update(pins)
            lines += circuits.gate(pins, name, draw.choice([circuits.EXOR, circuits.EXOR, AND, OR]))
        names, above = names + layer, layer if len(layer) == WIDTH else above
    return circuits.source("layers", inputs, [name for name in names if name not in read][-WIDTH:], lines)


def chain(count):
    names = [f"b{k}" for k in range(count)]
    lines = [line for pin, name in zip(["a", *names], names) for line in circuits.gate([pin], name, ["1 1"])]
    return circuits.source("chain", ["a"], names[-1:], lines)


# the name, the text, the number of vectors, and the way of the yardstick
NETS = (
    ("layers", lambda: layers(2000), 200, "points"),
    ("small layers", lambda: layers(500), 4000, "points"),
    ("multiplier", lambda: circuits.multiplier(32), 200, "points"),
    ("chain", lambda: chain(60000), 2, "faults"),
)


def write_pair(folder, text, count):
    net = fault_sim.read_net(program.write(folder, program.NET, text))
    draw = random.Random(2)
    points = ["".join(draw.choice("01") for _ in net.inputs) for _ in range(count)]
    values = fault_sim.simulated(net, points).values
    head = ["andexor-vectors 1", "form factored", "inputs " + " ".join(net.inputs), "outputs " + " ".join(net.outputs), "polarity " + "1" * len(net.inputs)]
    lines = [f"vector {point} " + "".join(str(values[name] >> k & 1) for name in net.outputs) for k, point in enumerate(points)]
    program.write(folder, program.VEC, "".join(line + "\n" for line in [*head, *lines, "end"]))


def compare(folder, yardstick, name, way):
    graded = program.run(folder, ["grade", program.NET, program.VEC])
    said = subprocess.run([yardstick, way, program.NET, program.VEC], cwd=folder, stdout=subprocess.PIPE, text=True, check=True).stdout.split()
    faults, told, seconds = int(said[1]), int(said[3]), float(said[5])
    same = (graded.number("faults"), graded.number("told"), graded.number("wrong")) == (faults, told, 0)
    print(f"{name}: {faults} faults, {told} told; grade {graded.seconds:.3f} s, yardstick {seconds:.3f} s, {graded.seconds / seconds:.1f} times{'' if same else ', NOT THE SAME'}", flush=True)
    return same


def main(words):
    if program.is_missing():
        return 2
    compiler = shutil.which("cc")
    if not compiler:
        print("cc is missing")
        return 2
    good = True
    with tempfile.TemporaryDirectory() as folder:
        yardstick = os.path.join(folder, "lanes")
        source = os.path.join(program.HERE, "bench/lanes.c")
        subprocess.run([compiler, "-O3", "-march=native", "-o", yardstick, source], check=True)
        for name, text, count, way in NETS:
            if not words or any(name.startswith(word) for word in words):
                write_pair(folder, text(), count)
                good &= compare(folder, yardstick, name, way)
    return 0 if good else 1


if __name__ == "__main__":
    sys.exit(main(sys.argv[1:]))
