#!/usr/bin/env python3
"""Times `andexor synth` on families of functions, and grades what it writes.

  bench/synthesis.py [SECONDS]

The families grow step by step: symmetric functions (parity, majority, exactly half), adders, multipliers, weight counters, and random
tables of 10 to 14 inputs, each written as a PLA of its minterms, as the tool that makes tables would; and ripple adders and multipliers
as the BLIF of bench/circuits.py. For each the script prints the numbers of inputs, outputs, rows or source gates, terms, gates, faults
and vectors, the processor seconds of the synthesis, and, where the network is small enough, what bench/fault_sim.py finds: vectors with a
wrong response and faults that no vector detects. At the end it says, family by family, how the time grows with the rows or source gates
and with the terms: the exponent of the best fitting power. A family ends where a synthesis takes more than SECONDS (by default 20), or
where its expansions have too many terms (status 7), which it says.

The program is the one that `rt run` or `rt ci` left in crates/andexor/out, or that the variable ANDEXOR names. The status is 0 where all
responses are right and no fault is missed, 1 where one is not, and 2 where the program is missing.
"""
import math
import random
import sys
import tempfile
from typing import NamedTuple

import circuits
import fault_sim
import program

NUMBERS = ("terms", "gates", "faults", "vectors")
# faults times gates that the simulator is asked for
MOST_STEPS = 12_000_000


class Source(NamedTuple):
    kind: str
    inputs: int
    outputs: int
    unit: str
    size: int
    text: str


def bits(number, count):
    return [(number >> k) & 1 for k in range(count)]


def table(inputs, outputs, function):
    """A truth table by its rows with some output at 1. Input k has the weight 2 to the k."""
    rows = []
    for x in range(1 << inputs):
        outs = function(x)
        if any(outs):
            rows.append("".join(map(str, bits(x, inputs))) + " " + "".join(map(str, outs)))
    text = f".i {inputs}\n.o {outputs}\n" + "".join(row + "\n" for row in rows) + ".e\n"
    return Source("pla", inputs, outputs, "rows", len(rows), text)


def gates(inputs, outputs, text):
    return Source("blif", inputs, outputs, "source gates", text.count(".names"), text)


def parity(n):
    return table(n, 1, lambda x: [x.bit_count() & 1])


def majority(n):
    return table(n, 1, lambda x: [int(2 * x.bit_count() > n)])


def exactly_half(n):
    return table(n, 1, lambda x: [int(2 * x.bit_count() == n)])


def adder(n):
    return table(2 * n, n + 1, lambda x: bits((x & ((1 << n) - 1)) + (x >> n), n + 1))


def multiplier(n):
    return table(2 * n, 2 * n, lambda x: bits((x & ((1 << n) - 1)) * (x >> n), 2 * n))


def adder_of_gates(n):
    return gates(2 * n, n + 1, circuits.adder(n))


def multiplier_of_gates(n):
    return gates(2 * n, 2 * n, circuits.multiplier(n))


def weight_counter(n):
    outputs = n.bit_length()
    return table(n, outputs, lambda x: bits(x.bit_count(), outputs))


def random_table(n):
    source = random.Random(n)
    ones = [source.getrandbits(2) for _ in range(1 << n)]
    return table(n, 2, lambda x: bits(ones[x], 2))


FAMILIES = {
    "parity": (parity, range(4, 17, 2)),
    "majority": (majority, range(5, 16, 2)),
    "exactly half": (exactly_half, range(4, 15, 2)),
    "adder": (adder, range(1, 8)),
    "adder of gates": (adder_of_gates, range(1, 17)),
    "multiplier": (multiplier, range(1, 8)),
    "multiplier of gates": (multiplier_of_gates, range(1, 8)),
    "weight counter": (weight_counter, range(3, 16)),
    "random table": (random_table, range(10, 15)),
}


def graded(folder):
    """Whether the simulator finds all responses right and no fault missed, and what it finds."""
    net = fault_sim.read_net(f"{folder}/{program.NET}")
    found = fault_sim.grading(net, fault_sim.read_vectors(f"{folder}/{program.VEC}"))
    missed = len(found.missed())
    text = f"vectors {found.vectors} wrong {found.wrong} faults {len(found.faults)} missed {missed}"
    return found.wrong == 0 and missed == 0, text


def exponent(points):
    """The slope of the best line through the logarithms, where the times are long enough to tell."""
    points = [(math.log(size), math.log(seconds)) for size, seconds in points if size > 1 and seconds > 0.02]
    if len(points) < 3:
        return "too short to tell"
    mean_x = sum(x for x, _ in points) / len(points)
    mean_y = sum(y for _, y in points) / len(points)
    spread = sum((x - mean_x) ** 2 for x, _ in points)
    if spread == 0:
        return "all of one size"
    return f"{sum((x - mean_x) * (y - mean_y) for x, y in points) / spread:.2f}"


def bench(folder, name, most):
    make, sizes = FAMILIES[name]
    by_size, by_terms, good = [], [], True
    for n in sizes:
        source = make(n)
        made = program.synth(folder, program.write(folder, "in." + source.kind, source.text))
        head = f"{name} {n}: inputs {source.inputs} outputs {source.outputs} {source.unit} {source.size}"
        if made.status != 0:
            print(f"{head}: status {made.status}: {made.report.strip()}")
            good = good and made.status == program.TOO_MANY_TERMS
            break
        found = {number: made.number(number) for number in NUMBERS}
        by_size.append((source.size, made.seconds))
        by_terms.append((found["terms"], made.seconds))
        line = f"{head} " + " ".join(f"{word} {value}" for word, value in found.items()) + f" seconds {made.seconds:.2f}"
        if found["faults"] * found["gates"] <= MOST_STEPS:
            right, text = graded(folder)
            good = good and right
            line += f"; simulated: {text}"
        print(line, flush=True)
        if made.seconds > most:
            break
    print(f"{name}: the time grows with the {source.unit} to the power {exponent(by_size)}, with the terms to the power {exponent(by_terms)}")
    return good


def main(most):
    if program.is_missing():
        return 2
    good = True
    with tempfile.TemporaryDirectory() as folder:
        for name in FAMILIES:
            good = bench(folder, name, most) and good
    return int(not good)


if __name__ == "__main__":
    if len(sys.argv) > 2:
        sys.exit(__doc__)
    sys.exit(main(float(sys.argv[1]) if len(sys.argv) == 2 else 20.0))
