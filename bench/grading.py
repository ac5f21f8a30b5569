#!/usr/bin/env python3
"""Compares `andexor grade` with an independent fault simulator, and times it on large netlists.

  bench/grading.py [small|large]

small: each source of bench/sources is synthesised in both forms, and `grade` has to print exactly what bench/fault_sim.py works out, number
by number and `miss` line by `miss` line, and to end with the status that these ask for: of the pair as it is written, without every
second vector, without any vector, and with a digit of every third response turned.

large: two netlists, a multiplier of 32 bits and one of 5,000 random gates in layers, with 200 random vectors and the responses that
bench/fault_sim.py works out. Again all that `grade` prints has to be the same. The script prints faults times vectors times gates per
processor second; and of these, since `grade` leaves a fault at the first vector that detects it, those that it looks at.

Without a word it does both. The program is the one that `rt run` or `rt ci` left in crates/andexor/out, or that the variable ANDEXOR names.
The status is 0 where all agree, 1 where something differs, and 2 where the program is missing.
"""
import random
import sys
import tempfile

import circuits
import fault_sim
import program

VECTORS = 200
LAYERS, WIDTH = 100, 50
OR = ["1- 1", "-1 1"]


def expected(found):
    """The status and the report that a grading has to end with, by what the simulator found."""
    missed = found.missed()
    faults, told = len(found.faults), len(found.faults) - len(missed)
    lines = [f"vectors {found.vectors}", f"wrong {found.wrong}", f"faults {faults}", f"told {told}", f"missed {len(missed)}"]
    lines += [f"miss {fault}" for fault in missed]
    return int(found.wrong > 0 or len(missed) > 0), "".join(line + "\n" for line in lines)


def agrees(name, graded, found):
    status, report = expected(found)
    if (graded.status, graded.report) == (status, report):
        return True
    print(f"{name}: status {graded.status}, not {status}, and the report\n{graded.report}in place of\n{report}", end="")
    return False


def with_vectors(text, vectors):
    """The vector file with these vectors in place of its own."""
    lines = [line for line in text.splitlines() if not line.startswith("vector ")]
    after = next(place for place, line in enumerate(lines) if line.startswith(("unchanged ", "end")))
    lines[after:after] = [f"vector {point} {outs}" for point, outs in vectors]
    return "".join(line + "\n" for line in lines)


def turned(outs, place):
    place %= len(outs)
    return outs[:place] + "10"[int(outs[place])] + outs[place + 1 :]


def variants(vectors):
    yield "as written", vectors
    yield "without every second vector", vectors[::2]
    yield "without vectors", []
    yield "with wrong responses", [(point, turned(outs, k) if k % 3 == 0 else outs) for k, (point, outs) in enumerate(vectors)]


def small(folder):
    good, pairs, gradings, misses = True, 0, 0, 0
    for source in program.sources():
        for form in program.FORMS:
            name = f"{source.rsplit('/', 1)[1]}, {form}"
            made = program.synth(folder, source, form)
            if made.status != 0:
                print(f"{name}: status {made.status}: {made.report}", end="")
                good = good and made.status == program.TOO_MANY_TERMS
                continue
            net = fault_sim.read_net(f"{folder}/{program.NET}")
            text = program.read(folder, program.VEC)
            written = fault_sim.read_vectors(f"{folder}/{program.VEC}")
            pairs += 1
            for change, vectors in variants([tuple(words) for words in written]):
                program.write(folder, program.VEC, with_vectors(text, vectors))
                found = fault_sim.grading(net, vectors)
                good &= agrees(f"{name}, {change}", program.run(folder, ["grade", program.NET, program.VEC]), found)
                gradings += 1
                misses += len(found.missed())
    print(f"{pairs} pairs, {gradings} gradings with {misses} missed faults: {'all agree' if good else 'NOT ALL AGREE'}")
    return good


def random_layers():
    """Layers of EXOR, AND and OR gates, each of the gate above it in the layer before and of a near one of that layer."""
    draw = random.Random(1)
    above = [f"i{k}" for k in range(WIDTH)]
    inputs, lines = above, []
    for layer in range(LAYERS):
        names = [f"n{layer}_{k}" for k in range(WIDTH)]
        for k, name in enumerate(names):
            near = above[(k + draw.choice([-2, -1, 1, 2])) % WIDTH]
            lines += circuits.gate([above[k], near], name, draw.choice([circuits.EXOR, circuits.AND, OR]))
        above = names
    return circuits.source("layers", inputs, above, lines)


def write_pair(folder, text):
    """The netlist, and random vectors with their responses."""
    net = fault_sim.read_net(program.write(folder, program.NET, text))
    draw = random.Random(2)
    points = ["".join(draw.choice("01") for _ in net.inputs) for _ in range(VECTORS)]
    values = fault_sim.simulated(net, points).values
    vectors = [(point, "".join(str(values[name] >> k & 1) for name in net.outputs)) for k, point in enumerate(points)]
    head = ["andexor-vectors 1", "form factored", "inputs " + " ".join(net.inputs), "outputs " + " ".join(net.outputs)]
    front = "".join(line + "\n" for line in [*head, "polarity " + "1" * len(net.inputs), "end"])
    program.write(folder, program.VEC, with_vectors(front, vectors))
    return net, vectors


def large(folder):
    good = True
    for name, text in (("multiplier of 32 bits", circuits.multiplier(32)), ("random layers", random_layers())):
        net, vectors = write_pair(folder, text)
        graded = program.run(folder, ["grade", program.NET, program.VEC])
        found = fault_sim.grading(net, vectors)
        good &= agrees(name, graded, found)
        faults, gates = len(found.faults), len(net.gates)
        rate = faults * VECTORS * gates / graded.seconds
        # the vectors up to the first that detects, over all faults
        looked_at = sum((digits & -digits).bit_length() if digits else VECTORS for digits in found.detecting)
        print(
            f"{name}: gates {gates} vectors {VECTORS} faults {faults} missed {len(found.missed())}: {graded.seconds:.2f} s, "
            f"{rate:.3g} faults x vectors x gates per second; {looked_at * gates / graded.seconds:.3g} of them looked at",
            flush=True,
        )
    return good


def main(which):
    if program.is_missing():
        return 2
    with tempfile.TemporaryDirectory() as folder:
        good = which == "large" or small(folder)
        good = (which == "small" or large(folder)) and good
    return int(not good)


if __name__ == "__main__":
    if len(sys.argv) > 2 or sys.argv[1:] not in ([], ["small"], ["large"]):
        sys.exit(__doc__)
    sys.exit(main("".join(sys.argv[1:])))
