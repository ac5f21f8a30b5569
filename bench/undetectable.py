#!/usr/bin/env python3
"""Confirms the undetectable faults that the factored form lists, and prints them beside what Berkeley ABC says of the same netlists.

  bench/undetectable.py [SOURCE ...]

Each source (by default those of bench/sources) is synthesised in factored form. The script prints the numbers of inputs, gates, faults,
vectors and faults that VEC lists as undetectable, how many of these have a tree that is too wide to be written, and the processor seconds
of the synthesis. bench/fault_sim.py, an independent fault simulator, then has to find that the vectors of VEC detect all faults but the
listed ones, and, where there are at most 16 inputs, that all points together detect all faults but the listed ones: so exactly these are
undetectable. Where there are more inputs the script says so.

Beside this stands what ABC's `&fftest` says of the netlist. ABC makes a network of AND nodes of it first, with three for an EXOR gate and
equal ones shared; its faults are those of this network, not the netlist's: single ones at 0 and at 1 at the outputs of the nodes, and, asked
anew, at their inputs. For each of both the script prints the number of these faults, of the tests that ABC finds for them, and of those
that it finds untestable.

The program is the one that `rt run` or `rt ci` left in crates/andexor/out, or that the variable ANDEXOR names. The status is 0 where all is
confirmed, 1 where something differs, and 2 where the program or ABC is missing; without ABC the rest is done.
"""
import os
import sys
import tempfile

import berkeley
import fault_sim
import program

MOST_INPUTS = 16
NUMBERS = ("gates", "faults", "vectors", "unchanged")


def listed(text):
    """The faults of the lines `unchanged`, and how many of them have no tree."""
    lines = [line.split() for line in text.splitlines() if line.startswith("unchanged ")]
    return [" ".join(words[1:-1]) for words in lines], sum(words[-1] == "wide" for words in lines)


def undetected(net, points):
    plain = fault_sim.simulated(net, points)
    return [str(fault) for fault in fault_sim.faults_of(net) if fault_sim.detecting(plain, fault) == 0]


def confirm(net, vectors, faults):
    """What the simulator finds, in words, and whether it finds just these faults."""
    found = fault_sim.grading(net, vectors)
    if found.wrong > 0 or [str(fault) for fault in found.missed()] != faults:
        return f"THE VECTORS MISS OTHERS: {found.wrong} wrong responses, missed {found.missed()}", False
    inputs = len(net.inputs)
    if inputs > MOST_INPUTS:
        return "too many inputs for all points", True
    missed = undetected(net, [f"{point:0{inputs}b}" for point in range(1 << inputs)])
    return ("confirmed by all points", True) if missed == faults else (f"ALL POINTS MISS OTHERS: {missed}", False)


def testing(net, model, faults):
    """The numbers of faults, tests and untestable faults of ABC, so many faults standing at a node."""
    if berkeley.ABC is None:
        return ""
    found = berkeley.fftest(net, model)
    return f"{'-':>21}" if found is None else f"{faults * found.nodes:7}{found.tests:7}{found.untestable:7}"


def line(folder, source):
    """The source's line, and whether it is confirmed."""
    name = f"{os.path.basename(source):24}"
    made = program.synth(folder, source, "factored")
    if made.status != 0:
        return f"{name} status {made.status}: {made.report.strip()}", made.status == program.TOO_MANY_TERMS
    path = os.path.join(folder, program.NET)
    net, vectors = fault_sim.read_net(path), fault_sim.read_vectors(os.path.join(folder, program.VEC))
    faults, wide = listed(program.read(folder, program.VEC))
    told, good = confirm(net, vectors, faults)
    numbers = f"{len(net.inputs):7}" + "".join(f"{made.number(number):10}" for number in NUMBERS) + f"{wide:6}{made.seconds:8.2f} s"
    outputs = testing(path, berkeley.NODE_OUTPUTS, 2)
    inputs = testing(path, berkeley.NODE_INPUTS, 4)
    return f"{name}{numbers}  |{outputs} |{inputs} | {told}", good


def main(sources):
    if program.is_missing():
        return 2
    abc_missing = berkeley.is_missing()
    print(f"{'':24} inputs" + "".join(f"{number:>10}" for number in NUMBERS) + "  wide   time    | ABC: outputs of nodes| inputs of nodes      |")
    good = True
    with tempfile.TemporaryDirectory() as folder:
        for source in sources:
            text, confirmed = line(folder, source)
            print(text, flush=True)
            good = good and confirmed
    return 1 if not good else 2 if abc_missing else 0


if __name__ == "__main__":
    sys.exit(main([os.path.abspath(path) for path in sys.argv[1:]] or program.sources()))
