#!/usr/bin/env python3
"""Compares what `andexor synth` writes for sources with external don't cares with these sources, and says what the freedom saved.

  bench/dont_cares.py [SOURCE ...]

Each source, a BLIF text with an `.exdc` part (by default those of bench/sources/exdc), is synthesised in both forms. The script reads the
source by rules of its own, works out the gates of the model, of the part and of the netlist at every point of the inputs, and compares: at
a point at which an output is free it may have either value (andexor promises 0, which is looked at too), and at any other it has that of
the model. In Reddy form the control is at 0. It prints the number of free values, those of all outputs counted together, and the numbers
of terms and of gates with the part beside those of the same text without it, and at the end their sums over the sources themselves.

Where Berkeley ABC (Debian's `berkeley-abc`) is installed, it reads each source and writes it, and what it writes is compared too, where it
has the part still.

The program is the one that `rt run` or `rt ci` left in crates/andexor/out, or that the variable ANDEXOR names. The status is 0 where all
agree, 1 where a value differs or a run ends otherwise than with 0, and 2 where the program is missing.
"""
import os
import sys
import tempfile
from typing import NamedTuple, Optional

import berkeley
import fault_sim
import program

SOURCES = os.path.join(program.SOURCES, "exdc")
NUMBERS = ("terms", "gates")
MOST_INPUTS = 16


class Source(NamedTuple):
    net: fault_sim.Net
    part: Optional[fault_sim.Net]


def lines_of(text):
    """The words of each line that has some. A line that ends with a backslash goes on in the next."""
    physical = [line.split("#")[0].rstrip(" \t\r") for line in text.split("\n")]
    whole, front = [], ""
    for line in physical:
        if line.endswith("\\"):
            front += line[:-1] + " "
        else:
            whole.append(front + line)
            front = ""
    return [words for words in map(str.split, whole + [front]) if words]


def declared(lines, head):
    return [name for words in lines if words[0] == head for name in words[1:]]


def in_order(inputs, gates):
    """The gates, each after those that it reads."""
    driver, done, order = {gate.name: gate for gate in gates}, set(inputs), []

    def place(name):
        if name in done:
            return
        done.add(name)
        for pin in driver[name].pins:
            place(pin)
        order.append(driver[name])

    for name in driver:
        place(name)
    return order


def net_of(inputs, outputs, lines):
    gates = []
    for words in lines:
        if words[0] == ".names":
            gates.append(fault_sim.Gate(words[-1], words[1:-1], []))
        elif not words[0].startswith("."):
            # the characters of a row may be parted by blanks
            row = "".join(words)
            gates[-1].rows.append([row[:-1], row[-1]])
    return fault_sim.Net(inputs, outputs, in_order(inputs, gates))


def read_source(text):
    """The model, and the part where there is one, over the model's inputs and outputs."""
    lines = lines_of(text)
    heads = [words[0] for words in lines]
    ends = heads.index(".exdc") if ".exdc" in heads else len(lines)
    inputs, outputs = declared(lines[:ends], ".inputs"), declared(lines[:ends], ".outputs")
    part = net_of(inputs, outputs, lines[ends + 1 :]) if ends < len(lines) else None
    return Source(net_of(inputs, outputs, lines[:ends]), part)


def without_part(text):
    """The text up to the line of the part."""
    kept = []
    for line in text.split("\n"):
        if line.split("#")[0].split()[:1] == [".exdc"]:
            break
        kept.append(line)
    return "\n".join(kept) + "\n.end\n"


def points_of(inputs):
    return [f"{point:0{inputs}b}" for point in range(1 << inputs)]


def outputs_at(net, points):
    """For each output its values at the points, as the digits of a number; 0 where nothing drives it, as in a part."""
    values = fault_sim.simulated(net, points).values
    return [values.get(name, 0) for name in net.outputs]


def differences(source, net, points, low):
    """In words what differs at the points, `low` being what a point of the netlist has besides; and the number of free values."""
    found, free_values = [], 0
    wanted = outputs_at(source.net, points)
    free = outputs_at(source.part, points) if source.part else [0] * len(wanted)
    got = outputs_at(net, [point + low for point in points])
    if net.inputs[: len(source.net.inputs)] != source.net.inputs or net.outputs != source.net.outputs:
        return ["other names"], 0
    for name, model, part, value in zip(net.outputs, wanted, free, got):
        free_values += part.bit_count()
        wrong, ones = (model ^ value) & ~part, value & part
        if wrong:
            found.append(f"{name} at {points[wrong.bit_length() - 1]}")
        if ones:
            found.append(f"{name} is 1 where it is free, at {points[ones.bit_length() - 1]}")
    return found, free_values


def compared(folder, name, text, form, sums):
    """Prints the line of a source in a form, and adds its numbers. Whether all agrees."""
    front = f"{name:32} {form:8}"
    plain = program.synth(folder, program.write(folder, "plain.blif", without_part(text)), form)
    made = program.synth(folder, program.write(folder, "in.blif", text), form)
    if made.status != 0 or plain.status != 0:
        print(f"{front} status {made.status}: {made.report.strip()}; without the part {plain.status}: {plain.report.strip()}")
        return False
    source = read_source(text)
    net = fault_sim.read_net(os.path.join(folder, program.NET))
    low = "0" * (len(net.inputs) - len(source.net.inputs))
    found, free = differences(source, net, points_of(len(source.net.inputs)), low)
    numbers = ""
    for number in NUMBERS:
        with_part, alone = made.number(number), plain.number(number)
        sums[form, number] = [left + right for left, right in zip(sums.get((form, number), [0, 0]), (with_part, alone))]
        numbers += f"   {number} {with_part:4} of {alone:4}"
    print(f"{front} free values {free:5}{numbers}   {'DIFFERS: ' + ', '.join(found) if found else 'agrees'}", flush=True)
    return not found


def by_abc(folder, path):
    """The source as ABC writes it, where there is one and it keeps the part."""
    if berkeley.ABC is None:
        return None
    target = os.path.join(folder, "abc.blif")
    if os.path.exists(target):
        os.remove(target)
    berkeley.asked(f"read_blif {path}; write_blif {target}")
    text = program.read(folder, "abc.blif") if os.path.exists(target) else ""
    return text if any(words[0] == ".exdc" for words in lines_of(text)) else None


def texts_of(folder, path):
    """The name and the text of a source, and of what ABC makes of it."""
    name = os.path.basename(path)
    with open(path, encoding="latin-1") as file:
        yield name, file.read()
    written = by_abc(folder, path)
    if written is not None:
        yield name + ", by ABC", written


def main(paths):
    if program.is_missing():
        return 2
    good, sums = True, {}
    with tempfile.TemporaryDirectory() as folder:
        for path in paths:
            for place, (name, text) in enumerate(texts_of(folder, path)):
                if len(read_source(text).net.inputs) > MOST_INPUTS:
                    print(f"{name}: left out, too many inputs for all points")
                    continue
                for form in program.FORMS:
                    good = compared(folder, name, text, form, {} if place else sums) and good
    for (form, number), (with_part, alone) in sums.items():
        print(f"{form}: {with_part} {number} with the parts, {alone} without")
    return 0 if good else 1


if __name__ == "__main__":
    sys.exit(main([os.path.abspath(path) for path in sys.argv[1:]] or [os.path.join(SOURCES, name) for name in sorted(os.listdir(SOURCES))]))
