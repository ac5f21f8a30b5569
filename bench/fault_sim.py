#!/usr/bin/env python3
"""Grades a written netlist against its vectors, independently of andexor.

  bench/fault_sim.py NET VEC

NET is BLIF as andexor writes it, VEC its vector file. The script simulates the network gate by gate, with each single stuck-at fault
(the stem of each signal that a gate or an output reads, each gate pin, each output port, at 0 and at 1) and without, on all vectors at
once: a signal's values are the digits of one number, a digit for each vector. Under a fault it works out again the gates that the fault
reaches. It prints the number of vectors, of vectors whose response is another than the network's, of faults, and of faults that no vector
detects, with a line for each of these, pins counted from 1, and ends with status 1 where a response is wrong or a fault is missed.
"""
import heapq
import sys
from typing import Dict, List, NamedTuple


class Gate(NamedTuple):
    name: str
    pins: list
    rows: list


class Net(NamedTuple):
    inputs: list
    outputs: list
    gates: list


class Fault(NamedTuple):
    kind: str
    name: str
    # the place among the gate's pins, from 0 on
    pin: int
    value: int

    def __str__(self):
        pin = [str(self.pin + 1)] if self.kind == "pin" else []
        return " ".join([self.kind, self.name, *pin, str(self.value)])


def read_net(path):
    net = Net([], [], [])
    for line in open(path):
        words = line.split()
        if words[:1] == [".inputs"]:
            net.inputs.extend(words[1:])
        elif words[:1] == [".outputs"]:
            net.outputs.extend(words[1:])
        elif words[:1] == [".names"]:
            net.gates.append(Gate(words[-1], words[1:-1], []))
        elif words and not words[0].startswith("."):
            net.gates[-1].rows.append(words)
    return net


def read_vectors(path):
    return [line.split()[1:] for line in open(path) if line.startswith("vector ")]


def columns(names, texts):
    """For each name its characters in the texts, as one number: the digit of text k is that of 2 to the k."""
    return {name: int("0" + "".join(text[at] for text in reversed(texts)), 2) for at, name in enumerate(names)}


def table(gate, values, every):
    """1 where some row holds, or for rows that end with 0 the complement."""
    on = not gate.rows or gate.rows[0][-1] == "1"
    some = 0
    for row in gate.rows:
        holds = every
        for char, value in zip(row[0] if values else "", values):
            if char != "-":
                holds &= value if char == "1" else every ^ value
        some |= holds
    return some if on else every ^ some


class Plain(NamedTuple):
    """A network's values without a fault at all vectors, `every` having a digit 1 for each, and what a fault there reaches."""

    net: Net
    values: Dict[str, int]
    every: int
    places: Dict[str, int]
    readers: Dict[str, list]


def simulated(net, points):
    """The network without a fault at these points, each a digit for each input."""
    every = (1 << len(points)) - 1
    values = columns(net.inputs, points)
    readers = {name: [] for name in net.inputs + [gate.name for gate in net.gates]}
    for at, gate in enumerate(net.gates):
        values[gate.name] = table(gate, [values[pin] for pin in gate.pins], every)
        for pin in set(gate.pins):
            readers[pin].append(at)
    return Plain(net, values, every, {gate.name: at for at, gate in enumerate(net.gates)}, readers)


def changed_values(plain, fault):
    """The values under the fault of the signals that it changes: gate by gate in their order, those that read a changed signal."""
    stuck = plain.every if fault.value else 0
    changed = {fault.name: stuck} if fault.kind == "stem" else {}
    waiting = list(plain.readers[fault.name]) if fault.kind == "stem" else [plain.places[fault.name]]
    last = None
    while waiting:
        at = heapq.heappop(waiting)
        if at == last:
            continue
        last, gate = at, plain.net.gates[at]
        pins = [changed.get(pin, plain.values[pin]) for pin in gate.pins]
        if fault.kind == "pin" and gate.name == fault.name:
            pins[fault.pin] = stuck
        value = table(gate, pins, plain.every)
        if value != plain.values[gate.name]:
            changed[gate.name] = value
            for reader in plain.readers[gate.name]:
                heapq.heappush(waiting, reader)
    return changed


def detecting(plain, fault):
    """The vectors that detect the fault, as the digits of a number."""
    if fault.kind == "port":
        return plain.values[fault.name] ^ (plain.every if fault.value else 0)
    changed = changed_values(plain, fault)
    found = 0
    for name in plain.net.outputs:
        found |= changed.get(name, plain.values[name]) ^ plain.values[name]
    return found


def faults_of(net):
    read = set(net.outputs).union(*(gate.pins for gate in net.gates))
    signals = net.inputs + [gate.name for gate in net.gates]
    places = [("stem", name, 0) for name in signals if name in read]
    places += [("pin", gate.name, k) for gate in net.gates for k in range(len(gate.pins))]
    places += [("port", name, 0) for name in net.outputs]
    return [Fault(*place, value) for place in places for value in (0, 1)]


class Grading(NamedTuple):
    vectors: int
    wrong: int
    faults: List[Fault]
    # for each fault the vectors that detect it, as the digits of a number
    detecting: List[int]

    def missed(self):
        return [fault for fault, digits in zip(self.faults, self.detecting) if digits == 0]


def grading(net, vectors):
    """What a grading of the netlist by these vectors, each a point and a response, has to find."""
    plain = simulated(net, [point for point, _ in vectors])
    told = columns(net.outputs, [outs for _, outs in vectors])
    wrong = 0
    for name in net.outputs:
        wrong |= plain.values[name] ^ told[name]
    faults = faults_of(net)
    return Grading(len(vectors), wrong.bit_count(), faults, [detecting(plain, fault) for fault in faults])


def main(net_path, vectors_path):
    found = grading(read_net(net_path), read_vectors(vectors_path))
    missed = found.missed()
    print(f"vectors {found.vectors} wrong {found.wrong} faults {len(found.faults)} missed {len(missed)}")
    for fault in missed:
        print("missed", fault)
    return int(found.wrong > 0 or len(missed) > 0)


if __name__ == "__main__":
    if len(sys.argv) != 3:
        sys.exit(__doc__)
    sys.exit(main(*sys.argv[1:]))
