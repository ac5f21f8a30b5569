#!/usr/bin/env python3
"""Prints BLIF sources that grow with a number of bits.

  bench/circuits.py adder BITS
  bench/circuits.py multiplier BITS

The adder is a ripple adder of two numbers; the multiplier adds one row of products after the other, each by a ripple adder. Bit 0 has the
weight 1. bench/sources/ripple_adder_8.blif and bench/sources/multiplier_4.blif are made by it.
"""
import sys

AND = ["11 1"]
EXOR = ["10 1", "01 1"]
MAJORITY = ["11- 1", "1-1 1", "-11 1"]


def gate(pins, name, rows):
    return [" ".join([".names", *pins, name]), *rows]


def source(model, inputs, outputs, gates):
    lines = [".model " + model, " ".join([".inputs", *inputs]), " ".join([".outputs", *outputs]), *gates, ".end"]
    return "".join(line + "\n" for line in lines)


def numbered(letter, count):
    return [f"{letter}{k}" for k in range(count)]


def half_adder(a, b, total, carry):
    return gate([a, b], total, EXOR) + gate([a, b], carry, AND)


def full_adder(a, b, c, total, carry):
    either = total + "_x"
    return gate([a, b], either, EXOR) + gate([either, c], total, EXOR) + gate([a, b, c], carry, MAJORITY)


def ripple(a, b, totals, carries):
    """Adds two lists of bits, the first of which may be shorter by one."""
    gates = half_adder(a[0], b[0], totals[0], carries[0])
    for k in range(1, len(b)):
        if k < len(a):
            gates += full_adder(a[k], b[k], carries[k - 1], totals[k], carries[k])
        else:
            gates += half_adder(b[k], carries[k - 1], totals[k], carries[k])
    return gates


def adder(bits):
    a, b, totals = numbered("a", bits), numbered("b", bits), numbered("s", bits)
    carries = numbered("c", bits)
    return source(f"ripple_adder_{bits}", a + b, totals + carries[-1:], ripple(a, b, totals, carries))


def multiplier(bits):
    a, b, outputs = numbered("a", bits), numbered("b", bits), numbered("p", 2 * bits)
    products = [[f"m{j}_{k}" if j + k else "p0" for k in range(bits)] for j in range(bits)]
    gates = [line for j in range(bits) for k in range(bits) for line in gate([a[k], b[j]], products[j][k], AND)]
    so_far = products[0][1:]
    for j in range(1, bits):
        totals, carries = numbered(f"t{j}_", bits), numbered(f"c{j}_", bits)
        totals[0] = outputs[j]
        if j == bits - 1:
            totals, carries[-1] = outputs[j:-1], outputs[-1]
        gates += ripple(so_far, products[j], totals, carries)
        so_far = totals[1:] + carries[-1:]
    if bits == 1:
        gates += gate([], outputs[1], [])
    return source(f"multiplier_{bits}", a + b, outputs, gates)


CIRCUITS = {"adder": adder, "multiplier": multiplier}

if __name__ == "__main__":
    if len(sys.argv) != 3 or sys.argv[1] not in CIRCUITS or not sys.argv[2].isdecimal() or int(sys.argv[2]) < 1:
        sys.exit(__doc__)
    print(CIRCUITS[sys.argv[1]](int(sys.argv[2])), end="")
