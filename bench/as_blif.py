#!/usr/bin/env python3
"""Prints as BLIF what other tools compare.

  bench/as_blif.py low NET             the netlist NET, its last input as a constant 0
  bench/as_blif.py cover SOURCE        a PLA text: each output is the OR of the rows that have a 1 for it, so that a free point is 0, as it
                                       is in a network that andexor writes
  bench/as_blif.py cubes VEC           what the `esop` lines of VEC say: each output is the EXOR of its cubes
  bench/as_blif.py sum ESOP VEC        the same of an ESOP-PLA text, as ABC's `&exorcism` writes it, with the names of VEC
"""
import sys


def lines_of(path):
    with open(path, encoding="latin-1") as file:
        return file.read().splitlines()


def low(path):
    lines = lines_of(path)
    inputs = lines[1].split()
    return [lines[0], " ".join(inputs[:-1]), lines[2], ".names " + inputs[-1], *lines[3:]]


def pla(path):
    """The names of the inputs and outputs of a PLA text, and its rows, each its characters for the inputs and for the outputs."""
    lines = [line.split("#")[0].split() for line in lines_of(path)]
    ends = [place for place, words in enumerate(lines) if words[:1] in ([".e"], [".end"])]
    lines = [words for words in lines[: ends[0] if ends else len(lines)] if words]
    said = {words[0]: words[1:] for words in lines if words[0].startswith(".")}
    inputs = said.get(".ilb", [f"x{k + 1}" for k in range(int(said[".i"][0]))])
    outputs = said.get(".ob", [f"f{k + 1}" for k in range(int(said[".o"][0]))])
    rows = ["".join(words).replace("|", "") for words in lines if not words[0].startswith(".")]
    return inputs, outputs, [(row[: len(inputs)].replace("2", "-"), row[len(inputs) :]) for row in rows]


def head(inputs, outputs):
    return [".model andexor", " ".join([".inputs", *inputs]), " ".join([".outputs", *outputs])]


def gate(pins, name, rows):
    # ABC takes no table with pins and without rows
    return [" ".join([".names", *(pins if rows and pins else []), name]), *rows]


def cover(path):
    inputs, outputs, rows = pla(path)
    gates = []
    for place, output in enumerate(outputs):
        gates += gate(inputs, output, [f"{literals} 1" for literals, marks in rows if marks[place] in "14"])
    return [*head(inputs, outputs), *gates, ".end"]


def exor_sum(inputs, outputs, cubes):
    """The cubes stand as one list for each output. Inner names begin with a character with which no other does."""
    gates = []
    for place, output in enumerate(outputs):
        so_far = f"~{place}"
        gates += gate([], so_far, [])
        for count, cube in enumerate(cubes[place]):
            product, total = f"~{place}_{count}p", f"~{place}_{count}"
            gates += gate(inputs, product, [cube + " 1"]) + gate([so_far, product], total, ["10 1", "01 1"])
            so_far = total
        gates += gate([so_far], output, ["1 1"])
    return [*head(inputs, outputs), *gates, ".end"]


def cubes_of_vec(path):
    """The names of the inputs and outputs, and the cubes of each output."""
    words = [line.split() for line in lines_of(path)]
    inputs, outputs = ([line[1:] for line in words if line[:1] == [name]][0] for name in ("inputs", "outputs"))
    said = [(int(line[1]) - 1, line[2]) for line in words if line[:1] == ["esop"]]
    return inputs, outputs, [[cube for output, cube in said if output == place] for place in range(len(outputs))]


def cubes_of_esop(path):
    _, outputs, rows = pla(path)
    return [[literals for literals, marks in rows if marks[place] == "1"] for place in range(len(outputs))]


def main(words):
    if len(words) == 2 and words[0] == "low":
        return low(words[1])
    if len(words) == 2 and words[0] == "cover":
        return cover(words[1])
    if len(words) == 2 and words[0] == "cubes":
        return exor_sum(*cubes_of_vec(words[1]))
    if len(words) == 3 and words[0] == "sum":
        inputs, outputs, _ = cubes_of_vec(words[2])
        return exor_sum(inputs, outputs, cubes_of_esop(words[1]))
    return None


if __name__ == "__main__":
    text = main(sys.argv[1:])
    if text is None:
        sys.exit(__doc__)
    print("\n".join(text))
