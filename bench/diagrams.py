#!/usr/bin/env python3
"""Times `andexor synth` on sources that try the store of functions, and fails where one takes too long.

  bench/diagrams.py [SECONDS] [WORD ..]

The sources:

- 20 random rows of four literals over 64 inputs, and 200 such rows over 20 inputs;
- the minterms of a random function of 16 inputs, about 32,000 rows;
- a row of forty complemented inputs;
- an adder of eight bits and a multiplier of four, each as a PLA of its minterms and as the BLIF of bench/circuits.py.

For each, with all literals plain and at the best polarity that a search by single flips finds within forty seconds (it asks the program
for the terms of each), the script prints the wall seconds of the whole program and of its reading alone (the same
source with a fault in its last line, which is refused with status 5), the most memory that it held, and its status and report. With WORDs
it takes only the sources whose names hold one of them. A run is given 8 GiB, and is ended after SECONDS times six.

The program is the one that `rt run` or `rt ci` left in crates/andexor/out, or that the variable ANDEXOR names. The status is 0 where each
source has a network (status 0) or too many terms (status 7) within SECONDS (by default 10), 1 where one has not, and 2 where the program
is missing.
"""
import os
import random
import re
import resource
import subprocess
import sys
import tempfile
import threading
import time
from typing import NamedTuple

import circuits
import program
import synthesis

MOST_BYTES = 8 << 30
# the most seconds that the search for a good polarity of one source may take
SEARCH_SECONDS = 40.0


class Source(NamedTuple):
    name: str
    kind: str
    text: str


class Run(NamedTuple):
    status: int
    report: str
    seconds: float
    mebibytes: float


def pla(name, inputs, rows):
    lines = [f".i {inputs}", ".o 1", *(f"{row} 1" for row in rows), ".e"]
    return Source(name, "pla", "".join(line + "\n" for line in lines))


def row_of_four(draw, inputs):
    row = ["-"] * inputs
    for k in draw.sample(range(inputs), 4):
        row[k] = draw.choice("01")
    return "".join(row)


def rows_of_four(count, inputs):
    draw = random.Random(count * 100 + inputs)
    return pla(f"{count} rows of four literals over {inputs} inputs", inputs, [row_of_four(draw, inputs) for _ in range(count)])


def random_minterms(inputs):
    draw = random.Random(inputs)
    ones = [f"{point:0{inputs}b}" for point in range(1 << inputs) if draw.getrandbits(1)]
    return pla(f"{len(ones)} minterms of {inputs} inputs", inputs, ones)


def sources():
    yield rows_of_four(20, 64)
    yield rows_of_four(200, 20)
    yield random_minterms(16)
    yield pla("a row of forty complemented inputs", 40, ["0" * 40])
    yield Source("adder of eight bits, PLA", "pla", synthesis.adder(8).text)
    yield Source("adder of eight bits, BLIF", "blif", circuits.adder(8))
    yield Source("multiplier of four bits, PLA", "pla", synthesis.multiplier(4).text)
    yield Source("multiplier of four bits, BLIF", "blif", circuits.multiplier(4))


def with_fault(text):
    """The same text, whose last line is none that may stand there."""
    return text[: text.rindex(".e")] + ".fault\n"


def limit_memory():
    resource.setrlimit(resource.RLIMIT_AS, (MOST_BYTES, MOST_BYTES))


def run(folder, kind, text, options, most):
    with open(os.path.join(folder, "in"), "w") as file:
        file.write(text)
    words = [program.PROGRAM, "synth", "in", program.NET, program.VEC, "--kind", kind, *options]
    with open(os.path.join(folder, "report"), "w+") as report:
        start = time.perf_counter()
        child = subprocess.Popen(words, cwd=folder, stdout=report, stderr=subprocess.STDOUT, preexec_fn=limit_memory)
        timer = threading.Timer(6 * most, child.kill)
        timer.start()
        _, status, usage = os.wait4(child.pid, 0)
        seconds = time.perf_counter() - start
        timer.cancel()
        child.returncode = os.waitstatus_to_exitcode(status)
        report.seek(0)
        return Run(child.returncode, ", ".join(report.read().splitlines()), seconds, usage.ru_maxrss / 1024)


def inputs_of(source):
    if source.kind == "pla":
        return int(re.search(r"^\.i (\d+)", source.text, re.M).group(1))
    return sum(len(line.split()) - 1 for line in source.text.splitlines() if line.startswith(".inputs"))


def terms_at(folder, source, digits, most):
    """The number of terms at a polarity, and infinity where there are too many or the time is up."""
    found = re.search(r"terms (\d+)", run(folder, source.kind, source.text, ["--polarity", digits], most).report)
    return int(found.group(1)) if found else float("inf")


def best_digits(folder, source, most):
    """The best polarity found: from all literals plain and all complemented, single flips that lower the terms, while time is left."""
    end = time.perf_counter() + SEARCH_SECONDS
    count = inputs_of(source)
    fewest, digits = min((terms_at(folder, source, start, most), start) for start in ("1" * count, "0" * count))
    lowered = True
    while lowered:
        lowered = False
        for j in range(count):
            if time.perf_counter() > end:
                return digits
            flipped = digits[:j] + "10"[int(digits[j])] + digits[j + 1 :]
            terms = terms_at(folder, source, flipped, most)
            if terms < fewest:
                fewest, digits, lowered = terms, flipped, True
    return digits


def ends_in_time(folder, source, polarity, options, most):
    reading = run(folder, source.kind, with_fault(source.text), options, most)
    whole = run(folder, source.kind, source.text, options, most)
    kept = reading.status == 5 and whole.status in (0, 7) and whole.seconds <= most
    print(
        f"{source.name}, {polarity}: {whole.seconds:.2f} s (reading {reading.seconds:.2f}), {whole.mebibytes:.0f} MiB, "
        f"status {whole.status}: {whole.report}" + ("" if kept else " -- NOT KEPT"),
        flush=True,
    )
    return kept


def main(most, words):
    if program.is_missing():
        return 2
    asked = [source for source in sources() if not words or any(word in source.name for word in words)]
    with tempfile.TemporaryDirectory() as folder:
        kept = []
        for source in asked:
            kept.append(ends_in_time(folder, source, "all plain", [], most))
            digits = best_digits(folder, source, most)
            kept.append(ends_in_time(folder, source, "best polarity found", ["--polarity", digits], most))
    return int(not all(kept))


if __name__ == "__main__":
    words = sys.argv[1:]
    if "--help" in words:
        sys.exit(__doc__)
    seconds = float(words.pop(0)) if words and words[0].isdecimal() else 10.0
    sys.exit(main(seconds, words))
