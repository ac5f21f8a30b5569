#!/usr/bin/env python3
"""Times `andexor synth` on a source whose Reddy network is as great as there may be: 255 inputs, 255 outputs, 65,536 terms.

  bench/greatest.py [SECONDS [GIBIBYTES]]

Output k has one row: ones at all inputs but eight, the zeros at eight inputs that follow each other from input k on,
round the end; the last row has nine zeros. With all literals plain a row with z zeros has 2^z terms: 254 times 256 and 512. All have 246
literals or more, so that the AND gates have as many pins as they can all have.

The program is given so much memory (by default 8 GiB) and ended after SECONDS (by default 120). The script prints the seconds, the most
memory that it held, the bytes of both files and the report. The status is 0 where the status of the program is 0, 1 where it is another,
and 2 where there is no program.
"""
import os
import resource
import subprocess
import sys
import tempfile
import time

import program

LINES = 255


def source():
    rows = []
    for k in range(LINES):
        zeros = 9 if k == LINES - 1 else 8
        word = ["1"] * LINES
        for i in range(zeros):
            word[(k + i) % LINES] = "0"
        rows.append("".join(word) + " " + "0" * k + "1" + "0" * (LINES - 1 - k))
    return "".join(line + "\n" for line in [f".i {LINES}", f".o {LINES}", *rows, ".e"])


def main(seconds, gibibytes):
    if program.is_missing():
        return 2
    most = gibibytes << 30
    with tempfile.TemporaryDirectory() as folder:
        words = [program.PROGRAM, "synth", program.write(folder, "in.pla", source()), program.NET, program.VEC]
        start = time.time()
        try:
            done = subprocess.run(words, cwd=folder, capture_output=True, text=True, timeout=seconds, check=False,
                                  preexec_fn=lambda: resource.setrlimit(resource.RLIMIT_AS, (most, most)))
        except subprocess.TimeoutExpired:
            print(f"not done in {seconds} seconds")
            return 1
        taken = time.time() - start
        held = resource.getrusage(resource.RUSAGE_CHILDREN).ru_maxrss / 1024
        print(f"status {done.returncode}, {taken:.1f} s, {held:.0f} MiB")
        for name in (program.NET, program.VEC):
            path = os.path.join(folder, name)
            print(f"{name} {os.path.getsize(path) if os.path.exists(path) else 0} bytes")
        print(done.stdout, end="")
    return 0 if done.returncode == 0 else 1


if __name__ == "__main__":
    if len(sys.argv) > 3 or not all(word.isdigit() for word in sys.argv[1:]):
        sys.exit(__doc__)
    sys.exit(main(*[int(word) for word in sys.argv[1:]], *[120, 8][len(sys.argv) - 1:]))
