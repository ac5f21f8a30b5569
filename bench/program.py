"""What the scripts of this folder share: where the program and the sources are, one run of the program, and its report.

The program is the one that `rt run` or `rt ci` left in crates/andexor/out, or that the variable ANDEXOR names.
"""
import math
import os
import resource
import subprocess
from typing import List, NamedTuple, Optional

HERE = os.path.dirname(os.path.dirname(os.path.abspath(__file__)))
PROGRAM = os.path.abspath(os.environ.get("ANDEXOR", os.path.join(HERE, "crates/andexor/out/andexor")))
SOURCES = os.path.join(HERE, "bench/sources")
FORMS = ("reddy", "factored")
# the files that `synth` writes in its folder
NET, VEC = "net.blif", "net.vec"
TOO_MANY_TERMS = 7


class Run(NamedTuple):
    # None where the seconds were up
    status: Optional[int]
    report: str
    # of the processor: the program has one thread, so they are those of the clock on a machine that does nothing else
    seconds: float

    def number(self, name):
        """The number on the report's line of that name, and None where it has no such line."""
        lines = [line.split() for line in self.report.splitlines()]
        return next((int(words[1]) for words in lines if words[:1] == [name]), None)

    def misses(self):
        return [line for line in self.report.splitlines() if line.startswith("miss ")]


def is_missing():
    """Says that there is no program, where there is none."""
    if os.access(PROGRAM, os.X_OK):
        return False
    print(f"there is no {PROGRAM} (rt run in crates/andexor builds it)")
    return True


def sources():
    """The paths of all sources, PLA and BLIF, by name. Those with don't cares stand in a folder beside them."""
    return [os.path.join(SOURCES, name) for name in sorted(os.listdir(SOURCES)) if name.endswith((".pla", ".blif"))]


def kind_of(source):
    return source.rsplit(".", 1)[1]


def processor_seconds():
    """Those of all runs so far."""
    usage = resource.getrusage(resource.RUSAGE_CHILDREN)
    return usage.ru_utime + usage.ru_stime


def run(folder, words: List[str], seconds=math.inf):
    """Runs the program with these words in the folder, for at most so many seconds of the processor."""

    def limit():
        if seconds < math.inf:
            most = math.ceil(seconds)
            resource.setrlimit(resource.RLIMIT_CPU, (most, most + 1))

    start = processor_seconds()
    done = subprocess.run([PROGRAM, *words], cwd=folder, capture_output=True, text=True, preexec_fn=limit, check=False)
    taken = processor_seconds() - start
    return Run(None if taken > seconds else done.returncode, done.stdout, taken)


def synth(folder, source, form="reddy", polarity="positive", seconds=math.inf):
    """Synthesises the source, whose kind its name's ending tells, to NET and VEC in the folder."""
    options = ["--kind", kind_of(source), "--form", form, "--polarity", polarity]
    return run(folder, ["synth", source, NET, VEC, *options], seconds)


def write(folder, name, text):
    """Writes the text, and gives its path."""
    path = os.path.join(folder, name)
    with open(path, "w", encoding="latin-1") as file:
        file.write(text)
    return path


def read(folder, name):
    with open(os.path.join(folder, name), encoding="latin-1") as file:
        return file.read()
