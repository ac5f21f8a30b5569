#!/usr/bin/env python3
"""Counts where proofs rest on lemma files of other crates, in place of the laws that those crates show.

  bench/imports.py

A crate shows its contracts and its law functions; a proof that imports another crate's lemma file rests on more. The script counts the
lines `use Rattle.CRATE.proofs...` of specs/ and proofs/ and the names in `using(CRATE::proofs::...)` of the code, by the crate that
imports and the crate that is imported from, and prints the pairs and the sums. ae_base's lemmas, on lists, sets, truth values and results, stand there so that all may cite them. std and the kit's crates are not counted.
"""
import collections
import glob
import os
import re
import sys

HERE = os.path.dirname(os.path.dirname(os.path.abspath(__file__)))


def imports(own):
    crates = {os.path.basename(path) for path in glob.glob(os.path.join(HERE, "crates", "*"))}
    folder = os.path.join(HERE, "crates", own)
    for kind in ("specs", "proofs"):
        for path in glob.glob(os.path.join(folder, kind, "**", "*.antt"), recursive=True):
            yield from re.findall(r"^use Rattle\.(\w+)\.proofs\.", open(path).read(), re.M)
    for path in glob.glob(os.path.join(folder, "src", "**", "*.rt"), recursive=True):
        for names in re.findall(r"using\(([^)]*)\)", open(path).read()):
            yield from (name for name in re.findall(r"(\w+)::proofs::", names) if name in crates)


def main():
    crates = sorted(os.path.basename(path) for path in glob.glob(os.path.join(HERE, "crates", "*")))
    total, base = 0, 0
    for own in crates:
        found = collections.Counter(crate for crate in imports(own) if crate in crates and crate != own)
        if found:
            total += sum(found.values())
            base += found["ae_base"]
            print(f"{own} {sum(found.values())}: " + ", ".join(f"{crate} {count}" for crate, count in found.most_common()))
    print(f"in all {total}, of which {base} of ae_base's lemmas and {total - base} of other crates' lemmas")
    return 0


if __name__ == "__main__":
    if len(sys.argv) != 1:
        sys.exit(__doc__)
    sys.exit(main())
