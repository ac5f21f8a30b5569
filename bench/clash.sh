#!/usr/bin/env bash
# Times the search for the first clash of PLA texts of kind fr with 65,536 rows, 64 inputs and 64 outputs, the most that a text may have.
#
#   bench/clash.sh [FOLDER]
#
# The texts are made in FOLDER, or in a new folder that is removed at the end. The program is the one that `rt run` or
# `rt ci` left in crates/andexor/out, or that the variable ANDEXOR names; where there is none, `rt run` proves and builds it.
# In each text only the last row has a clash, so a run reads the text, looks at every pair of rows, refuses the text and
# writes no file. For each text the script prints the wall seconds and the line of the report.
# The status is 1 where a tool is missing, a run takes over a minute, or a report says anything but the clash.
set -u
here=$(cd "$(dirname "$0")/.." && pwd)
program=${ANDEXOR:-$here/crates/andexor/out/andexor}

fail() {
    echo "$1"
    exit 1
}

command -v python3 >/dev/null || fail "python3 is missing, which makes the texts"
command -v timeout >/dev/null || fail "timeout is missing, which ends a run after a minute"
if [ ! -x "$program" ]; then
    command -v rt >/dev/null || fail "there is no $program, and rt is missing, which builds it"
    echo "building $program"
    (cd "$here/crates/andexor" && rt run -- no command) >/dev/null 2>&1
    [ -x "$program" ] || fail "rt run in crates/andexor built no program"
fi

folder=${1:-}
if [ -z "$folder" ]; then
    folder=$(mktemp -d)
    trap 'rm -rf "$folder"' EXIT
fi

python3 - "$folder" <<'TEXTS' || fail "the texts cannot be made"
import random
import sys

ROWS = 65_536
draw = random.Random(1)


def marks(*parts):
    """So many outputs with one of these characters each, part after part."""
    return "".join("".join(draw.choices(chars, k=count)) for chars, count in parts)


def write(name, row, last):
    """The rows by their number, and the one that has a clash."""
    rows = [row(i) for i in range(ROWS - 1)] + [last]
    with open(f"{sys.argv[1]}/{name}.pla", "w") as file:
        file.write(".i 64\n.o 64\n.type fr\n" + "".join(f"{cube} {outs}\n" for cube, outs in rows))


def minterm(i):
    return format(i, "016b") + "-" * 48


def halves(i):
    """One in the first half of the outputs and Zero in the second, or the other way round in every other row."""
    return marks(("1-", 32), ("0-", 32)) if i % 2 else marks(("0-", 32), ("1-", 32))


ANY = "-" * 64
LAST = "-" * 63 + "1"
# No two rows but the last two hold a common point. The last output of the last but one is off.
write("disjoint", lambda i: (minterm(i), marks(("01", 63), ("0", 1))), (minterm(ROWS - 2), LAST))
# All rows hold a common point: each output is on or free in all, or off or free in all.
write("all_meet", lambda i: (ANY, marks(("1-", 32), ("0-", 31), ("0", 1))), (ANY, LAST))
# The rows of two halves of the points: every output is on in one half and off in the other.
write("half_meet", lambda i: (str(i % 2) + "-" * 63, halves(i)), ("1" + "-" * 63, LAST))
# No row but the last has One, so no pair but those of the last row can clash.
write("no_one", lambda i: (ANY, marks(("0-", 63), ("0", 1))), (ANY, LAST))
TEXTS

status=0
TIMEFORMAT='%R s'
for text in disjoint all_meet half_meet no_one; do
    printf '%-10s ' "$text"
    { time timeout 60 "$program" synth "$folder/$text.pla" "$folder/net" "$folder/vec" >"$folder/report"; } 2>"$folder/time"
    printf '%s, %s\n' "$(tail -n 1 "$folder/time")" "$(sed "s|$folder/||" "$folder/report")"
    grep -q Clash "$folder/report" || status=1
done
exit "$status"
