#!/usr/bin/env bash
# Times `andexor synth` on PLA texts of exactly 16,777,216 bytes, the most that a text may have.
#
#   bench/pla_read.sh [FOLDER]
#
# The texts are made in FOLDER, or in a new folder that is removed at the end. The program is the one that `rt run` or
# `rt ci` left in crates/andexor/out, or that the variable ANDEXOR names; where there is none, `rt run` proves and builds it.
# The last line of each text has a fault, so a run reads the whole text, refuses it and writes no file: what is timed is
# reading alone. For each text the script prints the wall seconds, the peak memory and the line of the report.
# Where a tool is missing it says so, and leaves out what needs it.
set -u
here=$(cd "$(dirname "$0")/.." && pwd)
program=${ANDEXOR:-$here/crates/andexor/out/andexor}

if ! command -v python3 >/dev/null; then
    echo "skipped: python3 is missing, which makes the texts"
    exit 0
fi
if [ ! -x "$program" ]; then
    if ! command -v rt >/dev/null; then
        echo "skipped: there is no $program, and rt is missing, which builds it"
        exit 0
    fi
    echo "building $program"
    (cd "$here/crates/andexor" && rt run -- no command) >/dev/null 2>&1
    if [ ! -x "$program" ]; then
        echo "skipped: rt run in crates/andexor built no program"
        exit 0
    fi
fi

folder=${1:-}
if [ -z "$folder" ]; then
    folder=$(mktemp -d)
    trap 'rm -rf "$folder"' EXIT
fi

python3 - "$folder" <<'TEXTS'
import random
import sys

SIZE = 16_777_216
ROWS = 65_536
END = b".x\n"


def write(name, front, filler):
    """The front, then the filler again and again, then bytes 10, and the faulty line."""
    space = SIZE - len(front) - len(END)
    text = front + filler * (space // len(filler))
    text += b"\n" * (SIZE - len(END) - len(text)) + END
    assert len(text) == SIZE
    with open(f"{sys.argv[1]}/{name}.pla", "wb") as file:
        file.write(text)


def rows(inputs, outputs, count):
    draw = random.Random(1)
    pick = lambda chars, n: "".join(draw.choices(chars, k=n))
    made = [f"{pick('01--', inputs)} {pick('01', outputs)}\n" for _ in range(count)]
    return f".i {inputs}\n.o {outputs}\n{''.join(made)}".encode()


write("wide_rows", rows(64, 64, ROWS), b"# " + b"a comment line " * 8 + b"\n\n")
write("rows_of_64_inputs", rows(64, 1, ROWS), b"# " + b"a comment line " * 8 + b"\n\n")
write("short_rows_and_headers", rows(1, 1, ROWS), b".p\n")
write("blank_lines", rows(1, 1, ROWS), b"\n")
write("one_line_of_words", b".i 1\n.o 1\n.p", b" a")
TEXTS

for text in wide_rows rows_of_64_inputs short_rows_and_headers blank_lines one_line_of_words; do
    printf '%-24s ' "$text"
    run=("$program" synth "$folder/$text.pla" "$folder/net" "$folder/vec")
    if [ -x /usr/bin/time ]; then
        /usr/bin/time -f '%e s, %M kB' -o "$folder/time" "${run[@]}" >"$folder/report"
        printf '%s, ' "$(tail -n 1 "$folder/time")"
    else
        TIMEFORMAT='%R s, memory not measured (no /usr/bin/time), '
        { time "${run[@]}" >"$folder/report"; } 2>&1 | tr -d '\n'
    fi
    sed "s|$folder/||" "$folder/report"
done
