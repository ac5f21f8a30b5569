#!/usr/bin/env bash
# Has other tools read what `andexor synth` writes.
#
#   bench/read_net.sh [SOURCE ...]
#
# For each source, a PLA text or one of BLIF by its name's ending (by default those in bench/sources), the program writes the
# netlist in both forms. Berkeley ABC (Debian's `berkeley-abc`) and yosys read it, and a BLIF source too. Then ABC's `cec`
# compares the netlist, in Reddy form its control tied to 0, with the source: a BLIF source as it stands; of a PLA each output is
# taken as the OR of the rows that have a 1 for it, so that a free point is 0, as it is in the netlist. bench/fault_sim.py, an
# independent fault simulator, grades the netlist against its vectors: no response may be wrong, and no fault missed but those
# that the vector file of the factored form lists. Of the factored form `cec` also compares the `esop` lines with the source, and
# the number of cubes is printed beside those of ABC's `&exorcism` on the same source, whose cubes `cec` compares too: those
# of each output alone, added up, as they are counted here, and those of all outputs where they share cubes.
# The program is the one that `rt run` or `rt ci` left in crates/andexor/out, or that the variable ANDEXOR names. The status is 1
# where a tool does not read a text, `cec` does not find it equivalent, or the simulator finds another list of faults; and 2
# where the program or a tool is missing: the script says which, and leaves out what ABC or yosys would do.
set -u
# shellcheck source=bench/program.sh
. "$(dirname "$0")/program.sh"
needs python3
missing=0
abc=$(command -v berkeley-abc || command -v abc || true)
yosys=$(command -v yosys || true)
if [ -z "$abc" ]; then
    echo "berkeley-abc is missing: left out"
    missing=2
fi
if [ -z "$yosys" ]; then
    echo "yosys is missing: left out"
    missing=2
fi

folder=$(mktemp -d)
trap 'rm -rf "$folder"' EXIT
sources=("$@")
[ ${#sources[@]} -gt 0 ] || sources=("$here"/bench/sources/*.pla "$here"/bench/sources/*.blif)

# reads NAME TEXT WHAT: ABC and yosys read the text
reads() {
    if [ -n "$abc" ]; then
        "$abc" -q "read_blif $2; print_stats" 2>&1 | grep -q "i/o"
        says "$1" $? "ABC reads the $3" "ABC does not read the $3"
    fi
    if [ -n "$yosys" ]; then
        "$yosys" -q -p "read_blif $2; check -assert" >"$folder/yosys.log" 2>&1
        says "$1" $? "yosys reads the $3" "yosys does not read the $3"
    fi
}

# equals NAME TEXT WHAT: ABC finds the text equivalent to the source
equals() {
    [ -n "$abc" ] || return
    "$abc" -q "cec $folder/source.blif $2" 2>&1 | grep -q "Networks are equivalent"
    says "$1" $? "cec finds $3 equivalent to the source" "cec does not find $3 equivalent to the source"
}

# graded NAME: the simulator finds each response right, and misses exactly the faults that the vector file lists
graded() {
    python3 "$here/bench/fault_sim.py" "$folder/net.blif" "$folder/net.vec" >"$folder/graded"
    sed -n 's/^unchanged \(.*\) [^ ]*$/missed \1/p' "$folder/net.vec" | cmp -s - <(grep '^missed' "$folder/graded") &&
        grep -q ' wrong 0 ' "$folder/graded"
    says "$1" $? "simulated: $(head -n 1 "$folder/graded"), as the vector file says" "simulated: $(cat "$folder/graded")"
}

# cubes NAME: the cubes of the factored form mean the source, and how many ABC has
cubes() {
    python3 "$here/bench/as_blif.py" cubes "$folder/net.vec" >"$folder/cubes.blif"
    equals "$1" "$folder/cubes.blif" "the EXOR of the cubes"
    [ -n "$abc" ] || return
    local outputs others
    outputs=$(sed -n 's/^outputs //p' "$folder/net.vec" | wc -w)
    others=$(python3 "$here/bench/berkeley.py" exorcism "$folder/source.blif" "$outputs" "$folder/others.esop")
    python3 "$here/bench/as_blif.py" sum "$folder/others.esop" "$folder/net.vec" >"$folder/others.blif"
    equals "$1" "$folder/others.blif" "the EXOR of the cubes of &exorcism"
    echo "$1: $(grep '^cubes' "$folder/report") of $(grep '^terms' "$folder/report"); &exorcism: $others"
}

for source in "${sources[@]}"; do
    name=$(basename "$source")
    kind=${name##*.}
    if ! cp "$source" "$folder/in.$kind"; then
        status=1
        continue
    fi
    if [ "$kind" = pla ]; then
        python3 "$here/bench/as_blif.py" cover "$folder/in.pla" >"$folder/source.blif"
    else
        cp "$folder/in.blif" "$folder/source.blif"
        reads "$name" "$folder/in.blif" source
    fi
    for form in reddy factored; do
        if ! (cd "$folder" && "$program" synth "in.$kind" net.blif net.vec --kind "$kind" --form "$form" >report); then
            echo "$name: andexor: $(cat "$folder/report")"
            status=1
            continue
        fi
        reads "$name, $form" "$folder/net.blif" netlist
        if [ "$form" = reddy ]; then
            python3 "$here/bench/as_blif.py" low "$folder/net.blif" >"$folder/low.blif"
            equals "$name, $form" "$folder/low.blif" "the netlist, its control at 0,"
        else
            equals "$name, $form" "$folder/net.blif" "the netlist"
            cubes "$name, $form"
        fi
        graded "$name, $form"
    done
done
[ "$status" != 0 ] || status=$missing
exit "$status"
