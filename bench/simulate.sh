#!/usr/bin/env bash
# Takes what `andexor synth` writes into a flow of Verilog.
#
#   bench/simulate.sh [SOURCE ...]
#
# For each source, a PLA text or one of BLIF by its name's ending (by default those in bench/sources), the program writes the
# netlist NET and the vectors VEC in both forms. yosys turns NET into Verilog, bench/testbench.py writes a test bench that has
# each vector of VEC, and Icarus Verilog (Debian's `iverilog`) applies each vector and compares each response. Then it does so
# with one digit of the last response turned, which it has to find.
# The program is the one that `rt run` or `rt ci` left in crates/andexor/out, or that the variable ANDEXOR names. The status is 1
# where a step fails or the simulation finds another number of wrong responses than 0, and then 1; and 2 where the program or a
# tool is missing.
set -u
# shellcheck source=bench/program.sh
. "$(dirname "$0")/program.sh"
needs iverilog python3 vvp yosys

folder=$(mktemp -d)
trap 'rm -rf "$folder"' EXIT
sources=("$@")
[ ${#sources[@]} -gt 0 ] || sources=("$here"/bench/sources/*.pla "$here"/bench/sources/*.blif)

# simulated VEC: what the simulation of the network says last, by the vectors of that file
simulated() {
    python3 "$here/bench/testbench.py" "$folder/net.blif" "$1" >"$folder/testbench.v" &&
        iverilog -o "$folder/simulation" "$folder/net.v" "$folder/testbench.v" && vvp -n "$folder/simulation" | tail -n 1
}

for source in "${sources[@]}"; do
    kind=${source##*.}
    for form in reddy factored; do
        name="$(basename "$source"), $form"
        if ! "$program" synth "$source" "$folder/net.blif" "$folder/net.vec" --kind "$kind" --form "$form" >"$folder/report"; then
            says "$name" 1 "" "andexor: $(cat "$folder/report")"
            continue
        fi
        # the sums of products of BLIF become gates, since the table of a wide gate is too long for an expression
        if ! yosys -q -p "read_blif -sop $folder/net.blif; simplemap; write_verilog -noattr $folder/net.v" >"$folder/yosys.log" 2>&1; then
            says "$name" 1 "" "yosys: $(cat "$folder/yosys.log")"
            continue
        fi
        vectors=$(grep -c '^vector ' "$folder/net.vec")
        found=$(simulated "$folder/net.vec" 2>&1)
        [ "$found" = "vectors $vectors wrong 0" ]
        says "$name" $? "simulated: $found" "simulated: $found, not vectors $vectors wrong 0"
        last=$(grep -n '^vector ' "$folder/net.vec" | tail -n 1 | cut -d: -f1)
        sed "${last}{s/0\$/x/;s/1\$/0/;s/x\$/1/}" "$folder/net.vec" >"$folder/turned.vec"
        found=$(simulated "$folder/turned.vec" 2>&1)
        [ "$found" = "vectors $vectors wrong 1" ] || says "$name" 1 "" "a wrong response: $found, not vectors $vectors wrong 1"
    done
done
exit "$status"
