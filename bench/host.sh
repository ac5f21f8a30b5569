#!/usr/bin/env bash
# Runs `andexor synth` where the host gives errors, pipes, files that are replaced and little memory.
#
#   bench/host.sh [RUNS]
#
# Each run's status, printed lines and files are compared with what docs/FORMATS.md says of them: IN is missing, a folder,
# empty, without end, a pipe, or replaced by a rename while it is read (RUNS times, by default 50: the texts must be those of
# one of the two sources); NET or VEC is in a missing folder, a folder, a file that may not be written, or full; standard
# output is full or closed; a word is no text; and memory is limited, by each limit under which the program begins, up to one
# under which it is done. The program is the one that `rt run` or `rt ci` left in crates/andexor/out, or that the variable
# ANDEXOR names. The script prints a line for each comparison that fails, for each kind of run, and for what it leaves out.
# The status is 0 where all agree, 1 where something differs, and 2 where the program or a tool is missing.
set -u
here=$(cd "$(dirname "$0")/.." && pwd)
program=${ANDEXOR:-$here/crates/andexor/out/andexor}
runs=${1:-50}
if [ ! -x "$program" ]; then
    echo "there is no $program (rt run in crates/andexor builds it)"
    exit 2
fi
program=$(realpath "$program")
for tool in cmp head mkfifo mktemp realpath seq wc; do
    if ! command -v "$tool" >/dev/null; then
        echo "$tool is missing"
        exit 2
    fi
done
for device in /dev/full /dev/stdin /dev/zero; do
    if [ ! -e "$device" ]; then
        echo "$device is missing"
        exit 2
    fi
done

folder=$(mktemp -d)
swapper=
end() {
    [ -z "$swapper" ] || kill "$swapper" 2>/dev/null
    rm -rf "$folder"
}
trap end EXIT
cd "$folder" || exit 2
status=0
usage="usage: andexor synth IN NET VEC, grade NET VEC, check NET VEC, demo NUMBER NET VEC"

# differs NAME WHAT: something is not as the formats say
differs() {
    echo "$1: $2"
    status=1
}

# ends NAME STATUS LINE: the last run ended with the status, `got` being the one that came, and printed the line to
# the file `report` and nothing to `errors`
ends() {
    [ "$got" = "$2" ] || differs "$1" "status $got, not $2"
    printf '%s' "${3:+$3
}" | cmp -s - report || differs "$1" "printed '$(head -c 300 report)', not '$3'"
    [ ! -s errors ] || differs "$1" "wrote to the standard error: $(head -c 300 errors)"
}

# holds NAME FILE TEXT: the file holds the bytes of the file TEXT, or, where TEXT is -, is absent
holds() {
    if [ "$3" = - ]; then
        [ ! -e "$2" ] || differs "$1" "$2 was made"
    else
        cmp -s "$2" "$3" || differs "$1" "$2 is not as $3"
    fi
}

# synth WORD ..: a run with these words, after the texts of the last one are gone
synth() {
    rm -f n.blif v.vec
    "$program" synth "$@" >report 2>errors
    got=$?
}

# the source, and the texts and the report that a plain run makes of it
printf '.i 2\n.o 1\n11 1\n.e\n' >and.pla
synth and.pla n.blif v.vec
[ "$got" = 0 ] || differs "a plain run" "status $got, not 0"
mv n.blif and.blif
mv v.vec and.vec
mv report and.report
done_report=$(cat and.report)
mkdir a_folder

echo "IN"
synth absent.pla n.blif v.vec
ends "missing IN" 3 "read fault: absent.pla"
holds "missing IN" n.blif -
holds "missing IN" v.vec -
synth a_folder n.blif v.vec
ends "a folder as IN" 3 "read fault: a_folder"
holds "a folder as IN" n.blif -
holds "a folder as IN" v.vec -
: >empty.pla
synth empty.pla n.blif v.vec
ends "an empty IN" 5 "refused: empty.pla: line 0: NoI"
holds "an empty IN" n.blif -
synth /dev/zero n.blif v.vec
ends "an IN without end" 6 "too long: /dev/zero"
holds "an IN without end" n.blif -
if [ "$(id -u)" = 0 ]; then
    echo "left out: an IN that may not be read (root may read it)"
else
    cp and.pla closed.pla
    chmod a-r closed.pla
    synth closed.pla n.blif v.vec
    ends "an IN that may not be read" 3 "read fault: closed.pla"
    holds "an IN that may not be read" n.blif -
fi

echo "NET and VEC"
synth and.pla absent/n.blif v.vec
ends "missing folder of NET" 4 "write fault: absent/n.blif"
holds "missing folder of NET" v.vec -
synth and.pla n.blif absent/v.vec
ends "missing folder of VEC" 4 "write fault: absent/v.vec"
holds "missing folder of VEC" n.blif and.blif
synth and.pla a_folder v.vec
ends "a folder as NET" 4 "write fault: a_folder"
holds "a folder as NET" v.vec -
synth and.pla /dev/full v.vec
ends "a full NET" 4 "write fault: /dev/full"
holds "a full NET" v.vec -
synth and.pla n.blif /dev/full
ends "a full VEC" 4 "write fault: /dev/full"
holds "a full VEC" n.blif and.blif
head -c 100000 /dev/zero >long.old
cp long.old long.blif
synth and.pla long.blif v.vec
ends "a longer NET that stands" 0 "$done_report"
holds "a longer NET that stands" long.blif and.blif
if [ "$(id -u)" = 0 ]; then
    echo "left out: a NET that may not be written (root may write it)"
else
    echo "as before" >kept.old
    cp kept.old kept.blif
    chmod a-w kept.blif
    synth and.pla kept.blif v.vec
    ends "a NET that may not be written" 4 "write fault: kept.blif"
    holds "a NET that may not be written" kept.blif kept.old
    holds "a NET that may not be written" v.vec -
fi

echo "standard output"
: >report
rm -f n.blif v.vec
"$program" synth and.pla n.blif v.vec >/dev/full 2>errors
got=$?
ends "a full standard output" 4 ""
holds "a full standard output" n.blif and.blif
holds "a full standard output" v.vec and.vec
rm -f n.blif v.vec
"$program" synth and.pla n.blif v.vec >&- 2>errors
got=$?
ends "a closed standard output" 4 ""
holds "a closed standard output" n.blif and.blif
holds "a closed standard output" v.vec and.vec

echo "words"
synth and.pla n.blif
ends "a word too few" 2 "$usage"
holds "a word too few" n.blif -
synth and.pla n.blif $'\xff.vec'
ends "a word that is no text" 2 "$usage"
holds "a word that is no text" n.blif -

echo "pipes"
synth /dev/stdin n.blif v.vec < <(cat and.pla)
ends "a pipe" 0 "$done_report"
holds "a pipe" n.blif and.blif
holds "a pipe" v.vec and.vec
synth /dev/stdin n.blif v.vec < <(head -c 9 and.pla && sleep 0.2 && tail -c +10 and.pla)
ends "a pipe in two pieces" 0 "$done_report"
holds "a pipe in two pieces" n.blif and.blif
synth /dev/stdin n.blif v.vec < <(for _ in $(seq 5000); do echo "# a comment"; done && cat and.pla)
ends "a long pipe" 0 "$done_report"
holds "a long pipe" n.blif and.blif
synth /dev/stdin n.blif v.vec <and.pla
ends "a file as standard input" 0 "$done_report"
holds "a file as standard input" n.blif and.blif
mkfifo pipe.pla
cat and.pla >pipe.pla &
synth pipe.pla n.blif v.vec
ends "a named pipe" 0 "$done_report"
holds "a named pipe" n.blif and.blif
wait

# rows OUTPUT: a text of 4 megabytes, with a row for each point of four inputs; OUTPUT stands in all of them
filler=$(printf '# %0254d\n' 0)
filler=$(for _ in $(seq 1000); do echo "$filler"; done)
rows() {
    printf '.i 4\n.o 1\n'
    for point in {0,1}{0,1}{0,1}{0,1}; do
        printf '%s %s\n%s\n' "$point" "$1" "$filler"
    done
}

echo "IN is replaced while it is read"
for text in 0 1; do
    rows $text >$text.pla
    cp $text.pla in.pla
    synth in.pla n.blif v.vec
    [ "$got" = 0 ] || differs "the source of $text" "status $got, not 0"
    mv n.blif $text.blif
    mv v.vec $text.vec
    mv report $text.report
done
cmp -s 0.blif 1.blif && differs "the two sources" "they have one network"
(
    trap 'exit 0' TERM
    while true; do
        for text in 0 1; do
            ln -f $text.pla next.pla && mv -f next.pla in.pla
        done
    done
) >/dev/null 2>&1 &
swapper=$!
of_0=0
of_1=0
for run in $(seq "$runs"); do
    synth in.pla n.blif v.vec
    if [ "$got" = 0 ] && cmp -s n.blif 0.blif && cmp -s v.vec 0.vec && cmp -s report 0.report; then
        of_0=$((of_0 + 1))
    elif [ "$got" = 0 ] && cmp -s n.blif 1.blif && cmp -s v.vec 1.vec && cmp -s report 1.report; then
        of_1=$((of_1 + 1))
    else
        differs "run $run" "status $got, and the texts of neither source"
    fi
done
kill "$swapper"
wait "$swapper" 2>/dev/null
swapper=
echo "$of_0 of $runs runs read the one source, $of_1 the other"

# front NAME FILE TEXT: the file is absent, or holds a front of the file TEXT
front() {
    [ ! -e "$2" ] || head -c "$(wc -c <"$2")" "$3" | cmp -s - "$2" || differs "$1" "$2 is no front of $3"
}

# starts KILOBYTES: another program can be begun with so much memory for addresses
starts() {
    { (ulimit -v "$1" && exec cat /dev/null) >/dev/null 2>&1; } 2>/dev/null
}

# under SOURCE STEP: runs of SOURCE.pla, each with STEP more kilobytes for addresses, until one is done. Where the system
# cannot begin a program there is nothing to compare.
under() {
    local limit name wanting=0
    for limit in $(seq "$2" "$2" 200000); do
        rm -f n.blif v.vec
        { (ulimit -v "$limit" && exec "$program" synth "$1.pla" n.blif v.vec) >report 2>errors; } 2>/dev/null
        got=$?
        name="$1.pla under $limit kB"
        if [ $got = 0 ]; then
            holds "$name" n.blif "$1.blif"
            holds "$name" v.vec "$1.vec"
            [ $wanting -gt 0 ] || differs "$1.pla" "no limit made memory wanting"
            echo "$1.pla: memory was wanting under $wanting limits; it is done under $limit kB"
            return
        fi
        # the system's own ends of a program that it cannot begin
        if [ $wanting = 0 ] && { [ $got = 126 ] || [ $got = 127 ] || { [ $got -gt 128 ] && ! starts "$limit"; }; }; then
            continue
        fi
        wanting=$((wanting + 1))
        ends "$name" 8 "want of memory"
        front "$name" n.blif "$1.blif"
        front "$name" v.vec "$1.vec"
    done
    differs "$1.pla" "not done under any limit"
}

echo "little memory"
under and 20
under 0 200
[ $status != 0 ] || echo "all agree"
exit $status
