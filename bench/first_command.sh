#!/usr/bin/env bash
# Runs the first command of README.md on a fresh copy of the last commit, from another folder, and looks at the files that it writes.
#
# The status is 0 where status, report and files are those of the two-input AND, else 1.
set -u
here=$(cd "$(dirname "${BASH_SOURCE[0]}")/.." && pwd)
copy=$(mktemp -d)
trap 'rm -rf "$copy"' EXIT
mkdir "$copy/repository" "$copy/folder"
git -C "$here" archive HEAD | tar -x -C "$copy/repository" || exit 1
cd "$copy/folder" || exit 1
cp "$copy/repository/bench/sources/and2.pla" and2.pla

env -u ANDEXOR "$copy/repository/andexor" synth and2.pla and2.blif --form reddy and2.vec >report 2>told
status=$?

cat >wanted.report <<'END'
form reddy
inputs 2 outputs 1
polarity 11
terms 1
gates 2
faults 20
vectors 6
unchanged 0
END
cat >wanted.blif <<'END'
.model andexor
.inputs x1 x2 _c
.outputs f1
.names x1 x2 _t1
11 1
.names _c _t1 f1
10 1
01 1
.end
END
cat >wanted.vec <<'END'
andexor-vectors 1
form reddy
inputs x1 x2 _c
outputs f1
polarity 11
vector 000 0
vector 110 1
vector 001 1
vector 111 0
vector 010 0
vector 100 0
end
END
if [ "$status" = 0 ] && cmp report wanted.report && cmp and2.blif wanted.blif && cmp and2.vec wanted.vec; then
    echo "first command: the files are there"
else
    echo "first command: NOT AS IN README.md, status $status"
    tail -n 20 told
    exit 1
fi
