# What the shell scripts of this folder share, which source it: the folder `here` above this one, the `program`, that `rt run`
# or `rt ci` left in crates/andexor/out or that the variable ANDEXOR names, and the `status`, which `says` sets. Where the
# program is missing it says so and ends the script with 2.
here=$(cd "$(dirname "${BASH_SOURCE[0]}")/.." && pwd)
program=${ANDEXOR:-$here/crates/andexor/out/andexor}
if [ ! -x "$program" ]; then
    echo "there is no $program (rt run in crates/andexor builds it)"
    exit 2
fi
program=$(realpath "$program")
status=0

# needs TOOL ..: ends the script with 2 where one of the tools is missing
needs() {
    local tool
    for tool in "$@"; do
        if ! command -v "$tool" >/dev/null; then
            echo "$tool is missing"
            exit 2
        fi
    done
}

# says NAME WHETHER GOOD BAD: the line of one comparison, which is good where WHETHER is 0
says() {
    if [ "$2" = 0 ]; then
        echo "$1: $3"
    else
        echo "$1: $4"
        status=1
    fi
}
