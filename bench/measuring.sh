# shellcheck shell=bash disable=SC2034
# What the scripts here share. Each takes this file in, and has its own folder in `here`.
#
# `program` is the program that users run, and `searches` is `bench_searches`, which counts what only a loop inside can count. They are those that
# `rt ci` leaves in crates/*/out/, or PROGRAM and SEARCHES of the environment. `scratch` is a folder that goes in the end.
export LC_ALL=C
program=${PROGRAM:-$here/../crates/leastfault_cli/out/leastfault_cli}
searches=${SEARCHES:-$here/../crates/bench_searches/out/bench_searches}
scratch=$(mktemp -d)
trap 'rm -r "$scratch"' EXIT

# wants PROGRAM..: ends where a program isn't there
wants() {
    local each
    for each; do
        [ -x "$each" ] || { echo "$(basename "$0"): $each isn't there: rt ci builds it" >&2 && exit 2; }
    done
}

# number KEY SCENARIO: the number of a key of the scenario
number() { sed -n "s/^$1 *= *\([0-9]*\).*/\1/p" "$2"; }

# instructions WORD..: how many instructions the words take, with standard input
instructions() {
    { valgrind --tool=callgrind --callgrind-out-file=/dev/null "$@" 2>&1 >/dev/null || true; } |
        awk '/Collected/ { print $NF }'
}

# output WORD..: runs the words, whose status may be 1, and prints what they print. Their memory at the most is left in `scratch/memory`, in KiB.
output() {
    /usr/bin/time -q -f '%M' -o "$scratch/memory" "$@" 2>/dev/null || [ $? = 1 ]
}
