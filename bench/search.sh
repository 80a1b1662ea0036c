#!/usr/bin/env bash
# Searches the scenarios of bench/scenarios by the built program, and plainly beside it by `bench_searches books`: one allowed set after another, as
# `plain_answer` does, each run made of the one before. Prints for each what is found, and for both how many sets are run, the seconds of processor time
# of the fastest of three runs, sets a second, and the peak memory. A plain search is stopped after three million sets.
#
# With --instructions it counts instructions in place of seconds, for each set and for each point (one node at one step) of it, of both
# in `bench_searches books`, so that the reading of the scenario falls out, and the making of the tree. They repeat exactly, whatever else the machine does,
# and take a hundred times as long; a plain search is stopped after 100,000 sets then. Further words name scenarios: those alone are searched.
#
# How many sets the bounds of a scenario allow stands in a comment of it, with the sum that gives it. Each scenario is one that answers
# none, so that a plain search would run them all.
# Wants the built programs and GNU time, and valgrind for --instructions.
set -euo pipefail
here=$(cd "$(dirname "$0")" && pwd)
. "$here/measuring.sh"
wants "$program" "$searches"
count=
if [ "${1:-}" = --instructions ]; then
    count=1
    shift
fi
names=("$@")
if [ $# = 0 ]; then
    for scenario in "$here"/scenarios/*.toml; do names+=("$(basename "$scenario" .toml)"); done
fi

# allowed: how many sets the scenario allows, as its comment says
allowed() { sed -n 's/^# sets: //p' "$scenario"; }

# how many sets `bench_searches books` tells of
sets_of() { "$searches" books "$1" "$2" <"$scenario" | sed 's/.*, \([0-9]*\) sets answered/\1/'; }

# counted_in WORD..: the instructions of the words, with the scenario as standard input
counted_in() { instructions "$@" <"$scenario"; }

# timed NAME SETS WORD..: runs the words three times, and prints the fastest
timed() {
    local name=$1 sets=$2 best='' status seconds system memory
    shift 2
    for _ in 1 2 3; do
        status=0
        /usr/bin/time -f '%U %S %M' -o "$scratch/time" "$@" <"$scenario" >/dev/null || status=$?
        [ "$status" = 0 ] || exit "$status"
        read -r seconds system memory <"$scratch/time"
        seconds=$(awk "BEGIN { print $seconds + $system }")
        if [ -z "$best" ] || awk "BEGIN { exit !($seconds < $best) }"; then best=$seconds; fi
    done
    awk "BEGIN { s = $best > 0 ? $best : 0.005
        printf \"    $name: %d sets, %.2f s, %d sets a second, %d KiB at most\n\", $sets, $best, $sets / s, $memory }"
}

# counted NAME SETS INSTRUCTIONS
counted() { echo "    $1: $2 sets, $(($3 / $2)) instructions a set, $(($3 / $2 / points)) a point"; }

for name in "${names[@]}"; do
    scenario="$here/scenarios/$name.toml"
    points=$(($(number nodes "$scenario") * $(number horizon "$scenario")))
    found=$("$program" search - <"$scenario")
    echo "$name: $found, $(allowed) allowed sets of $points points"
    searched=$(sets_of 1 search)
    if [ -n "$count" ]; then
        plain=$(($(sets_of 100000 plain) - 1))
        counted search "$searched" $(($(counted_in "$searches" books 1 search) - $(counted_in "$searches" books 0 search)))
        counted plainly "$plain" $(($(counted_in "$searches" books 100000 plain) - $(counted_in "$searches" books 1 plain)))
    else
        timed search "$searched" "$program" search -
        timed plainly "$(sets_of 3000000 plain)" "$searches" books 3000000 plain
    fi
done
