#!/usr/bin/env bash
# Answers the scenarios of bench/answered by merged states, and prints for each the answer, the instructions and the peak memory.
# Instructions repeat exactly, whatever else the machine does. They are those of a sweep of a budget of 0 and the scenario's own, less those of
# one of a budget of 0 alone, so that what the program does besides falls out. Counting them takes some fifty times as long as the answer alone;
# with --seconds it prints the seconds of processor time of `leastfault answer` in their place, the fewest of three runs. Further words name
# scenarios: those alone are answered.
#
# The reading of the scenario counts too. It is some hundred thousand instructions, of many millions.
# Wants the built program and GNU time, and valgrind for the instructions.
set -euo pipefail
here=$(cd "$(dirname "$0")" && pwd)
. "$here/measuring.sh"
wants "$program"
seconds=
if [ "${1:-}" = --seconds ]; then
    seconds=1
    shift
fi
names=("$@")
if [ $# = 0 ]; then
    for scenario in "$here"/answered/*.toml; do names+=("$(basename "$scenario" .toml)"); done
fi

# the instructions of a sweep of these budgets
swept() { instructions "$program" sweep "$scenario" --vary "budget=$1" --quiet; }

# the seconds of processor time of the fastest of three answers
fastest() {
    for _ in 1 2 3; do
        { /usr/bin/time -q -f '%U %S' "$program" answer "$scenario" --quiet 2>&1 >/dev/null || true; } | awk '{ print $1 + $2 }'
    done | sort -n | head -n 1
}

for name in "${names[@]}"; do
    scenario="$here/answered/$name.toml"
    answer=$(output "$program" answer "$scenario" --quiet | paste -sd ,)
    if [ -n "$seconds" ]; then
        took="$(fastest) s"
    else
        took="$(($(swept "0,$(number budget "$scenario")") - $(swept 0))) instructions"
    fi
    echo "$name: ${answer//,/, }: $took, $(cat "$scratch/memory") KiB at most"
done
