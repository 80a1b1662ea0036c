#!/usr/bin/env bash
# Answers the scenarios of bench/delayed over every delay by the built program, and prints for each the first line of the answer, the
# seconds of processor time of the fastest of three runs, and the peak memory. An answer that takes more than five minutes is stopped.
# Words name scenarios: those alone are answered.
#
# Wants the program that `rt ci` leaves in crates/leastfault_cli/out/, and GNU time.
set -euo pipefail
here=$(cd "$(dirname "$0")" && pwd)
program="$here/../crates/leastfault_cli/out/leastfault_cli"
names=("$@")
if [ $# = 0 ]; then
    for scenario in "$here"/delayed/*.toml; do names+=("$(basename "$scenario" .toml)"); done
fi
scratch=$(mktemp -d)
trap 'rm -r "$scratch"' EXIT

for name in "${names[@]}"; do
    scenario="$here/delayed/$name.toml"
    best=''
    for _ in 1 2 3; do
        status=0
        /usr/bin/time -f '%U %S %M' -o "$scratch/time" timeout 300 "$program" answer "$scenario" --every-delay --quiet >"$scratch/answer" 2>"$scratch/said" ||
            status=$?
        [ "$status" -lt 124 ] || break
        read -r user system memory < <(tail -n 1 "$scratch/time")
        seconds=$(awk "BEGIN { print $user + $system }")
        if [ -z "$best" ] || awk "BEGIN { exit !($seconds < $best) }"; then best=$seconds; fi
    done
    if [ -z "$best" ]; then
        echo "$name: no answer in 300 s"
    else
        echo "$name: $(head -n 1 "$scratch/answer"): $best s, $memory KiB at most"
    fi
done
