#!/usr/bin/env bash
# Times searches of large trees by the clock, in one thread without a lock, and by 1, 2 and 4 workers over one book under a lock.
# The kinds are run in turns: each round runs each kind once, one after the other, so that a machine that grows slower for a while does
# so for all; the fastest run of each kind counts. Prints how much longer one worker takes than the search without a lock, and how much
# faster several are than one.
#
# Beside it stands what the machine gives: 2 and 4 processes at once that share nothing, each the whole search without a lock. Where the
# slowest of N takes as long as one alone, the machine works N times as fast; workers can hardly gain more than that.
#
# For each number of workers it prints besides, of one run more, by `bench_searches`, the share of the workers' time in which they worked no set: then
# they held the lock, waited for it or for others, or weren't there yet or any more. A proved program can't tell these apart, since
# what a lock does has no contract; so this is the most that the lock can have taken.
# Run it where nothing else runs, on as many processors as there are workers.
#
#     workers.sh [--rounds N] [SCENARIO..]
#
# There are five rounds, or N, at least 1. Words name scenarios of bench/scenarios: those alone are searched.
# Wants the built programs.
set -euo pipefail
rounds=5
if [ "${1-}" = --rounds ]; then
    rounds=${2-}
    [[ $rounds =~ ^[1-9][0-9]*$ ]] || { echo "workers.sh: --rounds wants a number from 1" >&2; exit 2; }
    shift 2
fi
here=$(cd "$(dirname "$0")" && pwd)
. "$here/measuring.sh"
wants "$program" "$searches"
names=("$@")
[ $# -gt 0 ] || names=(sends_of_eight sends_of_five)
declare -A best
shares=()

# keep KIND MILLISECONDS: remembers the fastest of a kind
keep() {
    if [ -z "${best[$1]-}" ] || [ "$2" -lt "${best[$1]}" ]; then best[$1]=$2; fi
}

# clock: the milliseconds of the clock
clock() { echo $((${EPOCHREALTIME/[.,]/} / 1000)); }

# search SCENARIO WORKERS: one search, 0 for the one without a lock; prints its milliseconds. The program gives one worker no lock, so `bench_searches`
# searches then.
search() {
    local begun words=("$program" search - --quiet)
    case $2 in
    0) ;;
    1) words=("$searches" pools 1) ;;
    *) words+=(--workers "$2") ;;
    esac
    begun=$(clock)
    "${words[@]}" <"$1" >/dev/null || [ $? = 1 ]
    echo $(($(clock) - begun))
}

# apart SCENARIO N: N processes at once, each a search without a lock; prints the milliseconds of the slowest
apart() {
    local copy ids=()
    for ((copy = 1; copy <= $2; copy++)); do
        search "$1" 0 >"$scratch/apart.$copy" &
        ids+=($!)
    done
    for copy in "${ids[@]}"; do wait "$copy"; done
    for ((copy = 1; copy <= $2; copy++)); do cat "$scratch/apart.$copy"; done | sort -n | tail -n 1
}

# unworked SCENARIO WORKERS: prints how much of a hundred parts of the workers' time they worked no set; what was found is written
unworked() {
    "$searches" pools "$2" shares <"$1" 2>&1 >"$scratch/found" |
        awk '/of work$/ { if ($1 > 0) printf "%.0f\n", 100 * ($1 - $5) / $1; else print 0 }'
}

# ratio A B: prints A / B, or - where B is nothing
ratio() {
    awk -v a="$1" -v b="$2" 'BEGIN { if (b > 0) printf "%.2f\n", a / b; else print "-" }'
}

for name in "${names[@]}"; do
    scenario="$here/scenarios/$name.toml"
    best=()
    for ((round = 1; round <= rounds; round++)); do
        for workers in 0 1 2 4; do keep "$workers" "$(search "$scenario" "$workers")"; done
        for copies in 2 4; do keep "apart $copies" "$(apart "$scenario" "$copies")"; done
    done
    alone=${best[0]}
    for workers in 1 2 4; do
        shares[workers]=$(unworked "$scenario" "$workers")
    done
    echo "$name, $(cat "$scratch/found"): $alone ms without a lock"
    for workers in 1 2 4; do
        took=${best[$workers]}
        echo "    by $workers: $took ms, $(ratio "$took" "$alone") of the time without a lock," \
            "$(ratio "${best[1]}" "$took") times as fast as by 1, ${shares[workers]} % of the workers' time outside their sets"
    done
    for copies in 2 4; do
        slowest=${best[apart $copies]}
        echo "    the machine: $copies processes apart, $slowest ms each, $(ratio $((copies * alone)) "$slowest") times as fast as one"
    done
done
