#!/usr/bin/env bash
# Compares the judging of certificates of more than ten thousand sets by `leastfault check` with the running of the same searches' sets alone,
# once each and in the memory of one run. It counts instructions, which repeat exactly, whatever else the machine does. With --times, and where
# valgrind isn't there, it compares times by the clock, best of twenty; then it also compares judging on one processor with judging on all.
#
# What reading takes falls out, by a certificate whose answer isn't allowed: it is read to its end, and nothing of it is judged, but for the words on
# standard error it is read once more. Beside it stands one with no branch, of which there is nothing to read.
# Wants the built programs, `taskset`, and valgrind if it is there.
set -euo pipefail
here=$(cd "$(dirname "$0")" && pwd)
. "$here/measuring.sh"
wants "$program" "$searches"

# the shortest of twenty runs of the words, in microseconds
microseconds() {
    local begun took best=''
    for _ in {1..20}; do
        begun=${EPOCHREALTIME/[.,]/}
        "$@" <"$scenario" >/dev/null 2>&1 || true
        took=$((${EPOCHREALTIME/[.,]/} - begun))
        if [ -z "$best" ] || [ "$took" -lt "$best" ]; then best=$took; fi
    done
    echo "$best"
}

# searched TIMES: what a search takes, with so many runs of its sets
searched() { "$measure" "$searches" books "$1" runs <"$scenario"; }

# checked NAME: what a check of that certificate takes
checked() { "$measure" "$program" check "$scenario" "$scratch/$1.json" --quiet; }

# judged PROCESSORS: what judging takes, in as many threads as there are processors
judged() {
    local right refused bare
    taskset -cp "$1" $$ >/dev/null
    right=$(checked right) refused=$(checked refused) bare=$(checked bare)
    echo $((right - bare - (refused - bare) / 2))
}

# told MODE TOOK
told() { echo "    $1: $2 $unit"; }

if [ "${1:-}" != --times ] && command -v valgrind >/dev/null; then
    measure=instructions unit=instructions times=1
else
    measure=microseconds unit=microseconds times=20
fi
all=$(taskset -cp $$ | sed 's/.*: //')
for scenario in "$here"/checked/*.toml; do
    "$program" search "$scenario" --quiet --tree "$scratch/right.json" >/dev/null
    sed -E 's/^\{"answer":(null|\[[^]]*\])/{"answer":["omit 0>1 @48"]/' "$scratch/right.json" >"$scratch/refused.json"
    echo -n '{"answer":["omit 0>1 @48"],"format":1,"root":{"misses":false}}' >"$scratch/bare.json"
    sets=$("$searches" books 1 search <"$scenario" | sed 's/.*, \([0-9]*\) sets answered/\1/')
    echo "$(basename "$scenario" .toml): $sets sets"
    run=$((($(searched "$times") - $(searched 0)) / times))
    told runs "$run"
    check=$(judged "${all%%[,-]*}")
    told check "$check"
    awk "BEGIN { printf \"    judging takes %.2f times as much as running\n\", $check / $run }"
    if [ "$measure" = microseconds ]; then
        rows=$(judged "$all")
        told 'check on all processors' "$rows"
        awk "BEGIN { printf \"    in several threads it takes %.2f of that\n\", $rows / $check }"
    fi
done
