#!/usr/bin/env bash
# Searches the scenarios of bench/searched through a book in one thread, and prints for each what is found, the instructions
# for each point (one node at one step) of the sets that are answered, and the peak memory. The instructions are those of a
# set's run, truth, evidence, sharp reach and edges, and of its taking and filing. They repeat exactly, whatever else the
# machine does: they are the difference between two searches and one, so that what comes before falls out. Beside them stand
# the instructions of the same sets' runs alone.
# Wants the built program `bench_searches`, GNU time and valgrind.
set -euo pipefail
here=$(cd "$(dirname "$0")" && pwd)
. "$here/measuring.sh"
wants "$searches"

# the instructions of so many TIMES in MODE (search or runs) of a scenario
counted() { instructions "$searches" books "$1" "$2" <"$3"; }

for scenario in "$here"/searched/*.toml; do
    found=$(output "$searches" books 1 search <"$scenario")
    answered=${found##*, }
    answered=${answered%% *}
    points=$(($(number nodes "$scenario") * $(number horizon "$scenario")))
    searched=$(($(counted 2 search "$scenario") - $(counted 1 search "$scenario")))
    run=$(($(counted 1 runs "$scenario") - $(counted 0 runs "$scenario")))
    echo "$(basename "$scenario" .toml): $found, $points points each, $(cat "$scratch/memory") KiB at most"
    echo "    $((searched / answered / points)) instructions a point, of which the run takes $((run / answered / points))"
done
