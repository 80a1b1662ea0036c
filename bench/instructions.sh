#!/usr/bin/env bash
# Counts the instructions that one point takes (one node at one step) of a run from its first step, where nodes send to all at every step: eight nodes, and
# notes that take one to four steps. A search with a budget of 0 makes one such run, that without faults. What reading the scenario takes falls out: the
# instructions are the difference between runs of 48 and of 24 steps, and of many seeds and few. They repeat exactly, whatever else the machine does.
#
# What a run takes that is made of the one before, and with it the set that is searched, `books.sh` counts.
# Wants the built program and valgrind.
set -euo pipefail
here=$(cd "$(dirname "$0")" && pwd)
. "$here/measuring.sh"
wants "$program"
cat >"$scratch/all_send.toml" <<'END'
nodes = 8
horizon = 48
last_omission = 0
crashes = 0
budget = 0
spread = 3

protocol = "redundant"
tries = 48
outcome = "delivered"
END

# swept HORIZON SEEDS: the instructions of a search for each of the seeds 0 to SEEDS
swept() {
    instructions "$program" sweep "$scratch/all_send.toml" --by search --vary "horizon=$1" --vary "seed=0..$2" --quiet
}

few=9
many=109
# longer SEEDS: what so many longer runs take more than shorter ones
longer() { echo $(($(swept 48 "$1") - $(swept 24 "$1"))); }
echo "a run from its first step: $((($(longer $many) - $(longer $few)) / (8 * 24 * (many - few)))) instructions a point"
