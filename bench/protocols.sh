#!/usr/bin/env bash
# Searches and answers the scenarios of examples/protocols/scenarios, each with its protocol file, and prints for each the report, and the
# seconds of processor time of both ways, the fastest of three runs. With --instructions it prints millions of instructions in place of the
# seconds, which repeat exactly, whatever else the machine does; counting them takes some fifty times as long. Further words name
# scenarios: those alone are measured. The rows are those of the table in docs/PROTOCOLS.md.
#
# With --tables it prints instead what a search of bench/tables/numbers.toml takes, in millions of instructions: with the protocol that has a variable for
# each node, and with the same one that has a table.
#
# The program is the one that `rt ci` leaves in crates/leastfault_cli/out/, or PROGRAM of the environment. Wants GNU time, and valgrind for
# the instructions.
set -euo pipefail
here=$(cd "$(dirname "$0")" && pwd)
folder="$here/../examples/protocols"
program=${PROGRAM:-$here/../crates/leastfault_cli/out/leastfault_cli}
measure=fastest
if [ "${1:-}" = --instructions ]; then
    measure=instructions
    shift
fi
names=("$@")
if [ $# = 0 ]; then
    for scenario in "$folder"/scenarios/*.toml; do names+=("$(basename "$scenario" .toml)"); done
fi

# instructions COMMAND SCENARIO PROTOCOL: its instructions, in millions.
instructions() {
    { valgrind --tool=callgrind --callgrind-out-file=/dev/null "$program" "$@" 2>&1 >/dev/null || true; } |
        awk '/Collected/ { printf "%.0f\n", $NF / 1000000 }'
}

# fastest COMMAND SCENARIO PROTOCOL: its seconds of processor time, the fewest of three runs.
fastest() {
    for _ in 1 2 3; do
        { /usr/bin/time -q -f 'took %U %S' "$program" "$@" --quiet 2>&1 >/dev/null || true; } |
            awk '/^took / { printf "%.2f\n", $2 + $3 }'
    done | sort -n | head -n 1
}

if [ "${1:-}" = --tables ]; then
    for protocol in by_name by_table; do
        echo "$protocol $(instructions search "$here/tables/numbers.toml" --protocol "$here/tables/$protocol.toml")"
    done
    exit
fi

echo '| scenario | report | `search` | `answer` |'
echo '|---|---|---|---|'
for name in "${names[@]}"; do
    scenario="$folder/scenarios/$name.toml"
    protocol="$folder/$(sed -n 's/^# protocol: //p' "$scenario")"
    report=$("$program" answer "$scenario" --protocol "$protocol" 2>/dev/null | head -n 1) || true
    echo "| \`$name\` | \`$report\` | $("$measure" search "$scenario" --protocol "$protocol") |" \
        "$("$measure" answer "$scenario" --protocol "$protocol") |"
done
