#!/usr/bin/env bash
# Counts the instructions that the writing and the reading of a certificate of some 16 MiB take for each of its bytes, and says how much memory a search
# that writes it and a check that reads it take at the most. Instructions repeat exactly, whatever else the machine does.
#
# Writing is the difference between a search that writes the certificate and one that doesn't. Reading is half of the difference between two checks of
# certificates whose answer isn't allowed, this one and one with no branch: nothing of them is judged, and they are read twice, once for the words on standard
# error.
# Wants the built program, GNU time and valgrind.
set -euo pipefail
here=$(cd "$(dirname "$0")" && pwd)
. "$here/measuring.sh"
wants "$program"
scenario="$here/hostile/sends_of_eight.toml"

output "$program" search "$scenario" --quiet --tree "$scratch/right.json" >/dev/null
written=$(cat "$scratch/memory")
output "$program" check "$scenario" "$scratch/right.json" --quiet >/dev/null
read=$(cat "$scratch/memory")
sed -E 's/^\{"answer":(null|\[[^]]*\])/{"answer":["omit 0>1 @48"]/' "$scratch/right.json" >"$scratch/refused.json"
echo -n '{"answer":["omit 0>1 @48"],"format":1,"root":{"misses":false}}' >"$scratch/bare.json"
bytes=$(stat -c %s "$scratch/right.json")

# searched WORD..: the instructions of a search with these words more
searched() { instructions "$program" search "$scenario" --quiet "$@"; }

# checked FILE: the instructions of a check of a certificate
checked() { instructions "$program" check "$scenario" "$scratch/$1" --quiet; }

# told MODE INSTRUCTIONS MEMORY
told() {
    awk -v mode="$1" -v instructions="$2" -v bytes="$bytes" -v memory="$3" \
        'BEGIN { printf "%s: %.1f instructions a byte, at most %.0f MiB in all\n", mode, instructions / bytes, memory / 1024 }'
}

told write $(($(searched --tree "$scratch/right.json") - $(searched))) "$written"
told read $((($(checked refused.json) - $(checked bare.json)) / 2)) "$read"
