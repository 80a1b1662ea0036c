#!/usr/bin/env bash
# Times how long the program takes to judge certificates that are to be as dear as can be, of about 16 MiB each, by the clock, and says how
# much memory it takes at the most. `hostile_certificates.py` makes them from the certificate of a search, and says what they are. Of each
# it prints what the program says too: `yes` to the right one alone.
# Wants the built program, Python 3 and GNU time.
set -euo pipefail
here=$(cd "$(dirname "$0")" && pwd)
. "$here/measuring.sh"
wants "$program"
scenario=$here/hostile/sends_of_eight.toml
"$program" search "$scenario" --workers 4 --quiet --tree "$scratch/right.json" >/dev/null

for shape in right last_leaf many_kids no_edges no_kids wide first_wide branches chains all_faults nested; do
    python3 "$here/hostile_certificates.py" "$shape" <"$scratch/right.json" >"$scratch/made.json"
    said=$(/usr/bin/time -o "$scratch/took" -f '%e s, at most %M KiB' \
        "$program" check "$scenario" "$scratch/made.json" --quiet) || [ $? = 1 ]
    echo "$shape: $(stat -c %s "$scratch/made.json") bytes, $said, $(tail -n 1 "$scratch/took")"
done
