#!/usr/bin/env bash
# Refuses memory to the proved programs, one growth after another, and looks how they end.
#
# Of each command below the first growth of memory is refused in one run, the second in the next, and so on, until a run meets no
# refusal. Each run has to end in one of two ways: with status 3, nothing on standard output and the line `memory` on standard error;
# or with the output and the status that it has where nothing is refused. A certificate that it was to write has to be whole in the
# end, or the file as it was; where the answer stands the certificate does too. A book that is driven through events has to stand where
# it stands after the first so many of them.
#
# With --rest not one growth is refused in a run, but each from there on. With --built the programs are taken as they were built.
#
# Prints for each command how many of its growths were refused, and how many of these runs ended for want of memory. The status is 1
# where a run ended otherwise. Wants the Rattle kit and a C compiler (`cc`, or what CC names); the first time it proves the programs,
# which takes some twenty minutes.
set -euo pipefail
here=$(cd "$(dirname "$0")" && pwd)
top=$(dirname "$here")
leastfault="$top/crates/leastfault_cli/out/leastfault_cli"
searches="$top/crates/bench_searches/out/bench_searches"
rest=()
built=
for word; do
    case $word in
    --rest) rest=(REFUSE_REST=1) ;;
    --built) built=1 ;;
    *) echo "usage: refused_growths.sh [--rest] [--built]" && exit 2 ;;
    esac
done
wrong=0

# The runs write into a folder of their own, certificates into the file `file` there.
room=$(mktemp -d)
trap 'rm -rf "$room"' EXIT
cd "$room"
before='as it was'
input=/dev/null # their standard input
out='' err='' file='' refused='' places=''

# Proves and builds a crate's program, and shows what was said where that fails.
build() {
    local said
    if ! said=$(cd "$top/crates/$1" && rt run 2>&1 <"$top/crates/$1/stdin"); then
        [ -x "$2" ] || { printf '%s\n' "$said"; echo "$1 was not built"; exit 1; }
    fi
}

# Reads a file into a variable, to the last byte.
slurp() { IFS= read -r -d '' "$1" <"$2" || true; }

# run NUMBER WORD..: runs the words with the growth NUMBER refused, none for 0. It leaves the status, what was written (out, err and
# file), and in refused a line for each growth that was.
run() {
    local number=$1
    shift
    printf %s "$before" >file
    status=0
    timeout 60 env ${rest[@]+"${rest[@]}"} REFUSE_AT="$number" LD_PRELOAD="$room/refuse.so" "$@" \
        <"$input" >out.txt 2>err.txt 9>refused.txt || status=$?
    slurp out out.txt
    slurp err err.txt
    slurp file file
    slurp refused refused.txt
}

# Whether the run has ended for want of memory. A book that was driven has to stand where it stands after the first so many events.
wants_memory() {
    [ "$status" = 3 ] && [ -z "$out" ] || return 1
    [ "$file" = "$before" ] || [ "$file" = "$wanted_file" ] || return 1
    case $'\n'$err in
    *$'\n'memory$'\n'*) ;;
    *) return 1 ;;
    esac
    case $err in
    level*) case $'\n'$places in *$'\n'"${err%%$'\n'*}"$'\n'*) ;; *) return 1 ;; esac ;;
    esac
}

# Whether the run has ended as it does where nothing is refused.
is_wanted() { [ "$status" = "$wanted" ] && [ "$out" = "$wanted_out" ] && [ "$file" = "$wanted_file" ]; }

# sweep NAME WORD..
sweep() {
    local name=$1 number=0 ended=0
    shift
    run 0 "$@"
    wanted=$status wanted_out=$out wanted_file=$file
    while :; do
        number=$((number + 1))
        run "$number" "$@"
        [ -n "$refused" ] || break
        if wants_memory; then
            ended=$((ended + 1))
        elif ! is_wanted; then
            printf '%s: with growth %s refused it ends with status %s, and prints\n%s%s' "$name" "$number" "$status" "$out" "$err"
            wrong=1
        fi
    done
    if ! is_wanted; then
        echo "$name: it ends otherwise where no growth is left to refuse"
        wrong=1
    fi
    echo "$name: $((number - 1)) growths refused, $ended times status 3, $((number - 1 - ended)) times the answer (status $wanted)"
}

# Whether the program knows of these words of a search.
knows() {
    local known=0
    "$leastfault" search one_try.toml "$@" >/dev/null 2>&1 || known=$?
    [ "$known" != 2 ]
}

# Each answer to a scenario: by a search, by merged states, and by a run of one allowed set after another; the checking of the search's certificate,
# and runs of no fault and of the faults that are found.
sweep_scenario() {
    local name=$1 more
    for more in '' ' --all' ' --workers=3'; do
        # shellcheck disable=SC2086 # no word or one
        if [ -z "$more" ] || knows $more; then
            sweep "search $name$more" "$leastfault" search "$name.toml" $more
            sweep "search $name$more --tree" "$leastfault" search "$name.toml" $more --tree file
        fi
    done
    sweep "answer $name" "$leastfault" answer "$name.toml"
    input=$name.toml
    sweep "plain search of $name" "$searches" books 1000 plain
    input=/dev/null
    "$leastfault" search "$name.toml" --tree "$name.json" >found || true
    sweep "check $name" "$leastfault" check "$name.toml" "$name.json"
    sweep "run $name of no fault" "$leastfault" run "$name.toml" ''
    sweep "run $name of what was found" "$leastfault" run "$name.toml" "$(tail -n +2 found | paste -sd,)"
}

if [ -z "$built" ]; then
    build leastfault_cli "$leastfault"
    build bench_searches "$searches"
fi
"${CC:-cc}" -O2 -shared -fPIC -o refuse.so "$here/refuse.c" -ldl
cp "$top"/examples/*.toml "$top"/examples/*.json .
cat >one_note.toml <<'END'
nodes = 2
horizon = 3
last_omission = 1
crashes = 0
budget = 1
protocol = "retry"
tries = 1
outcome = "delivered"
END

for name in one_try crash_between_tries one_note claimed_away; do
    sweep_scenario "$name"
done

# A scenario of which three workers have more to search.
sweep 'search two_primaries --workers=3' "$leastfault" search two_primaries.toml --workers=3
sweep 'search two_primaries --workers=3 --tree' "$leastfault" search two_primaries.toml --workers=3 --tree file

# A certificate that is long enough for several threads.
"$leastfault" search guided.toml --tree guided.json >found || true
sweep 'check guided' "$leastfault" check guided.toml guided.json

# What is refused, judged as wrong, or too much for the search.
sed 's/^nodes = .*/nodes = 9/' one_try.toml >refused.toml
sed 's/^budget = .*/&\nmax_sets = 5/' three_tries.toml >full.toml
head -c 20 one_note.json >cut.json
sweep 'search of a refused scenario' "$leastfault" search refused.toml --tree file
sweep 'search of a level that is too full' "$leastfault" search full.toml --tree file
sweep 'search of a file that is not there' "$leastfault" search nowhere.toml
sweep 'check of a wrong certificate' "$leastfault" check claimed_away.toml claimed_away_wrong.json
sweep 'check of a text that is no certificate' "$leastfault" check one_note.toml cut.json
sweep 'run of a set that is not allowed' "$leastfault" run one_note.toml 'crash 0 @2'
sweep 'wrong words' "$leastfault" look one_try.toml
sweep 'help' "$leastfault" --help
input=one_try.toml
sweep 'search of standard input' "$leastfault" search -
sweep 'no words' "$leastfault"

# A book that is driven through events: a set is given back and taken again.
for events in 0 1 2 3 4 5 6 7 8 9 10; do
    "$searches" books "$events" drive <one_try.toml | tail -n 1
done >places.txt
slurp places places.txt
sweep 'a driven book' "$searches" books 10 drive
exit "$wrong"
