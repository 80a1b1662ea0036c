#!/usr/bin/env bash
# Tests the built program: the tables of cases/, every command and option, the examples beside this script, and the commands that the pages show.
#
#     check.sh [--built | --tables PROGRAM TABLE..]
#
# With --built the program is the one that `rt ci` leaves in crates/leastfault_cli/out/. Without it `rt run` proves and builds
# the program first, which takes the Rattle kit and some twenty minutes. With --tables it is PROGRAM, and nothing but these tables of cases/ is run, such
# as words/help.txt. The tests themselves need bash and coreutils alone; where `rsvg-convert` is installed they render pictures, too.
#
# A test runs one command and compares the status, standard output to the last byte, and standard error. What standard error says
# in words may change, so most tests outside the tables ask only whether it says anything. Prints each test that fails, with the lines that differ,
# and last `N passed, M failed`. The status is 1 if a test fails.
set -euo pipefail
export LC_ALL=C
here=$(CDPATH='' cd -- "$(dirname -- "${BASH_SOURCE[0]}")" && pwd)
top=$(dirname -- "$here")
program="$top/crates/leastfault_cli/out/leastfault_cli"
passed=0
failed=0
status=0
out=''
err=''

# ---- running and comparing ----

# slurp NAME FILE: reads a file into a variable, to the last byte.
slurp() { IFS= read -r -d '' "$1" <"$2" || true; }

# run COMMAND: runs it in the folder `desk`, with nothing on standard input. Leaves `status`, `out` and `err`.
run() {
    status=0
    (cd "$room/desk" && exec timeout 60 bash -c "$1") >"$room/out" 2>"$room/err" </dev/null || status=$?
    slurp out "$room/out"
    slurp err "$room/err"
}

# differ WHAT WANTED FOUND: prints the lines in which two texts differ, and nothing if they are the same.
differ() {
    local -a wanted=() found=()
    local i lines=''
    [ "$2" != "$3" ] || return 0
    mapfile -t wanted < <(printf '%s' "$2")
    mapfile -t found < <(printf '%s' "$3")
    for ((i = 0; i < ${#wanted[@]} || i < ${#found[@]}; i++)); do
        [ "${wanted[i]-}" != "${found[i]-}" ] || continue
        [ "$i" -ge "${#wanted[@]}" ] || lines+="        $((i + 1)) wanted: ${wanted[i]}"$'\n'
        [ "$i" -ge "${#found[@]}" ] || lines+="        $((i + 1)) found:  ${found[i]}"$'\n'
    done
    printf '    %s:\n%s' "$1" "${lines:-        the last line feed alone$'\n'}"
}

# count NAME DIFFERENCES: counts a test, which passes if there are none.
count() {
    if [ -z "$2" ]; then
        passed=$((passed + 1))
    else
        failed=$((failed + 1))
        printf 'FAILED: %s\n%s\n' "$1" "$2"
    fi
}

# expect STATUS OUT ERR COMMAND: OUT is standard output without its last line feed, ERR a pattern for standard error.
expect() {
    run "$4"
    count "$4" "$(
        differ status "$1" "$status"
        differ 'standard output' "${2:+$2$'\n'}" "$out"
        # shellcheck disable=SC2053
        [[ $err == $3 ]] || differ 'standard error' "${3:-(nothing)}" "$err"
    )"
}

# ends STATUS LINE ERR COMMAND: LINE is the last line of standard output, ERR a pattern for standard error.
ends() {
    local last
    run "$4"
    last=${out%$'\n'}
    count "$4" "$(
        differ status "$1" "$status"
        differ 'the last line' "$2" "${last##*$'\n'}"
        # shellcheck disable=SC2053
        [[ $err == $3 ]] || differ 'standard error' "${3:-(nothing)}" "$err"
    )"
}

# helps COMMAND: tells how to use the program, on standard output.
helps() {
    run "$1"
    count "$1" "$(
        differ status 0 "$status"
        [[ $out == *'Usage: leastfault'* ]] || differ 'standard output' 'Usage: leastfault ..' "$out"
        differ 'standard error' '' "$err"
    )"
}

# holds FILE TEXT AFTER: the file has these bytes after that command.
holds() {
    local text='(no file)'
    [ ! -e "$room/desk/$1" ] || slurp text "$room/desk/$1"
    count "$1 after $3" "$(differ "$1" "$2" "$text")"
}

# put FILE TEXT: makes a file.
put() { printf '%s' "$2" >"$room/desk/$1"; }

# ---- tables of cases ----

# shellcheck source=tables.sh
. "$here/tables.sh"

# ---- the examples ----

# report_of FILE: the lines of its first comment that are set in by three blanks.
report_of() {
    local line report=''
    while IFS= read -r line; do
        case $line in
        '#   '*) report+="${line#'#   '}"$'\n' ;;
        *) [ -z "$report" ] || break ;;
        esac
    done <"$1"
    printf '%s' "${report%$'\n'}"
}

# protocol_of FILE: the words that name the protocol file of an example, which its first comment tells; none for a built-in one.
protocol_of() {
    local line
    while IFS= read -r line; do
        case $line in
        '# protocol: '*) printf ' --protocol examples/protocols/%s' "${line#'# protocol: '}" ;;
        '#'*) ;;
        *) break ;;
        esac
    done <"$1"
}

# faults_of REPORT: its faults, as `run` takes them.
faults_of() {
    local faults=''
    case $1 in
    least*$'\n'*) faults=${1#*$'\n'} ;;
    esac
    printf '%s' "${faults//$'\n'/,}"
}

# test_example FILE: searches, answers, runs and certifies an example, and compares the report with its first comment. With a protocol
# file, standard error may say that a value passed its range or a message was replaced.
test_example() {
    local file=$1 report code=1 said='' with certificate='' workers
    report=$(report_of "$room/desk/$file")
    with=$(protocol_of "$room/desk/$file")
    [ -z "$with" ] || said='*'
    case $report in
    refused*)
        expect 2 "${report%%$'\n'*}" "${report#*$'\n'}"$'\n' "leastfault search $file$with"
        return
        ;;
    none*) code=0 ;;
    esac
    expect "$code" "$report" "$said" "leastfault search $file$with"
    expect "$code" "$report" "$said" "leastfault answer $file$with"
    expect "$code" "$report" "$said" "leastfault search $file$with --tree tree.json"
    slurp certificate "$room/desk/tree.json"
    expect 0 yes "$said" "leastfault check $file tree.json$with"
    for workers in 1 3 32; do
        expect "$code" "$report" "$said" "leastfault search $file$with --workers $workers --tree workers.json"
        holds workers.json "$certificate" "$workers workers, $file"
    done
    case $code in
    0) ends 0 reaches "$said" "leastfault run $file ''$with" ;;
    1) ends 1 misses "$said" "leastfault run $file '$(faults_of "$report")'$with" ;;
    esac
}

test_examples() {
    local example
    for example in "$room"/desk/examples/*.toml "$room"/desk/examples/protocols/scenarios/*.toml; do
        test_example "${example#"$room/desk/"}"
    done
}

# longer_of FILE STEPS: what its first comment says of a run of so many steps, `# In STEPS steps: LINE, LINE`, and where it says nothing, its report.
longer_of() {
    local line
    while IFS= read -r line; do
        case $line in
        "# In $2 steps: "*)
            line=${line#*': '}
            printf '%s' "${line//, /$'\n'}"
            return
            ;;
        '#'*) ;;
        *) break ;;
        esac
    done <"$1"
    report_of "$1"
}

# test_longer FILE: with half as many steps again the answer is the report, or what the first comment says.
test_longer() {
    local file=$1 line wanted code=1 steps=0
    while IFS= read -r line; do
        case $line in
        'horizon = '*)
            line=${line#'horizon = '}
            steps=$(((${line%%' '*} * 3 + 1) / 2))
            ;;
        esac
    done <"$room/desk/$file"
    [ "$steps" -le 48 ] || steps=48
    wanted=$(longer_of "$room/desk/$file" "$steps")
    case $wanted in
    none*) code=0 ;;
    refused*) code=2 ;;
    esac
    expect "$code" "$wanted" '*' "sed 's/^horizon = .*/horizon = $steps/' $file | leastfault answer -$(protocol_of "$room/desk/$file")"
}

test_longer_runs() {
    local example
    for example in "$room"/desk/examples/protocols/scenarios/*.toml; do
        test_longer "${example#"$room/desk/"}"
    done
}

# ---- protocol files ----

test_protocols() {
    local file name
    for file in "$room"/desk/examples/protocols/*.toml; do
        name=${file##*/}
        expect 0 ok "protocol ${name%.toml}"$'\n*' "leastfault protocol examples/protocols/$name"
    done
}

# own_form FILE: the scenario for its protocol as a file. What the built-in protocol takes as keys stands in `given` there.
own_form() {
    local line
    while IFS= read -r line; do
        case $line in
        'tries = '* | 'patience = '*) printf 'given = { %s }\n' "${line%%#*}" ;;
        'votes = [true, true]'*) ;; # as in the protocol file
        *) printf '%s\n' "$line" ;;
        esac
    done <"$1"
}

# same COMMAND OWN: both print the same, with the same status.
same() {
    local wanted code
    run "$1"
    wanted=$out code=$status
    run "$2"
    count "$2, beside the built-in protocol" "$(
        differ status "$code" "$status"
        differ 'standard output' "$wanted" "$out"
    )"
}

# test_built_in FILE: a built-in protocol and its file have the same answers, certificates and traces.
test_built_in() {
    local file=$1 name='' line certificate='' faults with
    while IFS= read -r line; do
        case $line in
        'protocol = "'*) name=${line#*'"'} ;;
        esac
    done <"$room/desk/$file"
    with="own.toml --protocol examples/protocols/${name%%'"'*}.toml"
    put own.toml "$(own_form "$room/desk/$file")"
    faults=$(faults_of "$(report_of "$room/desk/$file")")
    same "leastfault search $file --tree tree.json" "leastfault search $with --tree own.json"
    [ ! -e "$room/desk/tree.json" ] || slurp certificate "$room/desk/tree.json"
    holds own.json "$certificate" "search $with --tree own.json"
    same "leastfault search $file --all" "leastfault search $with --all"
    same "leastfault answer $file" "leastfault answer $with"
    same "leastfault check $file tree.json" "leastfault check $with tree.json"
    same "leastfault run $file '$faults'" "leastfault run $with '$faults'"
}

test_built_ins() {
    local example
    for example in "$room"/desk/examples/*.toml; do
        example=examples/${example##*/}
        [ "$example" = examples/out_of_range.toml ] || test_built_in "$example"
    done
}

# ---- commands and options ----

test_search() {
    expect 1 $'least 1\nomit 0>1 @1' '' 'leastfault <examples/one_try.toml'
    expect 1 $'least 1\nomit 0>1 @1' '' 'leastfault search - <examples/one_try.toml'
    expect 1 $'least 1\nomit 0>1 @1' '' 'cat examples/one_try.toml | leastfault'
    expect 1 $'least 1\nomit 0>1 @1' '' 'leastfault search --quiet examples/one_try.toml'
    expect 1 $'least 1\nomit 0>1 @1' '' 'cp examples/one_try.toml -- -dash.toml; leastfault search -- -dash.toml'
    expect 1 $'all 1 2\nomit 0>1 @1\nomit 0>2 @1' '' 'leastfault search examples/one_try.toml --all'
    expect 1 $'all 1 2\nomit 0>1 @1\nomit 0>2 @1' '' 'leastfault search --all --workers=3 --quiet examples/one_try.toml'
    expect 1 $'all 2 2\nomit 0>1 @1,pause 0 @2\npause 0 @1,omit 0>1 @3' '' 'leastfault search examples/guided.toml --all'
    expect 1 $'all 0 1\n-' '' 'leastfault search examples/slow_link.toml --all'
    expect 0 'none 6' '' 'leastfault search examples/three_tries.toml --all'
    expect 1 $'least 1\nomit 0>1 @1' '' 'leastfault answer - --quiet <examples/one_try.toml'
}

# The words of a search with a level that is too full.
full='{ echo max_sets = 5; cat examples/three_tries.toml; } | leastfault'

test_tree() {
    local certificate=''
    slurp certificate "$room/desk/examples/claimed_away.json"
    expect 1 $'least 2\nomit 0>1 @1\nomit 0>1 @2' '' 'leastfault search examples/claimed_away.toml --tree made.json'
    holds made.json "$certificate" 'search --tree'
    expect 1 $'all 2 1\nomit 0>1 @1,omit 0>1 @2' '' 'leastfault search examples/claimed_away.toml --all --tree=all.json'
    holds all.json "$certificate" 'search --all --tree'
    expect 1 $'least 2\nomit 0>1 @1\nomit 0>1 @2' '' 'leastfault search - --tree - <examples/claimed_away.toml'
    holds - "$certificate" 'search - --tree -, a file of that name'
    expect 1 $'least 2\nomit 0>1 @1\nomit 0>1 @2' '' 'printf %70000s x >long; leastfault search examples/claimed_away.toml --tree long'
    holds long "$certificate" 'a longer file was written anew'

    # Without an answer the file stays as it was, and none is made.
    put kept.json 'as it was'
    expect 2 'refused 6 budget' '?*' 'leastfault search examples/out_of_range.toml --tree kept.json'
    holds kept.json 'as it was' 'a refused scenario'
    expect 2 'full 2 6' '?*' "$full search - --tree kept.json"
    holds kept.json 'as it was' 'a full level'
    expect 2 'full 2 6' '?*' "$full search - --all --workers 3 --tree kept.json"
    holds kept.json 'as it was' 'a full level, by three workers'
    expect 2 'refused 6 budget' '?*' 'leastfault search examples/out_of_range.toml --tree none.json'
    holds none.json '(no file)' 'a refused scenario'
    expect 3 '' 'read*' 'leastfault search nowhere.toml --tree kept.json'
    holds kept.json 'as it was' 'a scenario that is not there'

    # Some 600,000 sets: the text of their tree is longer than a certificate may be.
    put long.toml "$(printf '%s\n' 'nodes = 2' 'horizon = 21' 'last_omission = 20' 'crashes = 0' 'budget = 5' 'max_sets = 1000000' \
        'protocol = "redundant"' 'tries = 48' 'outcome = "delivered"')"
    expect 2 'refused tree 1' '?*' 'leastfault search long.toml --workers 4 --tree kept.json'
    holds kept.json 'as it was' 'a certificate that is too long'

    # The certificate is written before the reply, and without it there is no reply.
    expect 3 '' 'write*' 'leastfault search examples/claimed_away.toml --tree before.json >/dev/full'
    holds before.json "$certificate" 'a reply that could not be written'
    expect 3 '' 'write*' 'leastfault search examples/one_try.toml --tree nowhere/tree.json'
    expect 3 '' 'write*' 'leastfault search examples/one_try.toml --tree examples'
}

test_own_file() {
    local scenario=''
    slurp scenario "$room/desk/examples/one_try.toml"
    put own.toml "$scenario"
    expect 2 '' '?*' 'leastfault search own.toml --tree own.toml'
    holds own.toml "$scenario" 'a search whose certificate would replace its scenario'
    # by another name too: another spelling, a link, and a hard link
    ln -s own.toml "$room/desk/soft.toml"
    ln "$room/desk/own.toml" "$room/desk/hard.toml"
    local name
    for name in ./own.toml examples/../own.toml "$room/desk/own.toml" soft.toml hard.toml; do
        expect 2 '' "--tree = $name: it would overwrite the scenario*" "leastfault search own.toml --tree $name"
        expect 2 '' "--tree = own.toml: it would overwrite the scenario*" "leastfault search $name --tree own.toml"
        holds own.toml "$scenario" "a search whose certificate would replace its scenario, by the name $name"
    done
    expect 2 '' '--tree = ./kept_protocol.toml: it would overwrite the protocol*' \
        'cp examples/protocols/two_phase.toml kept_protocol.toml; leastfault search own.toml --protocol kept_protocol.toml --tree ./kept_protocol.toml'
    # of standard input nobody knows the name, and what isn't a file is never replaced
    expect 1 $'least 1\nomit 0>1 @1' '' 'leastfault search own.toml --tree /dev/null'
    expect 3 '' 'read*' 'leastfault search nowhere.toml --tree ./nowhere.toml'
}

test_full() {
    expect 2 'full 2 6' '?*' "$full search -"
    expect 2 'full 2 6' '?*' "$full search - --all"
    expect 2 'full 2 6' '?*' "$full search - --workers 3"
    expect 0 'none 6' '' "$full answer -"
}

test_run() {
    local tail=$'step 2\n0 has\n1 has\n2 has\nstep 3\n0 has\n1 has\n2 has\nstep 4\n0 has\n1 has\n2 has\nreaches'
    expect 0 $'step 1\n0 has\n1 lacks\n2 lacks\n0>1 data 2\n0>2 data 2\n'"$tail" '' "leastfault run examples/one_try.toml ''"
    expect 0 $'step 1\n0 has\n1 lacks\n2 lacks\n0>1 data 2\n0>2 data 2\n'"$tail" '' "leastfault run - '' <examples/one_try.toml"
    ends 1 misses '' "leastfault run examples/crash_between_tries.toml 'omit 0>1 @1,crash 0 @2'"
    ends 1 misses '' "leastfault run examples/crash_between_tries.toml 'crash 0 @2,omit 0>1 @1'"
    ends 0 reaches '' "leastfault run examples/crash_between_tries.toml 'crash 0 @2'"
    expect 2 'refused faults' '?*' "leastfault run examples/one_try.toml 'omit 0>1 @1,omit 0>1 @1'"
    expect 2 'refused faults' '?*' "leastfault run examples/one_try.toml 'crash 0 @1'"
    expect 2 'refused faults' '?*' "leastfault run examples/one_try.toml 'omit 0>1 @1, omit 0>2 @1'"
    expect 2 'refused faults' '?*' "leastfault run examples/one_try.toml ,"
    expect 2 'refused 6 budget' '?*' "leastfault run examples/out_of_range.toml nonsense"
}

test_told() {
    expect 1 $'step 1\n- 0>1 data 2\n+ 0>1 data omitted\nstep 2\n- 1 has\n+ 1 lacks\nstep 3\n- 1 has\n+ 1 lacks\nstep 4\n- 1 has\n+ 1 lacks
- reaches\n+ misses' '' "leastfault run examples/one_try.toml 'omit 0>1 @1' --beside ''"
    expect 0 '= reaches' '' "leastfault run examples/one_try.toml '' --beside ''"
    expect 1 $'step 1\n0>1 data omitted\n0>2 data 2\nstep 2\n2 has\nmisses' '' "leastfault run examples/one_try.toml 'omit 0>1 @1' --changes"
    expect 2 'refused faults' '?*' "leastfault run examples/one_try.toml '' --beside 'crash 0 @1'"
    expect 2 'refused faults' '?*' "leastfault run examples/one_try.toml 'crash 0 @1' --beside ''"
    expect 2 'refused faults' '?*' "leastfault run examples/one_try.toml 'crash 0 @1' --changes"
    expect 2 'refused 6 budget' '?*' "leastfault run examples/out_of_range.toml '' --json"
    put two.toml "$(printf '%s\n' 'nodes = 2' 'horizon = 2' 'last_omission = 1' 'crashes = 0' 'budget = 1' 'protocol = "retry"' 'tries = 1' \
        'outcome = "delivered"')"
    expect 1 '{
  "nodes": 2,
  "horizon": 2,
  "faults": [
    "omit 0>1 @1"
  ],
  "verdict": "misses",
  "failed": [
    {
      "node": 1,
      "step": 2,
      "shows": null
    },
    {
      "node": 1,
      "step": 2,
      "shows": "has"
    },
    {
      "node": 0,
      "step": 2,
      "shows": null
    },
    {
      "node": 0,
      "step": 2,
      "shows": "lacks"
    }
  ],
  "start": [
    "has",
    "lacks"
  ],
  "steps": [
    {
      "step": 1,
      "states": [
        "has",
        "lacks"
      ],
      "notes": [
        {
          "from": 0,
          "to": 1,
          "note": "data",
          "fate": "omitted",
          "arrival": 2
        }
      ]
    },
    {
      "step": 2,
      "states": [
        "has",
        "lacks"
      ],
      "notes": []
    }
  ]
}' '' "leastfault run two.toml 'omit 0>1 @1' --json"
}

# grouped CLASS ELEMENTS COMMAND: what stands in the groups of a class of the picture that the command prints.
grouped() {
    expect 0 "$2" '*' "$3 | sed -n \"/^<g class='$1'/,/^<.g>/{/^<.\{0,1\}g/d;p}\""
}

# renders COMMAND: a program that heeds no rule of style for dark ground shows the words of the picture that the command prints, and all colours, and with
# these rules alone it does so, too. Words are in sight where the picture differs from that without them, both without the rims around words.
renders() {
    run "$1 >whole.svg
sed \"/^<g class='rim'/,/^<.g>/d\" whole.svg >light.svg
sed 's/^@media(.*{\$//; s/^}\$//' light.svg >dark.svg
sed '/^<style>/,/^<.style>/d' light.svg >plain.svg
for i in light dark plain; do
    grep -v '<text' \$i.svg >silent.svg
    rsvg-convert \$i.svg >\$i.png && rsvg-convert silent.svg >silent.png || exit 9
    ! cmp -s \$i.png silent.png || exit 8
done
cmp light.png plain.png && ! cmp -s light.png dark.png"
    count "$1, rendered" "$(differ status 0 "$status")"
}

test_pictures() {
    local text='' mood='leastfault draw --protocol gloomy.toml mood.toml'
    # The pictures of the pages are what the program draws.
    slurp text "$top/docs/pictures/crash_between_tries.svg"
    expect 1 "${text%$'\n'}" '' "leastfault draw examples/crash_between_tries.toml 'omit 0>1 @1,crash 0 @2'"
    slurp text "$top/docs/pictures/raft_election_forgets.svg"
    expect 1 "${text%$'\n'}" '*' "leastfault draw examples/protocols/scenarios/raft_election_forgets.toml 'pause 2 @4' --protocol examples/protocols/raft_election.toml"
    ends 0 '</svg>' '' "leastfault draw examples/relayed.toml ''"
    expect 2 'refused faults' '?*' "leastfault draw examples/one_try.toml 'crash 0 @1'"

    # The title is whole, in as many lines as it takes.
    put eight.toml "$(printf '%s\n' 'nodes = 8' 'horizon = 12' 'last_omission = 10' 'crashes = 2' 'pauses = 2' 'pause_length = 2' 'budget = 6' \
        'protocol = "retry"' 'tries = 12' 'outcome = "delivered"')"
    grouped title "<text x='14' y='24'>omit 0&gt;1 @1, omit 0&gt;2 @1, pause 4 @2, omit 0&gt;3 @10, crash 5 @10, crash 0 @11: reaches</text>" \
        "leastfault draw eight.toml 'omit 0>1 @1,omit 0>2 @1,omit 0>3 @10,pause 4 @2,crash 5 @10,crash 0 @11'"
    run 'sed "s/nodes = 8/nodes = 2/" eight.toml >two.toml'
    grouped title "<text x='14' y='24'>omit 0&gt;1 @1, omit 0&gt;1 @2, pause 1 @3, omit 0&gt;1 @10,</text>
<text x='14' y='41'>crash 1 @10, crash 0 @11: reaches</text>" \
        "leastfault draw two.toml 'omit 0>1 @1,omit 0>1 @2,omit 0>1 @10,pause 1 @3,crash 1 @10,crash 0 @11'"

    # A node that is down says so where its own words are the same.
    put gloomy.toml "$(printf '%s\n' 'name = "gloomy"' 'notes = ["DATA"]' 'state = { mood = "crashed | paused" }' \
        'outcomes = { kept = "each crashed or each paused" }' \
        'rules = [{ on = "DATA", set = "mood = paused" }, { who = "0", on = "end", when = "t = 1", send = "DATA to all" }]')"
    put mood.toml "$(printf '%s\n' 'nodes = 2' 'horizon = 4' 'last_omission = 0' 'crashes = 1' 'pauses = 1' 'pause_length = 1' 'budget = 2' \
        'protocol = "gloomy"' 'outcome = "kept"')"
    grouped stopped $'<text x=\'65\' y=\'142\'>crashed</text>\n<text x=\'161\' y=\'172\'>paused</text>' "$mood 'crash 0 @2,pause 1 @3'"
    grouped state $'<text x=\'65\' y=\'82\'>crashed</text>\n<text x=\'161\' y=\'82\'>crashed</text>\n<text x=\'161\' y=\'142\'>paused</text>
<text x=\'161\' y=\'202\'>paused</text>' "$mood 'crash 0 @2,pause 1 @3'"

    # Red rings stand where a promise is first seen to fail: at one step of an `all`, and at all points of an `any`.
    put rings.toml "$(printf '%s\n' 'nodes = 2' 'horizon = 4' 'last_omission = 3' 'crashes = 0' 'budget = 1' 'protocol = "retry"' 'tries = 1' \
        'outcome = ["all", ["shows", 1, 4, "has"], ["shows", 0, 3, "lacks"],' \
        '["any", ["shows", 1, 2, "has"], ["shows", 0, 1, "lacks"]], ["shows", 1, 1, "lacks"]]')"
    grouped fails "<circle cx='56' cy='114' r='6'/>
<circle cx='152' cy='144' r='6'/>" "leastfault draw rings.toml 'omit 0>1 @1'"
    grouped asked "<circle cx='56' cy='174' r='6'/>
<circle cx='152' cy='114' r='6'/>
<circle cx='152' cy='204' r='6'/>" "leastfault draw rings.toml 'omit 0>1 @1'"
    grouped fails "<circle cx='56' cy='174' r='6'/>" "leastfault draw rings.toml ''"
    grouped fails '' "leastfault draw examples/one_try.toml ''"

    # Programs that are no browsers show a picture, too.
    if command -v rsvg-convert >/dev/null; then
        renders "leastfault draw examples/crash_between_tries.toml 'omit 0>1 @1,crash 0 @2'"
        renders "leastfault draw eight.toml 'omit 0>1 @1,pause 4 @2'"
        renders "$mood ''"
    fi
}

# tight FILE: the set that is the answer over every delay misses when it is run with its late messages; without any one of them it reaches.
tight() {
    local line faults='' list i j
    local -a late=()
    run "leastfault answer $1 --every-delay --quiet"
    while IFS= read -r line; do
        case $line in
            'arrive '*) late+=("${line#arrive }") ;;
            'least '*) ;;
            *) faults+="${faults:+,}$line" ;;
        esac
    done <<<"${out%$'\n'}"
    count "the answer to $1 over every delay" "$(differ status 1 "$status")"
    for ((i = 0; i <= ${#late[@]}; i++)); do
        list=''
        for ((j = 0; j < ${#late[@]}; j++)); do
            [ "$i" = "$j" ] || list+="${list:+,}${late[j]}"
        done
        if [ "$i" = "${#late[@]}" ]; then
            ends 1 misses '*' "leastfault run $1 '$faults' --delays '$list'"
        else
            ends 0 reaches '*' "leastfault run $1 '$faults' --delays '$list'"
        fi
    done
}

# The answer over every delay, and runs where messages come as a list says.
test_every_delay() {
    local late="examples/late_votes.toml" delays="'0>2 @1 5,2>0 @5 9,0>1 @9 13'"
    expect 1 $'least 0\narrive 0>2 @1 5\narrive 2>0 @5 9\narrive 0>1 @9 13' '' "leastfault answer $late --every-delay"
    ends 1 misses '' "leastfault run $late '' --delays $delays"
    ends 0 reaches '' "leastfault run $late '' --delays ''"
    ends 0 reaches '' "leastfault run $late ''"
    expect 0 'none 2' '' "sed 's/patience = 10/patience = 11/' $late | leastfault answer - --every-delay --quiet"
    ends 1 '= misses' '' "leastfault run $late '' --beside 'crash 0 @24' --delays $delays"
    ends 1 misses '' "leastfault run $late '' --changes --delays $delays"
    ends 1 '}' '' "leastfault run $late '' --json --delays $delays"
    ends 1 '</svg>' '' "leastfault draw $late '' --delays $delays"
    # Of what comes late nothing can be spared. In the last two, a message that the search has come late would do as well earlier.
    tight $late
    tight examples/late_notes.toml
    local spared='nodes = 2;last_omission = 1;crashes = 0;budget = 1;pauses = 1;pause_length = 3;protocol = "two_phase";outcome = "unblocked";'
    put spared.toml "${spared//;/$'\n'}"$'horizon = 8\nspread = 2\npatience = 3\n'
    tight spared.toml
    put spared.toml "${spared//;/$'\n'}"$'horizon = 9\nspread = 3\npatience = 4\n'
    tight spared.toml
    # Where no link has a spread, it is the answer, with its status.
    expect 1 $'least 2\nomit 0>1 @1\ncrash 0 @2' '' 'leastfault answer examples/crash_between_tries.toml --every-delay'
    # Refusals: the scenario's, then that of the delays, then that of the faults.
    expect 2 'refused delays' '?*' "leastfault run $late '' --delays '0>2 @1 6'"
    expect 2 'refused delays' '?*' "leastfault run $late '' --delays '0>2 @1 1'"
    expect 2 'refused delays' '?*' "leastfault run $late '' --delays '0>2 @1 5,0>2 @1 4'"
    expect 2 'refused delays' '?*' "leastfault run $late '' --delays '0>3 @1 2'"
    expect 2 'refused delays' '?*' "leastfault run $late '' --delays '0>0 @1 2'"
    expect 2 'refused delays' '?*' "leastfault run $late '' --delays '0>2 @25 26'"
    expect 2 'refused delays' '?*' "leastfault run $late '' --delays '0>2 @1 5,'"
    expect 2 'refused delays' '?*' "leastfault run $late '' --delays ' 0>2 @1 5'"
    expect 2 'refused delays' '?*' "leastfault run $late '' --delays '0>2 @1 05'"
    expect 2 'refused delays' '?*' "leastfault run $late nonsense --delays nonsense"
    expect 2 'refused faults' '?*' "leastfault run $late nonsense --delays $delays"
    expect 2 'refused 6 budget' '?*' "leastfault run examples/out_of_range.toml '' --delays nonsense"
    expect 2 'refused 6 budget' '?*' "leastfault answer examples/out_of_range.toml --every-delay"
    # A protocol of a file too.
    ends 0 reaches '*' "leastfault run examples/protocols/scenarios/three_phase_crashes.toml '' --delays '' --protocol examples/protocols/three_phase.toml"
    ends 0 reaches '*' "leastfault run examples/protocols/scenarios/three_phase_crashes.toml '' --delays '' --rules --protocol examples/protocols/three_phase.toml"
}

test_why() {
    expect 1 $'least 2\nomit 0>1 @1\ncrash 0 @2\nwithout omit 0>1 @1: reaches\nstep 2\n- 1 has\n+ 1 lacks
without crash 0 @2: reaches\nstep 2\n- 0>1 data 3\n- 0>2 data 3\nstep 4\n- 1 has\n+ 1 lacks' '' 'leastfault why examples/crash_between_tries.toml'
    expect 1 $'least 1\ncrash 0 @2\nwithout crash 0 @2: reaches\nstep 3\n- 0>1 commit 4\n- 0>2 commit 4\nstep 5\n- 1 committed\n+ 1 prepared
- 2 committed\n+ 2 prepared' '' 'leastfault why - --quiet <examples/blocked_commit.toml'
    # A node wakes without its vote, and votes again: the last difference is the one by which the promise has failed.
    expect 1 $'least 1\npause 2 @4\nwithout pause 2 @4: reaches\nstep 5
- 2 follower since=5 term=1 voted={0} votes={}\n+ 2 follower since=5 term=1 voted={1} votes={}\n+ 2>1 vote(1) 6\nstep 6
- 1 candidate since=4 term=1 voted={1} votes={1}\n+ 1 leader since=4 term=1 voted={1} votes={1,2}
- 2 follower since=6 term=1 voted={0} votes={}\n+ 2 follower since=6 term=1 voted={1} votes={}' '*' \
        'leastfault why examples/protocols/scenarios/raft_election_forgets.toml --protocol examples/protocols/raft_election.toml'
    put early.toml "$(printf '%s\n' 'nodes = 2' 'horizon = 4' 'last_omission = 0' 'crashes = 1' 'budget = 1' 'protocol = "retry"' 'tries = 1' \
        'outcome = ["all", ["shows", 1, 2, "has"], ["shows", 1, 4, "has"]]')"
    expect 1 $'least 1\ncrash 0 @1\nwithout crash 0 @1: reaches\nstep 1\n- 0>1 data 2\nstep 2\n- 1 has\n+ 1 lacks' '' 'leastfault why early.toml'
    expect 0 $'none 3\nruns at level 0: 1\nruns at level 1: 14\nruns at level 2: 25\nruns at level 3: 12
rests on node 0 up to step 4\nrests on node 1 up to step 4\nrests on node 2 up to step 4' '' 'leastfault why examples/relayed.toml'
    # A promise that nodes keep that do nothing, and one that rests on nothing.
    put idle.toml "$(printf '%s\n' 'nodes = 2' 'horizon = 3' 'last_omission = 1' 'crashes = 0' 'budget = 1' 'protocol = "retry"' 'tries = 1' \
        'outcome = ["shows", 0, 1, "has"]')"
    expect 0 $'none 1\nruns at level 0: 1\nruns at level 1: 0\nrests on node 0 up to step 1\nrests on no step of node 1\ntrue before step 1' '' \
        'leastfault why idle.toml'
    expect 0 $'none 1\nruns at level 0: 1\nruns at level 1: 0\nrests on nothing\ntrue before step 1' '' \
        "sed 's/^outcome.*/outcome = [\"all\"]/' idle.toml | leastfault why -"
    expect 1 $'least 1\nomit 0>1 @1\nwithout omit 0>1 @1: reaches\nstep 2\n- 1 has\n+ 1 lacks' '' \
        'leastfault why examples/protocols/scenarios/retry_lost.toml --protocol examples/protocols/retry.toml'
    expect 2 'refused 6 budget' '?*' 'leastfault why examples/out_of_range.toml'
    expect 2 'refused protocol 2' '?*' 'leastfault why examples/one_try.toml --protocol examples/README.md'
    expect 2 'full 2 6' '?*' "$full why -"
    expect 3 '' $'read\n*' 'leastfault why nowhere.toml'
}

# wrong STATUS REPLY OLD NEW: claimed_away.json with one piece changed is judged so.
wrong() {
    local text=''
    slurp text "$room/desk/examples/claimed_away.json"
    put wrong.json "${text/"$3"/"$4"}"
    expect "$1" "$2" '*' 'leastfault check examples/claimed_away.toml wrong.json'
}

# nested N: a tree of N branches, one in the other.
nested() {
    local i tree='{"misses":false}'
    for ((i = 0; i < $1; i++)); do tree='{"edges":[],"kids":['$tree'],"reach":[6,6,6]}'; done
    printf '{"answer":null,"format":1,"root":%s}' "$tree"
}

test_check() {
    expect 0 yes '' 'leastfault check examples/claimed_away.toml examples/claimed_away.json'
    expect 0 yes '' 'leastfault check examples/claimed_away.toml - --quiet <examples/claimed_away.json'
    expect 0 yes '' 'leastfault check - examples/claimed_away.json <examples/claimed_away.toml'
    wrong 1 'no 2 0.1' '{"misses":true}' '{"misses":false}'
    wrong 1 'no 3 0.0' '{"misses":false}' '{"misses":true}'
    wrong 1 'no 4 1' '"kids":[{"misses":false}],"reach":[5,5,6]' '"kids":[{"misses":false}],"reach":[5,5,7]'
    wrong 1 'no 8 2' '"edges":[],"kids":[]' '"edges":[],"kids":[{"misses":false}]'
    wrong 1 'no 10 -' '"answer":["omit 0>1 @1"' '"answer":["omit 0>2 @1"'
    wrong 2 'refused tree 2' '}}' '}'
    wrong 2 'refused tree 3' ',' ', '
    wrong 2 'refused tree 3' '"format":1' '"format":2'
    wrong 2 'refused tree 4' '"reach":[5' '"reach":[49'
    wrong 2 'refused tree 4' 'omit 0>1 @1' 'omit 0>8 @1'
    put nested.json "$(nested 7)"
    expect 2 'refused tree 5' '?*' 'leastfault check examples/claimed_away.toml nested.json'
    expect 2 'refused tree 1' '?*' 'head -c 16777217 /dev/zero | leastfault check examples/claimed_away.toml -'
    expect 2 'refused 6 budget' '?*' 'leastfault check examples/out_of_range.toml examples/README.md'
    expect 2 '' 'refused usage*' 'leastfault check - - <examples/claimed_away.toml'
}

test_protocol() {
    expect 0 ok 'protocol two_phase*' 'leastfault protocol examples/protocols/two_phase.toml'
    expect 0 ok 'protocol two_phase*' 'leastfault protocol - <examples/protocols/two_phase.toml'
    expect 2 'refused protocol 7 facts.blocked' $'facts.blocked: `prepare`: *`prepared`?\nline * | phase = prepare\n* | *^^^^^^^\n' \
        "sed 's/blocked = \"phase = prepared\"/blocked = \"phase = prepare\"/' examples/protocols/two_phase.toml | leastfault protocol -"
    expect 2 'refused protocol 2' '?*' 'leastfault protocol examples/README.md'
    put free.toml "$(printf '%s\n' 'name = "free"' 'state = { most = "flag", one = "flag" }' 'notes = []' \
        'rules = [{ who = "{2..} - all", on = "begin", set = "most = true" }]' 'outcomes = { free = "at most one most and most at 1 or no one" }')"
    expect 0 ok $'*\nwarning: rule 1 is no node\'s: *' 'leastfault protocol free.toml'
}

# The option --protocol, and what is refused first.
test_own_protocols() {
    local protocol=examples/protocols/retry.toml own=examples/protocols/scenarios/retry_lost.toml
    local chain=examples/protocols/scenarios/chain_replication_progress
    expect 1 $'all 1 2\nomit 0>1 @1\nomit 0>2 @1' '' "leastfault search --protocol=$protocol $own --all"
    expect 1 $'least 1\nomit 0>1 @1' '' "leastfault search - --protocol $protocol --quiet <$own"
    expect 0 $'step 1\n0 has\n1 lacks\n2 lacks\n0>1 data 2\n0>2 data 2\n0 rules 3\nstep 2\n0 has\n1 has\n2 has\n1 rules 2\n2 rules 2
step 3\n0 has\n1 has\n2 has\nstep 4\n0 has\n1 has\n2 has\nreaches' '' "leastfault run $own '' --protocol $protocol --rules"
    run "sed 's/DATA to all/DATE to all/' $protocol >wrong.toml"
    expect 2 'refused protocol 7 rules.3.send' 'rules.3.send (who = "0", on = "end"): `DATE`: *`DATA`?*' \
        "leastfault run $own nonsense --protocol wrong.toml"
    expect 2 'refused protocol 7 rules.3.send' '?*' "leastfault answer examples/out_of_range.toml --protocol wrong.toml"
    expect 2 'refused 6 budget' '?*' "leastfault check examples/out_of_range.toml examples/README.md --protocol $protocol"
    expect 2 'refused 9 protocol' '?*' "leastfault search $own --protocol examples/protocols/redundant.toml"
    expect 2 'refused 4 tries' '?*' "leastfault search examples/one_try.toml --protocol $protocol"
    expect 2 'refused 4 given' '?*' "sed 's/^outcome/given = { patience = 3 }\noutcome/' $own | leastfault search - --protocol $protocol"
    expect 2 'refused 10 outcome' $'outcome: `had`: *`has`?\nline * | each had\n*' \
        "sed 's/delivered/each had/' $own | leastfault search - --protocol $protocol"
    expect 2 'refused 10 outcome' '*node 3*' "sed 's/delivered/has at 3/' $own | leastfault search - --protocol $protocol"
    expect 2 'refused 10 outcome' '*atoms*' "sed 's/^nodes = 3/nodes = 8/; s/^horizon = 4/horizon = 48/; s/delivered/always at most one has/' $own | leastfault search - --protocol $protocol"
    expect 0 'none 1' $'no node has these rules, *: 1, 4\n' \
        "sed 's/^nodes = 4/nodes = 3/; s/^crashes = 4/crashes = 3/' $chain.toml | leastfault search - --protocol examples/protocols/chain_replication.toml"
    expect 2 'refused faults' '?*' "leastfault run $own nonsense --protocol $protocol"
    expect 3 '' $'read\n*' "leastfault search $own --protocol nowhere.toml"
    expect 3 '' $'read\n*' "leastfault search nowhere.toml --protocol wrong.toml"
}

# Sweeps: the lines of all combinations, by any number of workers, and in parts.
test_sweep() {
    local commit=examples/blocked_commit.toml vary='--vary patience=1..3 --vary crashes=0,1,9 --vary outcome=agreement,unblocked' all n
    local raft=examples/protocols/raft_election.toml own=examples/protocols/scenarios/raft_election_forgets.toml
    expect 1 $'0\tnone 0\n1\tleast 1\tcrash 0 @2\n7\trefused 6 budget' \
        '3 combinations: 1 none, 1 least, 1 refused; the fewest faults: 1, first at budget=1'$'\nrefused, first at budget=7: budget = 7: a whole number from 0 to 6\n' \
        "leastfault sweep $commit --vary budget=0,1,7"
    expect 2 $'1\trefused 4' $'1 combinations: 0 none, 0 least, 1 refused\nrefused, first at patiense=1: "patiense": no such key; did you mean `patience`?\n' \
        "leastfault sweep $commit --vary patiense=1"
    expect 0 $'agreement\tnone 1' $'1 combinations: 1 none, 0 least\n' "leastfault sweep - --vary outcome=agreement <$commit"
    expect 2 $'x\trefused 10 outcome' '' "leastfault sweep $commit --vary outcome=x --quiet"
    expect 2 $'5\tfull 2 6\n100\tnone 6' '' 'leastfault sweep examples/three_tries.toml --vary max_sets=5,100 --by search --quiet'
    expect 1 '{"crashes":"1","seed":"7","reply":"least 1","faults":["crash 0 @2"]}' '' \
        "leastfault sweep $commit --vary crashes=1 --vary seed=7 --json --quiet"
    expect 1 $'true\tnone 2\nfalse\tleast 1\tpause 2 @4' '?*' "leastfault sweep $own --protocol $raft --vary given.stable=true,false"
    run "leastfault sweep $commit $vary --quiet"
    all=${out%$'\n'}
    for n in 2 3 4 32; do
        expect 1 "$all" '' "leastfault sweep $commit $vary --quiet --workers $n"
    done
    expect 0 "$all" '' "for i in 1 2 3; do leastfault sweep $commit $vary --quiet --workers \$i --part \$i/3 >part.\$i || true; done
paste -d '\\n' part.1 part.2 part.3 | grep ."
    expect 2 'refused 2' '?*' 'leastfault sweep examples/README.md --vary budget=1'
    expect 2 'refused protocol 2' '?*' "leastfault sweep $commit --vary budget=1 --protocol examples/README.md"
    expect 3 '' $'read\n*' 'leastfault sweep nowhere.toml --vary budget=1'
    expect 3 '' $'write\nstandard output: *space*' "leastfault sweep $commit --vary budget=1 >/dev/full"
    for n in '' '--vary' '--vary budget' '--vary =1' '--vary budget=' '--vary budget=2..1' '--vary seed=0..9999999' '--vary budget=1 --by chance' \
        '--vary budget=1 --workers 0' '--vary budget=1 --part 0/2' '--vary budget=1 --part 3/2' '--vary budget=1 --part 1' '--vary budget=1 --all' '--vary budget=1 --vary budget=2'; do
        expect 2 '' '?*' "leastfault sweep $commit $n"
    done
    # Commas within brackets and quotes belong to a value.
    own=examples/protocols/scenarios/chang_roberts_lost.toml
    expect 1 $'[2,3,1,0]\tleast 1\tomit 1>2 @1\n[0,1,2,3]\tleast 1\tomit 3>0 @1' '' \
        "leastfault sweep $own --protocol examples/protocols/chang_roberts.toml --vary 'given.id=[2,3,1,0],[0,1,2,3]' --quiet"
    expect 2 $'"a,b"\trefused 10 outcome' '' "leastfault sweep $commit --vary 'outcome=\"a,b\"' --quiet"
    expect 2 '' '--vary given.id=?2,3?,?1,0: value 2 begins with a bracket or a quote, but TOML reads no value up to a comma or the end;*' \
        "leastfault sweep $commit --vary 'given.id=[2,3],[1,0'"
    expect 2 '' '--vary votes=?true?x: value 1 begins with a bracket*' "leastfault sweep $commit --vary 'votes=[true]x'"
    expect 2 '' '--vary outcome=a,x?1?: value 2 has a bracket or a quote further in;*' "leastfault sweep $commit --vary 'outcome=a,x[1]'"
    expect 2 '' $'--vary budget=1,,2: value 2 is missing\n' "leastfault sweep $commit --vary budget=1,,2"
    # Nothing varies twice, nor within something else that varies.
    expect 2 '' $'--vary: the key budget is there twice; give all its values in one --vary\n' "leastfault sweep $commit --vary budget=1 --vary crashes=1 --vary budget=2"
    expect 2 '' $'--vary: the key given.stable stands within given; vary one of them\n' "leastfault sweep $commit --vary given.stable=true --vary given=1"
    expect 2 '' $'--vary: the key a.b stands within a; vary one of them\n' "leastfault sweep $commit --vary a.b=1 --vary a=2"
    expect 2 '' $'--part: it takes I/N, as in 2/3, with I from 1 to N, and N up to 1000000\n' "leastfault sweep $commit --vary budget=1 --part 1/1000001"
    expect 0 'up to 1000000' '' "leastfault sweep --help | grep -o 'up to 1000000'"
    helps 'leastfault sweep --help'
    expect 2 '' 'swep: no such command; did you mean `leastfault sweep`[?]'$'\n' 'leastfault swep'
    expect 0 'leastfault sweep --help' '' "leastfault --help | grep -o 'leastfault sweep --help'"
}

# doubts STATUS NAME WORDS: the report of a doubt is that of doubts/NAME.txt, to the byte.
doubts() {
    local report
    slurp report "$here/doubts/$2.txt"
    expect "$1" "${report%$'\n'}" '' "leastfault doubt $3 --quiet"
}

# Doubts: the reports of six, by any number of workers and in parts; and where a rule comes to matter within bounds that are asked.
test_doubt() {
    local kit=examples/protocols own=examples/protocols/scenarios n report commit chain first
    commit="$own/two_phase_agreement.toml --protocol $kit/two_phase.toml"
    chain="$own/chain_replication_durable.toml --protocol $kit/chain_replication.toml"
    doubts 1 blocked_commit examples/blocked_commit.toml
    doubts 0 relayed examples/relayed.toml
    doubts 0 two_phase_agreement "$commit"
    doubts 1 chain_replication_durable "$chain --deep"
    doubts 1 chang_roberts_lost "$own/chang_roberts_lost.toml --protocol $kit/chang_roberts.toml"
    doubts 0 lock_exclusive "$own/lock_exclusive.toml --protocol $kit/lock.toml --workers 2"
    for n in 2 3 32; do
        doubts 0 two_phase_agreement "$commit --workers $n"
    done
    doubts 0 two_phase_agreement "$commit --seconds 86400"
    slurp report "$here/doubts/two_phase_agreement.txt"
    expect 0 "${report%$'\n'}" '' "for i in 1 2 3; do leastfault doubt $commit --quiet --workers \$i --part \$i/3 >part.\$i; done
paste -d '\\n' part.1 part.2 part.3 | grep ."
    first='{"question":"given","reply":"least 3","faults":["crash 0 @3","crash 1 @4","crash 2 @5"]}'
    expect 1 "$first"$'\n{"question":"rule 4","reply":"taken 19 of 33","faults":[]}' '' "leastfault doubt $chain --quiet --json --part 1/10 | sed -n '1,2p'; exit 1"
    expect 0 $'given\tnone 3' $'the answer is none 3\n' 'leastfault doubt - --part 1/9 <examples/relayed.toml'
    expect 0 '' $'the answer is none 3\nit doesn\'t rest on these rules: 1, 2, 3, 4, 5, 6, 7, 8, 9, 10, 11
warning: never taken in a run with at most one fault: rule 5, rule 9, rule 11
warning: what the promise speaks of never happens in such a run: part 2 each\nit changes with: rule 5 always (least 0)\n' \
        "leastfault doubt $commit >report"
    doubts_of_flaws
    doubts_refused
}

# doubts_of_flaws: within the first bounds nothing rests on what a flawed protocol leaves out, and the flaw isn't found. With a bound that a doubt asks
# about it is.
doubts_of_flaws() {
    local kit=examples/protocols own=examples/protocols/scenarios view newest
    view=$kit/viewstamped_replication.toml newest=$kit/chandra_toueg.toml
    run "sed 's/^horizon = 12/horizon = 18/' $own/viewstamped_replication_safe.toml >shorter.toml
sed 's/^pause_length = 3/pause_length = 6/' shorter.toml >longer.toml
sed 's/l > best or l = best and n > best_len/n > best_len/; s/normal > best or normal = best and len > best_len/len > best_len/' $view >longest_log.toml"
    expect 0 $'rule 15 never\tnone 2' '' "leastfault doubt shorter.toml --protocol $view --quiet --part 45/1000"
    expect 0 'none 2' '' 'leastfault answer shorter.toml --protocol longest_log.toml'
    expect 0 $'pause_length 6\tnone 2' '' "leastfault doubt shorter.toml --protocol $view --quiet --part 76/1000"
    expect 1 $'least 2\npause 0 @1\ncrash 1 @8' '' 'leastfault answer longer.toml --protocol longest_log.toml'
    expect 0 $'rule 15 never\tleast 2\tpause 0 @1\tcrash 1 @8' '' "leastfault doubt longer.toml --protocol $view --quiet --part 45/1000"
    expect 0 $'every delay, spread 1\topen' '' "leastfault doubt shorter.toml --protocol $view --quiet --seconds 1 --part 77/1000"
    run "sed 's/^pause_length = 6/pause_length = 4/' $own/chandra_toueg_agreement.toml >shorter.toml
sed 's/^outcome/given = { newest = false }\noutcome/' shorter.toml >first.toml
sed 's/^pause_length = 4/pause_length = 8/' first.toml >longer.toml"
    expect 0 $'rule 5 without set 1\tnone 2' '' "leastfault doubt shorter.toml --protocol $newest --deep --quiet --part 35/1000"
    expect 0 $'rule 6 without set 4\tnone 2' '' "leastfault doubt shorter.toml --protocol $newest --deep --quiet --part 47/1000"
    expect 0 'none 2' '' "leastfault answer first.toml --protocol $newest"
    expect 0 $'pause_length 8\tnone 2' '' "leastfault doubt shorter.toml --protocol $newest --deep --quiet --part 73/1000"
    expect 1 $'least 2\npause 0 @1\nomit 1>2 @4' '' "leastfault answer longer.toml --protocol $newest"
    expect 0 $'pause_length 8\tleast 2\tpause 0 @1\tomit 1>2 @4' '' "leastfault doubt first.toml --protocol $newest --quiet --part 35/1000"
}

# doubts_refused: what is no doubt, and why.
doubts_refused() {
    local kit=examples/protocols own=examples/protocols/scenarios n
    expect 2 'refused 6 budget' $'budget = 7: a whole number from 0 to 6\n' 'leastfault doubt examples/out_of_range.toml'
    expect 2 'refused 9 protocol' '*--protocol FILE'$'\n' "leastfault doubt $own/lock_exclusive.toml"
    expect 2 'refused protocol 2' '?*' "leastfault doubt $own/lock_exclusive.toml --protocol examples/README.md"
    expect 3 '' $'read\n*' 'leastfault doubt nowhere.toml'
    expect 3 '' $'write\nstandard output: *space*' 'leastfault doubt examples/relayed.toml >/dev/full'
    expect 2 '' $'--seconds: it takes a whole number from 1 to 86400\n' 'leastfault doubt examples/relayed.toml --seconds 0'
    for n in '--seconds 86401' '--workers 33' '--part 2/1' '--budget 1' 'more'; do
        expect 2 '' '?*' "leastfault doubt examples/relayed.toml $n"
    done
    helps 'leastfault doubt --help'
    expect 2 '' 'dout: no such command; did you mean `leastfault doubt`[?]'$'\n' 'leastfault dout'
    expect 0 'leastfault doubt --help' '' "leastfault --help | grep -o 'leastfault doubt --help'"
}

test_words() {
    local words protocol=examples/protocols/retry.toml own=examples/protocols/scenarios/retry_lost.toml
    for words in --help -h 'search --help' 'answer --help' 'why --help' 'run --help' 'draw --help' 'check --help' 'protocol --help'; do
        helps "leastfault $words"
    done
    expect 0 'leastfault 0.1.0' '' 'leastfault --version'
    expect 0 'leastfault 0.1.0' '' 'leastfault -V'
    for words in serach 'serach examples/one_try.toml' search 'search examples/one_try.toml more' \
        'search examples/one_try.toml --protocol' 'search examples/one_try.toml --rules' "run examples/one_try.toml '' --rules" \
        "check $own examples/claimed_away.json --protocol $protocol --rules" "run $own '' --protocol $protocol --protocol $protocol" \
        'search examples/one_try.toml --workers' 'search examples/one_try.toml --workers 0' \
        'search examples/one_try.toml --workers 33' 'search examples/one_try.toml --workers=33' \
        'search nowhere.toml --workers 33' 'search examples/one_try.toml --workers three' \
        'search examples/one_try.toml --all --all' 'search examples/one_try.toml --tree' \
        "run examples/one_try.toml '' --changes --json" "run examples/one_try.toml '' --beside" 'draw examples/one_try.toml' \
        "draw examples/one_try.toml '' --changes" 'answer examples/one_try.toml --all' 'why examples/one_try.toml --all' why "run examples/one_try.toml '' --quiet" 'run examples/one_try.toml' \
        'check examples/claimed_away.toml' "search \$'\\xff'"; do
        expect 2 '' '?*' "leastfault $words"
    done
}

test_devices() {
    expect 3 '' $'read\n*' 'leastfault search nowhere.toml'
    expect 3 '' $'read\n*' 'leastfault answer nowhere.toml'
    expect 3 '' $'read\n*' 'leastfault protocol nowhere.toml'
    expect 3 '' $'read\n*' "leastfault run nowhere.toml ''"
    expect 3 '' $'read\n*' 'leastfault check examples/claimed_away.toml nowhere.json'
    expect 3 '' $'read\nexamples: *irectory*' 'leastfault search examples'
    expect 3 '' $'read\nexamples: *irectory*' 'leastfault check examples/claimed_away.toml examples'
    expect 3 '' $'read\nstandard input: *irectory*' 'leastfault search - <examples'
    expect 3 '' $'write\nstandard output: *space*' 'leastfault search examples/one_try.toml >/dev/full'
    expect 3 '' $'write\n/dev/full: *space*' 'leastfault search examples/one_try.toml --tree /dev/full'
    expect 3 '' $'write\n*' "leastfault run examples/one_try.toml '' >/dev/full"
    expect 3 '' $'write\n*' 'leastfault check examples/claimed_away.toml examples/claimed_away.json >/dev/full'
}

# ---- refused scenarios ----

# refused REPLY KEY VALUE: a scenario with that value in place of its own (`-`: without the key) has that reply.
refused() {
    local line scenario=''
    for line in 'nodes = 3' 'horizon = 4' 'last_omission = 2' 'crashes = 0' 'budget = 1' 'protocol = "retry"' 'tries = 1' \
        'outcome = "delivered"'; do
        [ "${line%% *}" = "$2" ] || scenario+="$line"$'\n'
    done
    [ "$3" = - ] || scenario+="$2 = $3"$'\n'
    put refused.toml "$scenario"
    expect 2 "refused $1" '?*' 'leastfault search refused.toml'
}

test_refused() {
    refused 2 nodes ''
    refused '3 crashes' crashes -
    refused '3 links' links '[{ from = 0 }]'
    refused 4 speed 1
    refused '4 patience' patience 3
    refused '5 nodes' nodes '"3"'
    refused '6 nodes' nodes 9
    refused '7 seed' seed '"5eed"'
    refused '8 links' links '[{ from = 0, to = 0 }]'
    refused '9 protocol' protocol '"paxos"'
    refused '10 outcome' outcome '"durable"'
    refused '11 outcome' outcome '["shows", 0, 9, "has"]'
    expect 1 $'least 1\nomit 0>1 @1' '' '{ cat examples/one_try.toml; yes "#"; } 2>/dev/null | head -c 65536 | leastfault'
    expect 2 'refused 1' '?*' '{ cat examples/one_try.toml; yes "#"; } 2>/dev/null | head -c 65537 | leastfault'
}

# ---- the pages ----

# status_of OUT ERR: the status that belongs to what a command prints; 0 for a silent command, which isn't the program's.
status_of() {
    case $1 in
    $'given\tnone '*) echo 0 ;; # the lines of a doubt
    $'given\tleast '*) echo 1 ;;
    'rule '*) echo 0 ;; # a line of one whose answer is none, cut out by a part
    *$'\tleast '*) echo 1 ;; # the lines of a sweep
    *$'\trefused '* | *$'\tfull '*) echo 2 ;;
    *$'\tnone '*) echo 0 ;;
    none* | yes* | ok*) echo 0 ;;
    least* | all* | 'no '*) echo 1 ;;
    refused* | full*) echo 2 ;;
    *$'\nreaches\n' | *$'\n+ reaches\n' | *'= reaches'$'\n') echo 0 ;;
    *$'\nmisses\n' | *$'\n+ misses\n' | *'= misses'$'\n') echo 1 ;;
    'step '*) echo 0 ;; # a part of a trace, cut out by a filter
    'patience '*) echo 0 ;; # a table, made of a sweep by a filter
    '') case $2 in
        read* | write* | memory* | pool*) echo 3 ;;
        'the answer is none '*) echo 0 ;; # what the lines of a doubt come to
        'the answer is least '*) echo 1 ;;
        '') echo 0 ;;
        *) echo 2 ;;
        esac ;;
    *) echo 'no known reply' ;;
    esac
}

# test_shown PAGE COMMAND TEXT: the page shows what goes to standard output, alone or with what goes to standard error behind it.
test_shown() {
    local shown
    [ -n "$2" ] || return 0
    run "$2"
    shown=$out
    [ "$3" = "$out" ] || shown=$out$err
    count "$1: $2" "$(
        case $2 in
        'leastfault draw '*'>'*) [[ $status == [01] ]] || differ status '0 or 1' "$status" ;; # the picture alone tells the verdict
        *) differ status "$(status_of "$out" "$err")" "$status" ;;
        esac
        differ 'what is shown' "$3" "$shown"
    )"
}

# keep TEXT: makes the file that a TOML block names in its first line, `# FILE.toml`, or puts the block behind it, `# at the end of FILE.toml`.
keep() {
    local first=${1%%$'\n'*} rest=${1#*$'\n'}
    case $first in
    '# at the end of '*.toml) printf '%s' "$rest" >>"$room/desk/${first#'# at the end of '}" ;;
    '# '*' '*) ;;
    '# '*.toml) printf '%s' "$rest" >"$room/desk/${first#'# '}" ;;
    esac
}

# test_page PAGE: runs each line `$ ..` of a block, and compares the lines behind it. A TOML block that has nodes is a whole scenario, and
# is searched. The last TOML block is left in `scenario`, and the last block of shell in `script`. TOML blocks that
# name a file are kept.
test_page() {
    local page=$1 line block='' command='' text='' before=$((passed + failed))
    scenario='' script=''
    while IFS= read -r line; do
        case $block,$line in
        ,'```'*)
            block=${line:3}
            block=${block:-plain}
            command='' text=''
            ;;
        *,'```')
            test_shown "$page" "$command" "$text"
            [ "$block" != toml ] || keep "$text"
            case $block,$text in
            toml,*nodes*) scenario=$text ;;
            sh,*) script=$text ;;
            esac
            block=''
            ;;
        ,*) ;;
        plain,'$ '*)
            test_shown "$page" "$command" "$text"
            command=${line#'$ '} text=''
            ;;
        *) text+=$line$'\n' ;;
        esac
    done <"$top/$page"
    [ $((passed + failed)) -gt "$before" ] || count "$page" '    it shows no command'
}

test_pages() {
    test_page README.md
    put readme.toml "$scenario"
    expect 1 $'least 1\ncrash 0 @2' '' 'leastfault search readme.toml'
    test_page examples/README.md
    test_page docs/PROTOCOLS.md
    test_page docs/GUIDE.md
    put guide.toml "$scenario"
    holds examples/guided.toml "$scenario" 'its copy in docs/GUIDE.md'

    # The guide's script for continuous integration.
    put promises.sh "$script"
    run 'mkdir promises; cp examples/relayed.toml examples/three_tries.toml promises'
    run '{ echo max_sets = 5; cat examples/three_tries.toml; } >promises/full.toml'
    expect 0 'kept    promises/full.toml: none 6
kept    promises/relayed.toml: none 3
kept    promises/three_tries.toml: none 6' '*' 'sh promises.sh'
    run 'rm promises/*; cp examples/one_try.toml examples/out_of_range.toml examples/relayed.toml promises'
    expect 1 'broken  promises/one_try.toml: least 1
omit 0>1 @1
unknown promises/out_of_range.toml: refused 6 budget
kept    promises/relayed.toml: none 3' '*' 'sh promises.sh'
}

# ---- all of it ----

# Proves and builds the program, and shows what was said if that fails.
build() {
    local said code=0
    said=$(cd "$top/crates/leastfault_cli" && rt run -- search "$here/relayed.toml" 2>&1) || code=$?
    if [ "$code" -gt 1 ]; then
        printf '%s\nthe program was not built (status %s)\n' "$said" "$code"
    fi
}

room=$(mktemp -d)
trap 'rm -rf "$room"' EXIT
case $* in
'') build ;;
--built) ;;
'--tables '*) program=${2-} ;;
*)
    echo 'usage: check.sh [--built | --tables PROGRAM TABLE..]' >&2
    exit 2
    ;;
esac
if [ ! -f "$program" ]; then
    echo 'FAILED: the program is not there; rt ci builds it'
    echo '0 passed, 1 failed'
    exit 1
fi
mkdir "$room/bin" "$room/desk"
install -m 755 "$program" "$room/bin/leastfault"
cp -R "$here" "$room/desk/examples"
export PATH="$room/bin:$PATH"
if [ "${1-}" = --tables ]; then
    for table in "${@:3}"; do test_table "$table"; done
    echo "$passed passed, $failed failed"
    [ "$failed" = 0 ]
    exit
fi
echo 'The built program: the tables of examples/cases/, its commands and options, the examples, and what the pages show'
test_tables
test_examples
test_longer_runs
test_protocols
test_built_ins
test_search
test_tree
test_own_file
test_full
test_run
test_told
test_pictures
test_every_delay
test_why
test_check
test_protocol
test_own_protocols
test_sweep
test_doubt
test_words
test_devices
test_refused
test_pages
echo "$passed passed, $failed failed"
[ "$failed" = 0 ]
