# Runs the tables of cases/, whose form cases/README.md tells. `check.sh` takes this file in: it has `room`, and says how a command is run, how
# two texts are compared, and how a case is counted.

# What a table has said so far. `row` is the case that is being read, and `at` its line.
table='' title='' row='' at=0
columns=() commands=() is_new=yes
file='' is_exact=no base='' base_text='' usual='' noise=none

# times TEXT COUNT: leaves the text so often in `many`.
times() {
    local part=$1 left=$2
    many=''
    while [ "$left" -gt 0 ]; do
        [ $((left % 2)) = 0 ] || many+=$part
        part+=$part
        left=$((left / 2))
    done
}

# written TEXT: leaves in `cell` what a cell says: `\n` is the end of a line, `\xff` that byte, and `<<8 * TEXT>>` the text eight times.
written() {
    local rest=$1 count
    cell=''
    while [[ $rest == *'<<'[0-9]*' * '*'>>'* ]]; do
        cell+=${rest%%'<<'*}
        rest=${rest#*'<<'}
        count=${rest%%' * '*}
        rest=${rest#*' * '}
        times "${rest%%'>>'*}" "$count"
        cell+=$many
        rest=${rest#*'>>'}
    done
    cell+=$rest
    cell=${cell//'\n'/$'\n'}
    cell=${cell//'\xff'/$'\xff'}
}

# lines_of TEXT: the same, where `;` ends a line, and the last line ends, too.
lines_of() {
    written "${1//;/'\n'}"
    [ -z "$cell" ] || cell+=$'\n'
}

# put_changed KEY LINES: the base with these lines in place of each one that begins with the key, or behind it where none does.
put_changed() {
    local line text='' is_more=yes
    while IFS= read -r line; do
        case $line in
        "$1"*) text+=$2 is_more=no ;;
        *) text+=$line$'\n' ;;
        esac
    done <<<"${base_text%$'\n'}"
    [ "$is_more" = no ] || text+=$2
    put "$base" "$text"
}

# put_behind KEY LINES: the base without the lines that begin with the key, and these lines behind it.
put_behind() {
    local line text=''
    while IFS= read -r line; do
        case $line in
        "$1"*) ;;
        *) text+=$line$'\n' ;;
        esac
    done <<<"${base_text%$'\n'}"
    put "$base" "$text$2"
}

# put_bounds NUMBERS LINES: the scenario with these numbers and these lines.
put_bounds() {
    local -a number=()
    read -r -a number <<<"$1"
    put s "nodes = ${number[0]}
horizon = ${number[1]}
last_omission = ${number[2]}
crashes = ${number[3]}
budget = ${number[4]}
$2"
}

# wrong_error KIND WANTED: how standard error differs from what a case says of it.
wrong_error() {
    local first
    case $1 in
    whole) differ 'standard error' "${2:+$2$'\n'}" "$err" ;;
    line)
        first=${err%%$'\n'*}
        differ 'the first line of standard error' "$2" "$first"
        ;;
    begins)
        if [ -z "$2" ]; then
            differ 'standard error' '' "$err"
        elif [ "${err:0:${#2}}" != "$2" ]; then
            differ 'how standard error begins' "$2" "${err%$'\n'}"
        fi
        ;;
    none) differ 'standard error' '' "$err" ;;
    some) [ -n "$err" ] || differ 'standard error' '(anything)' '' ;;
    esac
}

# test_command COMMAND STATUS OUT KIND ERROR MADE: runs a command of the case that was read.
test_command() {
    local made=''
    rm -f "$room/desk/made"
    run "$1"
    [ "$6" = - ] || [ ! -e "$room/desk/made" ] || slurp made "$room/desk/made"
    count "cases/$table, line $at${title:+, $title}: $1" "$(
        differ status "$2" "$status"
        differ 'standard output' "$3" "$out"
        wrong_error "$4" "$5"
        [ "$6" = - ] || differ 'the file `made`' "$6" "$made"
    )"
}

# test_case: runs the commands of the case that was read.
test_case() {
    local -a cells=() ran=("${commands[@]}")
    local i key='' wanted='' said=${usual:-} kind=$noise error='' made=- bounds=''
    IFS='~' read -r -d '' -a cells <<<"$row~" || true
    for ((i = 0; i < ${#columns[@]}; i++)); do
        written "${cells[i]-}"
        case ${columns[i]} in
        command) ran=("$cell") ;;
        key | from | without) key=$cell ;;
        to) put "$base" "${base_text//"$key"/"$cell"}" ;;
        lines)
            lines_of "${cells[i]-}"
            put_changed "$key" "$cell"
            ;;
        behind)
            lines_of "${cells[i]-}"
            put_behind "$key" "$cell"
            ;;
        bounds) bounds=$cell ;;
        scenario)
            lines_of "${cells[i]-}"
            [ -z "$bounds" ] || put_bounds "$bounds" "$cell"
            [ -n "$bounds" ] || put s "$cell"
            ;;
        protocol)
            lines_of "${cells[i]-}"
            put p "$cell"
            ;;
        tree) put t "$cell" ;;
        status) said=$cell ;;
        out)
            lines_of "${cells[i]-}"
            wanted=$cell
            ;;
        error) kind=whole error=$cell ;;
        'error line') kind=line error=$cell ;;
        'error begins') kind=begins error=$cell ;;
        made) made=$cell ;;
        *) export "${columns[i]}=$cell" ;;
        esac
    done
    [ -n "$said" ] || said=$(status_of "$wanted" '')
    case $said,$kind in
    2,none | 2,any) kind=some ;;
    esac
    for i in "${ran[@]}"; do
        test_command "$i" "$said" "$wanted" "$kind" "$error" "$made"
    done
}

# told LINE: takes in a line that is no part of a file or of a case that goes on. Leaves in `block` what may go on.
told() {
    case $1 in
    '') ;;
    '#') ;;
    '# '*) title=${1#'# '} ;;
    ':columns '*) mapfile -t columns < <(sed 's/ ~ /\n/g' <<<"${1#':columns '}") ;;
    ':run '*)
        [ "$is_new" = yes ] || commands=()
        is_new=yes
        commands+=("${1#':run '}")
        ;;
    ':file '* | ':base '* | ':exact '*)
        block=text
        file=${1#* }
        is_exact=no
        [[ $1 != ':base '* ]] || base=$file
        [[ $1 != ':exact '* ]] || is_exact=yes
        ;;
    ':status '*) usual=${1#':status '} ;;
    ':error '*) noise=${1#':error '} ;;
    *)
        block=row
        row=$1
        is_new=no
        ;;
    esac
}

# test_table FILE: runs the cases of a table.
test_table() {
    local line number=0 block='' text='' empty=''
    table=$1 title='' columns=() commands=() is_new=yes base='' usual='' noise=none
    while IFS= read -r line; do
        number=$((number + 1))
        case $block,$line in
        text,'    '*)
            text+=$empty${line:4}$'\n'
            empty=''
            continue
            ;;
        text,'')
            empty+=$'\n'
            continue
            ;;
        row,'    '*)
            row+=${line:4}
            continue
            ;;
        text,*)
            [ "$is_exact" = no ] || text=${text%$'\n'}
            put "$file" "$text"
            [ "$file" != "$base" ] || base_text=$text
            text='' empty=''
            ;;
        row,*) test_case ;;
        esac
        block=''
        told "$line"
        [ "$block" != row ] || at=$number
    done < <(cat "$here/cases/$table" && echo)
}

# test_tables: runs the cases of all tables.
test_tables() {
    local each
    for each in "$here"/cases/*/*.txt; do
        test_table "${each#"$here/cases/"}"
    done
}
