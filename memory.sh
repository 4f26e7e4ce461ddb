#!/bin/bash
# Runs the built programs with one growth of their memory refused, each in turn, and looks at what each run leaves. It ends
# with status 1 where a run leaves something else than it may. No gate runs this; `make memory` does, by hand. `make test`
# leaves the programs where this looks; RUN, SNAPSHOT, WATCH, CHECK, PARAMETERS and SCHEDULER name others. RETRIES names a
# program that makes a refused call once more, and tells its error on a line of its own behind `~ `; it is run where it is named.
cd "$(dirname "${BASH_SOURCE[0]}")" || exit 1
run=${RUN:-$PWD/crates/board_run/out/board_run}
snapshot=${SNAPSHOT:-$PWD/crates/board_snapshot_run/out/board_snapshot_run}
watch=${WATCH:-$PWD/crates/board_watch_run/out/board_watch_run}
check=${CHECK:-$PWD/crates/board_check_run/out/board_check_run}
parameters=${PARAMETERS:-$PWD/crates/example_parameters/out/example_parameters}
scheduler=${SCHEDULER:-$PWD/crates/example_scheduler/out/example_scheduler}
for program in "$run" "$snapshot" "$watch" "$check" "$parameters" "$scheduler"; do
    [ -x "$program" ] || { echo "$program is not there: make test leaves it" >&2; exit 1; }
done
folder=$(mktemp -d) && trap 'rm -r "$folder"' EXIT
${CC:-cc} -O2 -shared -fPIC -o "$folder/memory.so" memory.c || exit 1
bad=0 runs=0

# The tables of worked scripts: of each its lines, its answers, and its status with its note.
mkdir "$folder/rows"
(cd crates/board_rows/src && cat openings.rt abandoned/loans.rt abandoned/boards.rt boards.rt readers.rt tables.rt loans.rt limits.rt events.rt) | awk -v folder="$folder/rows" '
    function write(line, answer) {
        print line > (row ".script")
        if (answer != "") print answer > (row ".answers")
    }
    function end_row() {
        if (row == "") return
        printf "" > (row ".script")
        printf "" > (row ".answers")
        print status > (row ".status")
        if (note != "") print note > (row ".note"); else printf "" > (row ".note")
        row = ""
    }
    function begin_row(name) {
        end_row()
        gsub(/ /, "_", name)
        row = folder "/" name
        status = 0
        note = ""
    }
    # A text of a table: lines with their answers behind bars, or a name or a note.
    function text(value) {
        if (value ~ /\\/) { print "an escape in " value > "/dev/stderr"; exit 1 }
        if (type == "Part") parts[name] = value
        else if (field == "name") begin_row(value)
        else if (field == "note") note = value
        else part(value)
    }
    function part(value,    rows, count, n, answer) {
        count = split(value, rows, "\n")
        for (n = 1; n <= count; n++) {
            if (rows[n] ~ /^ *$/) continue
            answer = rows[n]
            if (!sub(/^[^|]*[|] */, "", answer)) answer = ""
            sub(/ *([|].*)?$/, "", rows[n])
            sub(/^ */, "", rows[n])
            write(rows[n], answer)
        }
    }
    function token(value) {
        if (value ~ /^[[({]$/) depth++
        if (value ~ /^[])}]$/) depth--
        if (state == "") { if (value == "const") state = "name" }
        else if (state == "name") { name = value; type = ""; state = "type" }
        else if (state == "type") { if (value == "=") state = "value"; else if (value != ":") type = type value }
        else if (value == ";" && depth == 0) { end_row(); state = field = "" }
        else if (type != "Part" && type !~ /^(Row|\[Row;[0-9]+\])$/) return
        else if (value ~ /^"/) text(substr(value, 2, length(value) - 2))
        else if (value ~ /^[0-9]/ && field == "status") status = value
        else if (value ~ /^[a-z]/) field = value
        else if (field == "opening" && value in parts) part(parts[value])
    }
    /^ *\/\// { next }
    {
        while (gsub(/"/, "&") % 2 && (getline more) > 0) $0 = $0 "\n" more
        while (match($0, /"([^"\\]|\\.)*"|[A-Za-z_][A-Za-z_0-9]*|[0-9]+|[^ \n]/)) {
            token(substr($0, RSTART, RLENGTH))
            $0 = substr($0, RSTART + RLENGTH)
        }
    }
' || exit 1

# made NAME: one more script that is run to its end, of pairs LINE => ANSWER
made() {
    local pair
    echo 0 > "$folder/rows/$1.status" && printf '' > "$folder/rows/$1.note"
    while IFS= read -r pair; do
        echo "${pair% => *}" >&3
        echo "${pair##* => }" >&4
    done 3> "$folder/rows/$1.script" 4> "$folder/rows/$1.answers"
}

# Those that are made by code there: 513 ids of a queue, one more than it takes, and a line of 4096 bytes.
full_queue() {
    local id
    printf '%s\n' 'begin e listen e queue q => ok' 'step e => table = ok' 'begin n notifier n queue q => ok' 'step n => table = ok'
    for ((id = 1; id <= 512; id++)); do
        printf '%s\n' "begin n notify n $id => ok" 'step n => push queue:q = ok'
    done
    printf '%s\n' 'begin n notify n 513 => ok' 'step n => push queue:q = NotifierNotifyError::FailedToDeliverSignal'
    printf '%s\n' 'begin e wait e all try => ok' 'step e => pop queue:q 1'
    printf '%s\n' 'begin n notify n 513 => ok' 'step n => push queue:q = ok'
    for ((id = 2; id <= 512; id++)); do echo "step e => pop queue:q $id"; done
    echo "step e => pop queue:q 513 = ids $(seq -s ' ' 513)"
}
long_line() {
    local n key value
    key=$(printf '%062d' 0) value=$(printf '%0254d' 0)
    printf 'begin a create f nnnnnnnnnnnnnnnnn u64'
    for n in {0..7}; do printf ' attr k%s v%s' "$n$key" "$n$value"; done
    for n in {0..65}; do printf ' add u64:%s q4:1,2,3,4' "$n"; done
    printf ' => ok\nstep a => table = ok 1\n'
}
full_queue | made a_full_queue
long_line | made a_line_of_4096_bytes

# Lines that are refused, each of which takes memory to be read.
made refused_lines << 'END'
begin a create f b u64 add u64:1 u64:7 => ok
begin a create g c u64 attr k v add u64:1 u64:7 => refused busy
begin a open g b u64 need k v needkey l => refused busy
begin a listen e bits ev 1 => refused busy
begin a notifier n queue q => refused busy
step a => table = ok 1
begin a create f c u64 attr k v attr l w add u64:1 u64:7 add u64:2 bool:true => refused taken
begin a create g c u64 attr k v add u64:1 u64:7 add f8:x u64:7 => refused type
begin a open f b u64 need k v => refused taken
begin a listen f queue q => refused taken
begin a notifier f bits ev => refused taken
abandon a => gone
begin a create g c u64 attr k v add u64:1 u64:7 => refused abandoned
begin a open g b u64 need k v needkey l => refused abandoned
begin a listen e bits ev 1 => refused abandoned
begin a notifier n queue q => refused abandoned
words 1 => words 1 0 7 0
END

# What a run wrote, noted and ended with stands in output, note and status, and what a whole run does in those named whole.
# The lines have their newlines, so that a part of one is no line.
is_whole() {
    [ "$status" = "$whole_status" ] && [ "${note[*]}" = "${whole_note[*]}" ] && [ "${output[*]}" = "${whole_output[*]}" ]
}

is_front() {
    local n
    for n in "${!output[@]}"; do [ "${output[n]}" = "${whole_output[n]}" ] || return; done
}

ends_for_memory() { [ "$status" = 7 ] && [ "${note[*]}" = $'out of memory\n' ]; }

# Nothing was read, or the line behind those that are answered may take memory, by its right answer.
may_take_memory() {
    local next=${#output[@]}
    [ "$next: $unread" = "0: ${input[0]%$'\n'}" ] && return
    case "${input[next]%$'\n'}: ${whole_output[next]}" in
        'begin '*': ok'* | 'abandon '*': gone'* | 'words '*': words '*) ;;
        'step '*': table = ok'* | 'step '*': table = keys'* | 'step '*': table = nodes'* | 'step '*': table = info'*) ;;
        'step '*': read '*' = '* | 'step '*': swap '* | 'step '*': clear '* | 'step '*': pop '*) ;;
        *) false ;;
    esac
}

# What a run with a refused growth may be:
a_script() { is_whole || { ends_for_memory && is_front && may_take_memory; }; }
a_driven_script() { is_whole || { ends_for_memory && is_front; }; }
without_output() { is_whole || { ends_for_memory && [ ${#output[@]} = 0 ]; }; }
an_example() { is_whole || { [ "$status" = 1 ] && [[ ${note[*]} = 'Error: '*$'OutOfMemory\n' ]] && is_front; }; }

# The parameter server goes on where it can't look for a client's reason, or has no room for a key: all else is as without.
a_server() {
    an_example && return
    local line told=0
    [ "$status: ${note[*]}" = '0: ' ] || return
    for line in "${whole_output[@]}"; do
        case "$line: ${output[told]}" in
            "$line: $line" | 'with miles: '*': with miles: '*$'OutOfMemory\n') told=$((told + 1)) ;;
            'parameter '*) ;;
            *) return 1 ;;
        esac
    done
    [ "$told" = ${#output[@]} ]
}

# But for the line that tells of the refused call, it is as without a refusal.
a_retry() {
    local line told=0 rest=()
    for line in "${output[@]}"; do
        if [[ $line = '~ '*$'OutOfMemory\n' ]]; then told=$((told + 1)); else rest+=("$line"); fi
    done
    [ "$status: $told: ${note[*]}" = '0: 1: ' ] && [ "${rest[*]}" = "${whole_output[*]}" ]
}

# takes INPUT OUTPUT NOTE STATUS: the lines that a program is given, and what a whole run of it does
takes() {
    given=$1 whole_status=$4
    mapfile input < "$1" && mapfile whole_output < "$2" && mapfile whole_note < "$3" || exit 1
}

# refuses NAME KIND COMMAND..: a run of the command for each growth. When none has the next number, the run is whole.
refuses() {
    local name=$1 kind=$2 n whole=0 good=yes
    shift 2
    for ((n = 1; ; n++)); do
        exec {source}< "$given"
        timeout 60 env LD_PRELOAD="$folder/memory.so" REFUSE="$n" REFUSED="$folder/$runs" "$@" <&"$source" > "$folder/output" 2> "$folder/note"
        status=$?
        unread= && IFS= read -r unread <&"$source"
        exec {source}<&-
        mapfile output < "$folder/output" && mapfile note < "$folder/note"
        [ -e "$folder/$runs" ] || break
        runs=$((runs + 1))
        is_whole && whole=$((whole + 1))
        "$kind" || { echo "$name: growth $n: status $status, ${#output[@]} lines, ${note[*]}" >&2; good=no; }
    done
    is_whole || { echo "$name: no growth refused: status $status, ${#output[@]} lines, ${note[*]}" >&2; good=no; }
    if [ "$good" = yes ]; then
        echo "well: $name: $((n - 1)) growths, $whole of them without an effect"
    else
        echo "WRONG: $name" >&2; bad=1
    fi
}

# stored NAME KIND CRATE PROGRAM: the same of a program with its stored input
stored() {
    takes "crates/$3/stdin" "crates/$3/stdout" /dev/null 0
    refuses "$1" "$2" "$4"
}

# told NAME KIND COMMAND..: the same of a command that is given no lines
told() {
    "${@:3}" < /dev/null > "$folder/told" || exit 1
    takes /dev/null "$folder/told" /dev/null 0
    refuses "$@"
}

for row in "$folder"/rows/*.script; do
    row=${row%.script}
    takes "$row.script" "$row.answers" "$row.note" "$(< "$row.status")"
    refuses "${row##*/}" a_script "$run"
done

told 'the script of 100' without_output "$run" gen 100
stored 'the stored snapshot' a_driven_script board_snapshot_run "$snapshot"
stored 'the stored watcher' a_driven_script board_watch_run "$watch"
stored 'the stored session' without_output board_check_run "$check"
stored parameters a_server example_parameters "$parameters"
stored scheduler an_example example_scheduler "$scheduler"
[ -z "$RETRIES" ] || told 'a program that calls once more' a_retry "$RETRIES"

echo "$runs runs"
exit $bad
