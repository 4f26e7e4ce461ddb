#!/bin/bash
# Runs the built programs from outside, on real files and pipes, and compares what they write, what they note and their
# status. It ends with status 1 where one of them does otherwise. `make test` leaves the programs where this looks; RUN,
# SNAPSHOT, WATCH, CHECK and BENCH name others.
cd "$(dirname "${BASH_SOURCE[0]}")" || exit 1
run=${RUN:-$PWD/crates/board_run/out/board_run}
snapshot=${SNAPSHOT:-$PWD/crates/board_snapshot_run/out/board_snapshot_run}
watch=${WATCH:-$PWD/crates/board_watch_run/out/board_watch_run}
check=${CHECK:-$PWD/crates/board_check_run/out/board_check_run}
bench=${BENCH:-$PWD/crates/board_bench/out/board_bench}
for program in "$run" "$snapshot" "$watch" "$check" "$bench"; do
    [ -x "$program" ] || { echo "$program is not there: make test leaves it" >&2; exit 1; }
done
folder=$(mktemp -d) && trap 'rm -r "$folder"' EXIT
bad=0

# tells NAME GOOD: what came of one trial
tells() {
    if [ "$2" = yes ]; then echo "well: $1"; else echo "WRONG: $1" >&2; bad=1; fi
}

# gives NAME STATUS OUTPUT NOTE COMMAND..: the command ends so, after these bytes on standard output and error
gives() {
    local name=$1 wanted=$2 output=$3 note=$4 status good=yes
    shift 4
    timeout 60 "$@" > "$folder/output" 2> "$folder/note"
    status=$?
    [ "$status" = "$wanted" ] || { echo "status $status, not $wanted" >&2; good=no; }
    printf "$output" | cmp - "$folder/output" >&2 || good=no
    printf "$note" | cmp - "$folder/note" >&2 || good=no
    tells "$name" "$good"
}

# breaks NAME ANSWER PROGRAM: who reads its answers to many lines (this one, of the party %s) goes after five bytes
breaks() {
    local good=yes
    { timeout 60 "$3" < "$folder/many" 2> "$folder/note"; echo $? > "$folder/status"; } | head -c 5 > "$folder/output"
    printf "$2" a | head -c 5 | cmp - "$folder/output" >&2 || good=no
    [ "$(cat "$folder/status" "$folder/note")" = $'4\nwrite fault' ] || good=no
    tells "$1" "$good"
}

# speaks NAME ANSWER PROGRAM: each answer, which is this one of the party %s, comes before the next line is sent
speaks() {
    local good=yes party wanted answer process from end to
    coproc talk { timeout 60 "$3" 2>&1; }
    # (bash forgets the number of a process that has ended, and its ends: then there is nothing to say to it)
    process=$talk_PID from=${talk[0]} end=${talk[1]}
    if [ -z "$process" ] || [ -z "$from" ] || [ -z "$end" ]; then
        tells "$1" no
        return
    fi
    exec {to}>&"$end"
    eval "exec $end>&-"
    for party in a b c; do
        (echo "abandon $party") >&"$to"
        while read -r wanted; do
            read -r -t 20 answer <&"$from" && [ "$answer" = "$wanted" ] || good=no
        done < <(printf "$2" "$party")
    done
    exec {to}>&-
    wait "$process" || good=no
    tells "$1" "$good"
}

script=crates/board_run/stdin
answers=$(sed 's/%/%%/g' crates/board_run/stdout)
snapshot_script=crates/board_snapshot_run/stdin
snapshot_told=$(sed 's/%/%%/g' crates/board_snapshot_run/stdout)
usage='usage: board_run [gen N]\n'
watch_script=crates/board_watch_run/stdin
watch_told=$(sed 's/%/%%/g' crates/board_watch_run/stdout)
watch_usage='usage: board_watch_run\n'
session=crates/board_check_run/stdin
check_usage='usage: board_check_run\n'
snapshot_usage='usage: board_snapshot_run\n'
bench_usage='usage: board_bench solo|typed 1|4|32 get|try_get|update COUNT, board_bench event bits|queue COUNT, or board_bench shared 1|4|32 1|2|3 UPDATES\n'

# the script of standard input
gives 'the stored script' 0 "$answers\n" '' "$run" < "$script"
gives 'no lines' 0 '' '' "$run" < /dev/null
gives 'a last line without a newline' 0 'gone\n' '' "$run" < <(printf 'abandon a')

# lines outside the grammar
gives 'two spaces' 5 'gone\n' 'line 2: not in the grammar\n' "$run" < <(printf 'abandon a\nabandon  b\nabandon c\n')
gives 'a carriage return' 5 '' 'line 1: not in the grammar\n' "$run" < <(printf 'abandon a\r\n')
gives 'an empty line' 5 'gone\n' 'line 2: not in the grammar\n' "$run" < <(printf 'abandon a\n\n')
gives 'a line of 4097 bytes' 5 '' 'line 1: not in the grammar\n' "$run" < <(printf 'words %04091d\n' 1)

# the words of the command line
gives 'the script of 1' 0 'lines 25\nrefused 1\nsteps 12\nupdates 0\ngets 0\ngenerations 1 1\n' '' "$run" gen 1
gives 'the script of 1000' 0 'lines 1024\nrefused 433\nsteps 489\nupdates 47\ngets 41\ngenerations 27 22\n' '' "$run" gen 1000
for words in 'x' 'gen' 'gen 0' 'gen 01' 'gen +1' 'gen 1000001' 'gen 1 2' '1' 'gen gen' $'\xff'; do
    gives "usage: $words" 2 '' "$usage" "$run" $words < "$script"
done
gives 'usage: an empty word' 2 '' "$usage" "$run" '' < "$script"

# faults
gives 'a closed input' 3 '' 'read fault\n' "$run" <&-
gives 'a folder as the input' 3 '' 'read fault\n' "$run" < .
gives 'a full device' 4 '' 'write fault\n' bash -c '"$0" > /dev/full' "$run" < "$script"
gives 'a full device for a summary' 4 '' 'write fault\n' bash -c '"$0" gen 1 > /dev/full' "$run"
gives 'a closed output' 4 '' 'write fault\n' bash -c '"$0" >&-' "$run" < "$script"
gives 'no room for the note' 5 'gone\n' '' bash -c '"$0" 2> /dev/full' "$run" < <(printf 'abandon a\n\n')
yes 'abandon a' | head -n 200000 > "$folder/many"
breaks 'a closed pipe' 'gone\n' "$run"
gives 'many lines' 0 "gone\n$(yes 'refused abandoned' | head -n 199999)\n" '' "$run" < "$folder/many"

# pipes
by_bytes() { local text; text=$(cat "$1"; echo .); text=${text%.}; local i; for ((i = 0; i < ${#text}; i++)); do printf '%s' "${text:i:1}"; done; }
gives 'a byte at a time' 0 "$answers\n" '' "$run" < <(by_bytes "$script")
speaks 'answers before the next line' 'gone\n' "$run"

# six hundred parties come to a board, two thirds of them leave it, and half of these come back
joins() { printf "begin p$1 open f b u64\nstep p$1\n"; }
{
    printf 'begin z create f b u64 nodes 700 add u64:1 u64:7\nstep z\n'
    for i in {1000..1599}; do joins "$i"; done
    for i in {1000..1599}; do ((i % 3 == 0)) || echo "drop p$i f"; done
    for i in {1599..1000}; do ((i % 3 != 1)) || joins "$i"; done
    printf 'begin z nodes f\nstep z\n'
} > "$folder/nodes"
"$run" < "$folder/nodes" 2> "$folder/note" | tail -n 1 > "$folder/output"
echo "table = nodes $(for i in {1000..1599}; do ((i % 3 == 2)) || echo "p$i"; done | tr '\n' ' ')z" | cmp - "$folder/output" >&2 && good=yes || good=no
tells 'six hundred nodes' "$good"

# snapshots
gives 'the stored snapshot' 0 "$snapshot_told\n" '' "$snapshot" < "$snapshot_script"
gives 'a snapshot, a byte at a time' 0 "$snapshot_told\n" '' "$snapshot" < <(by_bytes "$snapshot_script")
gives 'no lines of snapshots' 0 '' '' "$snapshot" < /dev/null
gives 'a snapshot of nothing' 0 'snapping b\n> begin b get h\nrefused unknown\nunsnapped b\n' '' "$snapshot" < <(printf 'snap b h\nturn b')
gives 'a snapshot without handles' 5 'snapping b\n' 'line 2: not in the grammar\n' "$snapshot" < <(printf 'snap b h\nsnap b\nturn b\n')
for words in 'x' 'gen 1' '1' $'\xff'; do
    gives "snapshots' usage: $words" 2 '' "$snapshot_usage" "$snapshot" $words < "$snapshot_script"
done
gives "snapshots' usage: an empty word" 2 '' "$snapshot_usage" "$snapshot" '' < "$snapshot_script"
gives 'snapshots from a closed input' 3 '' 'read fault\n' "$snapshot" <&-
gives 'snapshots on a full device' 4 '' 'write fault\n' bash -c '"$0" > /dev/full' "$snapshot" < "$snapshot_script"
breaks "snapshots' closed pipe" '> abandon %s\ngone\n' "$snapshot"
more="> abandon a\ngone\n$(yes $'> abandon a\nrefused abandoned' | head -n 399998)\n"
gives "snapshots' many lines" 0 "$more" '' "$snapshot" < "$folder/many"
speaks "snapshots' answers before the next line" '> abandon %s\ngone\n' "$snapshot"

# watchers
gives 'the stored watcher' 0 "$watch_told\n" '' "$watch" < "$watch_script"
gives 'a watcher, a byte at a time' 0 "$watch_told\n" '' "$watch" < <(by_bytes "$watch_script")
gives 'a watcher of nothing' 0 '> begin b id h\nrefused unknown\nunwatched b\nunwatched b\n' '' "$watch" < <(printf 'watch b e h\nturn b')
gives 'a watcher without handles' 5 'unwatched b\n' 'line 2: not in the grammar\n' "$watch" < <(printf 'turn b\nwatch b e\nturn b\n')
for word in x '' $'\xff'; do
    gives "watchers' usage: '$word'" 2 '' "$watch_usage" "$watch" "$word" < "$watch_script"
done
gives 'watchers from a closed input' 3 '' 'read fault\n' "$watch" <&-
gives 'watchers on a full device' 4 '' 'write fault\n' bash -c '"$0" > /dev/full' "$watch" < "$watch_script"
breaks "watchers' closed pipe" '> abandon %s\ngone\n' "$watch"
gives "watchers' many lines" 0 "$more" '' "$watch" < "$folder/many"
speaks "watchers' answers before the next line" '> abandon %s\ngone\n' "$watch"

# the checker
gives 'the stored session' 0 'lawful 14\n' '' "$check" < "$session"
gives 'a session, a byte at a time' 0 'lawful 14\n' '' "$check" < <(by_bytes "$session")
gives 'no pairs' 0 'lawful 0\n' '' "$check" < /dev/null
gives 'a last answer without a newline' 0 'lawful 1\n' '' "$check" < <(printf 'abandon a\ngone')
gives 'a line outside the grammar' 1 'line 2: line\n' '' "$check" < <(printf 'abandon a\ngone\nabandon  b\ngone\n')
gives 'a session without its last answer' 1 'line 2: answer\n' '' "$check" < <(printf 'abandon a\ngone\nabandon b\n')
gives 'a line without an end' 1 'line 1: line\n' '' "$check" < <(yes | tr -d '\n')
gives 'an answer without an end' 1 'line 1: answer\n' '' "$check" < <(echo 'abandon a'; yes | tr -d '\n')
gives 'a wrong pair before a line without an end' 1 'line 1: reason\n' '' "$check" < <(printf 'step a\nrefused busy\n'; yes | tr -d '\n')
gives 'a refusal that is none' 1 'line 2: reason\n' '' "$check" < <(printf 'abandon a\ngone\nabandon b\nrefused abandoned\nabandon c\nrefused busy\n')
gives 'a word of another access' 1 'line 8: owed\n' '' "$check" < <(sed '16s/1:7/1:6/' "$session")
gives 'a word that is not there' 1 'line 9: word\n' '' "$check" < <(sed '18s/9$/8/' "$session")
gives 'a listener that is there' 1 'line 6: event\n' '' "$check" < <(printf 'begin e listen e bits ev 63\nok\nstep e\ntable = ok\nbegin n notifier n bits ev\nok\nstep n\ntable = ok\nbegin n notify n 1\nok\nstep n\nlistener bits:ev no\n')
gives 'a reply of another number' 1 'line 2: reply\n' '' "$check" < <(sed '4s/1$/2/' "$session")
"$run" < "$script" > "$folder/answers" && paste -d '\n' "$script" "$folder/answers" > "$folder/session"
gives 'a run and its output' 0 "lawful $(grep -c '' "$script")\n" '' "$check" < "$folder/session"
gives 'many pairs' 0 'lawful 200000\n' '' "$check" < <(printf 'abandon a\ngone\n'; yes $'abandon a\nrefused abandoned' | head -n 399998)
for word in x '' $'\xff'; do
    gives "the checker's usage: '$word'" 2 '' "$check_usage" "$check" "$word" < "$session"
done
gives 'a session from a closed input' 3 '' 'read fault\n' "$check" <&-
gives 'a verdict on a full device' 4 '' 'write fault\n' bash -c '"$0" > /dev/full' "$check" < "$session"

# the bench
while read -r counted words; do
    gives "calls: $words" 0 "$counted 1000\n" '' "$bench" $words 1000 < /dev/null
done <<'END'
gets solo 4 get
gets solo 1 try_get
updates solo 32 update
gets typed 1 get
gets typed 32 try_get
updates typed 4 update
trips event bits
trips event queue
END
for words in '' 'solo' 'solo 4 get' 'solo 2 get 1' 'solo 4 put 1' 'solo 4 get 01' 'solo 4 get 1 1' 'typed 2 get 1' 'event set 1' 'shared 1 4 1' 'shared 1 0 1' $'\xff'; do
    gives "the bench's usage: $words" 2 '' "$bench_usage" "$bench" $words
done
gives "the bench's usage: an empty word" 2 '' "$bench_usage" "$bench" ''
gives 'the bench on a full device' 1 '' 'Error: No space left on device (os error 28)\n' bash -c '"$0" solo 1 get 1000 > /dev/full' "$bench"
# What is counted was done: so many calls take more than a second on any processor, a thousandth of them far less.
while read -r words; do
    timeout 1 "$bench" $words > /dev/null 2>&1 < /dev/null
    [ $? = 124 ] && good=yes || good=no
    tells "not done in a second: $words" "$good"
done <<'END'
solo 1 try_get 10000000000
solo 32 get 10000000000
solo 32 update 10000000000
typed 1 get 10000000000
typed 1 try_get 10000000000
typed 32 update 10000000000
event bits 10000000
event queue 10000000
shared 1 1 1000000000
END
# Each trip is two waits, and who waits sleeps. Between two sleeps the threads work little, less than a hundredth of a tick
# of the system's clock; threads that look again and again instead of sleeping work ten times as long.
"$bench" event queue 10000000 > /dev/null 2>&1 < /dev/null &
process=$!
sleep 1
sleeps=0
while read -r what number; do
    [ "$what" = voluntary_ctxt_switches: ] && ((sleeps += number))
done < <(cat "/proc/$process/task/"*/status)
read -r -a numbers < "/proc/$process/stat"
kill "$process"
wait "$process" 2> /dev/null
[ "$sleeps" -ge 1000 ] && ((sleeps >= 100 * (numbers[13] + numbers[14]))) && good=yes || good=no
tells 'ids go between threads that sleep' "$good"
gets=$("$bench" shared 1 2 1000) && [[ $gets =~ ^gets\ [1-9][0-9]*$ ]] && good=yes || good=no
tells 'readers beside a writer' "$good"
# A reader that only began after the last of so many updates would make one get.
gets=$("$bench" shared 1 2 5000000) && [[ $gets =~ ^gets\ [1-9][0-9]*$ ]] && [ "${gets#gets }" -gt 2 ] && good=yes || good=no
tells 'readers that get while a writer updates' "$good"

# the first program of the library's use, whose run the gate compares, is the README's
sed -n '/^```rust$/,/^```$/p' README.md | sed '1d;$d' > "$folder/typed"
grep -v '^//!' crates/example_first/src/main.rt | cmp - "$folder/typed" && good=yes || good=no
tells "the README's program" "$good"

exit $bad
