#!/bin/sh
# Starts several processes on one folder, and shows that one at a time works on the journal: each other one ends with status 2
# before it has answered anything, and each object that was acknowledged is there afterwards.
#
#   two_writers.sh PROGRAM [ROUNDS]
#
# First beside a run that works: other runs and 'init' are refused, copies of the folder can be taken and opened, and once the
# run has ended, or was killed by signal 9, the next one works at once. Then ROUNDS times six runs that start together.
set -u

tools='awk cat cp grep kill mkfifo sed sleep'
. "$(dirname -- "$0")/common"
rounds=${2:-5}
cd "$work" || exit 1

# Puts of objects under keys of their own: whose, the first number, and how many.
puts() {
    awk -v who="$1" -v first="$2" -v count="$3" 'BEGIN {
        for (n = first; n < first + count; n++)
            printf "PUT /buckets/load/objects/key-%s-%d HTTP/1.1\r\nHost: office\r\nContent-Length: 13\r\n\r\n{\"size\":1000}", who, n
    }'
}

# How many objects the journal of a folder has.
objects() {
    (cd "$1" && printf 'GET /buckets/load HTTP/1.1\r\nHost: office\r\n\r\n' | "$program" run 2>/dev/null) |
        sed -n 's/.*"versions":\([0-9]*\)}.*/\1/p'
}

# How many puts are acknowledged in a file; a reply has no line end after it, so two are in one line.
acked() {
    grep -a -o 'HTTP/1.1 201 ' "$1" | grep -c .
}

# Whether this many puts of the run are acknowledged.
acked_at_least() {
    [ "$(acked said)" -ge "$1" ]
}

is_between() {
    if [ "$1" -le "$2" ] && [ "$2" -le "$3" ]; then echo yes; else echo "no, $2"; fi
}

# Makes the bucket in a new folder.
begin() {
    rm -rf office-data
    "$program" init >/dev/null
    printf 'PUT /buckets/load HTTP/1.1\r\nHost: office\r\n\r\n' | "$program" run >/dev/null
}

# Starts a run that works until its input, number 3, is closed.
start() {
    rm -f asks
    mkfifo asks
    : >said
    "$program" run <asks >said 2>notes &
    run=$!
    exec 3>asks
}

# Ends that run, and sets `status`.
finish_run() {
    exec 3>&-
    wait "$run" 2>/dev/null
    status=$?
}

# Another process is refused while the run works.
begin
start
puts first 0 5 >&3
within 60 acked_at_least 5
for word in run init; do
    puts other 0 5 | "$program" "$word" >said_other 2>notes_other
    check "$word beside a run, status" 2 "$?"
    check "$word beside a run, note" 'store: failed' "$(cat notes_other)"
    check "$word beside a run, replies" '' "$(cat said_other)"
done

# Each copy that is taken meanwhile opens, with what was acknowledged before it was begun.
n=1
while [ "$n" -le 10 ]; do
    before=$(acked said)
    puts copied "$((n * 50))" 50 >&3 &
    feeder=$!
    rm -rf copy
    mkdir copy
    cp -R office-data copy/
    copied=$(objects copy)
    wait "$feeder"
    within 60 acked_at_least $((5 + n * 50))
    check "copy $n has what was acknowledged" yes "$(is_between "$before" "${copied:--1}" $((5 + n * 50)))"
    n=$((n + 1))
done
finish_run
check "the status of the run" 0 "$status"
check "the acknowledged puts of the run" 505 "$(acked said)"
check "the objects after it" 505 "$(objects .)"

# A run that is killed leaves no lock.
start
puts killed 0 5 >&3
within 60 acked_at_least 5
kill -9 "$run"
finish_run
puts next 0 5 | "$program" run >said_next 2>notes_next
check "a run after a kill, status" 0 "$?"
check "a run after a kill, puts" 5 "$(acked said_next)"
check "the objects after a kill" 515 "$(objects .)"

# Runs that start together: one at least works, and each works wholly or not at all.
n=0
worked=0
refused=0
while [ "$n" -lt "$rounds" ]; do
    begin
    for who in 1 2 3 4 5 6; do
        puts "$who" 0 100 >"asks_$who"
    done
    for who in 1 2 3 4 5 6; do
        (
            "$program" run <"asks_$who" >"said_$who" 2>"notes_$who"
            echo "$?" >"status_$who"
        ) &
    done
    wait
    ended=0
    for who in 1 2 3 4 5 6; do
        how="status $(cat "status_$who"), puts $(acked "said_$who"), $(cat "notes_$who")"
        case $how in
        'status 0, puts 100, ') ended=$((ended + 1)) ;;
        'status 2, puts 0, store: failed') refused=$((refused + 1)) ;;
        *) check "a run of round $n" 'all or nothing' "$how" ;;
        esac
    done
    check "a run of round $n works" yes "$(is_between 1 "$ended" 6)"
    check "the objects after round $n" $((ended * 100)) "$(objects .)"
    worked=$((worked + ended))
    n=$((n + 1))
done
check "some were refused" yes "$(is_between 1 "$refused" $((rounds * 5)))"

echo "of $((rounds * 6)) runs side by side $worked worked and $refused were refused"
finish
