#!/bin/sh
# Interrupts each call that a run makes on the journal, the input and the output, and the accept, the reads and the writes of a
# server, one at a time, and shows that this is no fault: the call is made again, and the replies are those of an undisturbed run.
#
#   interrupted.sh PROGRAM
#
# A signal that is handled, a debugger, or a process that is stopped and goes on makes a call return EINTR. strace injects that
# error here. Needs leave to trace a process.
set -u

root=$(CDPATH='' cd -- "$(dirname -- "$0")/.." && pwd) || exit 1
tools='awk curl grep python3 strace'
. "$(dirname -- "$0")/common"
cd "$work" || exit 1
if ! strace -o probe true 2>/dev/null; then
    skip 'interrupted calls' 'leave to trace a process'
    finish
fi

printf 'PUT /buckets/load HTTP/1.1\r\nHost: office\r\n\r\n' >asks
printf 'GET /buckets/load HTTP/1.1\r\nHost: office\r\n\r\n' >>asks
printf 'PUT /buckets/more HTTP/1.1\r\nHost: office\r\n\r\n' >>asks

# The statuses of a run over these requests from a new journal, and its exit code. The call with this name and number on this file
# is interrupted, if there is one.
run_interrupted() {
    rm -rf office-data
    "$program" init >/dev/null || return 1
    strace -f -o calls -P "$3" -e trace="$1" -e inject="$1:error=EINTR:when=$2" "$program" run <asks >said 2>notes
    code=$?
    echo "$(grep -a -o 'HTTP/1.1 [0-9]*' said | awk '{ print $2 }' | tr '\n' ' ')$code"
}

# Interrupts each call with this name on this file.
interrupt_each() {
    number=1
    wrong=
    while [ "$number" -le 40 ]; do
        found=$(run_interrupted "$1" "$number" "$2")
        grep -q INJECTED calls || break
        [ "$found" = '201 200 201 0' ] || wrong="$wrong $number:($found)"
        number=$((number + 1))
    done
    check "each $1 of a run on $(basename "$2") is made again, of $((number - 1))" '' "$wrong"
    check "a $1 on $(basename "$2") was interrupted" yes "$([ "$number" -gt 1 ] && echo yes)"
}

for call in pread64 pwrite64 fdatasync; do
    interrupt_each "$call" "$work/office-data/journal"
done
interrupt_each read "$work/asks"
interrupt_each write "$work/said"

# The first of these calls of a server is interrupted; the connection is served.
serve_interrupted() {
    rm -rf office-data
    "$program" init >/dev/null || exit 1
    port=$(python3 -B "$root/tests-live/free_port.py")
    strace -f -o calls -e trace="$2" -e inject="$2:error=EINTR:when=1" \
        "$program" serve --listen "127.0.0.1:$port" --workers 1 --connections 1 2>notes &
    server=$!
    status=$(curl -s -o /dev/null -w '%{http_code}' --retry 20 --retry-connrefused --retry-delay 1 -X PUT "http://127.0.0.1:$port/buckets/load")
    wait "$server"
    check "exit code of a server whose $1 was interrupted" 0 "$?"
    check "its reply, after an interrupted $1" 201 "$status"
    check "its $1 was interrupted" yes "$(grep -q INJECTED calls && echo yes)"
}

serve_interrupted accept accept,accept4
serve_interrupted read recvfrom
serve_interrupted write sendto

finish
