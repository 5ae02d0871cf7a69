#!/bin/sh
# Counts the calls by which a run makes what it wrote durable, and shows that each command that is accepted has two of them,
# both before its reply, and that a query or a refused command has none.
#
#   data_sync.sh PROGRAM
#
# No proof speaks of what a call of the operating system does: a program that leaves one out answers alike, until the power
# fails. The first of the two makes the entry durable behind its closed gate, the second the gate that was opened. Needs leave
# to trace a process.
set -u

tools='awk strace'
. "$(dirname -- "$0")/common"
cd "$work" || exit 1
if ! strace -o probe true 2>/dev/null; then
    skip 'the syncs of a run' 'leave to trace a process'
    finish
fi

# A request without a body, or with one.
ask() {
    if [ $# -eq 1 ]; then
        printf '%s HTTP/1.1\r\nHost: office\r\n\r\n' "$1"
    else
        printf '%s HTTP/1.1\r\nHost: office\r\nContent-Length: %d\r\n\r\n%s' "$1" "${#2}" "$2"
    fi
}

# Traces a run over these requests: its syncs of the journal, its writes to it, and its replies, in the order of the calls.
trace() {
    strace -f -y -e trace=fdatasync,fsync,write,pwrite64 -o calls "$program" run <asks >said 2>notes
}

# How many calls of this kind succeeded on the journal.
calls_of() {
    awk -v kind="$1" '$0 ~ kind "\\([0-9]+<[^>]*/office-data/journal>" && $NF > 0 - 1 && !/= -1/ { n++ } END { print n + 0 }' calls
}

# For each reply with this status, how many syncs of the journal there were since the reply before, each behind a write to it;
# the first reply comes also behind those of the opening, which writes nothing.
syncs_before() {
    awk -v status="HTTP/1.1 $1 " '
        /pwrite64\([0-9]+<[^>]*\/office-data\/journal>/ { wrote = 1 }
        /fdatasync\([0-9]+<[^>]*\/office-data\/journal>/ && /= 0$/ { if (wrote) syncs++; wrote = 0 }
        /write\(1[<,]/ && /HTTP\/1\.1/ {
            if (index($0, status)) printf "%s%d", found++ ? " " : "", syncs
            syncs = 0
        }' calls
}

"$program" init >/dev/null || exit 1

# An opening alone.
: >asks
trace
check 'status of an opening' 0 "$?"
opening=$(calls_of fdatasync)
check 'writes to the journal by an opening' 0 "$(calls_of pwrite64)"

# Three commands that are accepted, with queries and refused commands between them.
{
    ask 'PUT /buckets/load'
    ask 'GET /buckets/load'
    ask 'PUT /buckets/load'
    ask 'PUT /buckets/load/objects/a' '{"size":1000}'
    ask 'GET /buckets/load'
    ask 'PUT /buckets/none/objects/a' '{"size":1000}'
    ask 'PUT /buckets/load/objects/b' '{"size":1000}'
    ask 'GET /buckets/load'
} >asks
trace
check 'status of a run' 0 "$?"
check 'syncs of three commands' 6 $(($(calls_of fdatasync) - opening))
check 'syncs before each reply to a command that is accepted' '2 2 2' "$(syncs_before 201)"
check 'syncs before each reply to a query' '0 0 0' "$(syncs_before 200)"
check 'syncs before the reply to a bucket that is there' 0 "$(syncs_before 409)"
check 'syncs before the reply to a bucket that is not' 0 "$(syncs_before 404)"

finish
