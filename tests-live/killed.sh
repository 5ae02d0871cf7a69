#!/bin/sh
# Kills a run by signal 9 while it puts objects, and shows that each object that was acknowledged is there afterwards.
#
#   killed.sh PROGRAM [TIMES]
#
# Each time another run gets the same requests from a folder of its own, each for a key of its own, and is killed a little
# later than the one before. Then a run over the same journal is asked how many versions the bucket has: as many as were
# acknowledged, or one more, since the command behind them may be in the journal or not.
set -u

tools='grep sed sleep awk'
. "$(dirname -- "$0")/common"
times=${2:-20}
acked_in_all=0

cd "$work" || exit 1
printf 'PUT /buckets/load HTTP/1.1\r\nHost: office\r\n\r\n' >bucket
printf 'GET /buckets/load HTTP/1.1\r\nHost: office\r\n\r\n' >show
awk 'BEGIN {
    for (n = 100000; n < 120000; n++)
        printf "PUT /buckets/load/objects/key-%d HTTP/1.1\r\nHost: office\r\nContent-Length: 13\r\n\r\n{\"size\":1000}", n
}' >requests

# How many replies with this status a file holds.
replies() {
    # A reply has no line end after it, so two are in one line.
    grep -a -o "HTTP/1.1 $1 " "$2" | grep -c .
}

# One kill, this many milliseconds after the start.
case_of() {
    rm -rf office-data
    "$program" init >/dev/null || return 1
    "$program" run <bucket >/dev/null || return 1
    "$program" run <requests >said 2>notes &
    run=$!
    sleep "$(awk -v ms="$1" 'BEGIN { printf "%.3f", ms / 1000 }')"
    kill -9 "$run" 2>/dev/null
    wait "$run" 2>/dev/null
    acked=$(replies 201 said)
    acked_in_all=$((acked_in_all + acked))
    "$program" run <show >shown 2>notes_again || return 1
    versions=$(sed -n 's/.*"versions":\([0-9]*\)}.*/\1/p' shown)
    [ "$versions" = "$acked" ] || [ "$versions" = $((acked + 1)) ]
}

n=0
while [ "$n" -lt "$times" ]; do
    after=$((5 + 17 * n % 300))
    if case_of "$after"; then
        passed=$((passed + 1))
    else
        failed=$((failed + 1))
        echo "failed: killed after $after ms"
    fi
    n=$((n + 1))
done
# Kills that come before any reply would show nothing.
if [ "$acked_in_all" = 0 ]; then
    failed=$((failed + 1))
    echo "failed: no object was acknowledged before a kill"
fi
echo "acknowledged: $acked_in_all"
finish
