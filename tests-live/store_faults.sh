#!/bin/sh
# Lets the disk refuse writes while a run works, and shows that each fault is answered 503 and that the run goes on from what
# the journal then holds.
#
#   store_faults.sh PROGRAM
#
# A limit on the size of files makes the writes of puts fail; queries between them are answered. Another writer that breaks the
# journal's head is told after the next fault, and once the head is mended the run goes on.
set -u

tools='dd grep mkfifo sed sleep tail awk'
. "$(dirname -- "$0")/common"
cd "$work" || exit 1

# A put of an object under a key of 1,000 bytes, so that few of them fill a file; the number makes the key another one.
put() {
    awk -v n="$1" 'BEGIN {
        key = sprintf("%04d", n)
        while (length(key) < 1000) key = key "k"
        printf "PUT /buckets/load/objects/%s HTTP/1.1\r\nHost: office\r\nContent-Length: 13\r\n\r\n{\"size\":1000}", key
    }'
}

show() {
    printf 'GET /buckets/load HTTP/1.1\r\nHost: office\r\n\r\n'
}

# How many replies with this status a file holds; a reply has no line end after it, so two are in one line.
replies() {
    grep -a -o "HTTP/1.1 $1 " "$2" | grep -c .
}

# Whether this many replies were said.
said_at_least() {
    [ "$(grep -a -o 'HTTP/1.1 ' said 2>/dev/null | grep -c .)" -ge "$1" ]
}

"$program" init >/dev/null
printf 'PUT /buckets/load HTTP/1.1\r\nHost: office\r\n\r\n' | "$program" run >/dev/null

# No file may pass 16 KiB, which some fifteen entries fill; the signal that comes with it is ignored.
mkfifo asks
(
    trap '' XFSZ
    ulimit -f 32
    exec "$program" run <asks >said 2>notes
) &
run=$!
exec 3>asks
n=0
while [ "$n" -lt 20 ]; do
    put "$n" >&3
    show >&3
    n=$((n + 1))
done
within 60 said_at_least 40
stored=$(replies 201 said)
check "each put is stored or refused" 20 $((stored + $(replies 503 said)))
check "some are refused" yes "$([ "$(replies 503 said)" -gt 0 ] && echo yes || echo no)"
check "each query is answered" 20 "$(replies 200 said)"
check "the last query counts the stored ones" "$stored" "$(grep -a -o '"versions":[0-9]*' said | sed -n 's/.*://p;' | tail -n 1)"

# Another writer breaks the head: the next put fails, and after it the journal is not a journal.
printf 'X' | dd of=office-data/journal bs=1 seek=1 conv=notrunc 2>/dev/null
put 100 >&3
show >&3
within 60 said_at_least 42
check "a broken head is told" 1 "$(grep -a -o '"error":"Foreign","number":111' said | grep -c .)"
printf 'M' | dd of=office-data/journal bs=1 seek=1 conv=notrunc 2>/dev/null
show >&3
within 60 said_at_least 43
check "a mended head is opened" 21 "$(replies 200 said)"
exec 3>&-
wait "$run"
check "the status of a run that went on" 0 "$?"
check "the entries that are left" "$stored" "$(show | "$program" run 2>/dev/null | grep -a -o '"versions":[0-9]*' | sed 's/.*://')"

# A put with a token that the disk refuses is done once the disk takes it, and once alone, however often it is sent again.
once() {
    put 200 | sed 's/^Host: office/Office-Token: once\r\nHost: office/'
}
(
    trap '' XFSZ
    ulimit -f 32
    once | "$program" run >refused 2>notes
)
check "a put with a token that is refused" '1 0' "$(replies 503 refused) $(replies 201 refused)"
once | "$program" run >first
check "the same again, when the disk takes it" 1 "$(replies 201 first)"
{ once; once; } | "$program" run >twice
check "and again: the first reply" "$(cat first first)" "$(cat twice)"
check "one version more" $((stored + 1)) "$(show | "$program" run 2>/dev/null | grep -a -o '"versions":[0-9]*' | sed 's/.*://')"

finish
