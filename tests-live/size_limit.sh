#!/bin/sh
# Limits the size of files, and shows that the program, started by the script `office`, answers writes past the limit and is not
# ended by the signal that comes with them.
#
#   size_limit.sh PROGRAM
#
# Works on a copy of the script beside the program, so that nothing is built.
set -u

tools='awk cat cp grep sed touch'
root=$(CDPATH='' cd -- "$(dirname -- "$0")/.." && pwd) || exit 1
. "$(dirname -- "$0")/common"
cd "$work" || exit 1
if [ ! -x "$root/office" ]; then
    echo "FAILED: there is no script 'office' beside tests-live"
    exit 1
fi
mkdir -p copy/crates/office_cli/out
cp "$root/office" copy/office
touch copy/crates.txt
cp "$program" copy/crates/office_cli/out/office_cli
office=$work/copy/office

# Puts of 20 objects under keys of 1,000 bytes each, which fill a file of 16 KiB, with a query behind each.
requests() {
    awk 'BEGIN {
        for (n = 0; n < 20; n++) {
            key = sprintf("%04d", n)
            while (length(key) < 1000) key = key "k"
            printf "PUT /buckets/load/objects/%s HTTP/1.1\r\nHost: office\r\nContent-Length: 13\r\n\r\n{\"size\":1000}", key
            printf "GET /buckets/load HTTP/1.1\r\nHost: office\r\n\r\n"
        }
    }'
}

# How many replies with this status were said; a reply has no line end after it, so two are in one line.
replies() {
    grep -a -o "HTTP/1.1 $1 " said | grep -c .
}

# Runs the script under a limit, in blocks of 512 bytes.
limited() {
    (
        ulimit -f "$1"
        shift
        exec "$office" "$@" <asks >said 2>notes
    )
}

printf 'PUT /buckets/load HTTP/1.1\r\nHost: office\r\n\r\n' >asks
"$office" init >said 2>notes
check "init" 0 "$?"
"$office" run <asks >said 2>notes
check "the bucket" 0 "$?"

requests >asks
limited 32 run
check "a run whose last ask is answered, status" 0 "$?"
stored=$(replies 201)
check "each put is stored or refused" 20 $((stored + $(replies 503)))
check "some puts are refused" yes "$([ "$(replies 503)" -gt 0 ] && echo yes || echo no)"
check "each query is answered" 20 "$(replies 200)"
check "the last query counts the stored ones" "$stored" "$(grep -a -o '"versions":[0-9]*' said | sed -n 's/.*://; $p')"

# No byte can be written, so that no journal is made, and the note is lost with it.
rm -rf office-data
limited 0 init
check "init without room, status" 2 "$?"
check "init without room, text" '' "$(cat said)"

finish
