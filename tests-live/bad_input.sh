#!/bin/sh
# Sends what is no request, or none that the program serves, and shows its answer, its status, and that the journal is
# unchanged.
#
#   bad_input.sh PROGRAM
set -u

tools='cmp head tr sed awk'
. "$(dirname -- "$0")/common"
cd "$work" || exit 1

# The reply to a refusal: the status with its phrase, the name and the number.
refusal() {
    body="{\"error\":\"$2\",\"number\":$3}"
    printf 'HTTP/1.1 %s\r\ncontent-type: application/json\r\ncontent-length: %d\r\n\r\n%s' "$1" "${#body}" "$body"
}

refusal '400 Bad Request' BadHead 120 >bad_head
refusal '404 Not Found' NoRoute 121 >no_route
refusal '405 Method Not Allowed' BadMethod 122 >bad_method
refusal '413 Payload Too Large' BodyTooLarge 124 >body_too_large
refusal '501 Not Implemented' ChunkedBody 125 >chunked_body
refusal '431 Request Header Fields Too Large' HeadTooLarge 126 >head_too_large
refusal '400 Bad Request' CutShort 127 >cut_short
printf 'HTTP/1.1 201 Created\r\ncontent-type: application/json\r\ncontent-length: 17\r\n\r\n{"bucket":"logs"}' >made
: >nothing

# A request for a bucket of this name, whose head has this many bytes: one field is as long as is needed.
head_of() {
    awk -v name="$1" -v bytes="$2" 'BEGIN {
        front = "PUT /buckets/" name " HTTP/1.1\r\nx: "
        printf "%s", front
        for (i = length(front) + 4; i < bytes; i++) printf "a"
        printf "\r\n\r\n"
    }'
}

# Says how the journal of now differs from the one before: same; longer, where only its last gate was opened; changed.
journal_change() {
    size=$(wc -c <before)
    head -c $((size - 1)) before >front
    if cmp -s before office-data/journal; then
        echo same
    elif [ "$(wc -c <office-data/journal)" -gt "$size" ] && head -c $((size - 1)) office-data/journal | cmp -s - front; then
        echo longer
    else
        echo changed
    fi
}

# Runs the program on the file in. Wanted: the reply that stands in a file, status 0, and the change of the journal.
check() {
    name=$1
    reply=$2
    change=$3
    cp office-data/journal before
    "$program" run <in >out 2>notes
    status=$?
    found="status $status, journal $(journal_change), reply '$(head -n 1 out | tr -d '\r\000')'"
    if cmp -s out "$reply" && [ "$found" = "status 0, journal $change, reply '$(head -n 1 "$reply" | tr -d '\r')'" ]; then
        passed=$((passed + 1))
        echo "ok: $name: $found"
    else
        failed=$((failed + 1))
        echo "FAILED: $name: $found; wanted: status 0, journal $change, and the reply"
        cat "$reply"
        echo
    fi
}

# The same for a message of which the journal keeps nothing: the texts of its lines, with a line end behind each.
check_refused() {
    name=$1
    wanted=$2
    shift 2
    : >in
    for line; do
        printf '%s\r\n' "$line" >>in
    done
    check "$name" "$wanted" same
}

"$program" init </dev/null >out 2>notes || exit 1

: >in
check 'nothing' nothing same

check_refused 'a word' bad_head 'hello'
check_refused 'a head of one word' bad_head 'hello' ''
check_refused 'a target that leads nowhere' no_route 'GET / HTTP/1.1' 'Host: x' ''
check_refused 'another method' bad_method 'POST /buckets/logs HTTP/1.1' 'Host: x' ''
check_refused 'a method in small letters' bad_method 'put /buckets/logs HTTP/1.1' 'Host: x' ''
check_refused 'another method, before a bad name' bad_method 'POST /buckets/lo HTTP/1.1' 'Host: x' ''
check_refused 'another target' no_route 'PUT /bucket/logs HTTP/1.1' 'Host: x' ''
check_refused 'a longer target' no_route 'PUT /buckets/logs/ HTTP/1.1' 'Host: x' ''
check_refused 'a query' no_route 'PUT /buckets/logs?versions HTTP/1.1' 'Host: x' ''
check_refused 'two lengths' bad_head 'PUT /buckets/logs HTTP/1.1' 'Host: x' 'Content-Length: 0' 'Content-Length: 0' ''
check_refused 'two lengths of a body above the limit' bad_head 'PUT / HTTP/1.1' 'Content-Length: 1048577' 'Content-Length: 1048577' ''
check_refused 'a length with a sign' bad_head 'PUT /buckets/logs HTTP/1.1' 'Host: x' 'Content-Length: +0' ''
check_refused 'a body above the limit' body_too_large 'PUT /buckets/logs HTTP/1.1' 'Host: x' 'Content-Length: 1048577' ''
check_refused 'a body cut short' cut_short 'PUT /buckets/logs HTTP/1.1' 'Host: x' 'Content-Length: 10' '' 'hello'
check_refused 'a body in chunks' chunked_body 'PUT /buckets/logs HTTP/1.1' 'Host: x' 'transfer-encoding: chunked' '' '0' ''
check_refused 'a body in chunks, with two lengths' chunked_body 'PUT / HTTP/1.1' 'Content-Length: 0' 'Content-Length: 0' 'Transfer-Encoding: x' ''
check_refused 'a field without a colon' bad_head 'PUT /buckets/logs HTTP/1.1' 'Host x' ''
check_refused 'a head without its end' cut_short 'PUT /buckets/logs HTTP/1.1' 'Host: x'

printf 'GET / HTTP/1.1\r\nHost: x\r\n\r\nDELETE /tariff HTTP/1.1\r\nHost: x\r\n\r\nPUT /buckets/axe HTTP/1.1\r\nHost: x\r\n\r\n' >in
{ cat no_route bad_method; sed 's/logs/axe/; s/length: 17/length: 16/' made; } >replies
check 'a request behind what is not served' replies longer

printf 'PUT /buckets\001' >in
check 'a control byte in a target' bad_head same

printf 'PUT /buckets/lo' >in
check 'a line without its end' cut_short same

: >in
for high in 0 1 2 3; do
    for middle in 0 1 2 3 4 5 6 7; do
        for low in 0 1 2 3 4 5 6 7; do
            # shellcheck disable=SC2059
            printf "\\$high$middle$low" >>in
        done
    done
done
check 'every byte' bad_head same

printf '\026\003\001\002\000\001\000\001\374\003\003' >in
check 'the beginning of a TLS handshake' bad_head same

head -c 1048576 /dev/zero >in
check 'a mebibyte of zeros' bad_head same

head -c 1048576 /dev/zero | tr '\000' 'a' >in
check 'a mebibyte of letters' head_too_large same

head_of logs 8193 >in
check 'a head of 8,193 bytes' head_too_large same

head_of logs 8192 >in
check 'a head of 8,192 bytes' made longer

# A refusal of the message's own text, behind which the session goes on.
bad() {
    body="{\"error\":\"$1\",$2\"number\":$3}"
    printf 'HTTP/1.1 400 Bad Request\r\ncontent-type: application/json\r\ncontent-length: %d\r\n\r\n%s' "${#body}" "$body"
}

printf 'PUT /buckets/lo HTTP/1.1\r\nHost: x\r\n\r\nPUT /buckets/Logs HTTP/1.1\r\nHost: x\r\n\r\n' >in
{ bad BadBucketName '' 10; bad BadBucketName '' 10; } >replies
check 'names that are none' replies same

printf 'PUT /buckets/logs/objects/%%ff HTTP/1.1\r\nHost: x\r\nContent-Length: 13\r\n\r\n{"size":1000}PUT /buckets/logs/objects/a HTTP/1.1\r\nHost: x\r\n\r\n' >in
{ bad BadKey '' 11; bad BadBody '"field":"size",' 123; } >replies
check 'a key that is none, and a put without a size' replies same

printf 'PUT /buckets/zoo HTTP/1.0\r\nHost: x\r\n\r\nPUT /buckets/data HTTP/1.1\r\nHost: x\r\n\r\n' >in
sed 's/logs/zoo/; s/length: 17/length: 16/' made >replies
check 'nothing behind a message of version 1.0' replies longer

printf 'PUT /buckets/yak HTTP/1.1\r\nHost: x\r\nCONNECTION: Close\r\n\r\nPUT /buckets/data HTTP/1.1\r\nHost: x\r\n\r\n' >in
sed 's/logs/yak/; s/length: 17/length: 16/' made >replies
check 'nothing behind a message that closes its session' replies longer

printf 'PUT /buckets/data HTTP/1.1\r\nHost: x\r\n\r\nPUT\r\n\r\n' >in
sed 's/logs/data/' made >replies
cat bad_head >>replies
check 'garbage behind a request' replies longer

# A word that is not UTF-8: exit code 1 and the usage.
cp office-data/journal before
"$program" "$(printf '\377')" </dev/null >out 2>notes
found="status $?, journal $(journal_change), output '$(cat out)', notes '$(head -c 7 notes)'"
if [ "$found" = "status 1, journal same, output '', notes 'usage: '" ]; then
    passed=$((passed + 1))
    echo "ok: a word that is not UTF-8: $found"
else
    failed=$((failed + 1))
    echo "FAILED: a word that is not UTF-8: $found; wanted: status 1, journal same, and the usage"
fi

finish
