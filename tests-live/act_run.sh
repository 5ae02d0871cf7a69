#!/bin/sh
# Does what is due by tools/act-all over the program itself, in a folder where no server runs.
#
#   act_run.sh PROGRAM
set -u

tools='python3'
root=$(CDPATH='' cd -- "$(dirname -- "$0")/.." && pwd) || exit 1
. "$root/tests-live/common"
cd "$work" || exit 1

act_all() {
    python3 -B "$root/tools/act-all" "$@" >said 2>noted
    status=$?
}

act_all --run "$program" --bucket logs
check 'no journal: status' 2 "$status"
check 'no journal: the note of the program' 1 "$(grep -c 'journal: not made' noted)"
"$program" init >made
rules='{"Rules":[{"ID":"past","Status":"Enabled","Filter":{"Prefix":""},"Expiration":{"Date":"2020-01-01"}}]}'
{
    printf 'PUT /buckets/logs HTTP/1.1\r\n\r\n'
    printf 'PUT /buckets/logs/lifecycle HTTP/1.1\r\nContent-Length: %s\r\n\r\n%s' "${#rules}" "$rules"
    for key in a b c; do
        printf 'PUT /buckets/logs/objects/%s HTTP/1.1\r\nContent-Length: 10\r\n\r\n{"size":5}' "$key"
    done
} | "$program" run >replies
act_all --run "$program" --bucket logs --dry-run
check 'dry run: status' 0 "$status"
check 'dry run: the next action' 1 "$(grep -c '"action": "remove", "key": "a"' said)"
act_all --run "$program" --bucket logs --most 2
check 'more is due than --most' 6 "$status"
act_all --run "$program" --bucket logs
check 'all is done' 0 "$status"
act_all --run "$program" --bucket logs --bucket none
check 'a bucket that is refused' 5 "$status"
printf 'GET /buckets/logs HTTP/1.1\r\n\r\n' | "$program" run >replies
check 'no version is left' 1 "$(grep -c '"versions":0' replies)"
act_all --run ./none --bucket logs
check 'no program' 2 "$status"
act_all --run "$program" --to http://127.0.0.1:1 --bucket logs
check 'a server and the program' 1 "$status"

finish
