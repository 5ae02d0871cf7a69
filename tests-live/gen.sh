#!/bin/sh
# Shows that loads give the counts that two other programs gave of the same numbers, and touch no file.
#
#   gen.sh PROGRAM
set -u

tools='ls'
. "$(dirname -- "$0")/common"
cd "$work" || exit 1

check() {
    found=$("$program" gen "$1" "$2" 2>&1)
    if [ "$?" -eq "$3" ] && [ "$found" = "$4" ]; then
        passed=$((passed + 1))
        echo "ok: gen $1 $2"
    else
        failed=$((failed + 1))
        echo "FAILED: gen $1 $2: $found; wanted: $4"
    fi
}

check 1 0 0 'commands 0 accepted 0 refused 0 nothing 0 versions 0 uploads 0 journal 11'
check 1 4 0 'commands 4 accepted 4 refused 0 nothing 0 versions 0 uploads 0 journal 95'
check 1 8 0 'commands 8 accepted 8 refused 0 nothing 0 versions 0 uploads 0 journal 759'
check 7 20000 0 'commands 20000 accepted 13484 refused 3952 nothing 2564 versions 2905 uploads 1177 journal 438715'
check 7 100000 0 'commands 100000 accepted 67709 refused 19772 nothing 12519 versions 8749 uploads 6142 journal 2194737'
check 7 100000 0 'commands 100000 accepted 67709 refused 19772 nothing 12519 versions 8749 uploads 6142 journal 2194737'
usage=$("$program" nothing 2>&1)
check 1 1000001 1 "$usage"
check 18446744073709551616 0 1 "$usage"
check 01 4 1 "$usage"
if [ -z "$(ls)" ]; then
    passed=$((passed + 1))
else
    failed=$((failed + 1))
    echo "FAILED: files: $(ls)"
fi

finish
