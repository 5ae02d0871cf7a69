#!/bin/sh
# Runs the first example of the README, and shows that the meters are those that it tells of.
#
#   first_bill.sh PROGRAM
set -u

tools='awk date grep sed sleep'
examples=$(CDPATH='' cd -- "$(dirname -- "$0")/../examples" && pwd) || exit 1
. "$(dirname -- "$0")/common"
cd "$work" || exit 1

check() {
    if [ "$2" -ge "$3" ] && [ "$2" -le "$4" ]; then
        passed=$((passed + 1))
        echo "ok: $1: $2"
    else
        failed=$((failed + 1))
        echo "FAILED: $1: $2; wanted: from $3 to $4"
    fi
}

# Runs an example of this month, and leaves its replies in the file said.
example() {
    sed "s/2026-11/$(date -u +%Y-%m)/" "$examples/$1" | "$program" run >said
    check "status of $1" "$?" 0 0
}

# A quantity of a class in the last reply, in milliseconds of so many bytes.
quantity() {
    grep -a -o "{[^{]*\"class\":\"$2\"[^}]*}" said | sed "s/.*\"$1\":\"\([0-9]*\)\".*/\1/" | awk -v bytes="$3" '{ printf "%.0f", int($1 / bytes) }'
}

"$program" init >/dev/null || exit 1
example first-bill.http
check 'replies 201' "$(grep -a -o 'HTTP/1.1 201 ' said | grep -c .)" 3 3
check 'replies 200' "$(grep -a -o 'HTTP/1.1 200 ' said | grep -c .)" 1 1
check 'milliseconds that 1 GiB in STANDARD_IA owes' "$(quantity early_byte_ms STANDARD_IA 1073741824)" 2591940000 2592000000
check 'milliseconds that it stayed' "$(quantity byte_ms STANDARD_IA 1073741824)" 0 60000
check 'milliseconds of 2 GiB in STANDARD' "$(quantity byte_ms STANDARD 2147483648)" 0 60000
sleep 2
example meters.http
check 'two seconds later' "$(quantity byte_ms STANDARD 2147483648)" 2000 120000
check 'what is owed stays' "$(quantity early_byte_ms STANDARD_IA 1073741824)" 2591940000 2592000000
example bill.http
check 'prices are set' "$(grep -a -c '{"tariff":"set"}' said)" 1 1
"$program" report "$(date -u +%Y-%m)" >said
check 'status of report' "$?" 0 0
check 'charge of what 1 GiB in STANDARD_IA owes' "$(sed -n 's/^backups,early,STANDARD_IA,.*,12500,//p' said)" 12000 13500
"$program" explain >said
check 'stays' "$(grep -a -c '^backups,monday.tar,v:null,' said)" 2 2
check 'files' "$(cd office-data && echo journal check.0 check.1 | xargs ls | grep -c .)" 3 3

finish
