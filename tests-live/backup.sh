#!/bin/sh
# Takes copies of a journal with tools/backup while a server puts objects, restores one of them, and shows what is said of a journal
# that is damaged or was replaced, and of a folder that is full.
#
#   backup.sh PROGRAM
set -u

tools='awk cat cmp cp dd find grep head ls python3 rm sed sleep sync'
root=$(CDPATH='' cd -- "$(dirname -- "$0")/.." && pwd) || exit 1
# In memory where there is such a folder, since nothing here is about what a disk keeps.
if [ -d /dev/shm ] && [ -w /dev/shm ]; then
    export TMPDIR=/dev/shm
fi
. "$root/tests-live/common"
cd "$work" || exit 1
backup=$root/tools/backup

# How many copies there are, and how many objects the program finds with a copy in the journal's place.
copies() {
    find copies -name 'journal-*Z' | grep -c .
}

objects() {
    rm -rf restored
    mkdir -p restored/office-data
    cp "$1" restored/office-data/journal
    (cd restored && printf 'GET /buckets/load HTTP/1.1\r\n\r\n' | "$program" run 2>&1) | sed -n 's/.*"versions":\([0-9]*\)}.*/\1/p'
}

puts() {
    awk -v first="$1" -v count="$2" 'BEGIN {
        printf "PUT /buckets/load HTTP/1.1\r\n\r\n"
        for (n = first; n < first + count; n++)
            printf "PUT /buckets/load/objects/key-%d HTTP/1.1\r\nContent-Length: 13\r\n\r\n{\"size\":1000}", n
    }'
}

"$program" init >said
puts 0 100 >asks
"$program" run <asks >said
check 'a copy, status' 0 "$("$backup" office-data/journal copies >name 2>notes; echo $?)"
check 'its name is said' "$(ls copies | grep '^journal.*Z')" "$(sed 's|copies/||' name)"
first=$(cat name)
check 'the program reads the copy' 100 "$(objects "$first")"

sleep 1

# Five copies beside a run that works; those of one second have one name.
(
    for batch in 1 2 3 4 5 6 7 8 9 10 11 12 13 14 15 16 17 18 19 20; do
        puts $((batch * 1000)) 100
        sleep 0.1
    done
) | "$program" run >said &
run=$!
n=0
while [ "$n" -lt 5 ]; do
    status=$("$backup" office-data/journal copies >name 2>notes; echo $?)
    check "copy $n beside a run has what was there before" '0 yes' \
        "$status $([ "$(objects "$(cat name)")" -ge 100 ] && echo yes || echo no)"
    n=$((n + 1))
done
wait "$run"
check 'all copies are kept' yes "$([ "$(copies)" -ge 2 ] && echo yes || echo no)"
check '--keep 1, status' 0 "$("$backup" --keep 1 office-data/journal copies >name 2>notes; echo $?)"
check '--keep 1 leaves one copy' "1 $(sed 's|copies/||' name)" "$(copies) $(ls copies | grep '^journal.*Z')"

# A journal whose front changed is not kept, and costs no copy. Nor is one that is damaged behind what was copied before.
cp office-data/journal whole
printf '\001' | dd of=office-data/journal bs=1 seek=15 conv=notrunc 2>/dev/null
check 'a changed front, status' 6 "$("$backup" --keep 1 office-data/journal copies >said 2>notes; echo $?)"
check 'a changed front, the block is named' 1 "$(grep -c 'block 1 of .* is not what it was; copies/journal-.*Z has it whole' notes)"
check 'a changed front, the copies' 1 "$(copies)"
check 'a damaged journal, status' 5 "$("$backup" office-data/journal others >said 2>notes; echo $?)"
check 'a damaged journal, the copies' 0 "$(find others -name 'journal-*Z' | grep -c .)"

# What docs/OPERATIONS.md does where no copy has as many entries: it closes the gate at which the damage is, and removes the checkpoints.
rm -f office-data/check.0 office-data/check.1
count=$("$root/tools/journal-dump" whole | grep -c .)
gate=$("$root/tools/journal-dump" whole | sed -n 's/^{"offset":\([0-9]*\).*/\1/p' | sed -n "$((count - 4))p")
cp whole office-data/journal
printf '\001' | dd of=office-data/journal bs=1 seek=$((gate + 5)) conv=notrunc 2>/dev/null
"$program" run </dev/null >said 2>notes
check 'damage at the fifth entry from the end' "5 journal: damaged at $gate" "$? $(cat notes)"
printf '\000' | dd of=office-data/journal bs=1 seek="$gate" conv=notrunc 2>/dev/null
check 'behind a closed gate the entries before it are there' $((count - 6)) "$(objects office-data/journal)"

rm -rf office-data
"$program" init >said
sleep 1
check 'a journal that was replaced, status' 6 "$("$backup" --keep 1 office-data/journal copies >said 2>notes; echo $?)"
check 'a journal that was replaced, the copies' 1 "$(copies)"
check '--replaced, status' 0 "$("$backup" --replaced office-data/journal copies >said 2>notes; echo $?)"
check '--replaced, the copies' 2 "$(copies)"
check '--replaced, the sums of before are kept' 1 "$(find copies -name 'journal.digest-until-*' | grep -c .)"
check 'once more, status' 0 "$("$backup" office-data/journal copies/a/b >said 2>notes; echo $?)"
check 'a disk that is not mounted, status' 4 "$("$backup" --other-disk office-data/journal none/there >said 2>notes; echo $?)"
check 'a disk that is not mounted, nothing is made' no "$([ -e none ] && echo yes || echo no)"
rm -rf copies/a

# Bad words, no journal, no folder, and a disk that is full.
for words in '' 'one' '--keep 0 a b' '--keep x a b' '--none a b' 'a b c'; do
    # shellcheck disable=SC2086
    check "words that are none, status: $words" 1 "$("$backup" $words >said 2>notes; echo $?)"
done
check 'no journal, status' 3 "$("$backup" none copies >said 2>notes; echo $?)"
: >file
check 'no folder, status' 4 "$("$backup" whole file >said 2>notes; echo $?)"
check 'a full disk, status' 4 "$( (trap '' XFSZ; ulimit -f 1; "$backup" whole copies 2>&1) >/dev/null; echo $?)"
check 'nothing is left of it' '0 2' "$(find copies -name '*part*' | grep -c .) $(copies)"

finish
