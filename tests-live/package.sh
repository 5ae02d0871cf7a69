#!/bin/sh
# Makes a Debian package of the program with tools/package, unpacks it into a folder of its own, and works from there.
#
#   package.sh PROGRAM
set -u

tools='cat cmp cp date dpkg-deb find grep md5sum mkdir python3 sed'
root=$(CDPATH='' cd -- "$(dirname -- "$0")/.." && pwd) || exit 1
. "$root/tests-live/common"
cd "$work" || exit 1
package=$root/tools/package

mkdir one two
check 'a package, status' 0 "$("$package" --version 1.2 "$program" one >name 2>notes; echo $?)"
deb=one/$(cat name)
check 'its version' 1.2 "$(dpkg-deb -f "$deb" Version)"
"$package" --version 1.2 "$program" two >again
check 'made again it has the same bytes' 0 "$(cmp "$deb" "two/$(cat again)" >&2; echo $?)"
check 'without a version, status' 0 "$("$package" "$program" two >again 2>notes; echo $?)"
check 'a new file in its place, and no other' 2 "$(find two -type f | grep -c .)"

mkdir there
dpkg-deb -x "$deb" there
dpkg-deb -e "$deb" control
check 'its sums' '' "$(cd there && md5sum --quiet -c ../control/md5sums 2>&1)"
check 'what belongs to root alone can be written' '' "$(find there -type f -perm /022)"
bin=$work/there/usr/bin
mkdir office && cd office || exit 1
check 'office init' 'made 0' "$("$bin/office" init) $?"
sed "s/2026-11/$(date -u +%Y-%m)/" "$work/there/usr/share/doc/nogawhin/examples/first-bill.http" >asks
check 'office run, status' 0 "$("$bin/office" run <asks >said; echo $?)"
check 'office run, replies' '3 1' "$(grep -a -o 'HTTP/1.1 201 ' said | grep -c .) $(grep -a -o 'HTTP/1.1 200 ' said | grep -c .)"
check 'office, by a link elsewhere' 'already made' "$(ln -s "$bin/office" link && ./link init)"
check 'office-journal-dump' 3 "$("$bin/office-journal-dump" office-data/journal | grep -c '"kind"')"
check 'office-backup, status' 0 "$("$bin/office-backup" office-data/journal copies >said; echo $?)"
printf 'Bucket,Key,Size\nlogs,a%%2Bb,5\n' >listing.csv
check 'office-import-inventory, status' 0 "$("$bin/office-import-inventory" --out asks listing.csv 2>notes; echo $?)"
check 'what it made is read' 2 "$("$bin/office" run <asks | grep -a -o 'HTTP/1.1 201 ' | grep -c .)"
check 'office-usage without a server, status' 2 "$("$bin/office-usage" --from http://127.0.0.1:1 --bucket logs 2026-11 2>notes; echo $?)"
check 'office-metrics without a server, status' 2 "$("$bin/office-metrics" --from http://127.0.0.1:1 --bucket logs --out m 2>notes; echo $?)"
check 'office-act-all without a server, status' 2 "$("$bin/office-act-all" --to http://127.0.0.1:1 --bucket logs 2>notes; echo $?)"
check 'office-lifecycle without a server, status' 2 "$("$bin/office-lifecycle" --to http://127.0.0.1:1 --bucket logs get 2>notes; echo $?)"
check 'office-month-end without a server, status' 2 "$("$bin/office-month-end" --server http://127.0.0.1:1 --bucket logs 2026-11 2>notes; echo $?)"
check 'office-compare without a server, status' 2 "$("$bin/office-compare" --server http://127.0.0.1:1 listing.csv 2>notes; echo $?)"
check 'office-apply without a map, status' 3 "$("$bin/office-apply" --map none listing.csv 2>notes; echo $?)"
for tool in journal-dump journal-digest import-inventory lifecycle act-all month-end bill metrics usage usage-page merge-reports backup follow compare apply; do
    check "office-$tool --help" 0 "$("$bin/office-$tool" --help >said 2>&1; echo $?)"
done
cd .. || exit 1
check 'no tool left something in the package' '' "$(find there -newer control -type f)"
check 'the units name programs of the package' '' "$(sed -n 's/^ExecStart=\([^ ]*\).*/\1/p' there/usr/lib/systemd/system/*.service |
    while read -r path; do [ -x "there$path" ] || echo "$path"; done)"
check 'the unit of the server has both limits on memory' 2 "$(grep -c -e '^LimitAS=' -e '^MemoryMax=' there/usr/lib/systemd/system/office.service)"
for words in '' '--version' "--version one $program" "--none $program" "$program one two"; do
    # shellcheck disable=SC2086
    check "words that are none, status: $words" 1 "$("$package" $words >said 2>notes; echo $?)"
done
check 'another program, status' 3 "$("$package" /bin/true one >said 2>notes; echo $?)"
check 'no program, status' 3 "$("$package" none one >said 2>notes; echo $?)"
check 'no folder, status' 4 "$("$package" "$program" none >said 2>notes; echo $?)"
check 'a full disk, status' 4 "$( (trap '' XFSZ; ulimit -f 64; "$package" "$program" one >said 2>notes); echo $?)"
check 'nothing is left of these' 1 "$(find one | grep -c '/')"
cp -R "$root/tools" "$work/tools"
mkdir docs && check 'a file of the repository is missing, status' 3 "$(tools/package "$program" one >said 2>notes; echo $?)"

finish
