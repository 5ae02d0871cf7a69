#!/bin/sh
# Checks the man page, the completions of the shells and the units of systemd, each by the tool that reads them, and that what
# they name is a command line of the program.
#
#   operator_files.sh PROGRAM
set -u

tools='awk cp grep mkdir sed sleep sort timeout tr'
root=$(CDPATH='' cd -- "$(dirname -- "$0")/.." && pwd) || exit 1
. "$root/tests-live/common"
cd "$work" || exit 1

# The man page: no warnings, and each exit code that docs/OPERATIONS.md names.
page=$root/docs/office.1
if has mandoc 'mandoc -Tlint'; then
    check 'mandoc -Tlint' '' "$(mandoc -Tlint -W warning "$page" 2>&1)"
fi
if has man 'man --warnings'; then
    if man --warnings -l "$page" >shown 2>warned && grep -q . shown; then
        check 'man --warnings' '' "$(cat warned)"
    else
        skip 'man --warnings' 'man that shows a page'
    fi
fi
check 'each exit code of docs/OPERATIONS.md is in the man page' \
    "$(sed -n '/^## When each exit code/,/^## [A-VX-Z]/s/^| \([0-9][0-9]*\) |.*/\1/p' "$root/docs/OPERATIONS.md" | tr '\n' ' ')" \
    "$(sed -n 's/^\.It \([0-9][0-9]*\)$/\1/p' "$page" | tr '\n' ' ')"

# The status of the program with these words, in a folder without a journal: 1 where they are no command line.
status_of() {
    mkdir -p none
    (cd none && timeout 60 "$program" "$@" </dev/null >/dev/null 2>&1)
    echo $?
}

if has bash 'the completions of bash'; then
    # What bash completes behind these words, the last of which is under way.
    complete_bash() {
        # shellcheck disable=SC2016
        bash -c '. "$0"; COMP_WORDS=("$@"); COMP_CWORD=$(($# - 1)); _office; echo "${COMPREPLY[*]}"' \
            "$root/tools/completion/office.bash" "$@"
    }
    check 'bash: words' 'init run serve report explain bill forecast gen' "$(complete_bash office '')"
    check 'bash: a word begun' 'serve' "$(complete_bash office s)"
    check 'bash: options' '--listen --workers --connections' "$(complete_bash office serve '')"
    check 'bash: options that are left' '--workers --connections' "$(complete_bash office serve --listen 127.0.0.1:1 '')"
    # What bash completes of a tool of the package.
    complete_tool() {
        # shellcheck disable=SC2016
        bash -c '. "$0"; COMP_WORDS=("$@"); COMP_CWORD=$(($# - 1)); _office_tool "$1"; echo "${COMPREPLY[*]}"' \
            "$root/tools/completion/office.bash" "$@"
    }
    check 'bash: words of a tool' 'get set add edit remove preview' "$(complete_tool office-lifecycle --bucket logs '' | tr -d '\n')"
    check 'bash: words of journal-digest' 'verify extend mend' "$(complete_tool office-journal-digest '' | tr -d '\n')"
    for tool in act-all month-end lifecycle import-inventory bill usage usage-page metrics backup journal-dump; do
        for option in $(complete_tool "office-$tool" --); do
            check "$tool knows $option" yes "$("$root/tools/$tool" --help | grep -q -e "$option" && echo yes)"
        done
    done
    check 'bash: options of report' '--text' "$(complete_bash office report 2026-11 '')"
    check 'the program knows bill' 5 "$(status_of bill 2026-11)"
    check 'the program knows forecast' 5 "$(status_of forecast logs 2099-12-31)"
    check 'bash: options of explain' '--workers' "$(complete_bash office explain '')"
    check 'bash: nothing behind run' '' "$(complete_bash office run '')"
    for word in $(complete_bash office ''); do
        case $word in
        serve | report | bill | forecast | gen) ;;
        *) check "the program knows $word" no "$([ "$(status_of "$word")" = 1 ] && echo yes || echo no)" ;;
        esac
        rm -rf none
    done
    words='serve'
    for option in $(complete_bash office serve ''); do
        case $option in
        --listen) value=$(complete_bash office serve --listen '' | awk '{ print $1 }') ;;
        --workers) value=$(complete_bash office serve --workers '' | awk '{ print $NF }') ;;
        *) value=1 ;;
        esac
        words="$words $option $value"
    done
    # shellcheck disable=SC2086
    check "the program knows $words" 5 "$(status_of $words)"
fi

if has zsh 'the completions of zsh'; then
    # What zsh shows where it completes these words, up to a text that is wanted.
    shows() {
        timeout 100 zsh -f "$root/tests-live/complete.zsh" "$root/tools/completion" "$@"
    }
    check 'zsh: words' 1 "$(shows '' 'serve     -- answer the requests' | grep -c -e 'serve     -- answer the requests')"
    check 'zsh: an option begun' 1 "$(shows 'serve --c' 'serve --connections' | grep -c -e 'serve --connections')"
    check 'zsh: nothing behind run' 0 "$(shows 'run ' '' | grep -c -e '--')"
fi

# The units, with the paths of an installation turned into those of here.
mkdir units
for unit in "$root"/tools/systemd/*; do
    sed "s|/usr/bin/office-\([a-z-]*\)|$root/tools/\1|; s|/usr/bin/office |$program |" "$unit" >"units/${unit##*/}"
done
# shellcheck disable=SC2046
check 'the unit gives words that the program knows' 5 "$(status_of serve $(sed -n 's/^Environment="OFFICE_OPTIONS=\(.*\)"/\1/p' \
    "$root/tools/systemd/office.service"))"
if has systemd-analyze 'the units of systemd'; then
    check 'systemd-analyze verify' '' "$(systemd-analyze --man=no verify units/* 2>&1)"
    systemd-analyze security --offline=yes --threshold=20 units/office.service >secure 2>&1
    check 'systemd-analyze security, at most 2.0' 0 $?
    if ! has strace 'the system calls of a unit'; then
        :
    elif ! strace -o trace true 2>/dev/null; then
        skip 'the system calls of a unit' 'leave to trace a process'
    else
        "$program" init >/dev/null
        printf 'PUT /buckets/logs HTTP/1.1\r\n\r\n' >asks
        strace -f -o trace "$program" run <asks >/dev/null 2>&1
        timeout 60 strace -f -o served "$program" serve --listen 127.0.0.1:0 --workers 2 >/dev/null 2>&1 &
        within 60 grep -q 'accept4(' served 2>/dev/null
        kill $!
        wait
        # The calls of these groups of a filter, with the groups in them.
        calls_of() {
            groups=$*
            for _ in 1 2 3 4; do
                for group in $groups; do
                    systemd-analyze syscall-filter "$group" | sed -n 's/^ *\([@a-z0-9_-]*\)$/\1/p'
                done | sort -u >names
                groups=$(grep '^@' names | tr '\n' ' ')
                grep -v '^@' names
            done | sort -u
        }
        # shellcheck disable=SC2046
        calls_of $(sed -n 's/^SystemCallFilter=\([^~].*\)/\1/p' units/office.service) >in_filter
        # shellcheck disable=SC2046
        calls_of $(sed -n 's/^SystemCallFilter=~\(.*\)/\1/p' units/office.service) >out_of_filter
        grep -v -x -F -f out_of_filter in_filter >allowed
        sed 's/^[0-9]* *//; s/(.*//' trace served | grep '^[a-z0-9_]*$' | sort -u >used
        check 'strace saw a sync and a port' 2 "$(grep -c -x -e fdatasync -e listen used)"
        check 'each system call is in the filter of the unit' '' "$(grep -v -x -F -f allowed used | tr '\n' ' ')"
    fi
fi

finish
