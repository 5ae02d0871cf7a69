#!/bin/sh
# Refuses each allocation of the program in turn, one a run: in a run of four messages, a run with lifecycle actions, a
# server of one connection, a report, a table of stays and the bills of a month.
#
#   refused_memory.sh PROGRAM
#
# refused_memory.c stands in for the C library's allocator: it refuses the call with the number that REFUSED gives. The cases
# are in refused_memory_cases.py. Prints how many allocations each command makes, and 'N passed, M failed' last; ends
# with 1 where a case failed.
set -u

tools='cc python3'
here=$(CDPATH='' cd -- "$(dirname -- "$0")" && pwd) || exit 1
# In memory where there is such a folder, since nothing here is about what a disk keeps.
if [ -d /dev/shm ] && [ -w /dev/shm ]; then
    export TMPDIR=/dev/shm
fi
. "$here/common"
if ! cc -O2 -shared -fPIC -o "$work/refused_memory.so" "$here/refused_memory.c" 2>"$work/notes"; then
    cat "$work/notes"
    check 'cc builds refused_memory.c' yes no
    finish
fi
python3 -B "$here/refused_memory_cases.py" "$program" "$work"
