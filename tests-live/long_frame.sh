#!/bin/sh
# Opens journals whose first frame claims more bytes than any entry has, and shows that each is told as damaged at its gate
# without memory for what is claimed.
#
#   long_frame.sh PROGRAM
#
# The files are as long as their frames claim, but sparse; the memory of the program is limited to 512 MiB.
set -u

tools='cat truncate'
. "$(dirname -- "$0")/common"
cd "$work" || exit 1

# Runs the program with at most 512 MiB of memory.
limited() {
    (ulimit -v 524288 && exec "$program" "$@" </dev/null >out 2>notes)
}

limited
if [ "$?" != 1 ]; then
    skip 'journals with a long frame' 'limit on memory under which the program starts'
    finish
fi

# A made head, and an open gate with a length in four bytes; the file then ends at this place.
while read -r name size length; do
    "$program" init >out 2>notes
    # shellcheck disable=SC2059
    printf "\\245METERJRN1\\245$length" >office-data/journal
    if ! truncate -s "$size" office-data/journal 2>notes; then
        skip "$name" "room for a file of $size bytes"
        continue
    fi
    limited run
    check "$name, status" 5 "$?"
    check "$name, note" 'journal: damaged at 10' "$(cat notes)"
    rm -rf office-data
done <<'END'
3,000,000,000-bytes 3000000016 \262\320\136\000
3,000,000,000-bytes,-cut-short 1000000 \262\320\136\000
4,294,967,295-bytes 4294967311 \377\377\377\377
END

finish
