#!/bin/sh
# Closes each standard stream in turn, and shows that no reply, note or message gets into the journal.
#
#   closed_streams.sh PROGRAM
#
# A program that opens its files while a standard stream is closed may get that stream's number for one of them, and
# then writes its replies there. The same is shown where there is no /dev/null, as in a bare container, and, where even the
# folder / cannot be opened, that the journal is not touched: these need leave to mount and to change the root.
set -u

tools='cat od sed tr'
. "$(dirname -- "$0")/common"

# The open gate and the mark A5 'METERJRN1', a closed gate; and, with an entry between them, the entry's length, eight
# bytes of its moment, and what makes the bucket 'logs'.
mark='a5 4d 45 54 45 52 4a 52 4e 31'
empty_journal="$mark 00"
one_entry="$mark a5 00 00 00 0f ?? ?? ?? ?? ?? ?? ?? ?? 01 00 04 6c 6f 67 73 00"
made_text='HTTP/1.1 201 Created|content-type: application/json|content-length: 17||{"bucket":"logs"}'

# The bytes of a file, as two hexadecimal digits each, with one space between them.
bytes_of() {
    od -An -v -tx1 "$1" 2>/dev/null | tr -s ' \n' ' ' | sed 's/^ //; s/ $//'
}

# A text with its line ends as bars.
text_of() {
    tr -d '\r' <"$1" | tr '\n' '|'
}

# Which of the journals that are known lies in the case's folder.
journal() {
    bytes=$(bytes_of office-data/journal)
    # shellcheck disable=SC2254
    case $bytes in
    "$empty_journal") echo 11 ;;
    $one_entry) echo 31 ;;
    *) echo "other: $bytes" ;;
    esac
}

# Runs the program with these streams closed; the others are files of the case.
run_closed() {
    streams=$1
    shift
    case $streams in
    '') "$program" "$@" <in >out 2>notes ;;
    0) "$program" "$@" <&- >out 2>notes ;;
    1) "$program" "$@" <in >&- 2>notes ;;
    2) "$program" "$@" <in >out 2>&- ;;
    01) "$program" "$@" <&- >&- 2>notes ;;
    02) "$program" "$@" <&- >out 2>&- ;;
    12) "$program" "$@" <in >&- 2>&- ;;
    012) "$program" "$@" <&- >&- 2>&- ;;
    esac
}

# Counts a case: its name, what was found, and the patterns of which one is wanted.
check() {
    name=$1
    found=$2
    shift 2
    for wanted; do
        # shellcheck disable=SC2254
        case $found in
        $wanted)
            passed=$((passed + 1))
            echo "ok: $name: $found"
            return
            ;;
        esac
    done
    failed=$((failed + 1))
    echo "FAILED: $name: $found, and not one of: $*"
}

# A folder of the case's own, with one request to read.
begin() {
    rm -rf "$work/case"
    mkdir "$work/case" && cd "$work/case" || exit 1
    printf 'PUT /buckets/logs HTTP/1.1\r\nHost: x\r\n\r\n' >in
    : >out
    : >notes
}

# Closes each stream in turn; the name says where the program runs.
close_each() {
    for streams in '' 0 1 2 01 02 12 012; do
        closed="$1, closed: ${streams:-none}"
        begin
        run_closed "$streams" init
        status=$?
        case $streams in
        *1*) check "init, $closed" "journal $(journal) status $status" 'journal 11 status [0-9]' ;;
        *) check "init, $closed" "journal $(journal) status $status said $(text_of out)" 'journal 11 status 0 said made|' ;;
        esac

        begin
        "$program" init <in >out 2>notes || check "init before run, $closed" "status $?" 'status 0'
        run_closed "$streams" run
        status=$?
        found="journal $(journal) status $status"
        case $streams in
        *1*) check "run, $closed" "$found" 'journal 11 status [0-9]' 'journal 31 status [0-9]' ;;
        *0*) check "run, $closed" "$found said $(text_of out)" 'journal 11 status [0-9] said ' ;;
        *) check "run, $closed" "$found said $(text_of out)" "journal 31 status 0 said $made_text" ;;
        esac
    done
}

# The same where the folder / cannot be opened: the journal of another run is left alone.
refuse_each() {
    for streams in 0 1 2 01 02 12 012; do
        begin
        "$program" init <in >out 2>notes
        enter_root
        outside=$program
        program=$work/shut
        run_closed "$streams" run
        check "run, $1, closed: $streams" "journal $(journal) status $?" 'journal 11 status 2'
        program=$outside
    done
}

# Makes the case's folder a root that user 65534 can work in and not open.
enter_root() {
    cp "$program" office
    ldd "$program" | tr -s ' \t' '\n' | grep '^/' | while IFS= read -r library; do
        mkdir -p ".$(dirname "$library")"
        cp "$library" ".$library"
    done
    chown -R 65534 office-data 2>/dev/null
    chmod 0711 .
}

# Whether the program starts in this way: without words it tells its usage.
starts() {
    "$work/$1" >out 2>notes
    case $(cat notes) in
    *usage:*) true ;;
    *) false ;;
    esac
}

close_each 'a usual system'

# The program in a name space of its own, whose /dev is empty.
printf '#!/bin/sh\nexec unshare -r -m sh -c '\''mount -t tmpfs none /dev && exec "$0" "$@"'\'' "%s" "$@"\n' "$program" >"$work/bare"
# The program in the case's folder as its root.
printf '#!/bin/sh\nexec chroot --userspec=65534:65534 . /office "$@"\n' >"$work/shut"
chmod +x "$work/bare" "$work/shut"

if has unshare 'no /dev/null'; then
    begin
    if starts bare; then
        outside=$program
        program=$work/bare
        close_each 'no /dev/null'
        program=$outside
    else
        skip 'no /dev/null' 'leave to mount an empty /dev'
    fi
fi

if has chroot 'no / to open'; then
    begin
    "$program" init <in >out 2>notes
    enter_root
    if starts shut; then
        refuse_each 'no / to open'
    else
        skip 'no / to open' 'leave to change the root'
    fi
fi

finish
