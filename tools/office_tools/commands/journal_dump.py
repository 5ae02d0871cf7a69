"""Prints the entries of a journal as JSON lines, where it is damaged, or what the checkpoints beside it hold."""
import json
import os
import sys

from office_tools.asking import Stop, words_of
from office_tools.checkpoints import Comparison, about, ended, opening, read_slots, taken
from office_tools.entries import Damaged
from office_tools.journals import HEAD, Journal, open_file

EPILOG = """\
A line has the gate at which the entry's frame begins (offset), its moment as a text and in milliseconds since
1970 (ms), its kind, the token of the request if it had one, and the fields of the kind (docs/FORMATS.md). Texts
are in ASCII, with \\u for other characters. A tariff has its first month, and by class a price or a list of
tiers: each has a price, and all but the last an end (upto, in GiB-months). The entries end at the first closed
gate. What comes after it has no meaning.

With --slots it prints the two checkpoint slots beside the journal instead of the entries, a line each: check.0
and check.1, or of a copy that backup made those with the same ending. A slot is missing, empty, closed (it does
not count), damaged (with the offset) or whole. A whole slot has the position in the journal up to which it says
what happened, and what it holds: the last moment, and the numbers of tariffs, closed months, buckets, keys,
versions, uploads and kept replies. of_journal says whether it is what the entries before its position say, as
far as a reader can tell who does not do the commands: moments, months, tariffs, configurations, kept replies.
The last line says which slot an opening takes, and what it then reads in the journal.

This reader was written from docs/FORMATS.md and does not know the office. Only the program says whether a
command is accepted at its place. The tool writes no file and takes no lock, so it can read a journal on which
the program works.

  journal-dump office-data/journal | jq -r 'select(.kind=="put") | .key'
  journal-dump office-data/journal | jq -c 'select(.token=="t1")'
  journal-dump --check /backup/journal
  journal-dump --check --slots office-data/journal

exit codes:
  0  the journal is whole
  1  usage error
  3  a file could not be read
  4  the output could not be written
  5  the journal is not made, is another kind of file (foreign), or is damaged; the note is that of the program.
     With --slots also if a slot is damaged, or of another journal
"""
COUNTS = (("buckets", "buckets"), ("keys", "keys"), ("versions", "versions"), ("uploads", "uploads"), ("tariffs", "tariffs"),
          ("closed", "closed months"), ("kept", "kept replies"))


def dump(journal, check):
    """Prints the entries, or what a check finds."""
    try:
        for entry in journal.entries():
            if not check:
                print(json.dumps(entry, separators=(",", ":")))
    except Damaged as fault:
        if check:
            say_end(journal, fault)
        raise Stop(5, f"journal: damaged at {journal.gate}") from None
    if check:
        say_end(journal, None)


def say_end(journal, fault):
    """The line of a check: that the journal is whole, or where it is damaged."""
    if fault:
        print(f"damaged at {journal.gate}: {fault}; entries before it: {journal.count}")
        return
    behind = os.fstat(journal.file.fileno()).st_size - journal.gate - 1
    print(f"whole: entries {journal.count}; last moment {journal.last or 'none'}; end gate at {journal.gate}; "
          f"bytes without meaning behind it: {behind}")


def in_words(it):
    """A line on a slot, or on the opening."""
    if "opening" in it:
        begun = f"takes {it['opening']}" if it["opening"] else "takes no slot"
        rest = (f"damaged at {it['damaged']}" if "damaged" in it else f"entries {it['entries']}; end gate at {it['end']}")
        return f"opening: {begun}; reads from {it['from']}: {rest}"
    if it["state"] == "damaged":
        return f"{it['slot']}: damaged at {it['damaged']}: {it['why']}"
    if it["state"] != "whole":
        return f"{it['slot']}: {it['state']}"
    of_it = {True: "", False: f"; of another journal: {it['why']}", None: "; the journal is damaged before its position"}[it["of_journal"]]
    return (f"{it['slot']}: whole: position {it['position']}; last moment {it['moment']}; "
            + "; ".join(f"{name} {it[field]}" for field, name in COUNTS) + of_it)


def dump_slots(path, check):
    """Prints what the slots hold, and what an opening finds. Slots first: the journal grows, and they are to be no newer than it."""
    slots = read_slots(path)
    with open_file(path) as file:
        journal, comparison, damaged = Journal(file), Comparison(slots), None
        try:
            for _ in comparison.entries(journal):
                pass
        except Damaged as fault:
            damaged = fault
        if check:
            say_end(journal, damaged)
        lines = [about(it, comparison.others, comparison.waiting) for it in slots]
        slot = taken(slots)
        begun = opening(file, slot) if slot else {"opening": None, "from": HEAD - 1, **ended(journal, bool(damaged))}
        for it in [*lines, begun]:
            print(in_words(it) if check else json.dumps(it, separators=(",", ":")))
    if damaged:
        raise Stop(5, f"journal: damaged at {journal.gate}")
    wrong = [f"{it['slot']} is damaged" if it["state"] == "damaged" else f"{it['slot']} is of another journal" for it in lines
             if it["state"] == "damaged" or it.get("of_journal") is False]
    if wrong:
        raise Stop(5, f"slots: {'; '.join(wrong)}")


def main():
    words = words_of("journal-dump", __doc__, EPILOG)
    words.add_argument("--check", action="store_true", help="print one line: whole, or the first damaged offset")
    words.add_argument("--slots", action="store_true", help="print the checkpoints beside the journal; with --check after that line")
    words.add_argument("file", metavar="FILE", help="a journal, as office-data/journal or a copy of it")
    given = words.parse_args()
    if given.slots:
        dump_slots(given.file, given.check)
        return
    with open_file(given.file) as file:
        dump(Journal(file), given.check)


def command() -> None:
    """Runs the tool with the words of the process, and ends with its exit code."""
    status = 0
    try:
        if sys.stdout is None:
            raise OSError(0, "closed")
        try:
            main()
        except Stop as stop:
            status, note = stop.args
            sys.stdout.flush()
            print(note if status == 5 else f"journal-dump: {note}", file=sys.stderr)  # 5: the note of the program
        sys.stdout.flush()
    except OSError as fault:
        status = 4
        print(f"journal-dump: output: {fault.strerror}", file=sys.stderr)
    os._exit(status)  # what is still held goes nowhere
