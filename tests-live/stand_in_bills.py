"""`bill MONTH` of stand_in.py, over Python's sqlite3."""
import contextlib
import pathlib
import sqlite3
import sys

from sqlite_bills import MONTH, TABLE, bills_of, post, rows_of

PATH = pathlib.Path("office-data/bills.db")


def kept(month, bills):
    """Whether the month was there before, and its rows. The file is locked while it is read and written."""
    with contextlib.closing(sqlite3.connect(PATH, timeout=0)) as base:
        base.execute("PRAGMA locking_mode = EXCLUSIVE")
        base.execute("PRAGMA journal_mode = WAL")
        base.execute(TABLE)
        is_new = post(base, month, bills)
        return not is_new, base.execute(MONTH, (month,)).fetchall()


def is_well_made(rows):
    """Whether these are the rows of a month, each number as the program spells it, and the header agrees with the bills."""
    are_spelled = all(bucket.isascii() and bucket == bucket.lower() and total.isdigit() and total == str(int(total)) and int(total) < 2 ** 128 and 0 <= lines < 2 ** 32
                      for bucket, total, lines in rows)
    return are_spelled and rows[0][0] == "" and rows[0][1:] == (str(sum(int(it[1]) for it in rows[1:])), len(rows) - 1)


def bill(office, month, now):
    """Posts a month, and says what the program says of it. Returns the status."""
    if month not in office.months.closed:
        return sys.stderr.write("bill: month not closed\n") and 12
    bills = bills_of(office.months.lines(month, office.buckets, now))
    try:
        is_before, rows = kept(month, bills)
        if not is_well_made(rows):
            raise sqlite3.DatabaseError
    except (sqlite3.Error, OverflowError):
        return sys.stderr.write("bills: failed\n") and 11
    if rows[1:] != [it[1:] for it in rows_of(month, bills)][1:]:
        return sys.stderr.write("bill: other bills kept\n") and 13
    try:
        sys.stdout.write(f"{'already posted' if is_before else 'bills'} {len(bills)} total {sum(it[1] for it in bills)}\n")
        sys.stdout.flush()
    except OSError:
        return sys.stderr.write("output: failed\n") and 4
    return 0
