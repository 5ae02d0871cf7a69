"""Reads the bills of closed months that the program keeps in bills.db (docs/FORMATS.md, "Bills"); for usage-page.

The files are copied, and the copy is read. So those of the program stay as they are, and a folder that is read-only will do.
"""
import contextlib
import os
import re
import shutil
import sqlite3
import tempfile
import typing

from office_tools.asking import Stop
from office_tools.months import MONTH
from office_tools.reports import NUMBER

BUCKET = re.compile(r"[a-z0-9][a-z0-9.-]{1,61}[a-z0-9]", re.ASCII)
LEAST_ABOVE = 2 ** 128  # totals are below
TRIES = 5


class Posted(typing.NamedTuple):
    """What a closed month came to: the sum of its bills, and how many they are."""
    month: str
    total: int
    bills: int


class IllMade(Exception):
    """What of a row is not as the program writes it."""


def stamps(paths):
    """What changes if one of these files is written."""
    return [(it.st_size, it.st_mtime_ns, it.st_ino) for it in map(os.stat, filter(os.path.exists, paths))]


def copied(path, folder):
    """Copies the file and its log while nobody writes them. Returns the path of the copy."""
    parts = [path, f"{path}-wal"]
    try:
        for _ in range(TRIES):
            before = stamps(parts)
            for part in parts:
                copy = os.path.join(folder, "bills.db" + part[len(path):])
                if os.path.exists(part) or part == path:
                    shutil.copyfile(part, copy)
                elif os.path.exists(copy):
                    os.remove(copy)
            if stamps(parts) == before and not os.path.exists(f"{path}-journal"):
                return os.path.join(folder, "bills.db")
    except OSError as fault:
        raise Stop(3, f"{path}: {fault.strerror}") from None
    raise Stop(3, f"{path}: somebody writes it; try again")


def rows_in(path):
    """The rows of a file, in byte order of month and bucket."""
    with tempfile.TemporaryDirectory() as folder:
        copy = copied(path, folder)
        try:
            with contextlib.closing(sqlite3.connect(copy)) as base:
                return base.execute("SELECT month, bucket, total, lines FROM bills ORDER BY month, bucket").fetchall()
        except (sqlite3.Error, UnicodeDecodeError) as fault:
            raise Stop(5, f"{path}: no file of bills: {fault}") from None


def total_in(row):
    """The total of a row, which has the form of a bill or of a header."""
    month, bucket, total, lines = row
    if not isinstance(month, str) or not MONTH.fullmatch(month):
        raise IllMade(f"a month is {str(month)[:40]!r}")
    if not isinstance(bucket, str) or bucket and not BUCKET.fullmatch(bucket):
        raise IllMade(f"in {month} a bucket is {str(bucket)[:70]!r}")
    if not isinstance(total, str) or not NUMBER.fullmatch(total) or int(total) >= LEAST_ABOVE:
        raise IllMade(f"in {month} the total of {bucket or 'the month'} is {str(total)[:50]!r}")
    if not isinstance(lines, int) or not 0 <= lines < 2 ** 32:
        raise IllMade(f"in {month} the number of lines of {bucket or 'the month'} is {str(lines)[:50]!r}")
    return int(total)


def months_of(rows: typing.List[tuple]) -> typing.List[Posted]:
    """The months of rows in their order. Each has to begin with its header, whose numbers are those of its bills."""
    found, sums = [], {}
    for row in rows:
        month, bucket, _, lines = row
        total = total_in(row)
        if not bucket:
            found.append(Posted(month, total, lines))
        elif not found or found[-1].month != month:
            raise IllMade(f"{month} has no header")
        else:
            charged, count = sums.get(month, (0, 0))
            sums[month] = (charged + total, count + 1)
    for it in found:
        if sums.get(it.month, (0, 0)) != it[1:]:
            raise IllMade(f"the header of {it.month} has {it.bills} bills of {it.total} in all, and its bills are {sums.get(it.month, (0, 0))[1]} "
                          f"of {sums.get(it.month, (0, 0))[0]}")
    return found


def read_bills(path: str) -> typing.List[Posted]:
    """What each month in a file came to, the first month first. Status 5 if its rows are not well made."""
    try:
        return months_of(rows_in(path))
    except IllMade as fault:
        raise Stop(5, f"{path}: {fault}") from None
