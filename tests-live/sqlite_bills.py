"""The table of bills, by docs/FORMATS.md, "Bills": its statement, the three statements over it, and files of it that SQLite writes."""
import contextlib
import sqlite3

TABLE = ("CREATE TABLE IF NOT EXISTS bills(month TEXT NOT NULL, bucket TEXT NOT NULL, total TEXT NOT NULL, lines INTEGER NOT NULL, "
         "PRIMARY KEY(month, bucket)) STRICT")
HEADER = "INSERT INTO bills(month, bucket, total, lines) VALUES (?1, '', ?2, ?3) ON CONFLICT(month, bucket) DO NOTHING"
BILL = "INSERT INTO bills(month, bucket, total, lines) VALUES (?1, ?2, ?3, ?4)"
MONTH = "SELECT bucket, total, lines FROM bills WHERE month = ?1 ORDER BY bucket"


def bills_of(lines):
    """The bills of the lines of a report: by bucket the sum of its charges, and the number of its lines."""
    found = {}
    for line in lines:
        total, count = found.get(line[0], (0, 0))
        found[line[0]] = (total + int(line[-1]), count + 1)
    return [(bucket, *found[bucket]) for bucket in sorted(found, key=str.encode)]


def rows_of(month, bills):
    """The rows of a month: its header, and its bills, which are a bucket, a total and a number of lines each."""
    return [(month, "", str(sum(total for _, total, _ in bills)), len(bills)), *((month, name, str(total), lines) for name, total, lines in bills)]


def post(base, month, bills):
    """Posts a month by the statements, in one transaction. Returns whether it was not there. A month with rows and no header is an error."""
    header, *rows = rows_of(month, bills)
    with base:
        is_new = base.execute(HEADER, (header[0], *header[2:])).rowcount == 1
        if is_new:
            if len(base.execute(MONTH, (month,)).fetchall()) != 1:
                raise sqlite3.DatabaseError("rows without a header")
            base.executemany(BILL, rows)
    return is_new


def written(path, months):
    """Writes a file with these bills by month."""
    with contextlib.closing(sqlite3.connect(path)) as base:
        base.execute("PRAGMA synchronous = OFF")  # no test here cuts the power
        base.execute(TABLE)
        for month, bills in months.items():
            post(base, month, bills)
    return path


def changed(path, *statements):
    """Runs statements on a file."""
    with contextlib.closing(sqlite3.connect(path)) as base, base:
        for it in statements:
            base.execute(it)


def all_rows(path):
    """Every row of a file, in order; none if there is no table yet."""
    with contextlib.closing(sqlite3.connect(path)) as base:
        if base.execute("PRAGMA integrity_check").fetchall() != [("ok",)]:
            raise ValueError("the file is not sound")
        if not base.execute("SELECT 1 FROM sqlite_schema WHERE name = 'bills'").fetchall():
            return []
        return base.execute("SELECT month, bucket, total, lines FROM bills ORDER BY month, bucket").fetchall()
