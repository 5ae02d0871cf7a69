#!/usr/bin/env python3
"""Bills posted a second, beside the command sqlite3: python3 bench/bills.py PROGRAM [ROUNDS] [FOLDER] [BUCKETS] [MONTHS]

Over a journal in a new folder below FOLDER (/dev/shm) with 1,000 buckets of 1 GiB, whose 120 months from 2014 on are closed. It prints two lines, medians
of the rounds (5), and stops where a run says something else than it should.

  bills   `bill` that posts a month into a new file, and in turn `sqlite3` that runs the same statements in one transaction into another new file, with a
          log and a sync at each commit, as the program has. `bill` also opens the journal and makes the report, as `report` does alone: report_s. ratio is
          sqlite3_s / bill_s, and net_ratio is sqlite3_s / (bill_s - report_s).
  months  `bill` of the first month, which is there, with 1 month and with all months in the file, and their ratio; and how long the posting of the first
          and of the last month took.
"""
import calendar
import pathlib
import shutil
import statistics
import subprocess
import sys
import tempfile
import time

GIB, PRICE, FIRST_YEAR = 2 ** 30, 23_000, 2014
TABLE = ("CREATE TABLE IF NOT EXISTS bills(month TEXT NOT NULL, bucket TEXT NOT NULL, total TEXT NOT NULL, lines INTEGER NOT NULL, "
         "PRIMARY KEY(month, bucket)) STRICT;\n")


def moment(month):
    """The first millisecond of a month, which is counted from the first one on."""
    return calendar.timegm((FIRST_YEAR + month // 12, month % 12 + 1, 1, 0, 0, 0)) * 1000


def name(month):
    return f"{FIRST_YEAR + month // 12}-{month % 12 + 1:02}"


def place(text):
    return len(text).to_bytes(2, "big") + text


def frame(at, kind, fields):
    entry = at.to_bytes(8, "big") + bytes([kind]) + fields
    return len(entry).to_bytes(4, "big") + entry + b"\xa5"


def journal(buckets, months):
    """An office with an object of 1 GiB in each bucket, from the first month on; these months are closed."""
    names, begin = [b"bucket-%04d" % it for it in range(buckets)], moment(0)
    parts = [b"\xa5METERJRN1\xa5", frame(begin, 14, PRICE.to_bytes(4, "big") * 11)]
    parts += [frame(begin, 1, place(it)) for it in names]
    parts += [frame(begin, 5, place(it) + place(b"key") + GIB.to_bytes(8, "big") + b"\0\0") for it in names]
    parts += [frame(moment(it + 1), 15, (FIRST_YEAR + it // 12).to_bytes(2, "big") + bytes([it % 12 + 1])) for it in range(months)]
    return b"".join(parts)[:-1] + b"\0"


def statements(buckets):
    """What posting the first month is, as a text for the command sqlite3."""
    rows = "".join(f"INSERT INTO bills(month, bucket, total, lines) VALUES ('{name(0)}', 'bucket-{it:04}', '{PRICE}', 1);\n" for it in range(buckets))
    return (f"PRAGMA journal_mode = WAL;\nPRAGMA synchronous = FULL;\n{TABLE}BEGIN;\n"
            f"INSERT INTO bills(month, bucket, total, lines) VALUES ('{name(0)}', '', '{PRICE * buckets}', {buckets}) ON CONFLICT(month, bucket) DO NOTHING;\n"
            f"{rows}COMMIT;\n")


def seconds(command, folder, sent=None, wanted=None):
    """How long a command takes; ends all if it fails, or says something else than is wanted."""
    started = time.monotonic()
    ended = subprocess.run(command, cwd=folder, input=sent or "", capture_output=True, text=True, check=False)
    taken = time.monotonic() - started
    if ended.returncode != 0 or (wanted and ended.stdout != wanted):
        sys.exit(f"bills.py: {' '.join(map(str, command))} ended with {ended.returncode}: {ended.stdout[:200]!r} {ended.stderr[:200]!r}")
    return taken


def without_bills(folder):
    for it in pathlib.Path(folder).rglob("*.db*"):
        it.unlink()


class Bench:
    def __init__(self, program, folder, rounds, buckets, months):
        self.program, self.folder, self.rounds, self.buckets, self.months = program, folder, rounds, buckets, months
        self.said = f"{buckets} total {buckets * PRICE}\n"
        pathlib.Path(folder, "office-data").mkdir()
        pathlib.Path(folder, "office-data/journal").write_bytes(journal(buckets, months))

    def post(self, month):
        return seconds([self.program, "bill", name(month)], self.folder, wanted=f"bills {self.said}")

    def there(self):
        """How long the first month takes, which is there."""
        return statistics.median(seconds([self.program, "bill", name(0)], self.folder, wanted=f"already posted {self.said}") for _ in range(self.rounds))

    def beside_sqlite3(self):
        bill, report, other, text = [], [], [], statements(self.buckets)
        for _ in range(self.rounds):
            without_bills(self.folder)
            bill.append(self.post(0))
            report.append(seconds([self.program, "report", name(0)], self.folder))
            other.append(seconds(["sqlite3", "-batch", "other.db"], self.folder, text, "wal\n"))
        a, r, s = map(statistics.median, (bill, report, other))
        net = f"{s / (a - r):.2f}" if a > r else "none"
        print(f"bills {self.buckets} bill_s {a:.4f} report_s {r:.4f} sqlite3_s {s:.4f} ratio {s / a:.2f} net_ratio {net} rounds {self.rounds}", flush=True)

    def over_months(self):
        without_bills(self.folder)
        first = last = self.post(0)
        one = self.there()
        for month in range(1, self.months):
            last = self.post(month)
        whole = self.there()
        size = sum(it.stat().st_size for it in pathlib.Path(self.folder, "office-data").glob("bills.db*"))
        print(f"months {self.months} bills_a_month {self.buckets} there_with_one_s {one:.4f} there_with_all_s {whole:.4f} ratio {whole / one:.2f} "
              f"first_post_s {first:.4f} last_post_s {last:.4f} bytes {size} rounds {self.rounds}", flush=True)


def main(program, rounds=5, below="/dev/shm", buckets=1_000, months=120):
    if not shutil.which("sqlite3"):
        sys.exit("bills.py: there is no command sqlite3")
    with tempfile.TemporaryDirectory(dir=below) as folder:
        bench = Bench(str(pathlib.Path(program).resolve()), folder, int(rounds), int(buckets), int(months))
        bench.beside_sqlite3()
        bench.over_months()


if __name__ == "__main__":
    if not 2 <= len(sys.argv) <= 6:
        sys.exit(__doc__)
    main(*sys.argv[1:])
