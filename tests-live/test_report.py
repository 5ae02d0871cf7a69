#!/usr/bin/env -S python3 -B
"""Writes journals of spelled entries with several tariffs, some in tiers, and closed months, and compares `report` of each of their
months, as CSV and as a table, with a plain model. The CSV is read by Python's csv, and by sqlite3.

OFFICE_SEEDS=1000,100 takes 100 histories from number 1000 on in place of 10.
"""
import contextlib
import csv
import io
import random

import live
from plain_months import Months, entry_of, plain
from plain_office import CLASSES, DAY, END, Bucket, Refused

START = 1_704_067_200_000  # 2024-01-01 00:00 UTC
NAMES, KEYS, MONTHS = ("a.b", "logs", "x-1"), ("a", 'b,"c"', "d"), ("2023-12", "2024-01", "2024-02", "2024-03", "2024-04")
HEAD = ["bucket", "line", "class", "quantity", "price", "charge"]


def place(text):
    return len(text.encode()).to_bytes(2, "big") + text.encode()


class History:
    """Random puts, deletions, tariffs and closings: as entries of a journal, and in the models."""

    def __init__(self, seed):
        draw, now = random.Random(seed), START
        self.draw, self.buckets, self.months, self.journal = draw, {}, Months(), b"\xa5METERJRN1\xa5"
        self.set_tariff(now, draw.choice(("1970-01", "2024-01", "2024-02")))
        for name in NAMES[: draw.randint(0, 3)]:
            self.buckets[name] = Bucket(now)
            self.keep(now, 1, place(name))
        for _ in range(50 if self.buckets else 0):
            now += draw.randint(0, 3 * DAY)
            how = draw.random()
            if how < 0.08:
                self.set_tariff(now, draw.choice(("1970-01", "2023-12", "2024-01", "2024-02", "2024-03", "2024-04", "2030-01")))
            elif how < 0.16:
                self.close(now)
            else:
                self.change(now)

    def tiers(self):
        """One to three tiers, with ends that quantities of here fall on both sides of."""
        prices = [self.draw.choice((0, 1, 23_000, 1_048_576)) for _ in range(self.draw.choice((1, 1, 2, 3)))]
        ends = sorted(self.draw.sample((1, 2, 5, 7, 4_096, 2**32 - 1), len(prices) - 1))
        return list(zip([*ends, None], prices))

    def set_tariff(self, now, first):
        tariff = {**plain([], [self.draw.choice((0, 7, 10_000)) for _ in CLASSES[1:]], first), "storage": {it: self.tiers() for it in CLASSES}}
        self.months.set_tariff(tariff)
        kind, *fields = entry_of(tariff)
        self.keep(now, kind, bytes(fields))

    def close(self, now):
        """Closes the first month that is open, if it is over and has a tariff."""
        month = self.months.to_close(now)
        with contextlib.suppress(Refused):
            self.months.close(month, self.buckets, now)
            self.keep(now, 15, int(month[:4]).to_bytes(2, "big") + bytes([int(month[5:])]))

    def change(self, now):
        draw = self.draw
        name, key = draw.choice(sorted(self.buckets)), draw.choice(KEYS)
        bucket = self.buckets[name]
        if draw.random() < 0.3 and key in bucket.stacks:
            bucket.delete(key, now)
            self.keep(now, 6, place(name) + place(key))
        else:
            size, cold = draw.choice((0, 5, 131_073, 2**30, 3 * 2**30, 5 * 2**40)), draw.choice(CLASSES)
            bucket.put(key, size, cold, {}, now)
            self.keep(now, 5, place(name) + place(key) + size.to_bytes(8, "big") + bytes([CLASSES.index(cold), 0]))

    def keep(self, now, kind, fields):
        self.months.accepted(now)
        entry = now.to_bytes(8, "big") + bytes([kind]) + fields
        self.journal += len(entry).to_bytes(4, "big") + entry + b"\xa5"

    def report(self, month):
        """Its rows, bucket, line, class, quantity, price and charge; nothing where no tariff is in force."""
        try:
            return list(self.months.lines(month, self.buckets, END))
        except Refused:
            return None


class Report(live.Case):
    def run_it(self, *words):
        done = self.office(*words)
        return done.returncode, done.stdout.decode(), done.stderr.decode()

    def months(self):
        """Each month of each history, which the program finds in its folder."""
        journal = self.folder / "office-data/journal"
        journal.parent.mkdir()
        for seed in live.seeds(1, 10):
            history = History(seed)
            journal.write_bytes(history.journal[:-1] + b"\0")
            for month in MONTHS:
                rows = history.report(month)
                if rows is None:
                    self.check(f"{month} of history {seed}", (10, "", "report: no tariff\n"), self.run_it("report", month))
                else:
                    yield seed, month, rows
            self.assertEqual(history.journal[:-1] + b"\0", journal.read_bytes(), "the journal is as it was")

    def test_csv(self):
        for seed, month, rows in self.months():
            status, text, note = self.run_it("report", month)
            wanted = [HEAD, *([str(it) for it in row] for row in rows), ["", "total", "", "", "", str(sum(row[5] for row in rows))]]
            self.check(f"{month} of history {seed}", (0, "", wanted), (status, note, list(csv.reader(io.StringIO(text)))))

    def test_table(self):
        for seed, month, rows in self.months():
            lines = [f"{row[0]:<24} {row[1]:<12} {row[2]:<14} {row[3]:>28} {row[5]:>16}\n"
                     for row in rows + [("", "total", "", "", 0, sum(row[5] for row in rows))]]
            self.check(f"{month} of history {seed}", (0, "".join(lines), ""), self.run_it("report", "--text", month))

    @live.needs("sqlite3")
    def test_read_by_sqlite3(self):
        for seed, month, rows in self.months():
            total = sum(row[5] for row in rows)
            if total >= 2**63:
                continue  # more than a number of sqlite3
            self.file("report.csv", self.run_it("report", month)[1])
            words = [".mode csv", ".import report.csv r", "select coalesce(sum(charge), 0) from r where line <> 'total'",
                     "select charge from r where line = 'total'"]
            done = self.ended(["sqlite3", ":memory:", *words], text=True)
            self.check(f"{month} of history {seed}", ([str(total)] * 2, ""), (done.stdout.split(), done.stderr))

    def test_no_report(self):
        (self.folder / "office-data").mkdir()
        self.check("no journal", (5, "", "journal: not made\n"), self.run_it("report", "2024-01"))
        self.run_it("init")
        self.check("no prices", (10, "", "report: no tariff\n"), self.run_it("report", "2024-01"))
        for words in ((), ("2024-13",), ("2024-1",), ("2024-01", "2024-02"), ("2024-01", "--text=1")):
            status, text, note = self.run_it("report", *words)
            self.check(" ".join(words), (1, "", "usage:"), (status, text, note[:6]))


if __name__ == "__main__":
    live.main()
