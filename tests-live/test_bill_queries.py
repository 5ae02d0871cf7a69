#!/usr/bin/env -S python3 -B
"""Runs the queries of docs/BILLING.md, "Query the bills", and the statements of docs/FORMATS.md, "Bills", by the command sqlite3, over
random bills, and compares them with sums of Python.

It needs no program: python3 -B -m unittest discover -s tests-live -p test_bill_queries.py
"""
import datetime
import pathlib
import random
import re
import shutil
import sqlite3
import subprocess
import tempfile
import unittest

import live
from plain_months import next_month
from sqlite_bills import BILL, HEADER, MONTH, TABLE, rows_of, written

BILLING, FORMATS = ((live.ROOT / "docs" / name).read_text("utf-8") for name in ("BILLING.md", "FORMATS.md"))
LARGEST = 2 ** 63 - 1


def section(text, heading):
    return re.search(rf"^## {heading}\n(.*?)(?=^## )", text, flags=re.DOTALL | re.MULTILINE)[1]


def blocks(text):
    return re.findall(r"^```sql\n(.*?)^```", text, flags=re.DOTALL | re.MULTILINE)


def drawn(seed):
    """Random bills of some months from 2022 to 2024, of which some are missing and some have no bill."""
    draw = random.Random(seed)
    names = [f"bucket-{place:02}" for place in range(draw.choice((1, 5, 40)))]
    months = [f"{year}-{number:02}" for year in (2022, 2023, 2024) for number in range(1, 13)]
    return {month: [(name, draw.choice((0, 1, 999, draw.randrange(10 ** 6), draw.randrange(10 ** 15))), draw.randrange(1, 19))
                    for name in sorted(draw.sample(names, draw.randint(0, len(names))))]
            for month in sorted(draw.sample(months, draw.randint(1, len(months))))}


def total_of(bills):
    return sum(total for _, total, _ in bills)


def rounded(number):
    return f"{number:.1f}"


@live.needs("sqlite3")
class Queries(unittest.TestCase):
    maxDiff = None

    def setUp(self):
        self.folder = pathlib.Path(tempfile.mkdtemp())
        self.addCleanup(shutil.rmtree, self.folder)
        self.path = self.folder / "bills.db"
        self.check, self.year, self.quarter, self.growth, self.ten, self.missing = blocks(section(BILLING, "Query the bills"))

    def ask(self, statement):
        """What sqlite3 prints: a list of fields for each row."""
        done = subprocess.run(["sqlite3", "-batch", self.path, statement], capture_output=True, text=True, timeout=60, check=False)
        self.assertEqual((0, ""), (done.returncode, done.stderr))
        return [line.split("|") for line in done.stdout.splitlines()]

    def each(self):
        """Random files, with their bills by month."""
        for seed in live.seeds(1, 20):
            self.path.unlink(missing_ok=True)
            months = drawn(seed)
            written(self.path, months)
            with self.subTest(seed=seed):
                yield months

    def test_exact(self):
        for _ in self.each():
            self.assertEqual([], self.ask(self.check))
        written(self.path, {"2030-01": [("abc", 10 ** 18, 1), ("abd", 10 ** 18 - 1, 1)]})
        self.assertEqual([["2030-01", "", str(2 * 10 ** 18 - 1)], ["2030-01", "abc", str(10 ** 18)]], sorted(self.ask(self.check)))

    def test_where_the_integers_end(self):
        """What the page says of SQLite: a larger text is cast to the largest integer, and a sum past it is an error."""
        self.assertIn(f"{LARGEST:,}", section(BILLING, "Query the bills"))
        self.assertEqual([[str(LARGEST)] * 3], self.ask(f"SELECT CAST('{LARGEST}' AS INTEGER), CAST('{LARGEST + 1}' AS INTEGER), CAST('{10 ** 38}' AS INTEGER)"))
        written(self.path, {f"2024-{month:02}": [("abc", 10 ** 18 - 1, 1)] for month in range(1, 11)})
        done = subprocess.run(["sqlite3", "-batch", self.path, self.year], capture_output=True, text=True, timeout=60, check=False)
        self.assertEqual(("", True), (done.stdout, "integer overflow" in done.stderr))

    def test_buckets_of_a_year(self):
        for months in self.each():
            found = {}
            for month, bills in months.items():
                for name, total, _ in bills if month[:4] == "2024" else ():
                    count, charged = found.get(name, (0, 0))
                    found[name] = (count + 1, charged + total)
            wanted = [[name, str(count), str(charged)] for name, (count, charged) in sorted(found.items(), key=lambda it: (-it[1][1], it[0]))]
            self.assertEqual(wanted, self.ask(self.year))

    def test_quarters(self):
        for months in self.each():
            found = {}
            for month, bills in months.items():
                name = f"{month[:4]}-Q{(int(month[5:]) + 2) // 3}"
                found[name] = (found.get(name, (0, 0))[0] + 1, found.get(name, (0, 0))[1] + total_of(bills))
            self.assertEqual([[name, *map(str, it)] for name, it in sorted(found.items())], self.ask(self.quarter))

    def test_growth(self):
        for months in self.each():
            wanted, before = [], None
            for month, bills in months.items():
                total = total_of(bills)
                more = "" if before is None else str(total - before)
                wanted.append([month, str(total), more, rounded(100 * total / before - 100) if before else ""])
                before = total
            found = self.ask(self.growth)
            self.assertEqual([row[:3] for row in wanted], [row[:3] for row in found])
            for one, other in zip(wanted, found):  # the last digit of a rounding may differ
                self.assertEqual(one[3] == "", other[3] == "")
                self.assertTrue(one[3] == "" or abs(float(one[3]) - float(other[3])) <= max(0.11, 1e-9 * abs(float(one[3]))), (one, other))

    def test_ten(self):
        for months in self.each():
            bills = months[max(months)]
            rows = sorted(bills, key=lambda it: (-it[1], it[0]))[:10]
            found = self.ask(self.ten)
            self.assertEqual([[name, str(total)] for name, total, _ in rows], [row[:2] for row in found])
            whole = total_of(bills)
            for row, (_, total, _) in zip(found, rows):
                self.assertTrue(abs(float(row[2]) - 100 * total / whole) <= 0.051 if whole else row[2] == "", row)

    def test_missing_months(self):
        last = datetime.datetime.now(datetime.timezone.utc).replace(day=1) - datetime.timedelta(days=1)
        for months in self.each():
            wanted, month = [], min(months)
            while month <= f"{last:%Y-%m}":
                wanted += [] if month in months else [[month]]
                month = next_month(month)
            self.assertEqual(wanted, self.ask(self.missing))

    def test_an_empty_table(self):
        written(self.path, {})
        for statement in (self.check, self.year, self.quarter, self.growth, self.ten, self.missing):
            self.assertEqual([], self.ask(statement))

    def test_the_first_command(self):
        """The command before the queries, which prints the months."""
        command = re.search(r'^sqlite3 .* "(SELECT .*)"$', section(BILLING, "Query the bills"), flags=re.MULTILINE)[1]
        for months in self.each():
            self.assertEqual([[month, str(len(bills)), str(total_of(bills))] for month, bills in months.items()], self.ask(command))


class Statements(unittest.TestCase):
    """The statements of docs/FORMATS.md, which the other tests write files with."""

    def test_as_shown(self):
        shown = [" ".join(it.split()).rstrip(";") for block in blocks(section(FORMATS, "Bills")) for it in block.split(";\n") if it.strip()]
        self.assertEqual([TABLE, HEADER, BILL, MONTH], shown)

    def test_what_they_do(self):
        base = sqlite3.connect(":memory:")
        self.addCleanup(base.close)
        base.execute(TABLE)
        base.execute(TABLE)
        header, *rows = rows_of("2024-01", [("aaa", 5, 1), ("bbb", 7, 2)])
        wanted = [("", "12", 2), ("aaa", "5", 1), ("bbb", "7", 2)]
        for count in (1, 0):
            self.assertEqual(count, base.execute(HEADER, (header[0], *header[2:])).rowcount)
            if count:
                for row in rows:
                    base.execute(BILL, row)
            self.assertEqual(wanted, base.execute(MONTH, ("2024-01",)).fetchall())
        with self.assertRaises(sqlite3.IntegrityError):
            base.execute(BILL, rows[0])
        with self.assertRaises(sqlite3.IntegrityError):
            base.execute(BILL, ("2024-02", "aaa", "5", "a number"))


if __name__ == "__main__":
    live.main()
