"""The bills of closed months, read from files that SQLite writes by the statements of docs/FORMATS.md, "Bills"."""
import contextlib
import os
import pathlib
import shutil
import sqlite3
import sys
import tempfile
import unittest

sys.path.insert(0, str(pathlib.Path(__file__).resolve().parent.parent))
from office_tools.asking import Stop  # noqa: E402
from office_tools.bills import IllMade, Posted, months_of, read_bills  # noqa: E402
from office_tools.page import months_before, next_month  # noqa: E402
from office_tools.reports import Line, Report  # noqa: E402
from office_tools.statement import Statement, Unit  # noqa: E402

TABLE = ("CREATE TABLE IF NOT EXISTS bills(month TEXT NOT NULL, bucket TEXT NOT NULL, total TEXT NOT NULL, lines INTEGER NOT NULL, "
         "PRIMARY KEY(month, bucket)) STRICT")
ROWS = [("2024-01", "", "72600", 2), ("2024-01", "logs", "23000", 1), ("2024-01", "raw", "49600", 2), ("2024-02", "", "0", 0)]
FOUND = [Posted("2024-01", 72_600, 2), Posted("2024-02", 0, 0)]


class Months(unittest.TestCase):
    def test_rows(self):
        self.assertEqual(FOUND, months_of(ROWS))
        self.assertEqual([], months_of([]))

    def test_the_largest_numbers(self):
        total = str(2 ** 128 - 1)
        self.assertEqual([Posted("2099-12", 2 ** 128 - 1, 1)], months_of([("2099-12", "", total, 1), ("2099-12", "abc", total, 2 ** 32 - 1)]))

    def test_rows_that_are_not_well_made(self):
        one = ROWS[1]
        for rows, why in (
                ([("2024-13", *ROWS[0][1:])], "a month is '2024-13'"), ([("2024-1", *ROWS[0][1:])], "a month is '2024-1'"),
                ([(None, *ROWS[0][1:])], "a month is 'None'"), ([ROWS[0], (one[0], "Logs", *one[2:])], "in 2024-01 a bucket is 'Logs'"),
                ([(*ROWS[0][:2], "072600", 2)], "in 2024-01 the total of the month is '072600'"),
                ([(*ROWS[0][:2], str(2 ** 128), 2)], f"in 2024-01 the total of the month is '{2 ** 128}'"),
                ([ROWS[0], (*one[:2], 23_000, 1)], "in 2024-01 the total of logs is '23000'"),
                ([ROWS[0], (*one[:3], -1)], "in 2024-01 the number of lines of logs is '-1'"),
                ([ROWS[0], (*one[:3], 2 ** 32)], f"in 2024-01 the number of lines of logs is '{2 ** 32}'"),
                (ROWS[1:], "2024-01 has no header"), (ROWS[:3] + [("2024-02", "logs", "0", 1)], "2024-02 has no header"),
                (ROWS[:2], "the header of 2024-01 has 2 bills of 72600 in all, and its bills are 1 of 23000"),
                (ROWS[:1], "the header of 2024-01 has 2 bills of 72600 in all, and its bills are 0 of 0"),
                ([("2024-01", "", "72601", 2), *ROWS[1:]], "the header of 2024-01 has 2 bills of 72601 in all, and its bills are 2 of 72600")):
            with self.subTest(why), self.assertRaises(IllMade) as found:
                months_of(rows)
            self.assertEqual(why, str(found.exception))


class Files(unittest.TestCase):
    def setUp(self):
        self.folder = pathlib.Path(tempfile.mkdtemp())
        self.addCleanup(shutil.rmtree, self.folder)
        self.path = self.folder / "bills.db"

    def write(self, mode="delete"):
        """Writes the rows. With a log they stay in it, as after the program wrote them."""
        (self.folder / "written").unlink(missing_ok=True)
        with contextlib.closing(sqlite3.connect(self.folder / "written")) as base:
            base.execute(f"PRAGMA journal_mode = {mode}")
            base.execute(TABLE)
            with base:
                base.executemany("INSERT INTO bills VALUES (?, ?, ?, ?)", ROWS)
            for end in ("", "-wal"):
                if os.path.exists(f"{self.folder / 'written'}{end}"):
                    shutil.copy(f"{self.folder / 'written'}{end}", f"{self.path}{end}")

    def refused(self, status, part):
        with self.assertRaises(Stop) as found:
            read_bills(str(self.path))
        self.assertEqual(status, found.exception.args[0])
        self.assertIn(part, found.exception.args[1])

    def test_files(self):
        for mode in ("delete", "wal"):
            self.write(mode)
            before = {it.name: it.read_bytes() for it in self.folder.glob("bills.db*")}
            self.assertEqual("wal" == mode, "bills.db-wal" in before)
            self.assertEqual(FOUND, read_bills(str(self.path)))
            self.assertEqual(before, {it.name: it.read_bytes() for it in self.folder.glob("bills.db*")})

    def test_what_is_no_file_of_bills(self):
        self.refused(3, "No such file or directory")
        self.path.mkdir()
        self.refused(3, "Is a directory")
        self.path.rmdir()
        self.path.write_bytes(b"no database\n" * 1_000)
        self.refused(5, "no file of bills: file is not a database")
        self.path.write_bytes(b"")
        self.refused(5, "no file of bills: no such table: bills")
        self.write()
        (self.folder / "bills.db-journal").touch()
        self.refused(3, "somebody writes it")
        (self.folder / "bills.db-journal").unlink()
        with contextlib.closing(sqlite3.connect(self.path)) as base, base:
            base.execute("DELETE FROM bills WHERE bucket = ''")
        self.refused(5, "2024-01 has no header")


class Bars(unittest.TestCase):
    def test_next_month(self):
        self.assertEqual(["2024-02", "2025-01"], [next_month("2024-01"), next_month("2024-12")])

    def test_a_bar_a_month(self):
        statement = Statement("2024-04", Report([Line("logs", "storage", "STANDARD", 1, 1, 145_200)], 145_200), True, None, [], "")
        text = months_before([Posted("2024-01", 72_600, 2), Posted("2024-03", 36_300, 1)], statement, Unit("EUR", 1_000_000))
        for part in ('<th scope="row">2024-01</th><td class="n"><data value="2">2</data></td><td class="n"><data value="0.072600">0.072600</data></td>'
                     '<td class="n"><meter min="0" max="1000" value="500">50.0%</meter></td>',
                     '<th scope="row">2024-02</th><td class="n">not posted</td><td class="n"></td><td class="n"></td>',
                     'value="250">25.0%</meter>', '<th scope="row">2024-04 (closed)</th>', 'value="1000">100.0%</meter>'):
            self.assertIn(part, text)
        self.assertEqual(4, text.count('<th scope="row">'))

    def test_no_month(self):
        statement = Statement("2024-04", Report([], 0), True, None, [], "")
        self.assertIn("No month before this one was posted.", months_before([], statement, Unit("units", 1)))


if __name__ == "__main__":
    unittest.main()
