#!/usr/bin/env -S python3 -B
"""Ends months with tools/month-end --bill beside a running server, and makes pages with the months before of tools/usage-page --bills."""
import shutil

import live
from serve_client import request
from spelled import CLASSES, GIB, create, delete, frame, journal, put
from sqlite_bills import all_rows, bills_of, changed, rows_of, written
from test_usage_page import Page, rows_of as lines_of

TARIFF = ("[storage]\n" + "\n".join(f"{it} = {price}" for it, price in zip(CLASSES, (23_000, 12_500, 10_000, 4_000, 3_600, 990)))
          + "\n[transition]\n" + "\n".join(f"{it} = 30000" for it in CLASSES[1:]) + "\n")
# 1 GiB in logs from January on; in raw 2 GiB up to the end of January.
JANUARY, FEBRUARY = [("logs", 23_000, 1), ("raw", 46_000, 1)], [("logs", 23_000, 1)]


class Tools(live.Case):
    def setUp(self):
        super().setUp()
        self.journal = self.new_folder("served") / "office-data" / "journal"
        self.journal.write_bytes(journal(create(1, "logs"), create(1, "raw"), put(1, "logs", "a", GIB), put(1, "raw", "b", 2 * GIB), delete(32, "raw", "b")))
        self.reports = self.folder / "reports"
        self.reports.mkdir()
        self.data = self.reports / "office-data"
        self.bills = self.data / "bills.db"
        self.server = self.serve()
        self.at = f"http://127.0.0.1:{self.server.port}"
        self.ask("PUT", "/tariff", TARIFF)

    def ask(self, method, target, body=""):
        with self.server.client() as client:
            return client.ask(request(method, target, body))[0]

    def end(self, *words, folder=None):
        status, said, notes = self.run_tool("month-end", "--server", self.at, "--journal", self.journal, "--folder", folder or self.reports, *words)
        return status, len(said.splitlines()), notes.splitlines()[-1].removeprefix("month-end: ")

    def post(self, month, *words):
        return self.end("--bill", self.program, *words, month)

    def rows(self):
        """The rows of the file, read from a copy."""
        copy = self.folder / "copy"
        shutil.rmtree(copy, ignore_errors=True)
        copy.mkdir()
        for it in self.data.glob("bills.db*"):
            shutil.copy(it, copy)
        return all_rows(copy / "bills.db")

    def page(self, month, *words):
        return self.run_tool("usage-page", "--server", self.at, "--journal", self.journal, "--bills", self.bills, "--unit", "EUR=1000000", *words, month)


class MonthEnd(Tools):
    def test_months(self):
        january, february = rows_of("2024-01", JANUARY), rows_of("2024-02", FEBRUARY)
        self.check("January", ((0, 2, "2024-01: bills 2 total 69000"), january), (self.post("2024-01"), self.rows()))
        self.check("its bills are those of its report", january, rows_of("2024-01", bills_of(lines_of(self.reports / "2024-01-report.csv")[1:-1])))
        self.check("the same words again", ((0, 2, "2024-01: already posted 2 total 69000"), january), (self.post("2024-01"), self.rows()))
        copy = (self.data / "journal").read_bytes()
        self.ask("PUT", "/buckets/raw/objects/c", '{"size":1000}')
        self.check("a month that the copy has", (0, copy), (self.post("2024-01")[0], (self.data / "journal").read_bytes()))
        self.check("February", ((0, 2, "2024-02: bills 1 total 23000"), january + february), (self.post("2024-02"), self.rows()))
        self.check("the copy was renewed", True, len((self.data / "journal").read_bytes().rstrip(b"\0")) > len(copy.rstrip(b"\0")))
        self.check("the server goes on", 200, self.ask("GET", "/buckets/raw"))
        self.check("no bills beside the server", [], list(self.journal.parent.glob("bills*")))

    def test_a_month_that_stays_open(self):
        self.check("an earlier month is open", 8, self.post("2024-02")[0])
        self.check("nothing is copied", False, self.data.exists())

    def test_a_month_that_was_closed_before(self):
        self.check("without the bills", 0, self.end("2024-01")[0])
        self.check("no bills", False, self.data.exists())
        self.check("with them", (0, 2, "2024-01: bills 2 total 69000"), self.post("2024-01"))

    def test_other_bills(self):
        self.data.mkdir()
        written(self.bills, {"2024-01": [("logs", 1, 1)]})
        self.check("other bills", (13, 2, f"other bills of 2024-01 are kept in {self.reports}/office-data/bills.db, and stay there"), self.post("2024-01"))
        self.check("they stay", rows_of("2024-01", [("logs", 1, 1)]), self.rows())

    def test_what_fails(self):
        self.data.mkdir()
        self.bills.write_bytes(b"no database\n" * 1_000)
        failed = (11, 2, "the bills of 2024-01 are not posted: bill ended with exit code 11: bills: failed")
        self.check("no database", failed, self.post("2024-01"))
        self.bills.unlink()
        for name, text in (("of another office", journal(create(1, "zoo"), put(1, "zoo", "z", GIB))),
                           ("that is longer", self.journal.read_bytes().rstrip(b"\0")[:-1] + b"\xa5" + frame(33, 1, b"\0\3zoo")[:-1] + b"\0")):
            (self.data / "journal").write_bytes(text)
            status, count, note = self.post("2024-01")
            self.check(f"a copy {name}", (11, 2, True), (status, count, note.startswith(f"{self.reports}/office-data/journal is not the front of ")))
            self.check(f"a copy {name} is left", text, (self.data / "journal").read_bytes())
        self.check("no bills", [], list(self.data.glob("bills.db")))
        (self.data / "journal").unlink()
        self.check("mended", (0, 2, "2024-01: bills 2 total 69000"), self.post("2024-01"))

    def test_programs_that_are_none(self):
        for name, text, note in (
                ("no line", "", "the bills of 2024-01 are not posted: bill ended with exit code 0"),
                ("another line", "echo 'bills two total 69000'", "the bills of 2024-01 are not posted: bill ended with exit code 0"),
                ("another total", "echo 'bills 2 total 69001'",
                 "the bills of 2024-01 are not those of its report: bills 2 total 69001, and the report has 2 buckets, total 69000"),
                ("a signal", "kill -9 $$", "the bills of 2024-01 are not posted: bill ended with exit code -9")):
            other = self.file("other", f"#!/bin/sh\n{text}\n")
            other.chmod(0o755)
            self.check(name, (11, 2, note), self.end("--bill", other, "2024-01"))

    def test_words(self):
        self.check("no journal", 1, self.run_tool("month-end", "--server", self.at, "--bucket", "logs", "--bill", self.program, "2024-01")[0])
        self.check("no program", (1, 0, "none: no program"), self.end("--bill", "none", "2024-01"))
        self.check("the folder of the server", (1, 0), self.end("--bill", self.program, "2024-01", folder=self.journal.parent.parent)[:2])
        self.check("the month is as it was", 0, self.post("2024-01")[0])


class UsagePage(Tools):
    def test_months_before(self):
        for month in ("2024-01", "2024-02", "2024-03"):
            self.post(month)
        status, text, notes = self.page("2024-03")
        page = Page(text)
        self.check("a bar a month", (0, "", [["2024-01", "2", "0.069000", "100.0%"], ["2024-02", "1", "0.023000", "33.3%"],
                                            ["2024-03 (closed)", "1", "0.023000", "33.3%"]]), (status, notes, page.tables["before"][1:]))
        self.check("nothing is loaded or run, and what is seen is exact", ([], []), (page.loads, page.wrong))
        self.check("the first month", (0, True), ((it := self.page("2024-01"))[0], "No month before this one was posted." in it[1]))
        changed(self.bills, "DELETE FROM bills WHERE month = '2024-02'")
        self.check("a month that is missing", ["2024-02", "not posted", "", ""], Page(self.page("2024-03")[1]).tables["before"][2])
        before = {it.name: it.read_bytes() for it in self.data.glob("bills*")}
        self.check("an open month", (0, ["2024-04 (open)", "1", "0.023000", "33.3%"]), ((it := self.page("2024-04"))[0], Page(it[1]).tables["before"][-1]))
        self.check("the files are as they were", before, {it.name: it.read_bytes() for it in self.data.glob("bills*")})

    def test_without_bills(self):
        status, text, _ = self.run_tool("usage-page", "--server", self.at, "2024-01")
        self.check("no table", (0, False), (status, "before" in Page(text).tables))

    def test_of_files(self):
        self.post("2024-01")
        self.check("February", 0, self.post("2024-02")[0])
        self.run_tool("usage", "--server", self.at, "--journal", self.journal, "--out", "meters.csv", "2024-02")
        status, text, _ = self.run_tool("usage-page", "--report", self.reports / "2024-02-report.csv", "--meters", "meters.csv", "--bills", self.bills, "2024-02")
        self.check("of files", (0, ["2024-01", "2", "69000", "100.0%"]), (status, Page(text).tables["before"][1]))

    def test_bills_that_do_not_belong_there(self):
        self.post("2024-01")
        changed(self.bills, "UPDATE bills SET total = '23001' WHERE bucket = 'logs'")
        self.check("a header that is no sum", (5, "", f"usage-page: {self.bills}: the header of 2024-01 has 2 bills of 69000 in all, and its bills are 2 of 69001"),
                   self.page("2024-02"))
        changed(self.bills, "UPDATE bills SET total = '69001' WHERE bucket = ''")
        self.check("another total", (5, "", f"usage-page: the report and the bills do not belong together: 2024-01 is 69000 in the report and 69001 in {self.bills}"),
                   self.page("2024-01"))
        self.bills.write_bytes(b"no database\n" * 1_000)
        self.check("no database, status", 5, self.page("2024-02")[0])
        self.bills.unlink()
        self.check("no file, status", 3, self.page("2024-02")[0])


if __name__ == "__main__":
    live.main()
