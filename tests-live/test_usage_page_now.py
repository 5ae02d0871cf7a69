#!/usr/bin/env -S python3 -B
"""Makes pages of a running server with tools/usage-page, and compares them with its report, its state and what is overdue."""
import csv
import datetime
import io
import re
import shutil

import live
from odd_server import Odd, reply
from serve_client import free_port, request
from spelled import CLASSES, GIB, create, journal, put, rules

RULES = ('{"Rules":[{"Expiration":{"Date":"2024-01-11T00:00:00.000Z"},"Filter":{"Prefix":"tmp/"},"ID":"gone","Status":"Enabled"}],'
         '"TransitionDefaultMinimumObjectSize":"all_storage_classes_128K"}')
TARIFF = ("[storage]\n" + "\n".join(f"{it} = {price}" for it, price in zip(CLASSES, (23_000, 12_500, 10_000, 4_000, 3_600, 990)))
          + "\n[transition]\n" + "\n".join(f"{it} = 30000" for it in CLASSES[1:]) + "\n")
BROWSERS = ("chromium", "chromium-browser", "google-chrome")


def rows_of(page, table):
    """The rows of a table with the exact value of each cell."""
    body = re.search(rf'<table id="{table}">.*?</table>', page, re.S)[0]
    rows = [re.findall(r'<t[hd][^>]*>(?:<data value="([^"]*)">[^<]*</data>|([^<]*))', it) for it in body.split("<tr>")[2:]]
    return [[exact or text for exact, text in row] for row in rows]


def state_of(page):
    return re.search(r'data-state="([^"]*)"', page)[1]


class UsagePageNow(live.Case):
    def setUp(self):
        super().setUp()
        self.journal = self.new_folder("served") / "office-data" / "journal"
        self.journal.write_bytes(journal(create(1, "logs"), create(1, "raw"), put(1, "logs", "a", 3 * GIB), put(1, "raw", "tmp/x", GIB),
                                         put(1, "raw", "b", GIB, "STANDARD_IA"), put(2, "raw", "b", 5), rules(1 + 1, "raw", RULES)))
        self.server = self.serve()
        self.at = f"http://127.0.0.1:{self.server.port}"

    def ask(self, method, target, body=""):
        with self.server.client() as client:
            return client.ask(request(method, target, body))[1]

    def page(self, *words, at=None):
        return self.run_tool("usage-page", "--server", at or self.at, *words)

    def test_a_month_that_is_over(self):
        self.ask("PUT", "/tariff", TARIFF)
        status, page, notes = self.page("--journal", self.journal, "2024-01")
        self.check("open, and what is overdue", (0, "", "open", True), (status, notes, state_of(page), "one bucket has overdue lifecycle actions: raw." in page))
        report = [*csv.reader(io.StringIO(self.ask("GET", "/months/2024-01/report")))]
        self.check("the lines of the report", report[1:-1], rows_of(page, "lines")[:-1])
        self.check("by bucket", [["logs", "3.000000000", "0.000000000", "0"], ["raw", "1.032258069", "0.935483871", "0"]],
                   [it[:4] for it in rows_of(page, "buckets")[:-1]])
        self.check("no reader of the journal", "over", state_of(self.page("2024-01")[1]))
        self.check("month-end", 0, self.run_tool("month-end", "--server", self.at, "--journal", self.journal, "2024-01")[0])
        page = self.page("--journal", self.journal, "2024-02")[1]
        # Only a program that keeps a journal says there that January is closed.
        if b"\x0f\x07\xe8\x01" in self.journal.read_bytes():
            self.check("closed", ("closed", False), (state_of(self.page("--journal", self.journal, "2024-01")[1]), "Warning" in page))
        self.check("the next one is open", "open", state_of(page))

    def test_this_month_while_the_clock_runs(self):
        self.ask("PUT", "/tariff", TARIFF)
        month = f"{datetime.datetime.now(datetime.timezone.utc):%Y-%m}"
        for turn in range(5):
            before = f"{datetime.datetime.now(datetime.timezone.utc):%Y-%m-%dT%H:%M:%S}"
            status, page, _ = self.page("--journal", self.journal, "--unit", "EUR=1000000", month)
            as_of = re.search(r'data-as-of="([^"]*)"', page)[1]
            self.check(f"turn {turn}", (0, "open", True, True), (status, state_of(page), before <= as_of[:19], "It is not over and will change." in page))
            lines = rows_of(page, "lines")
            self.check(f"turn {turn}: the total is the sum", f"{sum(float(it[5]) for it in lines[:-1]):.6f}", lines[-1][5])
        path = self.folder / "page.html"
        self.check("to a file", (0, "", ""), self.page("--unit", "EUR=1000000", "--out", path, month))
        for browser in filter(shutil.which, BROWSERS):
            said = self.ended([browser, "--headless", "--no-sandbox", "--disable-gpu", f"--user-data-dir={self.folder / 'profile'}", "--dump-dom", path.as_uri()], text=True)
            self.check("a browser shows the same", rows_of(path.read_text("utf-8"), "lines"), rows_of(said.stdout, "lines"))
            break

    def test_what_cannot_be_done(self):
        self.check("no prices", (10, "", "usage-page: 2024-01: no prices are set for it (PUT /tariff)"), self.page("2024-01"))
        self.ask("PUT", "/tariff", TARIFF)
        for words in (["--server", self.at, "--report", "x", "2024-01"], ["--server", self.at, "--meters", "x", "2024-01"], ["--server", self.at, "2024-1"],
                      ["--server", self.at], ["2024-01"]):
            self.check(f"words that are none: {words}", 1, self.run_tool("usage-page", *words)[0])
        path = self.file("page.html", "before\n")
        self.check("no journal", 3, self.page("--journal", "none", "--out", path, "2024-01")[0])
        self.check("nobody listens", 2, self.page("--out", path, "2024-01", at=f"http://127.0.0.1:{free_port()}")[0])
        with Odd(self.server.port) as odd:
            odd.replies = {("GET", "/months/2024-01/report"): reply(200, "bucket,line,class,quantity,price,charge\n", "text/csv")}
            self.check("a report cut short", 2, self.page("--out", path, "2024-01", at=f"http://127.0.0.1:{odd.port}")[0])
        self.check("what was there is left", "before\n", path.read_text())

    def test_files_of_a_closed_month(self):
        self.ask("PUT", "/tariff", TARIFF)
        self.run_tool("month-end", "--server", self.at, "--journal", self.journal, "2024-01")
        self.run_tool("usage", "--server", self.at, "--journal", self.journal, "--out", "meters.csv", "2024-01")
        words = ("usage-page", "--report", "2024-01-report.csv", "--meters", "meters.csv")
        status, of_files, _ = self.run_tool(*words, "2024-01")
        self.check("of two files", (0, "not known"), (status, state_of(of_files)))
        of_server = self.page("2024-01")[1]
        for table in ("buckets", "classes", "lines"):
            self.check(f"the same table: {table}", rows_of(of_server, table), rows_of(of_files, table))
        self.check("one file", 1, self.run_tool("usage-page", "--report", "2024-01-report.csv", "2024-01")[0])


if __name__ == "__main__":
    live.main()
