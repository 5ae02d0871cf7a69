#!/usr/bin/env -S python3 -B
"""Prints bills of a journal of January 2024 that is spelled by hand with tools/bill, and compares them with sums by hand."""
import datetime

import live
from odd_server import Odd, reply
from serve_client import free_port, request
from spelled import CLASSES, GIB, create, journal, put, rules

RULES = ('{"Rules":[{"Expiration":{"Date":"2024-01-11T00:00:00.000Z"},"Filter":{"Prefix":"tmp/"},"ID":"gone","Status":"Enabled"}],'
         '"TransitionDefaultMinimumObjectSize":"all_storage_classes_128K"}')
TARIFF = ("[storage]\n" + "\n".join(f"{it} = {price}" for it, price in zip(CLASSES, (23_000, 12_500, 10_000, 4_000, 3_600, 990)))
          + "\n[transition]\n" + "\n".join(f"{it} = 30000" for it in CLASSES[1:]) + "\n")
NOT_BILLED = "Not billed here: requests, retrieval, data transfer out (egress), monitoring and taxes."


class Bill(live.Case):
    def setUp(self):
        super().setUp()
        self.journal = self.new_folder("served") / "office-data" / "journal"
        self.journal.write_bytes(journal(create(1, "logs"), create(1, "raw"), put(1, "logs", "a", 3 * GIB), put(1, "raw", "tmp/x", GIB),
                                         put(1, "raw", "b", GIB, "DEEP_ARCHIVE"), rules(1, "raw", RULES)))
        self.server = self.serve()
        self.at = f"http://127.0.0.1:{self.server.port}"

    def ask(self, method, target, body=""):
        with self.server.client() as client:
            return client.ask(request(method, target, body))[0]

    def bill(self, *words):
        return self.run_tool("bill", *words)

    def of_server(self, *words):
        return self.bill("--server", self.at, *words)

    def test_before_and_after_the_close(self):
        self.check("without prices", (10, "", "bill: 2024-01: no prices are set for it (PUT /tariff)"), self.of_server("2024-01"))
        self.check("prices are set", 200, self.ask("PUT", "/tariff", TARIFF))
        status, said, notes = self.of_server("--unit", "EUR=1000000", "--journal", self.journal, "2024-01")
        lines = said.splitlines()
        self.check("title", (0, "", "Object storage in January 2024 (2024-01-01 to 2024-01-31, UTC)"), (status, notes, lines[0]))
        self.check("open, as of now", True, lines[1].startswith("State: open. The month is over and not closed, as of "
                                                                f"{datetime.datetime.now(datetime.timezone.utc):%Y-%m-%dT}"))
        # 3 GiB at 0.023; 1 GiB of tmp/x, whose removal is overdue; DEEP_ARCHIVE has 32 KiB more, and 8 KiB in STANDARD.
        rows = [line.split() for line in lines[5:8]]
        self.check("three GiB through the month", ["logs", "storage", "STANDARD", "3.000000", "GiB-months", "0.023000", "each", "0.069000"], rows[0])
        self.check("a GiB and 8 KiB", ["raw", "storage", "STANDARD", "1.000008", "GiB-months", "0.023000", "each", "0.023000"], rows[1])
        self.check("a GiB and 32 KiB", ["raw", "storage", "DEEP_ARCHIVE", "1.000031", "GiB-months", "0.000990", "each", "0.000990"], rows[2])
        self.check("total", ["total", "0.092990", "EUR"], lines[9].split())
        self.check("what is overdue", "Warning: one bucket has overdue lifecycle actions: raw. The first is remove of the key 'tmp/x' in bucket raw, "
                   "due since 2024-01-11T00:00:00Z. The figures change when these actions are done (act-all).", lines[11])
        self.check("what is not billed", NOT_BILLED, lines[12])
        self.check("no unit is named", ["total", "92,990", "units"], self.of_server("2024-01")[1].splitlines()[9].split())
        self.check("another unit", ["total", "929.90", "ct"], self.of_server("--unit", "ct=100", "2024-01")[1].splitlines()[9].split())
        self.check("a unit that is no power of ten", ["total", "30,996.666667", "x"], self.of_server("--unit", "x=3", "2024-01")[1].splitlines()[9].split())

        self.check("month-end", 0, self.run_tool("month-end", "--server", self.at, "--journal", self.journal, "2024-01")[0])
        status, said, _ = self.of_server("--unit", "EUR=1000000", "2024-01")
        self.check("without the journal", (0, True, False), (status, "State: over." in said, "Warning" in said))
        # The removal stands at January 11: 10 of 31 days of 23,000, rounded down.
        self.check("after the removal", ["raw", "storage", "STANDARD", "0.322588", "GiB-months", "0.023000", "each", "0.007419"],
                   said.splitlines()[6].split())
        status, of_file, _ = self.bill("--report", self.folder / "2024-01-report.csv", "--unit", "EUR=1000000", "2024-01")
        self.check("of the file of month-end, the same lines", said.splitlines()[3:10], of_file.splitlines()[3:10])
        self.check("of the file, whether it is closed", True, "State: not known." in of_file)

    def test_closed_by_the_journal(self):
        self.ask("PUT", "/tariff", TARIFF)
        status, said, _ = self.of_server("--journal", self.journal, "2023-12")
        self.check("a month before the first command", (0, True, True), (status, "State: closed. The month is closed: this is final." in said,
                                                                         "(nothing was stored)" in said))
        this = f"{datetime.datetime.now(datetime.timezone.utc):%Y-%m}"
        status, said, _ = self.of_server("--journal", self.journal, "--out", self.folder / "bill.txt", this)
        text = (self.folder / "bill.txt").read_text("utf-8")
        self.check("this month, to a file", (0, "", True), (status, said, "It is not over and will change." in text))

    def test_what_cannot_be_done(self):
        for words in (["2024-01"], ["--server", self.at], ["--server", self.at, "2024-13"], ["--server", self.at, "--unit", "a b", "2024-01"],
                      ["--server", self.at, "--unit", "EUR=0", "2024-01"], ["--server", self.at, "--report", "x", "2024-01"],
                      ["--report", "x", "--bucket", "logs", "2024-01"], ["--server", "127.0.0.1:80", "2024-01"]):
            self.check(f"words that are none: {words}", (1, ""), self.bill(*words)[:2])
        self.ask("PUT", "/tariff", TARIFF)
        self.check("a bucket that is not there", (5, "", "bill: bucket none: 404 NoSuchBucket"), self.of_server("--bucket", "none", "2024-01"))
        self.check("no journal", 3, self.of_server("--journal", "none", "2024-01")[0])
        self.check("no report", (3, "", "bill: none: No such file or directory"), self.bill("--report", "none", "2024-01"))
        self.check("a report that is none", 5, self.bill("--report", self.journal, "2024-01")[0])
        self.check("no folder", 4, self.of_server("--out", "none/x", "2024-01")[0])
        self.check("nobody listens", 2, self.bill("--server", f"http://127.0.0.1:{free_port()}", "2024-01")[0])
        with Odd(self.server.port) as odd:
            at = f"http://127.0.0.1:{odd.port}"
            for name, said in (("a report cut short", reply(200, "bucket,line,class,quantity,price,charge\n", "text/csv")), ("a page", reply(200, "<html>")),
                               ("a disk that failed", reply(503, '{"error":"StoreFault","number":114}'))):
                odd.replies = {("GET", "/months/2024-01/report"): said}
                self.check(name, (2, ""), self.bill("--server", at, "2024-01")[:2])
            odd.replies = {("GET", "/buckets/raw/due"): reply(403, "<html>")}
            status, said, _ = self.bill("--server", at, "2024-01")
            self.check("a login that may not ask what is due", (0, True), (status, "Warning: whether lifecycle actions are overdue is not known." in said))
        self.check("help", 0, self.bill("--help")[0])


if __name__ == "__main__":
    live.main()
