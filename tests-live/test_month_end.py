#!/usr/bin/env -S python3 -B
"""Serves a journal of January 2024 that is spelled by hand, ends its months with tools/month-end, and compares the reports with
charges by hand."""
import datetime

import live
from free_port import free_port
from odd_server import LOSE_REPLY, LOSE_REQUEST, Odd, reply
from serve_client import request
from spelled import CLASSES, DAY, GIB, create, journal, put, rules

RULES = ('{"Rules":[{"Expiration":{"Date":"2024-01-11T00:00:00.000Z"},"Filter":{"Prefix":"tmp/"},"ID":"gone","Status":"Enabled"},'
         '{"Filter":{"Prefix":"cold/"},"ID":"cold","Status":"Enabled","Transitions":[{"Date":"2024-01-16T00:00:00.000Z",'
         '"StorageClass":"GLACIER"}]}],"TransitionDefaultMinimumObjectSize":"all_storage_classes_128K"}')
PRICES = {"STANDARD": 23_000, "GLACIER": 3_600}
HEAD = "bucket,line,class,quantity,price,charge"
# In raw one object goes on January 11, and one is in STANDARD until January 16 and then in GLACIER, with 32 KiB more there and
# 8 KiB in STANDARD. Of 31 days: 25 / 31 of 23,000 and a little, 16 / 31 of 3,600 and a little, a move at 30,000 for 1,000.
JANUARY = [HEAD, f"logs,storage,STANDARD,{GIB * 31 * DAY},23000,23000",
           f"raw,storage,STANDARD,{(25 * GIB + 16 * 8_192) * DAY},23000,18548",
           f"raw,storage,GLACIER,{16 * (GIB + 32_768) * DAY},3600,1858", "raw,transitions,GLACIER,1,30000,30", ",total,,,,43436"]
CLOSE, REPORT, ACT = ("POST", "/months/2024-02/close"), ("GET", "/months/2024-02/report"), ("POST", "/buckets/raw/act")
DUE = "2024-01 is not closed: in bucket raw a lifecycle action that stands in the month is not done, first on version null of the key"
STRANGE = "what answers at {at} is not the program:"
CUT = "the last line is not that of the total: it is cut short, or something follows"
# What a server between the tool and the program says of a closing or an action, and the tool's status and note.
REPLIES = (
    ("a request that is lost", CLOSE, LOSE_REQUEST, 2,
     "no reply from {at} to POST /months/2024-02/close: Remote end closed connection without response"),
    ("a disk that failed", CLOSE, reply(503, '{"error":"StoreFault","number":114}'), 2, "2024-02: 503 StoreFault"),
    ("a full journal", CLOSE, reply(507, '{"error":"JournalFull","number":113}'), 5, "2024-02: 507 JournalFull"),
    ("a page of another server", CLOSE, reply(404, "<html>"), 2, f"{STRANGE} POST /months/2024-02/close has status 404"),
    ("another month closed", CLOSE, reply(200, '{"closed":"2024-03"}'), 2, "a reply is not one of the program: {{'closed': '2024-03'}}"),
    ("a refusal without its field", CLOSE, reply(409, '{"error":"MonthNotOver"}'), 2, "a reply is not one of the program: its end is null"),
    ("a list", CLOSE, reply(200, "[]"), 2, f"{STRANGE} POST /months/2024-02/close has status 200"),
    ("a fault while it acts", ACT, reply(500, '{"error":"NoMemory","number":115}'), 2, "bucket raw: 500 NoMemory"),
    ("an action of no kind", ACT, reply(200, '{"action":"burn"}'), 2, 'a reply is not one of the program: {{"action": "burn"}}'))
# The same of a report.
NONE = "the report of 2024-02 is not one of the program:"
REPORTS = (
    ("a report as JSON", reply(200, "{}"), f"{STRANGE} GET /months/2024-02/report is no CSV"),
    ("a report with another head", reply(200, "bucket,charge\n", "text/csv"), f"{NONE} line 1 is not '{HEAD}'"),
    ("a report without its total", reply(200, f"{HEAD}\nraw,storage,GLACIER,1,1,0\n", "text/csv"), f"{NONE} {CUT}"),
    ("a report cut in its total", reply(200, f"{HEAD}\n,total,,,,4", "text/csv"), f"{NONE} {CUT}"),
    ("a total that is no sum", reply(200, f"{HEAD}\n,total,,,,4\n", "text/csv"), f"{NONE} the total is 4, and the sum of the charges 0"),
    ("a charge that is no number", reply(200, f"{HEAD}\nraw,early,GLACIER,1,1,-1\n,total,,,,0\n", "text/csv"),
     f"{NONE} line 2: the charge is '-1'"),
    ("a body that ends early", reply(200, f"{HEAD}\n", "text/csv", 99), "no reply from {at} to GET /months/2024-02/report: "
     "IncompleteRead(40 bytes read, 59 more expected)"))


def tariff(factor=1):
    storage = "\n".join(f"{it} = {PRICES.get(it, 0) * factor}" for it in CLASSES)
    return f"[storage]\n{storage}\n[transition]\n" + "\n".join(f"{it} = 30000" for it in CLASSES[1:]) + "\n"


class MonthEnd(live.Case):
    def setUp(self):
        super().setUp()
        self.journal = self.new_folder("served") / "office-data" / "journal"
        self.journal.write_bytes(journal(
            create(1, "logs"), create(1, "raw"), put(1, "logs", "a", GIB), put(1, "raw", "tmp/x", GIB), put(1, "raw", "cold/1", GIB),
            rules(1, "raw", RULES)))
        self.csv, self.txt = self.folder / "2024-01-report.csv", self.folder / "2024-01-report.txt"
        self.server = self.serve()

    def set_prices(self, factor=1):
        with self.server.client() as client:
            self.assertEqual(200, client.ask(request("PUT", "/tariff", tariff(factor)))[0])

    def month_end(self, *words, port=None):
        return self.run_tool("month-end", "--server", f"http://127.0.0.1:{port or self.server.port}", *words)

    def ends(self, name, status, note, *words, port=None):
        """A case that ends with this status, this last note, and no name of a file."""
        found = self.month_end(*words, port=port)
        self.check(name, (status, "", f"month-end: {note}"), (found[0], found[1], found[2].splitlines()[-1]))

    def files(self):
        return [(it.read_bytes(), it.stat().st_mtime_ns) for it in (self.csv, self.txt)]

    def test_a_month_that_is_not_closed(self):
        self.ends("no prices", 10, "2024-01 is not closed: no prices are set for it (PUT /tariff)", "--bucket", "logs", "2024-01")
        self.set_prices()
        self.ends("a bucket that was not named", 7, f"{DUE} 'tmp/x'; name it too: --bucket raw", "--bucket", "logs", "2024-01")
        self.ends("a bucket with more due than --most", 7, f"{DUE} 'cold/1'; the same command continues", "--bucket", "raw", "--most", "1", "2024-01")
        self.ends("a month before", 8, "2024-02 is not closed: 2024-01 has to be closed first", "--bucket", "logs", "2024-02")
        today = datetime.datetime.now(datetime.timezone.utc)
        after = (today.replace(day=1) + datetime.timedelta(days=32)).strftime("%Y-%m")
        self.ends("a month that is not over", 6, f"{today:%Y-%m} is not over: it ends at {after}-01T00:00:00.000Z",
                  "--bucket", "logs", f"{today:%Y-%m}")
        self.check("no file until the month is closed", [], list(self.folder.glob("*report*")))

    def test_january(self):
        self.set_prices()
        status, said, notes = self.month_end("--journal", self.journal, "2024-01")
        self.check("status and files", (0, ["./2024-01-report.csv", "./2024-01-report.txt"]), (status, said.splitlines()))
        self.check("what was done", ["2 of 2 buckets, refused 0; actions 2: remove 1, transition 1, marker 0, abort 0", "2024-01 is closed, with the tariff from 1970-01"],
                   [it.removeprefix("month-end: ").rpartition(";")[0] or it.removeprefix("month-end: ") for it in notes.splitlines()])
        self.check("charges by hand", JANUARY, self.csv.read_text("ascii").splitlines())
        lines = self.txt.read_text("ascii").splitlines()
        self.check("the same lines in columns", [row.split(",")[:4] + row.split(",")[5:] for row in JANUARY[1:]],
                   [[it[:24].rstrip(), it[25:37].rstrip(), it[38:52].rstrip(), it[53:81].lstrip(), it[82:].lstrip()] for it in lines])
        self.check("each as wide", {98}, {len(it) for it in lines})

    def test_the_same_words_again(self):
        self.set_prices()
        self.month_end("--journal", self.journal, "2024-01")
        before = self.files()
        self.set_prices(2)
        status, said, notes = self.month_end("--journal", self.journal, "2024-01")
        self.check("status and note", (0, 2, "month-end: 2024-01 was closed already, with the tariff from 1970-01"), (status, len(said.splitlines()), notes.splitlines()[-1]))
        self.check("the files are as they were", before, self.files())
        self.txt.unlink()
        self.check("a file that is missing, status", 0, self.month_end("--bucket", "raw", "2024-01")[0])
        self.check("a file that is missing is written", before[1][0], self.txt.read_bytes())
        status, said, notes = self.month_end("--bucket", "raw", "--bucket", "none-there", "--bucket", "Bad", "2024-01")
        self.check("buckets that are refused", (5, 2, ["month-end: bucket none-there: 404 NoSuchBucket", "month-end: bucket Bad: 400 BadBucketName"]),
                   (status, len(said.splitlines()), notes.splitlines()[:2]))
        self.check("the report is there all the same", before[0][0], self.csv.read_bytes())

    def test_what_is_in_the_place_of_a_report(self):
        self.set_prices()
        self.month_end("--journal", self.journal, "2024-01")
        self.csv.write_text("mine\n")
        self.ends("another file", 4, "./2024-01-report.csv: is there and says something else; move it away", "--bucket", "raw", "2024-01")
        self.check("it is as it was", "mine\n", self.csv.read_text())
        self.csv.unlink()
        self.csv.mkdir()
        self.ends("a folder", 4, "./2024-01-report.csv: not a regular file", "--bucket", "raw", "2024-01")

    def test_a_month_before_the_first_command(self):
        self.set_prices()
        self.check("an empty report", (0, f"{HEAD}\n,total,,,,0\n"),
                   (self.month_end("--bucket", "raw", "2023-12")[0], (self.folder / "2023-12-report.csv").read_text("ascii")))

    def test_a_server_that_says_something_else(self):
        self.set_prices()
        self.month_end("--journal", self.journal, "2024-01")
        odd_folder = self.new_folder("odd")
        with Odd(self.server.port) as odd:
            words, at = ("--bucket", "raw", "--folder", odd_folder, "2024-02"), f"http://127.0.0.1:{odd.port}"
            for name, asked, said, status, note in REPLIES:
                odd.replies = {asked: said}
                self.ends(name, status, note.format(at=at), *words, port=odd.port)
            odd.replies = {CLOSE: LOSE_REPLY}
            self.check("the reply to the closing is lost, status", 2, self.month_end(*words, port=odd.port)[0])
            for name, said, note in REPORTS:
                odd.replies = {REPORT: said}
                self.ends(name, 2, note.format(at=at), *words, port=odd.port)
            self.check("of all these no file", [], [it.name for it in odd_folder.glob("*report*")])
            odd.replies = {}
            status, said, notes = self.month_end(*words, port=odd.port)
            self.check("the same words go on", (0, 2, True), (status, len(said.splitlines()), notes.endswith("2024-02 was closed already")))

    def test_what_cannot_be_done(self):
        for words in (["2024-01"], ["--bucket", "raw"], ["--bucket", "raw", "2024-13"], ["--bucket", "raw", "../../x"],
                      ["--bucket", "raw", "24-1"], ["--bucket", "raw", "--most", "0", "2024-01"], ["--none", "2024-01"]):
            self.check(f"words that are none, status: {' '.join(words)}", 1, self.month_end(*words)[0])
        other = self.file("other", "no journal\n")
        self.check("a list that is not there, status", 3, self.month_end("--buckets", self.folder / "nothing", "2024-01")[0])
        self.check("a journal that is none, status", 3, self.month_end("--journal", other, "2024-01")[0])
        self.ends("a folder that is not there", 4, "none: no folder", "--bucket", "raw", "--folder", "none", "2024-01")
        self.server.process.kill()
        self.server.process.wait()
        self.check("a server that was killed, status", 2, self.month_end("--bucket", "raw", "2024-01")[0])
        self.check("a server that is not there, status", 2, self.month_end("--bucket", "raw", "2024-01", port=free_port())[0])
        self.check("help, status", 0, self.run_tool("month-end", "--help")[0])


if __name__ == "__main__":
    live.main()
