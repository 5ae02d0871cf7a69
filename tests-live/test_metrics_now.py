#!/usr/bin/env -S python3 -B
"""Reads what tools/metrics reports of now: bytes, the charge so far, what is overdue, limits, months and the last runs."""
import csv
import datetime
import json
import re
import time

import live
from odd_server import Odd, reply
from serve_client import request
from spelled import CLASSES, DAY, GIB, NEW_YEAR, create, frame, journal, put, rules

SAMPLE = re.compile(r"^([a-z_]+)(?:\{(.*)\})? (\S+)$")
RULES = ('{"Rules":[{"Expiration":{"Date":"2024-01-11T00:00:00.000Z"},"Filter":{"Prefix":"tmp/"},"ID":"gone","Status":"Enabled"}],'
         '"TransitionDefaultMinimumObjectSize":"all_storage_classes_128K"}')
TARIFF = ("[storage]\n" + "\n".join(f"{it} = {price}" for it, price in zip(CLASSES, (23_000, 12_500, 10_000, 4_000, 3_600, 990)))
          + "\n[transition]\n" + "\n".join(f"{it} = 30000" for it in CLASSES[1:]) + "\n")
# In raw: 2 GiB and a byte in STANDARD, and 8 KiB for each object in GLACIER and DEEP_ARCHIVE, which have 32 KiB more there;
# a small object is billed as 128 KiB in the other classes.
SIZES = {"STANDARD": 2 * GIB + 1, "STANDARD_IA": 1_000, "ONEZONE_IA": 0, "GLACIER_IR": 3 * GIB, "GLACIER": 7, "DEEP_ARCHIVE": GIB}
BILLED = {"STANDARD": 2 * GIB + 1 + 2 * 8_192, "STANDARD_IA": 131_072, "ONEZONE_IA": 131_072, "GLACIER_IR": 3 * GIB, "GLACIER": 7 + 32_768,
          "DEEP_ARCHIVE": GIB + 32_768}


def samples_of(text):
    found = {}
    for line in text.splitlines():
        if not line.startswith("#"):
            name, labels, value = SAMPLE.match(line).groups()
            found[name, labels or ""] = value
    return found


class MetricsNow(live.Case):
    def setUp(self):
        super().setUp()
        self.journal = self.new_folder("served") / "office-data" / "journal"
        self.frames = [create(1, "logs"), create(1, "raw"), create(1, "empty"), put(1, "logs", "tmp/x", 12_345), rules(1, "logs", RULES),
                       *(put(2, "raw", name, size, name) for name, size in SIZES.items())]
        self.journal.write_bytes(journal(*self.frames))

    def start(self):
        self.server = self.serve()
        self.at = f"http://127.0.0.1:{self.server.port}"

    def ask(self, method, target, body=""):
        with self.server.client() as client:
            return client.ask(request(method, target, body))

    def read(self, *words, at=None, status=0):
        found = self.run_tool("metrics", "--server", at or self.at, *words, "--out", "-")
        self.check("status", (status, True), (found[0], status == 0 or bool(found[2])))
        self.check("all are gauges", {"gauge"}, set(re.findall("^# TYPE [a-z_]+ ([a-z]+)$", found[1], re.M)))
        return samples_of(found[1])

    def of_journal(self, *words, **how):
        return self.read("--journal", self.journal, *words, **how)

    def test_bytes_now(self):
        self.start()
        for turn in range(3):
            found = self.of_journal()
            self.check(f"raw, turn {turn}", {it: str(count) for it, count in BILLED.items()},
                       {it: found.get(("office_bucket_billed_bytes", f'bucket="raw",class="{it}"')) for it in CLASSES})
            self.check(f"logs, turn {turn}", ["12345", "0"], [found["office_bucket_billed_bytes", f'bucket="{it}",class="STANDARD"'] for it in ("logs", "empty")])
        self.server.stop()
        stays = self.ended([self.program, "explain"], cwd=self.folder / "served", text=True)
        if stays.returncode == 0:
            now = {name: 0 for name in CLASSES}
            for row in csv.DictReader(stays.stdout.splitlines()):
                if (row["bucket"], row["to"]) == ("raw", "open"):
                    now[row["class"]] += int(row["bytes"])
            self.check("as the open stays of the program", BILLED, now)
        self.start()
        self.ask("PUT", "/buckets/empty/objects/a", '{"size":987654321}')
        self.check("after a put", "987654321", self.of_journal()["office_bucket_billed_bytes", 'bucket="empty",class="STANDARD"'])

    def test_a_clock_that_stands(self):
        ahead = (time.time_ns() // 1_000_000 + 400 * DAY - NEW_YEAR) // DAY
        self.journal.write_bytes(journal(*self.frames, create(ahead, "later")))
        self.start()
        found = self.of_journal()
        self.check("no bytes of now", [], [it for it in found if it[0] == "office_bucket_billed_bytes"])
        self.check("the last command", f"{(NEW_YEAR + (ahead - 1) * DAY) // 1000}.000", found["office_last_command_timestamp_seconds", ""])

    def test_charge_and_what_is_overdue(self):
        self.start()
        found = self.of_journal()
        self.check("no prices, no charge", [], [it for it in found if "charge" in it[0]])
        self.check("prices", 200, self.ask("PUT", "/tariff", TARIFF)[0])
        month = f"{datetime.datetime.now(datetime.timezone.utc):%Y-%m}"
        before, found, after = self.total(month), self.of_journal(), self.total(month)
        self.check("the charge of the report", True, before <= int(found["office_month_charge", f'month="{month}"']) <= after)
        self.check("the sum of the buckets", found["office_month_charge", f'month="{month}"'],
                   str(sum(int(value) for (name, _), value in found.items() if name == "office_bucket_month_charge")))
        eleventh = f"{(NEW_YEAR + 10 * DAY) // 1000}.000"
        self.check("overdue since January 11", (eleventh, eleventh, "1"), (
            found["office_overdue_since_timestamp_seconds", ""], found["office_bucket_overdue_since_timestamp_seconds", 'bucket="logs"'],
            found["office_overdue_buckets", ""]))
        self.check("act-all", 0, self.run_tool("act-all", "--server", self.at, "--journal", self.journal)[0])
        found = self.of_journal()
        self.check("nothing is overdue", ("0", []), (found["office_overdue_buckets", ""], [it for it in found if "overdue_since" in it[0]]))

    def total(self, month):
        return int(self.ask("GET", f"/months/{month}/report")[1].rstrip().rpartition(",")[2])

    def test_months_and_limits(self):
        self.start()
        found = self.of_journal()
        self.check("no month is closed: up to the month of the first command", f"{NEW_YEAR // 1000}.000", found["office_closed_until_timestamp_seconds", ""])
        self.check("limits", {"Buckets": "1000", "Versions": "200000", "Uploads": "20000", "Parts": "500000", "Names": "536870912", "Rules": "67108864", "Tariffs": "100",
                              "Journal": "1073741824"}, {labels[6:-1]: value for (name, labels), value in found.items() if name == "office_limit"})
        used = {labels[6:-1]: value for (name, labels), value in found.items() if name == "office_used"}
        configuration = self.ask("GET", "/buckets/logs/lifecycle")[1]
        self.check("used", {"Buckets": "3", "Versions": "7", "Uploads": "0", "Rules": str(len(configuration)), "Tariffs": "0", "Journal": str(len(journal(*self.frames)))}, used)
        self.check("build info", 1, sum(name == "office_build_info" and value == "1" for (name, _), value in found.items()))
        self.check("without a journal nothing is said of all buckets", [], [it for it in self.read("--bucket", "raw") if it[0] == "office_used"])

    def test_closed_months(self):
        self.journal.write_bytes(journal(*self.frames, frame(3, 14, b"\0" * 44), frame(40, 15, b"\x07\xe8\x01"), frame(62, 15, b"\x07\xe8\x02")))
        if self.ended([self.program, "explain"], cwd=self.folder / "served").returncode == 5:
            # The removal that is due keeps the month open, so such a journal is damaged: without rules it is whole.
            del self.frames[4]
            self.journal.write_bytes(journal(*self.frames, frame(3, 14, b"\0" * 44), frame(40, 15, b"\x07\xe8\x01"), frame(62, 15, b"\x07\xe8\x02")))
        self.start()
        self.check("up to the end of February", f"{(NEW_YEAR + 60 * DAY) // 1000}.000", self.of_journal()["office_closed_until_timestamp_seconds", ""])

    def test_last_runs(self):
        self.start()
        log, copies, began = self.folder / "actions.jsonl", self.folder / "copies", time.time() - 1
        words = ("--log", log, "--backups", copies)
        found = self.of_journal(*words)
        self.check("no sweep and no backup yet", [], [it for it in found if it[0] in ("office_last_sweep_timestamp_seconds", "office_last_backup_timestamp_seconds")])
        self.check("a sweep", 0, self.run_tool("act-all", "--server", self.at, "--journal", self.journal, "--log", log)[0])
        self.check("a backup", 0, self.run_tool("backup", self.journal, copies)[0])
        found = self.of_journal(*words)
        for name in ("office_last_sweep_timestamp_seconds", "office_last_backup_timestamp_seconds"):
            self.check(name, True, began - 1 <= float(found[name, ""]) <= time.time())
        state = self.folder / "actions.jsonl.state"
        ended = json.loads(state.read_text())["ended"]
        state.write_text(json.dumps({"begun": "2030-01-01T00:00:00Z", "last_end": ended, "place": 10, "before": ""}) + "\n{}\n")
        self.check("while another sweep is at work", found["office_last_sweep_timestamp_seconds", ""],
                   self.of_journal(*words)["office_last_sweep_timestamp_seconds", ""])

    def test_questions_that_do_not_come_through(self):
        self.start()
        month = f"{datetime.datetime.now(datetime.timezone.utc):%Y-%m}"
        with Odd(self.server.port) as odd:
            at = f"http://127.0.0.1:{odd.port}"
            for name, said in (("a proxy refuses the report", reply(403, "<html>")), ("a report cut short", reply(200, "bucket,line\n", "text/csv"))):
                odd.replies = {("GET", f"/months/{month}/report"): said}
                found = self.of_journal(at=at)
                self.check(name, ("1", []), (found["office_up", ""], [it for it in found if "charge" in it[0]]))


if __name__ == "__main__":
    live.main()
