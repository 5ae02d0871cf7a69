#!/usr/bin/env -S python3 -B
"""Serves a journal of January 2024 that is spelled by hand, and compares what tools/usage reports of its months with sums by hand."""
import datetime

import live
from spelled import DAY, GIB, create, journal, put

HEAD = "bucket,month,class,gib_months,early_gib_months,moves,byte_ms,early_byte_ms"
# STANDARD: 31 days and 6 of 31; STANDARD_IA: 10 days stored, and the 20 that are missing to 30 are owed.
JANUARY = [HEAD, f"old,2024-01,STANDARD,1.193548387,0.000000000,0,{GIB * 37 * DAY},0",
           f"old,2024-01,STANDARD_IA,0.322580645,0.645161290,0,{GIB * 10 * DAY},{GIB * 20 * DAY}"]
FEBRUARY = [HEAD, f"old,2024-02,STANDARD,2.000000000,0.000000000,0,{2 * GIB * 29 * DAY},0"]


def january_2024():
    """One GiB in STANDARD from January 1 on; one in STANDARD_IA on January 16, that one in STANDARD replaces on January 26."""
    return journal(create(1, "old"), create(1, "none"), put(1, "old", "a", GIB), put(16, "old", "b", GIB, "STANDARD_IA"),
                   put(26, "old", "b", GIB))


class Usage(live.Case):
    def setUp(self):
        super().setUp()
        self.journal = self.new_folder("served") / "office-data" / "journal"
        self.journal.write_bytes(january_2024())
        self.server, self.out = self.serve(), self.folder / "february.csv"

    def usage(self, *words):
        return self.run_tool("usage", "--from", f"http://127.0.0.1:{self.server.port}", *words)

    def test_months(self):
        status, said, note = self.usage("--journal", self.journal, "2024-01")
        self.check("January", (0, JANUARY, ""), (status, said.splitlines(), note))
        self.check("February, to a file, status", (0, "", ""), self.usage("--journal", self.journal, "--out", self.out, "2024-02"))
        self.check("February, two GiB for the whole month", FEBRUARY, self.out.read_text("ascii").splitlines())
        self.check("the month before", (0, HEAD + "\n", ""), self.usage("--bucket", "old", "2023-12"))

    def test_this_month(self):
        month = datetime.datetime.now(datetime.timezone.utc).strftime("%Y-%m")
        status, said, note = self.usage("--bucket", "old", month)
        self.check("with a note", (0, 2, f"usage: {month} is not over: this is its use until now"),
                   (status, len(said.splitlines()), note))

    def test_refused(self):
        self.out.write_text("before\n")
        for words, note in (("--bucket old --bucket other 2024-02", "usage: bucket other: 404 NoSuchBucket"),
                            ("--bucket old 2024-13", "usage: bucket old: 400 NotAMonth"),
                            ("--bucket old ../x", "usage: bucket old: 400 NotAMonth"),
                            ("--bucket Old 2024-02", "usage: bucket Old: 400 BadBucketName")):
            self.check(words, (5, "", note), self.usage("--out", self.out, *words.split()))
        self.check("the file is as it was", "before\n", self.out.read_text())

    def test_what_cannot_be_done(self):
        self.check("no bucket, status", 1, self.usage("2024-01")[0])
        self.check("no month, status", 1, self.usage("--bucket", "old")[0])
        self.check("a journal that is not there, status", 3, self.usage("--journal", self.folder / "none", "2024-01")[0])
        self.check("a folder that is not there, status", 4, self.usage("--bucket", "old", "--out", self.folder / "none/x", "2024-01")[0])
        self.server.process.kill()
        self.server.process.wait()
        self.check("a server that was killed, status", (2, ""), self.usage("--bucket", "old", "2024-01")[:2])


if __name__ == "__main__":
    live.main()
