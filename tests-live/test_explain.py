#!/usr/bin/env -S python3 -B
"""Multiplies and adds up the stays that `explain` prints of random histories with every kind of command, by a few lines that know
nothing of the office, and compares them with the quantities of each month's report, to the last digit.

OFFICE_SEEDS=1000,200 takes 200 histories from number 1000 on in place of 20.
"""
import collections
import csv
import datetime
import io

import live
from histories import START, History
from plain_office import window

HEAD = ["bucket", "key", "item", "class", "bytes", "from", "to"]
MONTHS = [f"{year}-{month:02}" for year in (2030, 2031, 2032) for month in range(1, 13)]
MADE = b"\xa5METERJRN1\xa5"
PRICES = b"\x0e" + (1_000).to_bytes(4, "big") * 11


def moment(text, last):
    """In ms since 1970; what is open lasts up to the last moment."""
    if text == "open":
        return last
    at = datetime.datetime.fromisoformat(text[:-1]).replace(tzinfo=datetime.timezone.utc)
    return int(at.timestamp()) * 1_000 + at.microsecond // 1_000


def sums(rows, last, month):
    """Of the stays: byte-milliseconds by bucket and class in the month."""
    begin, end = window(month)
    found = collections.Counter()
    for bucket, _, _, kind, size, came, went in rows:
        found[bucket, kind] += int(size) * max(0, min(moment(went, last), end) - max(moment(came, last), begin))
    return {it: found[it] for it in found if found[it]}


class Explain(live.Case):
    def run_it(self, *words):
        done = self.office(*words)
        return done.returncode, done.stdout.decode(), done.stderr.decode()

    def reported(self, month):
        status, text, note = self.run_it("report", month)
        self.assertEqual((0, ""), (status, note))
        return {(row[0], row[2]): int(row[3]) for row in csv.reader(io.StringIO(text)) if row[1] == "storage"}

    def test_stays_of_random_histories(self):
        (self.folder / "office-data").mkdir()
        for seed in live.seeds(1, 20):
            with self.subTest(seed=seed):
                self.compare(seed)

    def compare(self, seed):
        history = History(seed)
        history.append(START, PRICES)
        history.fill()
        (self.folder / "office-data/journal").write_bytes(history.closed())
        tables = [self.run_it("explain", "--workers", workers) for workers in ("1", "4", "64")]
        self.assertEqual([tables[0]] * 3, tables, "the number of workers changes nothing")
        self.assertEqual((0, ""), (tables[0][0], tables[0][2]))
        head, *rows = csv.reader(io.StringIO(tables[0][1]))
        self.assertEqual(HEAD, head)
        for month in MONTHS:
            if window(month)[0] <= history.last:
                self.assertEqual(sums(rows, history.last, month), self.reported(month), month)

    def test_journals_that_are_not_explained(self):
        (self.folder / "office-data").mkdir()
        journal = self.folder / "office-data/journal"
        bucket = START.to_bytes(8, "big") + b"\1\0\4logs"
        frame = len(bucket).to_bytes(4, "big") + bucket
        self.check("no journal", (5, "", "journal: not made\n"), self.run_it("explain"))
        self.run_it("init")
        self.check("nothing was asked", (0, ",".join(HEAD) + "\n", ""), self.run_it("explain"))
        journal.write_bytes(MADE + frame + b"\xa5" + frame + b"\0")
        self.check("a bucket made twice", (5, "", f"journal: damaged at {10 + 5 + len(bucket)}\n"), self.run_it("explain"))
        journal.write_bytes(MADE + frame)
        self.check("a journal cut short", (5, "", "journal: damaged at 10\n"), self.run_it("explain"))
        journal.write_bytes(b"7" + MADE[1:] + frame)
        self.check("another file", (5, "", "journal: foreign\n"), self.run_it("explain"))
        for words in (("--workers", "0"), ("--workers", "65"), ("x",)):
            status, text, note = self.run_it("explain", *words)
            self.check(" ".join(words), (1, "", "usage:"), (status, text, note[:6]))


if __name__ == "__main__":
    live.main()
