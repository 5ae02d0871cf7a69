#!/usr/bin/env -S python3 -B
"""Joins random reports and tables of stays of several offices by examples/bills.sql in sqlite3 and by examples/bills-postgresql.sql in
PostgreSQL, loaded by the commands at the head of each, and compares the views with sums of Python.

It needs no program: python3 -B -m unittest discover -s tests-live -p test_join_queries.py
"""
import csv
import datetime
import pathlib
import random
import re
import shutil
import subprocess
import tempfile
import unittest

import live
from postgres import Postgres, needs_postgres

EXAMPLES, CLASSES = live.ROOT / "examples", live.CLASSES
EPOCH = datetime.datetime(1970, 1, 1, tzinfo=datetime.timezone.utc)
KEYS = ["plain", 'a "quoted", key', "é/€/\U0001d11e", "two\nlines", "open", " "]


def ms_of(year, month):
    return int((datetime.datetime(year, month, 1, tzinfo=datetime.timezone.utc) - EPOCH).total_seconds()) * 1000


def moment(ms):
    return f"{EPOCH + datetime.timedelta(milliseconds=ms):%Y-%m-%dT%H:%M:%S}.{ms % 1000:03}Z"


class Offices:
    """The bills and stays of two offices in January 2024, drawn by a number."""

    def __init__(self, seed, folder):
        draw = random.Random(seed)
        self.first, self.last, self.folder = ms_of(2024, 1), ms_of(2024, 2), folder
        self.metered, self.charges, self.tiered = {}, {}, set()
        self.in_tiers = draw.sample(CLASSES[:3], 2)
        names = [f"bucket-{place}" for place in range(draw.randint(1, 4))] + ["film.p-a", "film.p-m", "film.p-z"]
        for number in (1, 2):
            self.office(draw, number, [it for place, it in enumerate(names) if place % 2 + 1 == number])

    def office(self, draw, number, names):
        stays, lines = [], []
        for name in names:
            found = {}
            for _ in range(draw.randint(1, 12)):
                of = draw.choice(CLASSES[:3] if ".p-" in name else CLASSES)
                size = draw.choice((0, 1, draw.randrange(2 ** 20), draw.randrange(5 << 40)))
                begins = draw.randrange(self.first - 10 ** 10, self.last + 10 ** 10)
                ends = draw.choice((None, begins + draw.randrange(10 ** 10)))
                stays.append((name, draw.choice(KEYS), "v:null", of, size, moment(begins), "open" if ends is None else moment(ends)))
                inside = min(self.last, self.last if ends is None else ends) - max(self.first, begins)
                found[of] = found.get(of, 0) + size * max(0, inside)
            for of, quantity in found.items():
                if quantity:
                    self.metered[name, of] = quantity
                    price = "tiered" if of in self.in_tiers else "10"
                    lines.append((name, "storage", of, quantity, price, draw.randrange(10 ** 12)))
                if draw.random() < 0.3:
                    lines.append((name, "early", of, draw.randrange(1, 2 ** 80), "10", draw.randrange(10 ** 12)))
        for name, line, of, quantity, price, charge in lines:
            whole = name.partition(".p-")[0], line, of
            before = self.charges.setdefault((*whole, price), [0, 0])
            self.charges[*whole, price] = [before[0] + quantity, before[1] + charge]
            if price == "tiered":
                self.tiered.add((whole, name))
        (self.folder / "reports" / str(number)).mkdir(parents=True, exist_ok=True)
        (self.folder / "stays").mkdir(exist_ok=True)
        lines.append(("", "total", "", "", "", sum(it[5] for it in lines)))
        self.write(self.folder / "reports" / str(number) / "2024-01-report.csv", "bucket,line,class,quantity,price,charge", lines)
        self.write(self.folder / "stays" / f"{number}.csv", "bucket,key,item,class,bytes,from,to", stays)

    @staticmethod
    def write(path, head, rows):
        with open(path, "w", encoding="utf-8", newline="") as file:
            file.write(head + "\n")
            csv.writer(file, lineterminator="\n").writerows(rows)

    def bills(self):
        return sorted([*name[:3], str(quantity), name[3], str(charge)] for name, (quantity, charge) in self.charges.items())

    def apart(self):
        wholes = [whole for whole, _ in self.tiered]
        return sorted([*it, str(wholes.count(it))] for it in set(wholes) if wholes.count(it) > 1)

    def of_stays(self):
        return sorted([*name, str(quantity)] for name, quantity in self.metered.items())


class Join(unittest.TestCase):
    """The same cases over an engine."""
    maxDiff = None

    def setUp(self):
        self.folder = pathlib.Path(tempfile.mkdtemp())
        self.addCleanup(shutil.rmtree, self.folder)

    def commands(self, name):
        """The commands at the head of a file, for January 2024."""
        head = (EXAMPLES / name).read_text("utf-8").partition("\n\n")[0]
        return "\n".join(it[5:] for it in head.splitlines() if it.startswith("--   ")).replace("2026-11", "2024-01")

    def load(self, script, **how):
        done = subprocess.run(["sh", "-ec", script], cwd=self.folder, stdin=subprocess.DEVNULL, capture_output=True, text=True, timeout=live.LIMIT,
                              check=False, **how)
        self.assertEqual((0, ""), (done.returncode, done.stderr))

    def check_all(self, ask):
        """`ask` loads the files, does a change, and gives the rows of a query as texts."""
        for seed in live.seeds(1, 5):
            made = Offices(seed, self.folder)
            with self.subTest(seed=seed):
                self.assertEqual(made.bills(), sorted(ask("select whole, line, class, quantity, price, charge from bills")))
                self.assertEqual(made.of_stays(), sorted(it for it in ask("select bucket, class, quantity from metered") if it[2] not in ("", "0")))
                self.assertEqual(made.apart(), sorted(ask("select whole, line, class, pieces from apart")))
                self.assertEqual([], ask("select * from wrong"))
                (bucket, of), quantity = next(iter(made.metered.items()))
                change = f"update reports set quantity = {quantity + 1} where line = 'storage' and bucket = '{bucket}' and class = '{of}'"
                if quantity < 2 ** 62:  # sqlite3 spells a larger number as a fraction
                    self.assertEqual([[bucket, of, str(quantity + 1), str(quantity)]], ask("select * from wrong", change))
                gone = f"delete from reports where line = 'storage' and bucket = '{bucket}' and class = '{of}'"
                self.assertEqual([[bucket, of, "", str(quantity)]], ask("select * from wrong", gone))

    @live.needs("sqlite3")
    def test_sqlite(self):
        words = self.commands("bills.sql").replace(":memory:", "joined.db")

        def ask(query, *changes):
            (self.folder / "joined.db").unlink(missing_ok=True)
            script = words.replace(".read bills.sql", f".read {EXAMPLES}/bills.sql")
            self.load(script)
            done = subprocess.run(["sqlite3", "-batch", "joined.db", *changes, query], cwd=self.folder, capture_output=True, text=True,
                                  timeout=live.LIMIT, check=False)
            self.assertEqual((0, ""), (done.returncode, done.stderr))
            return [line.split("|") for line in done.stdout.splitlines()]
        self.check_all(ask)

    @needs_postgres
    def test_postgresql(self):
        server = Postgres()
        self.addCleanup(server.end)
        script = re.sub(r"^psql -X -c .*$", "", self.commands("bills-postgresql.sql"), flags=re.MULTILINE).replace("-f bills", f"-f {EXAMPLES}/bills")

        def ask(query, *changes):
            made = server.psql("postgres", "-c", "drop database if exists joined", "-c", "create database joined")
            self.assertEqual((0, ""), (made.returncode, made.stderr.replace('NOTICE:  database "joined" does not exist, skipping\n', "")))
            self.load(script, env=server.surroundings("joined"))
            done = server.psql("joined", "-A", "-t", *(word for it in (*changes, query) for word in ("-c", it)))
            self.assertEqual((0, ""), (done.returncode, done.stderr))
            return [line.split("|") for line in done.stdout.splitlines()]
        self.check_all(ask)


if __name__ == "__main__":
    live.main()
