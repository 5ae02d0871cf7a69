#!/usr/bin/env -S python3 -B
"""Posts the bills of closed months with `bill`, and reads them with sqlite3; and shows what `bill` says and leaves where the file of
bills cannot be opened, read or written.

OFFICE_SEEDS=1000,100 takes 100 histories from number 1000 on in place of 10.
"""
import contextlib
import os
import pathlib
import resource
import shutil
import signal
import sqlite3
import subprocess
import time

import live
from serve_client import LIMIT
from spelled import GIB, create, frame, journal, put
from sqlite_bills import BILL, HEADER, MONTH, TABLE, all_rows, bills_of, changed, rows_of, written
from test_report import MONTHS, History

FAILED, KEPT, OPEN = (11, "", "bills: failed\n"), (13, "", "bill: other bills kept\n"), (12, "", "bill: month not closed\n")
PRICES = (23_000, 12_500, 10_000, 4_000, 3_600, 990)
# 1 GiB in logs through January and February; in raw 2 GiB, and 1 GiB in GLACIER with 32 KiB there and 8 KiB in STANDARD.
BILLS = [("logs", 23_000, 1), ("raw", 49_600, 2)]
POSTED, BEFORE = (0, "bills 2 total 72600\n", ""), (0, "already posted 2 total 72600\n", "")
HELD = (("logs", GIB, "STANDARD"), ("raw", 2 * GIB, "STANDARD"), ("raw", GIB, "GLACIER"))
# Changes to the rows of a month, none of which leaves them well made.
ILL_MADE = (
    ("a total with a leading zero", "UPDATE bills SET total = '023000' WHERE bucket = 'logs'"),
    ("a total with a sign", "UPDATE bills SET total = '+23000' WHERE bucket = 'logs'"),
    ("a total that is a fraction", "UPDATE bills SET total = '23000.0' WHERE bucket = 'logs'"),
    ("a total that is empty", "UPDATE bills SET total = '' WHERE bucket = 'raw'"),
    ("a total of 2^128", f"UPDATE bills SET total = '{2 ** 128}' WHERE bucket = 'raw'"),
    ("lines below 0", "UPDATE bills SET lines = -1 WHERE bucket = 'logs'"),
    ("lines of 2^32", f"UPDATE bills SET lines = {2 ** 32} WHERE bucket = 'logs'"),
    ("a bucket that has no bucket's name", "UPDATE bills SET bucket = 'LOGS' WHERE bucket = 'logs'"),
    ("a header with another total", "UPDATE bills SET total = '72601' WHERE bucket = ''"),
    ("a header with another number of bills", "UPDATE bills SET lines = 3 WHERE bucket = ''"),
    ("a header whose total has a leading zero", "UPDATE bills SET total = '072600' WHERE bucket = ''"),
    ("a header whose total is a word", "UPDATE bills SET total = 'all' WHERE bucket = ''"),
    ("a bill without its row", "DELETE FROM bills WHERE bucket = 'raw'"),
    ("a bill that the header does not count", "INSERT INTO bills VALUES ('2024-01', 'zoo', '0', 1)"),
    ("totals that come to 2^128", f"UPDATE bills SET total = '{2 ** 128 - 1}' WHERE bucket != ''"),
    ("a month without its header", "DELETE FROM bills WHERE bucket = ''"),
    ("a month with rows of other buckets alone", "UPDATE bills SET bucket = 'zoo' || bucket"))
# Changes to a month that leave its rows well made, with other bills than the report has.
OTHERS = (
    ("another total", [("logs", 23_001, 1), ("raw", 49_600, 2)]), ("another number of lines", [("logs", 23_000, 2), ("raw", 49_600, 2)]),
    ("a bill less", BILLS[:1]), ("a bill more", [*BILLS, ("zoo", 0, 1)]), ("another bucket", [("logs", 23_000, 1), ("rax", 49_600, 2)]),
    ("no bill", []))


def tariff():
    return frame(1, 14, b"".join(it.to_bytes(4, "big") for it in (*PRICES, *(0 for _ in PRICES[1:]))))


def close(day, month):
    """Closes a month of 2024."""
    return frame(day, 15, (2024).to_bytes(2, "big") + bytes([month]))


def closed(held=HELD):
    """The journal of an office that holds these objects from January 1 on, and whose January and February are closed."""
    return journal(tariff(), *(create(1, it) for it in sorted({name for name, *_ in held} or {"logs"})),
                   *(put(1, name, f"key-{place}", size, cold) for place, (name, size, cold) in enumerate(held)), close(32, 1), close(61, 2))


class Case(live.Case):
    """An office in `folder/office`, whose January and February 2024 are closed."""

    def setUp(self):
        super().setUp()
        self.data = self.folder / "office" / "office-data"
        self.anew()

    def anew(self, text=None):
        """Begins with this journal, and no bills."""
        shutil.rmtree(self.data, ignore_errors=True)
        self.data.mkdir(parents=True)
        (self.data / "journal").write_bytes(text or closed())
        self.bills = self.data / "bills.db"

    def bill(self, *words, **how):
        done = self.ended([self.program, "bill", *words], cwd=self.data.parent, stdin=subprocess.DEVNULL, **how)
        return done.returncode, (done.stdout or b"").decode(), (done.stderr or b"").decode()

    def rows(self):
        """The rows of the file, read from a copy, so that the file is as the program left it."""
        copy = self.folder / "copy"
        shutil.rmtree(copy, ignore_errors=True)
        copy.mkdir()
        for it in self.data.glob("bills.db*"):
            shutil.copy(it, copy)
        return all_rows(copy / "bills.db") if (copy / "bills.db").exists() else []

    def posts(self, name, wanted, rows, month="2024-01", **how):
        """A case of what `bill` says, and of the rows that are there then."""
        self.check(name, (wanted, rows), (self.bill(month, **how), self.rows()))


class Posting(Case):
    def test_once(self):
        before, january = (self.data / "journal").read_bytes(), rows_of("2024-01", BILLS)
        self.posts("posted", POSTED, january)
        self.posts("again", BEFORE, january)
        self.posts("another month", POSTED, january + rows_of("2024-02", BILLS), "2024-02")
        self.posts("the first month again", BEFORE, january + rows_of("2024-02", BILLS))
        self.check("the journal is as it was", before, (self.data / "journal").read_bytes())

    def test_a_month_that_is_not_closed(self):
        for month in ("2024-03", "2023-12", "1970-01", "2099-12"):
            self.check(month, OPEN, self.bill(month))
        self.check("no file of bills is made", False, self.bills.exists())
        self.bills.write_bytes(b"no database\n")
        self.check("a file that cannot be read is not looked at", OPEN, self.bill("2024-03"))

    def test_a_month_without_use(self):
        self.anew(closed(()))
        header = [("2024-01", "", "0", 0)]
        self.posts("no bill, and a header", (0, "bills 0 total 0\n", ""), header)
        self.posts("again", (0, "already posted 0 total 0\n", ""), header)

    def test_histories(self):
        """Each closed month of random histories has the bills of its report, and the other months have none."""
        for seed in live.seeds(1, 10):
            history, wanted = History(seed), []
            self.anew(history.journal[:-1] + b"\0")
            for month in MONTHS:
                name = f"{month} of history {seed}"
                if month not in history.months.closed:
                    self.check(name, OPEN, self.bill(month))
                    continue
                bills = bills_of(history.report(month))
                wanted += rows_of(month, bills)
                said = f"{len(bills)} total {sum(it[1] for it in bills)}\n"
                self.check(name, [(0, f"bills {said}", ""), (0, f"already posted {said}", "")], [self.bill(month), self.bill(month)])
            self.check(f"the rows of history {seed}", wanted, self.rows())

    def test_a_thousand_buckets(self):
        held = tuple((f"bucket-{place:04}", GIB * (place % 7), "STANDARD") for place in range(1_000))
        self.anew(closed(held))
        bills = [(name, 23_000 * (size // GIB), 1) for name, size, _ in held if size]
        said = f"{len(bills)} total {sum(it[1] for it in bills)}\n"
        self.posts("posted", (0, f"bills {said}", ""), rows_of("2024-01", bills))
        self.posts("again", (0, f"already posted {said}", ""), rows_of("2024-01", bills))

    def test_other_bills(self):
        for name, bills in OTHERS:
            self.bills.unlink(missing_ok=True)
            written(self.bills, {"2024-01": bills})
            for _ in range(2):
                self.posts(name, KEPT, rows_of("2024-01", bills))
            self.posts(f"another month beside {name}", POSTED, rows_of("2024-01", bills) + rows_of("2024-02", BILLS), "2024-02")
            self.anew()

    def test_words(self):
        for words in ((), ("2024-13",), ("2024-00",), ("2024-1",), ("1969-12",), ("2100-01",), ("",), ("2024-01", "2024-02"), ("--text", "2024-01")):
            status, text, note = self.bill(*words)
            self.check(f"a usage error: {words}", (1, "", True), (status, text, note.startswith("usage: office init; ") and "; bill MONTH" in note))
        self.check("no file of bills is made", False, self.bills.exists())

    def test_no_office(self):
        (self.data / "journal").unlink()
        self.check("no journal", (5, "", "journal: not made\n"), self.bill("2024-01"))
        (self.data / "journal").write_bytes(b"something else\n")
        self.check("a file that is not a journal", (5, "", "journal: foreign\n"), self.bill("2024-01"))
        self.check("no file of bills is made", False, self.bills.exists())
        self.anew()
        served = live.Server(self.program, self.data.parent)
        self.addCleanup(served.__exit__)
        served.client().socket.close()
        self.check("a server has the lock", (2, "", "store: failed\n"), self.bill("2024-01"))
        self.check("no file of bills is made beside a server", False, self.bills.exists())


class Sqlite(Case):
    """The file, between the program and the stock sqlite3."""

    def sqlite3(self, *statements, path=None):
        done = self.ended(["sqlite3", "-batch", path or self.bills, *statements], text=True)
        return done.returncode, done.stdout.splitlines(), done.stderr

    @live.needs("sqlite3")
    def test_read_by_sqlite3(self):
        self.bill("2024-01")
        self.bill("2024-02")
        rows = ["|".join(map(str, it)) for month in ("2024-01", "2024-02") for it in rows_of(month, BILLS)]
        self.check("rows", (0, rows, ""), self.sqlite3("SELECT * FROM bills ORDER BY month, bucket"))
        self.check("sound", (0, ["ok"], ""), self.sqlite3("PRAGMA integrity_check"))
        self.check("the one table, which is STRICT", (0, ["bills|table|4|1"], ""),
                   self.sqlite3("SELECT name, type, ncol, strict FROM pragma_table_list WHERE schema = 'main' AND name NOT LIKE 'sqlite_%'"))
        self.check("its columns", (0, ["month|TEXT|1|1", "bucket|TEXT|1|2", "total|TEXT|1|0", "lines|INTEGER|1|0"], ""),
                   self.sqlite3("SELECT name, type, \"notnull\", pk FROM pragma_table_info('bills')"))
        self.check("the third statement", (0, ["|72600|2", "logs|23000|1", "raw|49600|2"], ""),
                   self.sqlite3(MONTH.replace("?1", "'2024-01'")))
        self.check("after sqlite3 read it", BEFORE, self.bill("2024-01"))

    @live.needs("sqlite3")
    def test_written_by_sqlite3(self):
        def spelled(statement, *values):
            for place, it in enumerate(values, 1):
                statement = statement.replace(f"?{place}", f"'{it}'" if isinstance(it, str) else str(it))
            return statement
        statements = [TABLE, "BEGIN", spelled(HEADER, "2024-01", "72600", 2),
                      *(spelled(BILL, "2024-01", bucket, str(total), lines) for bucket, total, lines in BILLS), "COMMIT"]
        self.check("the statements", (0, [], ""), self.sqlite3(";".join(statements)))
        self.posts("a month that sqlite3 posted", BEFORE, rows_of("2024-01", BILLS))
        self.posts("one that it did not", POSTED, rows_of("2024-01", BILLS) + rows_of("2024-02", BILLS), "2024-02")

    def test_in_each_mode(self):
        """A file that sqlite3 keeps with a rollback journal, or with a log."""
        for mode in ("delete", "wal"):
            self.anew()
            with contextlib.closing(sqlite3.connect(self.bills)) as base:
                self.check(mode, [(mode,)], base.execute(f"PRAGMA journal_mode = {mode}").fetchall())
            written(self.bills, {"2024-01": BILLS})
            self.posts(f"{mode}: a month that is there", BEFORE, rows_of("2024-01", BILLS))
            self.posts(f"{mode}: one that is not", POSTED, rows_of("2024-01", BILLS) + rows_of("2024-02", BILLS), "2024-02")

    def test_totals_above_the_integers_of_sqlite(self):
        """A month of another office, with the largest numbers, beside one that is posted."""
        large = [("a.b", 2 ** 127, 2 ** 32 - 1), ("zzz", 2 ** 127 - 1, 0)]
        written(self.bills, {"2023-12": large})
        self.posts("posted beside them", POSTED, rows_of("2023-12", large) + rows_of("2024-01", BILLS))


class Faults(Case):
    """What a fault of the file gives: 11, and nothing is half there."""

    def whole(self, name, month="2024-01"):
        """After a run that was cut off, the month is there whole or not at all; and then `bill` finds or posts it."""
        try:
            rows = self.rows()
        except sqlite3.DatabaseError:
            rows = []  # a file that was not made to its end is no database yet
        self.check(f"{name}: whole or not there", True, rows in ([], rows_of(month, self.wanted)))
        said = f"{len(self.wanted)} total {sum(it[1] for it in self.wanted)}\n"
        # After a crash SQLite takes a torn commit that the program does not, so the program may post what SQLite shows.
        status, text, note = self.bill(month)
        self.check(f"{name}: then", (0, True, ""), (status, text == f"bills {said}" or (bool(rows) and text == f"already posted {said}"), note))
        self.posts(f"{name}: at last", (0, f"already posted {said}", ""), rows_of(month, self.wanted), month)
        return text.startswith("already")

    def setUp(self):
        super().setUp()
        self.wanted = BILLS

    def test_no_database(self):
        for name, text in (("a text", b"no database\n" * 1_000), ("zeros", bytes(8_192)), ("a journal", closed()),
                           ("the front of a database", written(self.folder / "other", {"2024-01": BILLS}).read_bytes()[:5_000])):
            self.anew()
            self.bills.write_bytes(text)
            self.check(name, (FAILED, text), (self.bill("2024-01"), self.bills.read_bytes()))
            for it in self.data.glob("bills.db*"):
                it.unlink()
            self.posts(f"{name} that was moved away", POSTED, rows_of("2024-01", BILLS))

    def test_a_folder_in_its_place(self):
        self.bills.mkdir()
        self.check("status", FAILED, self.bill("2024-01"))
        self.check("it is empty", [], list(self.bills.iterdir()))

    def test_another_table(self):
        for name, table in (("of another name for a column", TABLE.replace("total TEXT", "charge TEXT")), ("with a column less", TABLE.replace("total TEXT NOT NULL, ", ""))):
            self.bills.unlink(missing_ok=True)
            changed(self.bills, table)
            self.check(name, FAILED, self.bill("2024-01"))
            with contextlib.closing(sqlite3.connect(self.bills)) as base:
                self.check(f"{name}: it has no row", [(0,)], base.execute("SELECT count(*) FROM bills").fetchall())
            self.anew()

    def test_rows_that_are_not_well_made(self):
        for name, statement in ILL_MADE:
            self.anew()
            written(self.bills, {"2024-01": BILLS})
            changed(self.bills, statement)
            rows = self.rows()
            for _ in range(2):
                self.posts(name, FAILED, rows)
            self.posts(f"another month beside {name}", POSTED, rows + rows_of("2024-02", BILLS), "2024-02")

    def test_held_by_another_process(self):
        for mode in ("delete", "wal"):
            self.anew()
            with contextlib.closing(sqlite3.connect(self.bills, isolation_level=None)) as base:
                base.execute(f"PRAGMA journal_mode = {mode}")
                base.execute(TABLE)
                base.execute("BEGIN EXCLUSIVE")
                self.check(f"{mode}: it is held", FAILED, self.bill("2024-01"))
                base.execute("ROLLBACK")
            self.posts(f"{mode}: it is free", POSTED, rows_of("2024-01", BILLS))

    def test_a_folder_that_is_read_only(self):
        """The journal can be written, and no file can be made beside it. As root the program runs as another user."""
        (self.data / "check.0").touch()
        (self.data / "check.1").touch()
        how, program = {}, self.program
        if os.geteuid() == 0:
            how = {"user": 65_534, "group": 65_534, "extra_groups": []}
            if pathlib.Path(program).read_bytes()[:4] == b"\x7fELF":
                program = shutil.copy(program, self.folder / "program")  # its own folder may be closed to that user
            for it in [self.folder, *self.folder.rglob("*")]:
                os.chown(it, 65_534, 65_534)
        self.data.chmod(0o555)
        self.addCleanup(self.data.chmod, 0o755)
        done = self.ended([program, "bill", "2024-01"], cwd=self.data.parent, **how)
        self.check("status", FAILED, (done.returncode, done.stdout.decode(), done.stderr.decode()))
        self.check("no file is made", [], list(self.data.glob("bills.db*")))
        self.data.chmod(0o755)
        done = self.ended([program, "bill", "2024-01"], cwd=self.data.parent, **how)
        self.check("a folder that can be written", POSTED, (done.returncode, done.stdout.decode(), done.stderr.decode()))

    def many(self):
        """An office with 300 bills a month, so that a file of them has many pages."""
        self.anew(closed(tuple((f"bucket-{place:03}", GIB, "STANDARD") for place in range(300))))
        self.wanted = [(f"bucket-{place:03}", 23_000, 1) for place in range(300)]

    def test_no_room(self):
        """The file of bills may have so many bytes and no more, so a write fails in the middle."""
        failed = 0
        for limit in (0, 1, 512, 4_096, 8_192, 12_288, 20_480, 32_768, 65_536, 131_072):
            self.many()

            def limited(limit=limit):
                resource.setrlimit(resource.RLIMIT_FSIZE, (limit, limit))
            # SIGXFSZ is ignored, as by the script `office`, so a write past the limit is an error.
            status, said, note = self.bill("2024-01", preexec_fn=limited, restore_signals=False)
            if status != 0:
                failed += 1
                self.check(f"{limit} bytes", True, (status, said, note) in (FAILED, (2, "", "store: failed\n")))
            self.whole(f"{limit} bytes")
        self.check("some had no room", True, failed > 1)

    def test_killed(self):
        """A program that is killed while it posts has posted the whole month or nothing."""
        self.many()
        began = time.monotonic()
        self.bill("2024-01")
        usual, found = time.monotonic() - began, {True: 0, False: 0}
        for place in range(20):
            for it in self.data.glob("bills.db*"):
                it.unlink()
            with subprocess.Popen([self.program, "bill", "2024-01"], cwd=self.data.parent, stdin=subprocess.DEVNULL, stdout=subprocess.DEVNULL,
                                  stderr=subprocess.DEVNULL) as child:
                time.sleep(usual * (place + 1) / 20)
                child.send_signal(signal.SIGKILL)
                child.wait(LIMIT)
            found[self.whole(f"killed at {place + 1} of 20")] += 1
        print(f"killed 20 times: {found[True]} times the month was there, {found[False]} times it was not", flush=True)

    def test_an_output_that_fails(self):
        with open("/dev/full", "wb") as full:
            done = subprocess.run([self.program, "bill", "2024-01"], cwd=self.data.parent, stdin=subprocess.DEVNULL, stdout=full,
                                  stderr=subprocess.PIPE, timeout=LIMIT, check=False)
        self.check("status", (4, b"output: failed\n"), (done.returncode, done.stderr))
        self.whole("a full output")

    def test_one_after_another(self):
        """Several at once: one has the lock of the journal, and the others end with 2. What is there then is one whole month."""
        children = [subprocess.Popen([self.program, "bill", "2024-01"], cwd=self.data.parent, stdin=subprocess.DEVNULL, stdout=subprocess.PIPE,
                                     stderr=subprocess.PIPE) for _ in range(8)]
        ends = []
        for child in children:
            said, note = child.communicate(timeout=LIMIT)
            ends.append((child.returncode, said.decode(), note.decode()))
        self.check("each ends as it may", [], [it for it in ends if it not in (POSTED, BEFORE, (2, "", "store: failed\n"))])
        self.check("one posted", 1, ends.count(POSTED))
        self.posts("again", BEFORE, rows_of("2024-01", BILLS))


if __name__ == "__main__":
    live.main()
