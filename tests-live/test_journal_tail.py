#!/usr/bin/env -S python3 -B
"""Reads journals from the place that was reached before (tail.py of tools/office_tools), and compares with a reading from the front."""
import json
import os
import struct
import sys
import unittest.mock

import live
from spelled import DAY, NEW_YEAR, create, frame, journal, put, text

sys.path.insert(0, str(live.TOOLS))
from office_tools import asking, tail  # noqa: E402


def large(count):
    """A journal of so many puts in ten buckets, and their names."""
    names = [f"bucket-{it}" for it in range(10)]
    parts = [frame(1, 1, text(it)) for it in names]
    for it in range(count):
        entry = struct.pack(">QB", NEW_YEAR + it, 5) + text(names[it % 10]) + text(f"some/key/name-{it:08}") + struct.pack(">QBB", it, 0, 0)
        parts.append(struct.pack(">I", len(entry)) + entry + b"\xa5")
    return journal(*parts), names


class JournalTail(live.Case):
    def setUp(self):
        super().setUp()
        self.state, self.path = self.folder / "state", self.folder / "journal"
        change = unittest.mock.patch.dict(os.environ, {"OFFICE_STATE": str(self.state)})
        change.start()
        self.addCleanup(change.stop)

    def write(self, *frames, behind=b""):
        self.path.write_bytes(journal(*frames) + behind)

    def read(self):
        """What a reading finds, and from which place on it read."""
        starts, step = [], tail.Tail.step

        def watched(one, *how):
            starts.append(one.gate)
            return step(one, *how)
        with unittest.mock.patch.object(tail.Tail, "step", watched):
            return tail.read_tail(self.path), starts[0]

    def test_goes_on(self):
        begun = [create(1, "first"), put(1, "first", "a", 5)]
        self.write(*begun)
        found, start = self.read()
        self.check("the first reading", (["first"], 2, 10), (found.buckets, found.count, start))
        place = found.gate
        found, start = self.read()
        self.check("the second one begins at the end", (["first"], place), (found.buckets, start))
        # Behind the closed gate lies a frame that counts for nothing yet, and zeros.
        self.write(*begun, behind=create(2, "second") + b"\0" * 999)
        self.check("a gate that is not open", (["first"], place), (self.read()[0].buckets, self.read()[1]))
        self.write(*begun, create(2, "second"), frame(2, 14, b"\0" * 44), frame(40, 15, struct.pack(">HB", 2024, 1)))
        found, start = self.read()
        self.check("what came since", (["first", "second"], 5, place, "2024-01", ["1970-01"], {"2024-01": "1970-01"}, NEW_YEAR + 39 * DAY),
                   (found.buckets, found.count, start, found.closed, found.tariffs, found.closed_with, found.last))

    def test_another_journal(self):
        def puts(day, bucket, count):
            return journal(create(day, bucket), *(put(day, bucket, f"key-{it}", it) for it in range(count)))
        self.path.write_bytes(puts(1, "first", 9))
        self.read()
        for name, data, buckets, count in (("of the same size", puts(2, "other", 9), ["other"], 10), ("that is longer", puts(3, "other", 99), ["other"], 100),
                                           ("that is shorter", puts(4, "third", 0), ["third"], 1), ("that is new", b"\xa5METERJRN1\0", [], 0)):
            self.path.write_bytes(data)
            found, start = self.read()
            self.check(f"a journal {name} is read anew", (buckets, count, 10), (found.buckets, found.count, start))

    def test_state_files(self):
        self.write(create(1, "first"))
        self.read()
        (kept,) = self.state.iterdir()
        whole = kept.read_text("utf-8")
        for name, found in (("nothing", ""), ("half of it", whole[:40]), ("a list", "[]"), ("noise", "\x00"), ("deep lists", "[" * 100_000),
                            ("another version", whole.replace('"version":2', '"version":1')), ("a place that is none", whole.replace('"gate":', '"gate":9')),
                            ("a place that is a text", json.dumps({**json.loads(whole), "gate": "x"})),
                            ("other names", whole.replace("first", "ft").replace('"before":"', '"before":"0'))):
            kept.write_text(found)
            read, start = self.read()
            self.check(f"a state file with {name}", (["first"], 10), (read.buckets, start))
        kept.unlink()
        kept.mkdir()
        self.check("a folder in place of the state file", ["first"], self.read()[0].buckets)
        with unittest.mock.patch.dict(os.environ, {"OFFICE_STATE": str(self.path / "x")}):
            self.check("a state that cannot be kept", ["first"], self.read()[0].buckets)
        self.check("no part is left", [], [*self.folder.rglob("*.part")])

    def test_no_journal(self):
        whole = journal(create(1, "first"), create(2, "second"))
        for name, data, note in (("nothing", b"", "not made"), ("a head alone", whole[:10], "not made"), ("a closed gate", b"\0" * 11, "not made"),
                                 ("another file", b"none\n" * 9, "foreign"), ("another mark", b"\xa5METERJRN2\0", "foreign"),
                                 ("cut in a length", whole[:13], "damaged at 10"), ("cut in an entry", whole[:29], "damaged at 10"),
                                 ("cut before its gate", whole[:-1], "damaged at 31"), ("an entry too short", b"\xa5METERJRN1\xa5\0\0\0\x08" + b"\0" * 20, "damaged at 10"),
                                 ("a moment that falls", journal(create(2, "first"), create(1, "second")), "damaged at 31"),
                                 ("a moment past 2099", whole.replace(b"\0\0\x01\x8c", b"\x01\0\0\0", 1), "damaged at 10")):
            self.path.write_bytes(data)
            with self.subTest(name), self.assertRaises(asking.Stop) as stop:
                tail.read_tail(self.path)
            self.check(name, (3, f"{self.path}: journal: {note}"), stop.exception.args)
        for name, path in (("a folder", self.folder), ("no file", self.folder / "none")):
            with self.subTest(name), self.assertRaises(asking.Stop) as stop:
                tail.read_tail(path)
            self.check(name, 3, stop.exception.args[0])

    def test_long_entries(self):
        rules = '{"Rules":[' + " " * (5 << 20) + "]}"
        data = frame(1, 3, text("first") + struct.pack(">I", len(rules)) + rules.encode())
        self.write(create(1, "first"), data, create(1, "second"))
        self.check("an entry longer than a piece of the file", (["first", "second"], 3), (self.read()[0].buckets, self.read()[0].count))

    def test_a_million_entries(self):
        data, names = large(1_000_000)
        self.path.write_bytes(data)
        self.check("all are found", (names, 1_000_010), (self.read()[0].buckets, self.read()[0].count))
        with open(self.path, "r+b") as file:
            file.seek(len(data) - 1)
            file.write(b"\xa5" + create(30, "new-one")[:-1] + b"\0")
        counts, pread = [], os.pread

        def counted(*words):
            counts.append(len(found := pread(*words)))
            return found
        with unittest.mock.patch("os.pread", counted):
            found = tail.read_tail(self.path)
        self.check("one more is found", [*names, "new-one"], found.buckets)
        self.check("and few bytes of the journal are read", True, sum(counts) < 200_000 < len(data))

    def test_a_tool(self):
        folder = self.new_folder("served")
        (folder / "office-data" / "journal").write_bytes(journal(create(1, "first"), put(1, "first", "a", 5)))
        server = self.serve()
        words = ("act-all", "--server", f"http://127.0.0.1:{server.port}", "--journal", folder / "office-data" / "journal", "--dry-run")
        for name in ("first", "again"):
            self.check(name, (0, '{"bucket": "first", "action": "none"}\n', ""), self.run_tool(*words))
        self.check("its state is kept", 1, len([*self.state.iterdir()]))


if __name__ == "__main__":
    live.main()
