#!/usr/bin/env -S python3 -B
"""Takes copies of journals with checkpoints by tools/backup, beside a writer too, and opens each combination of what was copied.

The journals and slots are those of the plain models (recorded.py), so that they are there also if the program saves no checkpoints.
"""
import json
import shutil
import threading
import time

import live
from histories import number
from model_words import text
from plain_slots import SLOTS
from recorded import filled, sent_of
from serve_client import request
from test_model import bodies

STAMP = "-20??????T??????Z"


class Copies(live.Case):
    in_memory = True

    def setUp(self):
        super().setUp()
        self.data, self.copies = self.folder / "office-data", self.folder / "copies"
        self.data.mkdir()
        self.journal = self.data / "journal"

    def put(self, journal, *slots):
        """The files of the office: a journal, and slots or none."""
        self.journal.write_bytes(journal)
        for name, data in zip(SLOTS, slots):
            (self.data / name).write_bytes(data)

    def backup(self, *words):
        """Each copy has a name of its own by the second."""
        time.sleep(1.05)
        return self.run_tool("backup", *words, self.journal, self.copies)

    def copied(self):
        """The copies by their moments: of each the names of its files without the moment."""
        found = {}
        for path in sorted(self.copies.glob(f"*{STAMP}")):
            name, _, stamp = path.name.partition("-")
            found.setdefault(stamp, []).append(name)
        return list(found.values())

    def restored(self, *sources):
        """A folder with these files in the places of journal, check.0 and check.1; None is no file."""
        folder = self.folder / f"restored-{len(list(self.folder.glob('restored-*')))}"
        (folder / "office-data").mkdir(parents=True)
        for name, path in zip(("journal", *SLOTS), sources):
            if path is not None:
                shutil.copy(path, folder / "office-data" / name)
        return folder

    def compare(self, name, folder, asked):
        """The program replies in a folder as the model does, and journal-dump finds nothing wrong there."""
        with self.subTest(name):
            status, _, note = self.run_tool("journal-dump", "--check", "--slots", folder / "office-data/journal")
            self.assertEqual((0, ""), (status, note))
            asked = asked[:20]
            ended = self.office("run", sent=b"".join(sent_of(*it[:4]) for it in asked), folder=folder)
            self.assertEqual((0, "", [text(it[4]) for it in asked]), (ended.returncode, ended.stderr.decode(), list(bodies(ended.stdout))))

    def two_copies(self):
        """An earlier and a later copy, the files and the queries of each, with both slots in the later one."""
        history, found = filled(5), []
        older = b""
        for _ in range(2):
            before = len(history.journal)
            while len(history.journal) == before:
                history.command()
            newer = history.slot()
            self.put(history.closed() + bytes(60), newer, older)
            self.assertEqual(0, self.backup()[0])
            stamp = sorted(self.copies.glob(f"journal{STAMP}"))[-1].name.partition("-")[2]
            found.append(([self.copies / f"{it}-{stamp}" for it in ("journal", *SLOTS)], history.asked()))
            older = newer
        return found

    def test_each_combination(self):
        (early, then), (late, now) = self.two_copies()
        self.check("the files", [["check.0", "journal"], ["check.0", "check.1", "journal"]], self.copied())
        for name, sources, asked in (
                ("the journal alone", (late[0],), now), ("both slots", late, now), ("the newer slot", (late[0], late[1]), now),
                ("the older slot", (late[0], None, late[2]), now),
                ("the newer slot in the other place", (late[0], None, late[1]), now), ("both, exchanged", (late[0], late[2], late[1]), now),
                ("an older copy", early[:2], then), ("a slot of the copy before", (late[0], early[1]), now), ("its journal alone", (early[0],), then)):
            self.compare(name, self.restored(*sources), asked)

    def test_a_newer_slot_beside_an_older_journal(self):
        """The tools refuse it, whatever is in the file at the slot's position."""
        (early, _), (late, _) = self.two_copies()
        folder = self.restored(early[0], late[1])
        position = int.from_bytes(late[1].read_bytes()[1:9], "big")
        status, _, note = self.run_tool("journal-dump", "--check", "--slots", folder / "office-data/journal")
        self.check("journal-dump", (5, "slots: check.0 is of another journal"), (status, note))
        before = sorted(self.copies.iterdir())
        self.put(early[0].read_bytes(), late[1].read_bytes(), b"")
        status, _, note = self.backup("--keep", "1", "--replaced")
        self.check("backup", (8, True), (status, f"check.0: of another journal: no entry ends at its position {position}; no copy is kept" in note))
        self.check("backup: the copies", before, sorted(self.copies.iterdir()))
        self.put(early[0].read_bytes(), b"", b"")
        self.check("backup without the slot", 0, self.backup("--keep", "1", "--replaced")[0])

    def test_the_program_beside_a_newer_slot(self):
        """It reports damage at the slot's position, if the file ends there."""
        self.put(b"\xa5METERJRN1\0")
        self.office("run", sent=request("PUT", "/buckets/logs"))
        if not (self.data / SLOTS[0]).exists() or not (self.data / SLOTS[0]).read_bytes():
            self.skipTest("no checkpoint: the program leaves check.0 empty")
        (early, _), (late, _) = self.two_copies()
        position = int.from_bytes(late[1].read_bytes()[1:9], "big")
        folder = self.restored(early[0], late[1])
        with open(folder / "office-data/journal", "r+b") as file:
            file.truncate(position)
        ended = self.office("run", folder=folder)
        self.check("the program", (5, f"journal: damaged at {position}"), (ended.returncode, ended.stderr.decode().strip()))

    def test_a_gap_is_mended(self):
        """A start with a newer slot went on after a gap. With a copy of the journal up to there nothing is lost."""
        history = filled(5)
        early = history.closed()
        history.append(history.last + 1, b"\1" + number(7, 2) + b"another")
        self.put(history.closed(), history.slot())
        self.assertEqual(0, self.backup()[0])
        gap = len(history.journal) - 1 - len(early)
        history.append(history.last + 1, b"\1" + number(5, 2) + b"later")
        self.put(early + bytes(gap) + history.closed()[len(early) + gap:], history.slot())
        status, lines, _ = self.run_tool("journal-dump", "--slots", self.journal)
        first, *_, last = map(json.loads, lines.splitlines())
        self.check("it opens, and is not of this journal", (5, 0, False), (status, last["entries"], first["of_journal"]))
        copy, = self.copies.glob(f"journal{STAMP}")
        status, _, notes = self.run_tool("journal-digest", "mend", self.copies / "journal.digest", "mended", self.journal, copy)
        self.check("mended", (0, "", history.closed()), (status, notes, (self.folder / "mended").read_bytes()))

    def test_slots_that_are_left_out(self):
        history = filled(6)
        whole = history.slot()
        for name, slots, wanted, note in (
                ("none", (), [], ""), ("empty", (b"", b""), [], ""), ("closed", (b"\0" + whole[1:], whole), ["check.1"], ""),
                ("damaged", (whole, whole[:-1]), ["check.0"],
                 f"damaged at 9: the body claims {len(whole) - 17} bytes, and the file has {len(whole) - 18}; not copied"),
                ("bytes after the body", (whole + b"more", b""), ["check.0"], "")):
            with self.subTest(name):
                shutil.rmtree(self.copies, ignore_errors=True)
                for it in SLOTS:
                    (self.data / it).unlink(missing_ok=True)
                self.put(history.closed(), *slots)
                status, _, notes = self.backup()
                self.assertEqual((0, [[*wanted, "journal"]]), (status, self.copied()))
                self.assertEqual(bool(note), bool(notes))
                self.assertIn(note, notes)
                for path in self.copies.glob(f"check.?{STAMP}"):
                    self.assertEqual(whole, path.read_bytes())

    def test_a_slot_that_cannot_be_read(self):
        self.put(filled(6).closed())
        (self.data / SLOTS[0]).mkdir()
        status, _, notes = self.backup()
        self.check("the journal is copied", (0, [["journal"]], True), (status, self.copied(), "no checkpoint is copied" in notes))

    def test_keep(self):
        history = filled(6)
        self.put(history.closed(), history.slot(), history.slot())
        for _ in range(3):
            self.assertEqual(0, self.backup("--keep", "2")[0])
        self.check("two copies", [["check.0", "check.1", "journal"]] * 2, self.copied())
        # A run that was stopped before its journal had its name.
        (self.copies / "check.0-20200101T000000Z").write_bytes(b"")
        self.assertEqual(0, self.backup("--keep", "1")[0])
        self.check("one copy", [["check.0", "check.1", "journal"]], self.copied())

    def test_a_slot_at_an_earlier_gate(self):
        """Each gate of a journal with more than a block is found, and another place or moment is not."""
        history = filled(8)
        slot, end = history.slot(), len(history.journal) - 1
        self.put(history.closed(), slot, b"")
        self.assertEqual(0, self.backup()[0])
        history.append(history.last + 1, b"\1" + number(7, 2) + b"another")
        for name, data, wanted in (("at the end before", slot, 0), ("another place", slot[:1] + number(end + 1) + slot[9:], 8),
                                   ("another moment", slot[:1] + number(len(history.journal) - 1) + slot[9:], 8)):
            self.put(history.closed(), data, b"")
            self.check(name, wanted, self.backup()[0])

    def test_a_bit_of_a_slot_flips(self):
        """In a count of bytes of a meter, say: the slot decodes, is of this journal, and has another number."""
        history = filled(6)
        slot, found = history.slot(), 0
        self.put(history.closed(), slot, b"")
        self.assertEqual(0, self.backup()[0])
        copy, = self.copies.glob(f"check.0{STAMP}")
        for at in range(17, len(slot), max(5, len(slot) // 30)):
            changed = slot[:at] + bytes([slot[at] ^ 1]) + slot[at + 1:]
            self.put(history.closed(), changed, b"")
            status, _, _ = self.run_tool("journal-dump", "--check", "--slots", self.journal)
            if status == 0:
                found += 1
                status, said, note = self.run_tool("backup", self.journal, self.copies)
                self.check(f"byte {at}", (8, "", f"backup: {self.data / SLOTS[0]}: byte {at} is not what it is in {copy}, of the same position "
                                          f"{int.from_bytes(slot[1:9], 'big')}: one of them changed; no copy is kept"), (status, said, note))
        self.assertGreater(found, 3, "journal-dump does not see some of them")
        self.put(history.closed(), slot + b"bytes of a longer one before", b"")
        self.check("as it was", 0, self.backup()[0])
        self.check("the copies", [["check.0", "journal"]] * 2, self.copied())
        (self.data / SLOTS[0]).unlink()
        self.check("without it", 0, self.backup()[0])

    def save(self, history, place):
        """Saves a slot as the program does: the gate is closed first, and opened last."""
        data = history.slot()
        with open(self.data / SLOTS[place], "r+b", buffering=0) as file:
            file.write(b"\0")
            file.seek(1)
            for at in range(1, len(data), 7):
                file.write(data[at:at + 7])
            file.seek(0)
            file.write(data[:1])

    def work(self, history, ended):
        """Appends entries and saves slots until it is ended."""
        place = 0
        with open(self.journal, "r+b", buffering=0) as file:
            while not ended.is_set():
                begin = len(history.journal) - 1
                history.command()
                new = history.journal[begin + 1:-1] + b"\0"
                if len(new) > 1:
                    file.seek(begin + 1)
                    file.write(new)
                    file.seek(begin)
                    file.write(b"\xa5")
                    self.save(history, place)
                    place = 1 - place

    def test_beside_a_writer(self):
        """Each copy opens, and has no slot of a later journal and no slot that is half an older one."""
        history, ended = filled(9), threading.Event()
        self.put(history.closed(), history.slot(), b"\0")
        worker = threading.Thread(target=self.work, args=(history, ended))
        worker.start()
        try:
            for _ in range(6):
                self.assertEqual((0, ""), self.backup()[::2])
        finally:
            ended.set()
            worker.join()
        slots = []
        for path in sorted(self.copies.glob(f"journal{STAMP}")):
            status, said, note = self.run_tool("journal-dump", "--slots", path)
            lines = [json.loads(it) for it in said.splitlines()]
            slots += [it["state"] for it in lines[:2]]
            self.assertEqual((0, ""), (status, note))
            self.assertIn(lines[-1]["opening"], (None, *SLOTS))
        self.check("what was copied", ({"whole"}, 6), (set(slots) - {"missing"}, len(slots) // 2))


if __name__ == "__main__":
    live.main()
