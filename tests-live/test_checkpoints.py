#!/usr/bin/env -S python3 -B
"""Compares the checkpoint slots that the program writes with those of the plain models (plain_slots.py), byte by byte, and what it
opens from slots and journals that fit each other or do not with what docs/FORMATS.md says. Also compares tools/journal-dump, which
reads slots by itself, with the models' slots.

OFFICE_SEEDS=1000,100 takes 100 histories from number 1000 on in place of 20 of the models and 12 of the program. What needs a
checkpoint of the program is left out if the program saves none.
"""
import json
import random

import live
from histories import number
from model_words import text
from plain_office import text_of
from plain_slots import SLOTS, slot_of
from recorded import Recorded, filled, sent_of
from serve_client import request
from test_model import bodies

MOST = 40  # messages of a session


class Folders(live.Case):
    in_memory = True

    def folder_of(self, name, journal, slots=()):
        """A new folder of the office with these bytes as its files."""
        folder = self.folder / name
        (folder / "office-data").mkdir(parents=True)
        (folder / "office-data/journal").write_bytes(journal)
        for file, data in zip(SLOTS, slots):
            (folder / "office-data" / file).write_bytes(data)
        return folder

    def slots_in(self, folder):
        paths = [folder / "office-data" / it for it in SLOTS]
        return [it.read_bytes() if it.exists() else b"" for it in paths]

    def shown(self, folder):
        """What journal-dump says of the slots and the opening, after its status."""
        status, said, _ = self.run_tool("journal-dump", "--slots", folder / "office-data/journal")
        return status, [json.loads(it) for it in said.splitlines()]


class Models(Folders):
    """The models' slots, and what journal-dump reads there."""

    def test_random_histories(self):
        closed = 0
        for seed in live.seeds(1, 20):
            with self.subTest(seed=seed):
                history = filled(seed)
                older, before = history.slot(), len(history.journal) - 1
                while len(history.journal) == before + 1:
                    history.command()
                status, (one, other, opening) = self.shown(self.folder_of(str(seed), history.closed() + b"\0" * 50, (history.slot(), older)))
                end = len(history.journal) - 1
                self.assertEqual((0, {"opening": "check.0", "from": end, "entries": 0, "end": end}), (status, opening))
                self.assertEqual([("check.0", end, True), ("check.1", before, True)],
                                 [(it.get("slot"), it.get("position"), it.get("of_journal")) for it in (one, other)])
                buckets = history.buckets.values()
                stacks = [it for bucket in buckets for it in bucket.stacks.values()]
                self.assertEqual((len(history.buckets), len(stacks), sum(len(it["versions"]) for it in stacks), sum(len(it.uploads) for it in buckets),
                                  len(history.months.tariffs), len(history.months.closed), len(history.kept.replies), history.last),
                                 tuple(one[name] for name in ("buckets", "keys", "versions", "uploads", "tariffs", "closed", "kept", "ms")))
                closed += len(history.months.closed)
        self.assertGreater(closed, 0, "some months were closed")

    def test_a_slot_of_another_history(self):
        """Another one has another last moment, other buckets or other replies, at whatever gate it stands."""
        one, other = filled(3), filled(4)
        status, (found, _, opening) = self.shown(self.folder_of("other", one.closed(), (slot_of(len(one.journal) - 1, other.state()), b"")))
        self.assertEqual((5, "whole", False, "check.0"), (status, found["state"], found["of_journal"], opening["opening"]))
        status, (found, _, opening) = self.shown(self.folder_of("past", one.closed(), (slot_of(len(one.journal), one.state()), b"")))
        self.assertEqual((5, False, len(one.journal)), (status, found["of_journal"], opening["damaged"]))


    def test_in_words(self):
        """The lines of --check, of a journal of one bucket."""
        history = Recorded(1)
        history.command(0)
        end, last = len(history.journal) - 1, text_of(history.last)
        folder = self.folder_of("words", history.closed(), (b"\0", history.slot()))
        status, said, note = self.run_tool("journal-dump", "--check", "--slots", folder / "office-data/journal")
        self.check("the status", (0, ""), (status, note))
        kept = len(history.kept.replies)
        self.check("the lines", [
            f"whole: entries 1; last moment {last}; end gate at {end}; bytes without meaning behind it: 0", "check.0: closed",
            f"check.1: whole: position {end}; last moment {last}; buckets 1; keys 0; versions 0; uploads 0; tariffs 0; closed months 0; kept replies {kept}",
            f"opening: takes check.1; reads from {end}: entries 0; end gate at {end}"], said.splitlines())
        (folder / "office-data/check.1").write_bytes(history.slot()[:-1])
        status, said, note = self.run_tool("journal-dump", "--check", "--slots", folder / "office-data/journal")
        size = len(history.slot()) - 17
        self.check("a slot that was cut", (5, "slots: check.1 is damaged", [
            f"check.1: damaged at 9: the body claims {size} bytes, and the file has {size - 1}",
            f"opening: takes no slot; reads from 10: entries 1; end gate at {end}"]), (status, note, said.splitlines()[2:]))

    def test_what_cannot_be_read(self):
        folder = self.folder_of("read", b"\xa5METERJRN1\0") / "office-data"
        self.check("no journal", 3, self.run_tool("journal-dump", "--slots", folder / "none")[0])
        for name, data, wanted in (("foreign", b"\xa5METERJRN2\0", "journal: foreign"), ("not made", b"", "journal: not made")):
            (folder / "journal").write_bytes(data)
            self.check(name, (5, "", wanted), self.run_tool("journal-dump", "--check", "--slots", folder / "journal"))
        (folder / SLOTS[1]).mkdir()
        status, _, note = self.run_tool("journal-dump", "--slots", folder / "journal")
        self.check("a folder in the place of a slot", (3, f"journal-dump: {folder / SLOTS[1]}: Is a directory"), (status, note))


class Program(Folders):
    """Needs a program that saves checkpoints."""

    def setUp(self):
        super().setUp()
        folder = self.new_folder("first")
        self.office("run", sent=request("PUT", "/buckets/logs"), folder=folder)
        self.first = self.slots_in(folder)[0]
        if not self.first:
            self.skipTest("no checkpoint: the program leaves check.0 empty")

    def session(self, folder, asked):
        """Sends messages, and compares the replies with the model's."""
        for place in range(0, max(1, len(asked)), MOST):
            self.session_of(folder, asked[place:place + MOST])

    def session_of(self, folder, asked):
        ended = self.office("run", sent=b"".join(sent_of(*it[:4]) for it in asked), folder=folder)
        self.assertEqual((0, ""), (ended.returncode, ended.stderr.decode()))
        wrong = [f"{method} {target}: wanted {text(wanted)}, found {body}"
                 for (method, target, _, _, wanted), body in zip(asked, bodies(ended.stdout)) if text(wanted) != body]
        self.assertEqual([], wrong[:3])

    def test_the_slot_of_a_bucket(self):
        """After one bucket the journal has 31 bytes, and its end gate is at 30."""
        self.assertEqual((b"\xa7" + number(30) + number(71), 17 + 71), (self.first[:17], len(self.first)))

    def test_random_histories(self):
        for seed in live.seeds(1, 12):
            with self.subTest(seed=seed):
                self.compare(seed)

    def compare(self, seed):
        """Four sessions: each saves in the slot that is not loaded, and the third, which only asks, saves nothing."""
        history = filled(seed)
        folder, wanted, loaded = self.folder_of(str(seed), history.closed()), [b"", b""], None
        for turn in range(4):
            before = len(history.journal)
            asked = [history.command() for _ in range(0 if turn == 2 else 12)]
            self.session_of(folder, asked + history.asked()[:MOST])
            if len(history.journal) > before:
                loaded = 0 if loaded is None else 1 - loaded
                wanted[loaded] = history.slot()
            for name, there, own in zip(SLOTS, self.slots_in(folder), wanted):
                # Bytes of a longer body may be left after the body.
                self.assertEqual(own, there[:len(own)] if own else there, f"{name} after session {turn + 1}")
            status, lines = self.shown(folder)
            self.assertEqual((0, SLOTS[loaded] if loaded is not None else None), (status, lines[-1]["opening"]))

    def opens(self, folder):
        """How a run ends in a folder, and its note."""
        ended = self.office("run", folder=folder)
        return ended.returncode, ended.stderr.decode().strip()

    def two_states(self, seed=7):
        """A history at an earlier and at a later moment: its journal, slot and queries each."""
        history, found = filled(seed), []
        for _ in range(2):
            before = len(history.journal)
            while len(history.journal) == before:
                history.command()
            found.append((history.closed(), history.slot(), history.asked()))
        return found

    def test_folders_that_open(self):
        """With each slot, both or none, the older one beside the newer journal, too."""
        (early, older, then), (late, newer, now) = self.two_states()
        closed = b"\x37" + newer[1:]
        for name, journal, slots, asked in (
                ("no slots", late, (), now), ("empty slots", late, (b"", b""), now), ("the newest in the first", late, (newer, b""), now),
                ("the newest in the second", late, (older, newer), now), ("the older alone", late, (b"", older), now),
                ("the older twice", late, (older, older), now), ("the newest closed", late, (closed, older), now), ("none open", late, (closed, b"\0"), now),
                ("the newest cut", late, (newer[:-1], older), now), ("the earlier journal", early, (older, b""), then),
                ("zeros at the end", late + bytes(90), (newer, older), now)):
            with self.subTest(name):
                self.session(self.folder_of(name, journal, slots), asked)

    def test_folders_that_do_not_open(self):
        """A slot that is newer than its journal."""
        (early, older, _), (late, newer, now) = self.two_states()
        position = len(late) - 1
        for name, slots in (("newer", (newer, b"")), ("newer and older", (older, newer))):
            folder = self.folder_of(name, early, slots)
            self.check(name, (5, f"journal: damaged at {position}"), self.opens(folder))
            self.check(f"{name}: by journal-dump", (5, position), (self.shown(folder)[0], self.shown(folder)[1][-1]["damaged"]))
        # A closed gate at the position ends the journal there: the program cannot know that entries are missing, and the tools do.
        folder = self.folder_of("zeros", early + bytes(len(late) - len(early)), (newer, b""))
        self.check("zeros: by journal-dump", 5, self.shown(folder)[0])
        self.session(folder, now)

    def test_damage_before_the_position(self):
        """An opening does not see it, and explain does."""
        (_, _, _), (late, newer, now) = self.two_states()
        folder = self.folder_of("front", late[:15] + b"\x37" + late[16:], (newer, b""))
        self.session(folder, now)
        ended = self.office("explain", folder=folder)
        self.check("explain", (5, "journal: damaged at 10"), (ended.returncode, ended.stderr.decode().strip()))
        status, lines = self.shown(folder)
        self.check("journal-dump", (5, None, "check.0"), (status, lines[0]["of_journal"], lines[-1]["opening"]))

    def test_slots_that_do_not_decode(self):
        """With a front that is damaged, a folder opens exactly if its slot decodes: the program and the tool agree on changed slots."""
        (_, _, _), (late, newer, _) = self.two_states()
        front, draw, others, told = late[:15] + b"\x37" + late[16:], random.Random(1), [], set()
        places = sorted(draw.sample(range(len(newer)), min(len(newer), 100)))
        changed = [newer[:at] + bytes([newer[at] ^ 1 << draw.randrange(8)]) + newer[at + 1:] for at in places]
        changed += [newer[:count] for count in (0, 1, 16, 17, len(newer) - 1)] + [newer + b"\0", newer]
        folder = self.folder_of("changed", front, (b"", b""))
        for data in changed:
            (folder / "office-data/check.0").write_bytes(data)
            by_tool = self.shown(folder)[1][-1]
            # From another position the journal may be damaged, or the first entry refused.
            if by_tool["from"] not in (10, len(late) - 1):
                continue
            wanted, found = (5 if "damaged" in by_tool else 0), self.opens(folder)[0]
            told.add(found)
            if wanted != found:
                others.append((data.hex(), wanted, found))
        self.check("the same", ([], {0, 5}), (others[:3], told))


if __name__ == "__main__":
    live.main()
