#!/usr/bin/env -S python3 -B
"""Fills file systems of their own, and shows what the program does then: full while a server puts, while a run saves
its checkpoint, and at init, in memory (tmpfs) and on a block device (ext4 over a loop device); a device that cannot
write what the file system has room for, so that a sync fails; a read-only file system.

Needs root, and leave to mount. Commands have tokens: those that a full disk refused are sent again after room was made.
"""
import json
import os
import pathlib
import shutil
import subprocess

import live
from commands import CREATE, FAULT, PUT, Ask, Model, check_session, entry_in, replies_in
from serve_client import LIMIT, Server, request, whole_entries_of
from test_disk_calls import sent_of

SHOW, FAILED = "/buckets/load", (2, "", "store: failed\n")
MAKE = Ask(CREATE, "load", "make")


def put(number, size=1_000):
    """A put under a key of this many bytes."""
    return Ask(PUT, "load", f"t{number}", key=f"{number:05}-".ljust(size, "k"), size=number)


class Mounts(live.Case):
    def setUp(self):
        super().setUp()
        if os.geteuid() or not live.has("mount"):
            self.skipTest("no mount" if os.geteuid() == 0 else "no root")
        self.disk = self.mounted("disk", "-t", "tmpfs", "-o", "size=512k", "office")

    def command(self, *words):
        return subprocess.run(words, capture_output=True, text=True, timeout=LIMIT, check=False)

    def mounted(self, name, *words):
        """A file system, mounted on a new folder until the end of the test."""
        place = self.folder / name
        place.mkdir()
        done = self.command("mount", *words, place)
        if done.returncode:
            self.skipTest(f"no leave to mount: {done.stderr.strip()}")
        self.addCleanup(self.command, "umount", "-l", place)
        return place

    def loop(self, size, backing=None):
        """An ext4 of some MiB over a loop device; its file is in `backing`."""
        if not live.has("mkfs.ext4"):
            self.skipTest("no mkfs.ext4")
        image = (backing or self.folder) / "image"
        with open(image, "wb") as file:
            file.truncate(size << 20)
        done = self.command("mkfs.ext4", "-q", "-O", "^has_journal", "-E", "lazy_itable_init=0", image)
        self.assertEqual("", done.stderr)
        return self.mounted("device", "-o", "loop", image)

    def fill(self, place, left):
        """Fills a file system up to this many bytes."""
        ballast = place / "ballast"
        with open(ballast, "ab", buffering=0) as file:
            try:
                while True:
                    file.write(bytes(4_096))
            except OSError:
                file.truncate(max(0, file.seek(0, 2) - left))
                os.fsync(file.fileno())

    def entries(self, folder):
        return [entry_in(it) for it in whole_entries_of(folder)]

    def run_office(self, folder, asked):
        """The exit code, the replies and the note of a run."""
        ended = self.office("run", sent=sent_of(asked), folder=folder)
        return ended.returncode, replies_in(ended.stdout), ended.stderr.decode()

    def init(self, folder):
        ended = self.office("init", folder=folder)
        return ended.returncode, ended.stdout.decode(), ended.stderr.decode()

    def opening(self, folder):
        """What a start takes, by journal-dump: a slot or none, and how many entries it reads."""
        status, said, _ = self.run_tool("journal-dump", "--slots", folder / "office-data/journal")
        found = json.loads(said.splitlines()[-1])
        return status, found["opening"], found["entries"]


class FullDisk(Mounts):
    # ---- while a server puts

    def test_full_while_a_server_puts(self):
        self.puts_until_full(self.disk)

    def test_full_device_while_a_server_puts(self):
        self.puts_until_full(self.loop(4))

    def puts_until_full(self, place):
        self.check("init", (0, "made\n", ""), self.init(place))
        with Server(self.program, place, "--workers", "1") as server, server.client() as client:
            asked, replies = [], []

            def ask(it):
                asked.append(it)
                replies.append(client.ask(it.sent if isinstance(it, Ask) else request("GET", it)))
                return replies[-1]
            ask(MAKE)
            ask(put(0))
            self.fill(place, 96 << 10)
            number = 0
            while replies[-1] != FAULT and number < 1_000:
                number += 1
                ask(put(number))
            self.assertEqual(FAULT, replies[-1], "the disk becomes full")
            self.assertGreater(number, 10, "some puts were done before")
            for more in range(number + 1, number + 6):
                self.check("a query on a full disk", 200, ask(SHOW)[0])
                self.check("a put on a full disk", FAULT, ask(put(more)))
            self.check("only puts that the disk had no room for are refused",
                       [put(it).token for it in range(number, number + 6)],
                       [it.token for it, reply in zip(asked, replies) if reply == FAULT])
            model, there = Model(), self.entries(place)
            self.check("the replies, and what the journal has", [], check_session(model, asked, replies, there))
            (place / "ballast").unlink()
            asked, replies = [], []
            for it in (*map(put, range(number + 6)), SHOW):
                ask(it)
            self.check("with room each is done, and once", [],
                       check_session(model, asked, replies, self.entries(place)[len(there):]))
            self.check("each is acknowledged", {200, 201}, {it[0] for it in replies})
            self.check("no restart was needed", None, server.process.poll())
            server.stop(9)
        self.check("the next run", (0, ""), (it := self.run_office(place, model.targets()))[::2])
        self.check("its replies", [], check_session(model, model.targets(), it[1], []))

    # ---- while a run saves

    def test_full_while_a_run_saves(self):
        """The journal of 60 puts has room, and the checkpoint of them has none."""
        self.save_on_full(self.disk)

    def test_full_device_while_a_run_saves(self):
        self.save_on_full(self.loop(4))

    def save_on_full(self, place):
        self.init(place)
        model, first = Model(), [MAKE, *map(put, range(60))]
        self.fill(place, 100 << 10)
        code, replies, note = self.run_office(place, first)
        self.check("the save fails", (2, "store: failed\n"), (code, note))
        self.check("each put is acknowledged", [201] * 61, [it[0] for it in replies])
        self.check("the journal has them", [], check_session(model, first, replies, self.entries(place)))
        self.check("no checkpoint is open", (0, None, 61), self.opening(place))
        self.check("the next start replays", [], self.shown(place, model))
        (place / "ballast").unlink()
        second = [put(60)]
        code, replies, note = self.run_office(place, second)
        self.check("with room a run saves", (0, ""), (code, note))
        self.check("its replies", [], check_session(model, second, replies, self.entries(place)[61:]))
        self.check("a start takes it", (0, "check.0", 0), self.opening(place))
        # The second slot has no room: the first one stays.
        self.fill(place, 40 << 10)
        saved, third = (place / "office-data/check.0").read_bytes(), list(map(put, range(61, 71)))
        code, replies, note = self.run_office(place, third)
        self.check("the next save fails", (2, "store: failed\n"), (code, note))
        self.check("the replies then", [], check_session(model, third, replies, self.entries(place)[62:]))
        self.check("the first checkpoint is as it was", True, saved == (place / "office-data/check.0").read_bytes())
        self.check("a start takes it, and replays the rest", (0, "check.0", 10), self.opening(place))
        self.check("and is right", [], self.shown(place, model))

    def shown(self, place, model):
        """What a run that only asks has wrong."""
        code, replies, note = self.run_office(place, model.targets())
        return [*([] if (code, note) == (0, "") else [(code, note)]),
                *check_session(model, model.targets(), replies, [])]

    # ---- at init

    def test_full_at_init(self):
        self.fill(self.disk, 0)
        for _ in range(2):
            self.check("init on a full disk", FAILED, self.init(self.disk))
        self.check("nothing is made", (5, [], "journal: not made\n"), self.run_office(self.disk, [MAKE]))
        (self.disk / "ballast").unlink()
        self.begin(self.disk)

    def test_no_file_left_at_init(self):
        """A file system without room for another file, at each file in turn."""
        for files in (1, 2, 3, 4):
            place = self.mounted(f"few {files}", "-t", "tmpfs", "-o", f"size=512k,nr_inodes={files}", "office")
            # The root, the folder, the journal, two slots. Without a slot init makes the journal, and a start needs
            # none.
            found = self.init(place)
            self.check(f"init with room for {files - 1}", (0, "made\n", "") if files > 2 else FAILED, found)
            if files > 2:
                code, replies, note = self.run_office(place, [MAKE])
                self.check(f"a run with room for {files - 1}: its replies", [],
                           check_session(Model(), [MAKE], replies, self.entries(place)))
            self.command("mount", "-o", "remount,nr_inodes=100", place)
            if files <= 2:
                self.begin(place)

    def begin(self, place):
        """With room the office begins."""
        self.check("then init", (0, "made\n", ""), self.init(place))
        model, asked = Model(), [MAKE, put(1), SHOW]
        code, replies, note = self.run_office(place, asked)
        self.check("then a run", (0, "", []), (code, note, check_session(model, asked, replies, self.entries(place))))

    # ---- others

    def test_read_only(self):
        self.begin(self.disk)
        self.assertEqual(0, self.command("mount", "-o", "remount,ro", self.disk).returncode)
        for words in (("init",), ("run",), ("report", "2024-01"), ("explain",)):
            ended = self.office(*words, folder=self.disk)
            self.check(f"{words[0]} on a read-only disk", FAILED,
                       (ended.returncode, ended.stdout.decode(), ended.stderr.decode()))
        self.command("mount", "-o", "remount,rw", self.disk)
        self.check("and after it", 0, self.office("run", folder=self.disk).returncode)


class LostWrites(Mounts):
    """A device that has no room for what its file system wrote: the write succeeds, and the sync of it fails."""

    def test_a_sync_that_fails(self):
        backing = self.mounted("backing", "-t", "tmpfs", "-o", "size=8m", "office")
        place = self.loop(64, backing)
        self.init(place)
        model, replies = Model(), []
        asked = [MAKE, *map(put, range(40))]
        with Server(self.program, place, "--workers", "1") as server, server.client() as client:
            replies = [client.ask(it.sent) for it in asked]
            self.check("with room", {201}, {it[0] for it in replies})
            self.fill(backing, 0)
            number = 40
            while replies[-1] != FAULT and number < 400:
                asked.append(put(number))
                replies.append(client.ask(asked[-1].sent))
                number += 1
            self.check("a sync fails, and its put is not acknowledged", FAULT, replies[-1])
            there = self.entries(place)
            self.check("the replies, and what the journal has", [], check_session(model, asked, replies, there))
            (backing / "ballast").unlink()
            again = list(map(put, range(number + 20)))
            replies = [client.ask(it.sent) for it in again]
            self.check("with room each is done", {201}, {it[0] for it in replies})
            self.check("and once", [], check_session(model, again, replies, self.entries(place)[len(there):]))
            server.stop(9)
        # What the device itself has is not compared: it keeps no later write of a page whose write failed, though the
        # syncs succeed. A writer that writes the whole page again loses it too (README, "How to lose data").
        code, replies, note = self.run_office(place, model.targets())
        self.check("the next run", (0, "", []), (code, note, check_session(model, model.targets(), replies, [])))


if __name__ == "__main__":
    live.main()
