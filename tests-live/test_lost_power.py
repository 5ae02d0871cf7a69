#!/usr/bin/env -S python3 -B
"""Takes the power away at each moment of init and of three runs with a save each, and starts the office from what the
disk may then have.

disk_calls.c logs the calls that the program makes on its files. From the log call_log.py gives what each call leaves:
each write since the last sync of its file is done, not done, done in part, or has other bytes in its place. From each
of these images a start has to have the commands that were acknowledged by then, at most the next one besides, and
nothing else. Commands that are sent again with their tokens are done once. Prints how many images there were.

The controls change the order of the calls in the log: a sync is left out, the gate is written before its frame, both
slots are one file. Each has to give an image that fails, so the test would see a program that makes its calls like
this. The last one is a disk that forgets a failed sync.

IMAGES=50 SEED=1 tests-live/test_lost_power.py PROGRAM takes 50 drawn images of each moment instead of 3, and draws as
number 1 does. """
import collections
import copy
import errno
import os
import random
import shutil
import subprocess
import time

import call_log
import live
from call_log import CUT, JOURNAL, REPLY, SLOTS, SYNC, WRITE, Disk, File, some_image
from commands import CREATE, FAULT, PUT, Ask, Model, check_session, entry_in, replies_in
from serve_client import LIMIT, whole_entries_of
from test_disk_calls import FIRST, SECOND, THIRD, is_command, sent_of

IMAGES, SEED = int(os.environ.get("IMAGES", "3")), int(os.environ.get("SEED", str(time.time_ns() % 10**9)))
GATE = b"\xa5"


class Pages(File):
    """A file of a system that forgets a failed sync, as Linux does: its pages count as written then, and only what is
    written into them later is written again."""

    def __init__(self):
        super().__init__()
        self.dirty, self.kept = set(), {}

    def do(self, call):
        if call.kind == SYNC:
            if call.result == 0:
                self.kept.update((page, self.seen[page * 4_096:(page + 1) * 4_096]) for page in self.dirty)
            self.dirty = set()
        elif call.kind == WRITE and call.result > 0:
            self.dirty.update(range(call.at // 4_096, (call.at + call.result - 1) // 4_096 + 1))
        super().do(call)

    def least(self):
        return b"".join(self.kept.get(page, b"").ljust(4_096, b"\0")
                        for page in range(-(-len(self.seen) // 4_096)))[:len(self.seen)]


@live.needs("cc")
class LostPower(live.Case):
    in_memory = True

    def setUp(self):
        super().setUp()
        self.library, self.log = call_log.built(self.folder), self.folder / "log"
        self.place, self.image = self.folder / "run", self.folder / "image"
        self.place.mkdir()
        self.counts, self.calls, self.commands, self.moments = collections.Counter(), [], [], []

    def logged(self, words, asked=(), **how):
        """Runs a command; its calls go behind those of the ones before."""
        ended = subprocess.run([self.program, *words], cwd=self.place, input=sent_of(asked), capture_output=True,
                               timeout=LIMIT, check=False,
                               env=call_log.surroundings(self.library, self.place, self.log, **how))
        self.assertEqual((0, b""), (ended.returncode, ended.stderr))
        self.calls += call_log.calls_in(self.log)
        return ended.stdout

    def sessions(self):
        """Init, and three runs. Afterwards `models` has the model after each number of commands."""
        self.logged(["init"])
        self.made, self.begun = len(self.calls), []
        for asked in (FIRST, SECOND, THIRD):
            self.begun.append(len(self.calls))
            self.assertEqual(len(asked), len(replies_in(self.logged(["run"], asked))))
        self.asked = [*FIRST, *SECOND, *THIRD]
        self.commands = list(filter(is_command, self.asked))
        self.entries = list(map(entry_in, whole_entries_of(self.place)))
        self.assertEqual([it.entry for it in self.commands], [it.rest for it in self.entries])
        self.models = [Model()]
        for it, entry in zip(self.commands, self.entries):
            self.models.append(copy.deepcopy(self.models[-1]))
            reply = self.models[-1].do(it, entry.moment)
            if it.token:
                self.models[-1].kept[it.token] = reply

    def acknowledged(self, count):
        """How many commands are acknowledged after so many calls of a log; replies are in the order of what was
        asked."""
        said = len(replies_in(b"".join(it.data for it in self.calls[:count] if it.kind == REPLY
                                       and it.data[:5] == b"HTTP/")))
        return sum(map(is_command, self.asked[:said]))

    def moments_of(self, calls):
        """The disk after each number of calls that changed it, and how many commands are acknowledged by then and until
        the next change."""
        disk, acked = Disk(), 0
        yield 0, disk, 0
        said = b""
        for count, call in enumerate(calls, 1):
            if call.kind == REPLY:
                said += call.data if not call.data.startswith((b"made", b"already")) else b""
                acked = sum(map(is_command, self.asked[:len(replies_in(said))]))
            disk.do(call)
            if call.kind in (WRITE, CUT, SYNC, REPLY):
                yield count, disk, acked

    def wrong_of(self, image, count, acked, has_slot):
        """What a start from an image has wrong; `acked` commands were acknowledged, and one more at most was begun."""
        shutil.rmtree(self.image, ignore_errors=True)
        self.image.mkdir()
        image[0].put(self.image, image[1])
        ended = self.office("run", folder=self.image)
        if count < self.made and (ended.returncode, ended.stderr) == (5, b"journal: not made\n"):
            again = self.office("init", folder=self.image)
            self.counts["not made yet"] += 1
            is_made = (again.returncode, again.stdout) == (0, b"made\n")
            return [] if is_made else [f"init then: {again.returncode} {again.stderr!r}"]
        if (ended.returncode, ended.stderr) != (0, b""):
            return [f"the start ends with {ended.returncode} {ended.stderr!r}"]
        found = list(map(entry_in, whole_entries_of(self.image)))
        if not acked <= len(found) <= acked + 1 or found != self.entries[:len(found)]:
            is_same = found == self.entries[:len(found)]
            return [f"{acked} commands were acknowledged, and {len(found)} are there; the same ones: {is_same}"]
        self.counts["with the next command" if len(found) > acked else "without it"] += 1
        if has_slot and not any((self.image / it).read_bytes()[:1] == b"\xa7" for it in SLOTS):
            return ["no checkpoint is left"]
        model = copy.deepcopy(self.models[len(found)])
        again = [*model.targets(), *(it for it in self.commands[:acked + 1] if it.token), *model.targets()]
        ended = self.office("run", sent=sent_of(again), folder=self.image)
        wrong = check_session(model, again, replies_in(ended.stdout),
                              list(map(entry_in, whole_entries_of(self.image)))[len(found):])
        return [*([] if (ended.returncode, ended.stderr) == (0, b"")
                  else [f"a run: {ended.returncode} {ended.stderr!r}"]), *wrong]

    def wrong_images(self, calls, most, draws=IMAGES, name="images", since=0):
        """The images of the moments of a log that fail, from a number of calls on, at most so many: the moment, the
        image, and what is wrong."""
        found, saved = [], 0
        for count, disk, acked in self.moments_of(calls):
            saved += any(it.kind == SYNC and it.file in SLOTS and it.result == 0
                         for it in calls[count - 1:count]) and is_saved(calls[:count])
            images = {"least": File.least, "all": lambda file: file.seen,
                      **{str(it): some_image((SEED, count, it).__hash__()) for it in range(draws)}}
            if count < since:
                continue
            if not any(it.written for it in disk.files.values()):
                images = {"all": images["all"]}
            for which, image in images.items():
                self.counts[name] += 1
                wrong = self.wrong_of((disk, image), count, acked, saved > 0)
                if wrong:
                    found.append(f"after {calls[count - 1] if count else 'nothing'}, image {which}: {wrong[:3]}")
                    if len(found) == most:
                        return found
        return found

    def test_each_moment(self):
        self.sessions()
        print(f"seed {SEED}", flush=True)
        self.assertEqual([], self.wrong_images(self.calls, 3))
        self.say()

    def say(self):
        print(f"{self.id().rpartition('.')[2]}: {sum(it.kind != REPLY for it in self.calls)} calls; "
              + ", ".join(f"{name} {count}" for name, count in sorted(self.counts.items())), flush=True)

    # ---- controls

    def test_controls(self):
        self.sessions()
        for name, change in (("the sync of the frame is left out", without_frame_sync),
                             ("the sync of the gate is left out", without_gate_sync),
                             ("the gate is written first", gate_first), ("both slots are one file", one_slot)):
            changed = change(self.calls)
            self.assertNotEqual(self.calls, changed, name)
            # Where the slots meet is the second save.
            since = self.begun[1] if change is one_slot else 0
            wrong = self.wrong_images(changed, 1, max(IMAGES, 6), name, since)
            self.check(f"{name}: an image fails", 1, len(wrong))
            print(f"{name}: {wrong[0] if wrong else 'no image fails'}", flush=True)
        self.say()

    def test_a_disk_that_forgets_a_failed_sync(self):
        """README, "How to lose data": what is acknowledged after such a sync may be lost. It needs a gate in another
        page than what is written after it; of these puts one in four has such a gate."""
        asked = [Ask(CREATE, "load"), *(Ask(PUT, "load", key=f"{it:04}".ljust(1_000, "k"), size=it)
                                        for it in range(12))]
        lost = collections.Counter()
        self.logged(["init"])
        begun = list(self.calls)
        shutil.copytree(self.place, self.folder / "made")
        self.logged(["run"], asked)
        gates = [it.number for it, other in zip(self.calls[len(begun):], self.calls[len(begun) + 1:])
                 if it.kind == WRITE and it.data == GATE]
        for number in gates:
            shutil.rmtree(self.place)
            shutil.copytree(self.folder / "made", self.place)
            self.calls = list(begun)
            said = replies_in(self.logged(["run"], asked, number=number + 1)) if number != gates[-1] else []
            if not said:
                continue
            self.check("the put of the failed sync is not acknowledged", 1, said.count(FAULT))
            disk = Disk()
            for it in self.calls:
                if it.kind in (WRITE, CUT, SYNC) and it.file.startswith("office-data/"):
                    disk.files.setdefault(it.file, Pages()).do(it)
            disk.files = {JOURNAL: disk.files[JOURNAL]}
            shutil.rmtree(self.image, ignore_errors=True)
            self.image.mkdir()
            disk.put(self.image, lambda file: file.least())
            ended = self.office("run", folder=self.image)
            there = {entry_in(it).rest for it in whole_entries_of(self.image)} if ended.returncode == 0 else set()
            missing = sum(reply[0] == 201 and it.entry not in there for it, reply in zip(asked, said))
            lost["gates whose sync failed"] += 1
            lost["after which acknowledged puts are lost"] += missing > 0
            lost["acknowledged puts lost"] += missing
        print("a disk that forgets a failed sync: " + ", ".join(f"{name} {count}" for name, count in lost.items()),
              flush=True)
        self.assertGreater(lost["after which acknowledged puts are lost"], 0)


def is_saved(calls):
    """Whether the last sync is that of the gate of a slot."""
    last = next((it for it in reversed(calls[:-1]) if it.kind == WRITE), None)
    return last is not None and last.file in SLOTS and last.data == b"\xa7"


def appends(calls):
    """The places of each append's writes of a frame, its sync, the write of its gate, and the sync of that."""
    frame = []
    for place, it in enumerate(calls):
        if it.file != JOURNAL or it.kind not in (WRITE, SYNC):
            continue
        if it.kind == WRITE and it.data != GATE:
            frame.append(place)
        elif it.kind == WRITE and frame and it.at == calls[frame[0]].at - 1:
            sync = next(at for at in range(place - 1, 0, -1) if calls[at].kind == SYNC and calls[at].file == JOURNAL)
            after = next(at for at in range(place + 1, len(calls)) if calls[at].kind == SYNC
                         and calls[at].file == JOURNAL)
            yield frame, sync, place, after
            frame = []
        elif it.kind == WRITE:
            frame = []


def without(calls, places):
    return [it for at, it in enumerate(calls) if at not in places]


def without_frame_sync(calls):
    return without(calls, {sync for _, sync, _, _ in appends(calls)})


def without_gate_sync(calls):
    return without(calls, {after for *_, after in appends(calls)})


def gate_first(calls):
    """Each append writes and syncs its gate, and then the frame."""
    found = list(calls)
    for frame, sync, gate, after in appends(calls):
        rest = [calls[at] for at in range(frame[0], sync + 1)]
        found[frame[0]:after + 1] = [calls[gate], calls[after], *rest,
                                     *(calls[at] for at in range(sync + 1, after) if at != gate)]
    return found


def one_slot(calls):
    return [it._replace(file=SLOTS[0]) if it.file == SLOTS[1] else it for it in calls]


if __name__ == "__main__":
    live.main()
