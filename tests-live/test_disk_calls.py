#!/usr/bin/env -S python3 -B
"""Makes each call fail in turn that the program makes on its files: in `init`, in three runs with commands and a save
at the end, and in a server of one connection.

disk_calls.c stands in for pread64, pwrite64, ftruncate, fdatasync, fsync and fstat of the C library. The call with a
number fails with EIO or ENOSPC, once or with all calls after it, or does half of its bytes. A sync that fails may take
back what was written since the sync before. Each case compares the replies and the exit code with docs/OPERATIONS.md
and FORMATS.md, then the journal and every bucket and key with a plain model, and sends all commands again with their
tokens. Prints how many cases there were."""
import collections
import copy
import errno
import shutil
import socket
import subprocess
import time

import call_log
import live
from call_log import CUT, JOURNAL, LENGTH, READ, REPLY, SLOTS, SYNC, WRITE
from commands import (ACT, CREATE, DELETE, FAULT, GONE, PUT, RULES, VERSIONING, Ask, Model, check_session, entry_in,
                      replies_in)
from free_port import HOST, free_port, give_back
from serve_client import LIMIT, request, whole_entries_of

# A run that ends with a query, one that ends with a command, and one more over both slots. No two of their commands
# are the same, so that each entry of the journal is that of one command.
FIRST = (Ask(CREATE, "logs", "make"), Ask(VERSIONING, "logs", "on", is_enabled=True),
         Ask(PUT, "logs", "a1", key="a", size=5),
         Ask(CREATE, "raw", "make-raw"), Ask(PUT, "raw", "b1", key="b", size=200_000, storage_class="STANDARD_IA",
                                             tags={"k": "v"}),
         Ask(RULES, "raw", rules=[GONE]), Ask(PUT, "raw", "b2", key="d" * 900, size=7), Ask(ACT, "raw"),
         "/buckets/logs/objects/a", "/buckets/logs")
SECOND = ("/buckets/logs", Ask(DELETE, "logs", "d1", key="a"), Ask(PUT, "logs", "long", key="l" * 1_000, size=8),
          "/buckets/logs/objects/a",
          Ask(PUT, "logs", key="c", size=9), Ask(PUT, "logs", "far", key="m" * 1_000, size=10),
          Ask(PUT, "logs", "a2", key="a", size=11))
THIRD = (Ask(PUT, "raw", "b3", key="b", size=12), Ask(DELETE, "logs", "d2", key="c"), "/buckets/raw")
EIO, ENOSPC = errno.EIO, errno.ENOSPC
# How a call fails, and the kinds of calls for which this is another case than the ones before.
EVERY, WRITES = (LENGTH, READ, WRITE, CUT, SYNC), (WRITE, CUT)
MODES = (("once", EIO, EVERY), ("once", ENOSPC, (WRITE, CUT, SYNC)), ("on", EIO, EVERY), ("on", ENOSPC, WRITES),
         ("part", EIO, (READ, WRITE)),
         ("cut", ENOSPC, (WRITE,)), ("lost", EIO, (SYNC,)))
STORE = "store: failed\n"


@live.needs("cc")
class DiskCalls(live.Case):
    in_memory = True

    def setUp(self):
        super().setUp()
        self.library, self.place, self.log = call_log.built(self.folder), self.folder / "run", self.folder / "log"
        self.counts = collections.Counter()

    # ---- a session, with a call that fails or none

    def run_office(self, words, sent, **how):
        """The exit code, what was said, the note, and the calls."""
        ended = subprocess.run([self.program, *words], cwd=self.place, input=sent, capture_output=True, timeout=LIMIT,
                               check=False,
                               env=call_log.surroundings(self.library, self.place, self.log, **how))
        return ended.returncode, ended.stdout, ended.stderr.decode(), call_log.calls_in(self.log)

    def run_server(self, _, sent, **how):
        """The same of a server of one connection, on which the messages are sent."""
        port, said, late = free_port(), b"", time.monotonic() + LIMIT
        words = [self.program, "serve", "--listen", f"{HOST}:{port}", "--workers", "1", "--connections", "1"]
        with subprocess.Popen(words, cwd=self.place, stdin=subprocess.DEVNULL, stdout=subprocess.DEVNULL,
                              stderr=subprocess.PIPE,
                              env=call_log.surroundings(self.library, self.place, self.log, **how)) as server:
            while server.poll() is None and time.monotonic() < late:
                try:
                    with socket.create_connection((HOST, port), timeout=LIMIT) as client:
                        client.sendall(sent)
                        client.shutdown(socket.SHUT_WR)
                        while piece := client.recv(65_536):
                            said += piece
                    break
                except ConnectionRefusedError:
                    time.sleep(0.001)
            note = server.communicate(timeout=LIMIT)[1].decode()
        give_back(port)
        return server.returncode, said, note, call_log.calls_in(self.log)

    def anew(self, saved):
        shutil.rmtree(self.place, ignore_errors=True)
        shutil.copytree(saved, self.place)

    def entries(self, passed=0):
        """The entries of the journal, without the first ones."""
        return [entry_in(it) for it in whole_entries_of(self.place)[passed:]]

    def slots(self):
        return [path.read_bytes() if path.exists() else b"" for path in (self.place / it for it in SLOTS)]

    # ---- init

    def test_init(self):
        self.place.mkdir()
        code, said, note, calls = self.run_office(["init"], b"")
        self.check("init without a fault", (0, b"made\n", ""), (code, said, note))
        for how, error, call in cases_of(calls):
            shutil.rmtree(self.place)
            self.place.mkdir()
            with self.subTest(f"{call} fails: {how} {errno.errorcode[error]}"):
                self.assertEqual((0, b"made\n", "") if how == "part" else (2, b"", STORE),
                                 self.run_office(["init"], b"", number=call.number, how=how, error=error)[:3])
                opened = self.office("run", folder=self.place)
                self.assertIn((opened.returncode, opened.stderr), ((0, b""), (5, b"journal: not made\n")))
                again = self.office("init", folder=self.place)
                self.assertEqual((0, b"made\n" if opened.returncode else b"already made\n"),
                                 (again.returncode, again.stdout))
                ended = self.office("run", sent=sent_of(FIRST), folder=self.place)
                self.assertEqual([], check_session(Model(), FIRST, replies_in(ended.stdout), self.entries()))
            self.count("init", call)
        self.say()

    # ---- sessions

    def test_runs(self):
        self.sessions(self.run_office, MODES)

    def test_server(self):
        """The same over a connection. A server that ends by its connections has the exit codes of a run."""
        self.sessions(self.run_server, [it for it in MODES if it[0] in ("once", "on")])

    def sessions(self, start, modes):
        self.place.mkdir()
        self.office("init", folder=self.place)
        model, passed, calls = Model(), 0, None
        for number, asked in enumerate((FIRST, SECOND, THIRD), 1):
            saved = self.folder / f"before {number}"
            shutil.copytree(self.place, saved)
            # What comes before which reply is known of a run; a server makes the same calls.
            code, said, note, calls = self.run_office(["run"], sent_of(asked))
            self.assertEqual((0, "", len(asked)), (code, note, len(replies_in(said))))
            after = copy.deepcopy(model)
            self.assertEqual([], check_session(after, asked, replies_in(said), self.entries(passed)), "without a fault")
            whole = self.folder / f"after {number}"
            shutil.copytree(self.place, whole)
            for how, error, call in cases_of(calls, modes):
                self.anew(saved)
                with self.subTest(f"session {number}, {call} fails: {how} {errno.errorcode[error]}"):
                    self.assertEqual([], self.case(start, asked, calls, call, how, error, copy.deepcopy(model), passed))
                self.count(f"session {number}", call)
            self.anew(whole)
            model, passed = after, len(self.entries())
        self.say()

    def case(self, start, asked, calls, call, how, error, model, passed):
        """What differs in a session with this call failing, and in the one after it."""
        before, place = self.slots(), place_of(calls, call)
        code, said, note, _ = start(["run"], sent_of(asked), number=call.number, how=how, error=error)
        replies, (status, faulty) = replies_in(said), wanted(place, how, error, asked)
        found = [(code, note) == (status, STORE if status else "")
                 or f"wanted the exit code {status}, found {code} {note!r}"]
        found.append(len(replies) == (0 if place is OPENING and status else len(asked)) or f"{len(replies)} replies")
        refused = {at for at, it in enumerate(replies) if it == FAULT}
        # On a full disk a later command may be refused for one that was not done; then it needs no room.
        may = how == "on" and error == ENOSPC and place is not OPENING and place < len(asked)
        found.append(refused == faulty or (may and place in refused and refused <= faulty)
                     or f"wanted 503 of {faulty}, found {refused}")
        entries = self.entries(passed)
        found += check_session(model, asked, replies, entries)
        there = {one.rest for one in entries}
        for it in (asked[at] for at in faulty if is_command(asked[at])):
            self.counts["503, and in the journal" if it.entry in there else "503, and not in the journal"] += 1
        if place == len(asked):  # in the save
            found.append(before[loaded(before)] == self.slots()[loaded(before)]
                         or "the slot that was loaded has changed")
        # Each command that has a token is sent again: it is done once, and gets its first reply.
        again = [*model.targets(), *(it for it in asked if is_command(it) and it.token), *model.targets()]
        ended = self.office("run", sent=sent_of(again), folder=self.place)
        found.append((ended.returncode, ended.stderr) == (0, b"")
                     or f"the next run: {ended.returncode} {ended.stderr!r}")
        found += check_session(model, again, replies_in(ended.stdout), self.entries(passed + len(entries)))
        return [it for it in found if it is not True]

    def count(self, name, call):
        self.counts["cases"] += 1
        self.counts[f"of a {call_log.NAMES[call.kind]}"] += 1
        self.counts[f"in {name}"] += 1

    def say(self):
        found = ", ".join(f"{name} {count}" for name, count in sorted(self.counts.items()))
        print(f"{self.id().rpartition('.')[2]}: {found}", flush=True)


OPENING = "the opening"


def is_command(it):
    return isinstance(it, Ask)


def sent_of(asked):
    return b"".join(it.sent if is_command(it) else request("GET", it) for it in asked)


def loaded(slots):
    """Which of two whole slots a start loads; 1 if there is none, since the first is saved first."""
    positions = [int.from_bytes(it[1:9], "big") if it[:1] == b"\xa7" else -1 for it in slots]
    return 0 if positions[0] >= positions[1] and positions[0] >= 0 else 1


def cases_of(calls, modes=MODES):
    """Each call of a session with each way in which it fails."""
    for call in calls:
        if call.kind != REPLY:
            for how, error, kinds in modes:
                if call.kind in kinds and (how not in ("part", "cut") or call.size > 1):
                    yield how, error, call


def place_of(calls, call):
    """Where a call is: in the opening, which writes nothing, or in the message of this place; behind the last one it is
    in the save."""
    first = next(it.number for it in calls if it.kind == WRITE and it.file == JOURNAL)
    said = len(replies_in(b"".join(it.data for it in calls if it.kind == REPLY and it.number < call.number)))
    return OPENING if call.number < first and not said else said


def wanted(place, how, error, asked):
    """The exit code, and the places of the messages that get 503."""
    last = len(asked) - 1
    if how == "part":
        return 0, set()
    if place is OPENING or place > last:
        return 2, set()
    if how != "on":  # the next message opens the journal again
        return 2 if place == last else 0, {place}
    faulty = {at for at in range(place, last + 1) if error == EIO or is_command(asked[at])}
    # If the last message is answered, the end saves what was accepted before.
    return 2 if last in faulty or any(map(is_command, asked[:place])) else 0, faulty


if __name__ == "__main__":
    live.main()
