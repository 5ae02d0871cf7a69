#!/usr/bin/env -S python3 -B
"""Kills a server by signal 9 at random moments: while clients put, delete, tag, upload, set rules and act, with tokens
and without, while it saves a checkpoint at the end of its connections, and while it starts.

After each kill the journal is read by itself and compared with what was asked: each acknowledged command is there, with
the moment and the number that its reply has; each token is there once; nothing else is there, and what was there before
has not changed. Then the office is started again, and each bucket, key, configuration and upload is compared with a
plain model, which does the commands in the order of the journal. Clients send again what was not answered and had a
token, and some of what was answered.

    KILLS=1000 SEED=1 tests-live/test_kills.py PROGRAM

kills 1,000 times instead of 10, and draws as number 1 does. Prints the seed and what it counted.
"""
import collections
import json
import os
import pathlib
import random
import shutil
import signal
import socket
import subprocess
import tempfile
import threading
import time

import live
from commands import (ABORT, ACT, COMPLETE, CREATE, DELETE, DELETE_VERSION, DROP, GONE, NONE, PART, PUT, RULES, START,
                      TAGS, VERSIONING, Ask, Model,
                      entry_in, is_refusal, refused)
from free_port import HOST, free_port
from model_words import text
from plain_office import text_of
from serve_client import LIMIT, Client, request, without_token
from spelled import NEW_YEAR, create, frame, journal, put
from spelled import text as text_field

KILLS, SEED = int(os.environ.get("KILLS", "10")), int(os.environ.get("SEED", str(time.time_ns() % 10**9)))
CLIENTS, KEYS, DEPTH = 5, 6, 4  # keys of a client in a bucket, and requests that it has under way at most
LIFE = 25  # kills of a folder
BULK = 20_000  # objects that nobody touches, so that a checkpoint takes a while
AGAIN, RECENT = 3, 500  # answered commands that a client sends again after a start, and of how many last ones
SLOTS = ("check.0", "check.1")
LATER = {**GONE, "id": "later", "date": 4_070_908_800_000}  # 2099-01-01
KINDS = {(PUT, "plain"): 25, (PUT, "kept"): 20, (PUT, "own"): 10, (DELETE, "plain"): 8, (DELETE, "kept"): 8,
         (DELETE_VERSION, "kept"): 8, (TAGS, "plain"): 4, (TAGS, "kept"): 4, (START, "own"): 5,
         (PART, "own"): 8, (COMPLETE, "own"): 4, (ABORT, "own"): 2,
         (RULES, "own"): 4, (DROP, "own"): 1,
         (ACT, "own"): 12, (VERSIONING, "own"): 1}


class Sent:
    """A command that was sent, and its reply once it came."""

    def __init__(self, ask):
        self.ask, self.reply = ask, None


class Own:
    """What a client sent since the last start, what it sends again, and what it learned from replies. Its keys are its
    own."""

    def __init__(self, place):
        self.place, self.number, self.sent, self.again = place, 0, [], []
        self.versions, self.uploads, self.recent = ["null"], [1], collections.deque(maxlen=RECENT)

    def learn(self, it):
        found = json.loads(it.reply[1])
        if "version" in found and it.reply[0] == 201:
            self.versions = [*self.versions[-9:], found["version"]]
        if "upload" in found and it.reply[0] == 201:
            self.uploads = [*self.uploads[-3:], found["upload"]]
        if it.ask.token and it.reply[0] < 300:
            self.recent.append(it.ask)

    def drawn(self, draw):
        """A command: one that is to be sent again, or another one."""
        if self.again:
            return self.again.pop(0)
        (kind, bucket), = draw.choices(list(KINDS), KINDS.values())
        self.number += 1
        more = {"key": f"{self.place}/k{draw.randrange(KEYS)}", "size": self.number,
                "storage_class": draw.choice(live.CLASSES),
                "tags": draw.choice(({}, {"k": "v"}, {"n": str(self.number)})),
                "version": draw.choice([*self.versions, str(draw.randint(1, 99))]),
                "upload": draw.choice([*self.uploads, self.uploads[-1] + 1]), "part": draw.randint(1, 3),
                "is_enabled": draw.random() < 0.5,
                "rules": draw.choice(([GONE], [{**GONE, "prefix": f"{self.place}/k1"}], [LATER], [LATER, GONE]))}
        token = f"{self.place}-{self.number}" if kind not in (RULES, ACT) and draw.random() < 0.5 else None
        return Ask(kind, f"own-{self.place}" if bucket == "own" else bucket, token, **more)


class Sending(threading.Thread):
    """A client that sends over one connection after another, until nobody listens."""

    def __init__(self, own, seed, port, counts):
        super().__init__(daemon=True)
        self.own, self.draw, self.port, self.counts, self.fault = own, random.Random(seed), port, counts, None

    def run(self):
        try:
            while True:
                self.session()
        except OSError:
            pass
        except Exception as fault:  # shown by the test
            self.fault = fault

    def session(self):
        with Connected(self.port) as client:
            for _ in range(self.draw.choice((1, 2, 5, 20))):
                batch = [Sent(self.own.drawn(self.draw)) for _ in range(self.draw.randint(1, DEPTH))]
                self.own.sent += batch
                client.send(b"".join(it.ask.sent for it in batch))
                for it in batch:
                    it.reply = client.reply()
                    if it.reply is None:
                        raise ConnectionError("the server ended its side")
                    self.own.learn(it)
                    self.counts["replies"] += 1


class Connected(Client):
    """A connection to a server that listens; a refused one is an error at once."""

    def __init__(self, port):  # pylint: disable=super-init-not-called
        self.socket, self.held = socket.create_connection((HOST, port), LIMIT), b""
        self.socket.setsockopt(socket.IPPROTO_TCP, socket.TCP_NODELAY, 1)


class Folder:
    """An office: its folder, the model of what its journal has, and what the files were at the last look."""

    def __init__(self, path, counts):
        self.path, self.counts, self.model = path, counts, Model()
        (path / "office-data").mkdir()
        names = ["bulk", "plain", "kept", *(f"own-{it}" for it in range(CLIENTS))]
        frames = [create(1, it) for it in names] + [put(2, "bulk", f"k{it:08}", it) for it in range(BULK)]
        self.data = journal(*frames, frame(3, VERSIONING, text_field("kept") + b"\x01"))
        (path / "office-data/journal").write_bytes(self.data)
        for name in names[1:]:
            self.model.do(Ask(CREATE, name), NEW_YEAR)
        self.model.do(Ask(VERSIONING, "kept", is_enabled=True), NEW_YEAR + 2 * 86_400_000)
        self.end, self.clients = len(self.data) - 1, [Own(it) for it in range(CLIENTS)]
        self.gates, self.slots = {self.end}, [b"", b""]

    # ---- the journal after a kill

    def look(self):
        """Reads the files, takes what is new into the model, and says each difference."""
        data = (self.path / "office-data/journal").read_bytes()
        if data[:self.end] != self.data[:self.end]:
            return ["what was in the journal before has changed"]
        gate, entries = self.end, []
        while gate < len(data) and data[gate] == 0xA5:
            size = int.from_bytes(data[gate + 1:gate + 5], "big")
            entries.append(entry_in(data[gate + 5:gate + 5 + size]))
            gate += 5 + size
            self.gates.add(gate)
        if gate >= len(data):
            return [f"the journal ends at {len(data)}, before its gate at {gate}"]
        self.counts["frames behind a closed gate"] += any(data[gate + 1:gate + 5]) and data[gate:] != self.data[gate:]
        self.data, self.end = data, gate
        self.counts["entries"] += len(entries)
        return [*self.compare(entries), *self.look_at_slots()]

    def compare(self, entries):
        """Each entry is a command of the client whose key or bucket it has, in the order in which it sent them."""
        wrong, waiting = [], [list(it.sent) for it in self.clients]
        for it in entries:
            mine = waiting[self.owner(it.rest)]
            while mine and (mine[0].ask.entry != it.rest or mine[0].ask.token in self.model.kept):
                wrong += self.not_there(mine.pop(0), True)
            if not mine:
                return [*wrong, f"in the journal, and not asked, or there twice: {it}"]
            wrong += self.there(mine.pop(0), it.moment)
        for it in (one for mine in waiting for one in mine):
            wrong += self.not_there(it, False)
        for own in self.clients:
            lost = [it.ask for it in own.sent if it.reply is None and it.ask.token]
            self.counts["sent again without a reply"] += len(lost)
            own.again = [*lost, *(random.Random(own.number).choices(own.recent, k=AGAIN) if own.recent else [])]
            own.sent = []
        self.model.forget()
        return wrong

    @staticmethod
    def owner(rest):
        plain = without_token(bytes(8) + rest)[9:]
        size = int.from_bytes(plain[:2], "big")
        name, key = plain[2:2 + size].decode(), plain[4 + size:]
        return int(name[4:] if name.startswith("own-") else key.partition(b"/")[0])

    def there(self, it, moment):
        """A command that is in the journal: it is accepted there, and its reply, if there is one, is that of the
        model."""
        reply = self.model.do(it.ask, moment)
        if it.ask.token:
            self.model.kept[it.ask.token] = reply
        self.counts["acknowledged" if it.reply else "in the journal without a reply"] += 1
        if is_refusal(reply):
            return [f"{it.ask}: in the journal at {moment}, and the model says {reply}"]
        return [f"{it.ask}: wanted {reply}, found {it.reply}"] if it.reply not in (None, reply) else []

    def not_there(self, it, is_passed):
        """One that is not there: it is refused, was done before under its token, or was not done; not that if a later
        one of its client was."""
        if it.ask.token in self.model.kept:
            self.counts["done once under a token that came again"] += 1
            wanted = self.model.kept[it.ask.token]
            return [f"{it.ask}, again: wanted {wanted}, found {it.reply}"] if it.reply not in (None, wanted) else []
        if it.reply is None and not is_passed:
            self.counts["without a reply, and not in the journal"] += 1
            return []
        if it.reply is not None and it.reply[0] < 300 and it.reply[1] != NONE:
            return [f"{it.ask}: acknowledged, and not in the journal: {it.reply}"]
        wanted = self.model.do(it.ask)
        self.counts["refused"] += 1
        if is_refusal(wanted) and (it.reply is None or wanted == refused(it.reply)):
            return []
        return [f"{it.ask}: not in the journal; wanted {wanted}, found {it.reply}"]

    def look_at_slots(self):
        """An open slot has the place of a gate of the journal. A save leaves one slot as it was. Once there is a
        checkpoint, one stays."""
        paths = [self.path / "office-data" / it for it in SLOTS]
        before, self.slots = self.slots, [it.read_bytes() if it.exists() else b"" for it in paths]
        are_open = [it[:1] == b"\xa7" for it in self.slots]
        changed = [one != other for one, other in zip(before, self.slots)]
        cut = [it and not is_open and is_new for it, is_open, is_new in zip(self.slots, are_open, changed)]
        self.counts["closed slots of a save that was cut"] += any(cut)
        places = [int.from_bytes(it[1:9], "big") for it in self.slots]
        wrong = [f"{name} has the position {at}, which is no gate"
                 for name, at, is_open in zip(SLOTS, places, are_open) if is_open and at not in self.gates]
        if any(it[:1] == b"\xa7" for it in before) and not any(are_open):
            wrong.append("no slot is open any more")
        return wrong + (["both slots changed"] if all(changed) else [])

    # ---- the office after a start

    def asked(self):
        """Every query, and the reply of the model."""
        found = [(target, (status, text(body))) for target, status, body in self.model.queries()]
        return [*found, ("/buckets/bulk", (200, text({"bucket": "bulk", "rules": 0, "uploads": 0,
                                                      "versioning": "Unversioned", "versions": BULK})))]

    def differs(self, port):
        """How what a server replies differs from the model."""
        asked = self.asked()
        with Connected(port) as client:
            client.send(b"".join(request("GET", target) for target, _ in asked))
            found = [client.reply() for _ in asked]
        self.counts["replies compared after a start"] += len(asked)
        return [f"GET {target}: wanted {wanted}, found {reply}" for (target, wanted), reply in zip(asked, found)
                if wanted != reply]


class Kills(live.Case):
    def test_kills(self):
        began, self.counts, self.draw, self.kills = time.monotonic(), collections.Counter(), random.Random(SEED), 0
        print(f"seed {SEED}", flush=True)
        try:
            while self.kills < KILLS:
                self.life(min(KILLS, self.kills + LIFE))
                print(f"{self.kills} kills, {self.counts['acknowledged']} commands acknowledged", flush=True)
        finally:
            found = "; ".join(f"{name} {count}" for name, count in sorted(self.counts.items()))
            print(f"seed {SEED}: {self.kills} kills in {time.monotonic() - began:.0f} s: {found}", flush=True)
        self.assertGreater(self.counts["acknowledged"], 0)
        if KILLS >= 100:
            for name in ("in the journal without a reply", "without a reply, and not in the journal",
                         "done once under a token that came again",
                         "frames behind a closed gate", "closed slots of a save that was cut", "kills while it saves",
                         "kills while it starts"):
                self.check(f"some: {name}", True, self.counts[name] > 0)

    def life(self, until):
        """Kills an office of one folder, on a disk or in memory."""
        shared = "/dev/shm" if os.access("/dev/shm", os.W_OK) and self.kills // LIFE % 2 == 0 else None
        path = pathlib.Path(tempfile.mkdtemp(dir=shared))
        self.addCleanup(shutil.rmtree, path, ignore_errors=True)
        folder = Folder(path, self.counts)
        while self.kills < until:
            how, = self.draw.choices(("under load", "while it saves", "while it starts", "not at all"), (60, 25, 8, 7))
            before = self.kills
            wrong = self.session(folder, how)
            if wrong and os.environ.get("KEEP"):
                shutil.copytree(path, pathlib.Path(os.environ["KEEP"]) / f"kills-{SEED}-{before}")
            self.assertEqual([], wrong[:5], f"seed {SEED}, kill {before + 1}, {how}, of {path.parent}")
        shutil.rmtree(path)

    def session(self, folder, how):
        """Starts the office, compares it, lets clients send, kills it so, and looks at its files."""
        port, is_ending = free_port(), how in ("while it saves", "not at all")
        words = ["--workers", str(self.draw.randint(1, 4)), "--connections",
                 str(self.draw.randint(3, 8) if is_ending else 100_000)]
        with open(folder.path / "notes", "ab") as notes:
            server = subprocess.Popen([self.program, "serve", "--listen", f"{HOST}:{port}", *words], cwd=folder.path,
                                      stdin=subprocess.DEVNULL,
                                      stdout=subprocess.DEVNULL, stderr=notes)
        try:
            wrong = self.under(server, folder, port, how)
        finally:
            if server.poll() is None:
                server.kill()
            server.wait(LIMIT)
        if server.returncode == -signal.SIGKILL:
            self.kills += 1
            self.counts[f"kills {how}"] += 1
        elif server.returncode != 0 or not is_ending:
            wrong.append(f"the server ended with {server.returncode}")
        else:
            self.counts["sessions that ended by themselves"] += 1
        return wrong + folder.look()

    def under(self, server, folder, port, how):
        if how == "while it starts":
            time.sleep(self.draw.uniform(0, 0.15))
            return []
        if not self.is_up(server, port):
            return [f"it does not start: exit code {server.poll()}, {(folder.path / 'notes').read_text()[-200:]}"]
        wrong, already = folder.differs(port), self.counts["replies"]
        if wrong:
            return wrong
        sending = [Sending(it, self.draw.random(), port, self.counts) for it in folder.clients]
        slots, until = self.stamps(folder), time.monotonic() + LIMIT
        for it in sending:
            it.start()
        if how == "under load":
            wanted = already + self.draw.randint(0, 120)
            while self.counts["replies"] < wanted and time.monotonic() < until:
                time.sleep(0.0005)
            time.sleep(self.draw.uniform(0, 0.01))
        else:
            while server.poll() is None and time.monotonic() < until:
                if how == "while it saves" and self.stamps(folder) != slots:
                    break
                time.sleep(0.0001)
            time.sleep(self.draw.uniform(0, 0.012) if how == "while it saves" else 0)
        server.kill()
        server.wait(LIMIT)
        for it in sending:
            it.join(LIMIT)
        return [f"a client failed: {it.fault!r}" for it in sending if it.fault or it.is_alive()]

    @staticmethod
    def stamps(folder):
        return [path.stat().st_mtime_ns for path in (folder.path / "office-data" / it for it in SLOTS) if path.exists()]

    @staticmethod
    def is_up(server, port):
        """Waits until a server listens; the connection counts among those that it serves, and ends at once."""
        late = time.monotonic() + LIMIT
        while server.poll() is None and time.monotonic() < late:
            try:
                Connected(port).socket.close()
                return True
            except ConnectionRefusedError:
                time.sleep(0.002)
        return False


if __name__ == "__main__":
    live.main()
