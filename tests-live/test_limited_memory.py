#!/usr/bin/env -S python3 -B
"""Limits the address space of the program, as LimitAS of its unit and `ulimit -v` do: memory that is lacking is answered 500, or ends a start
with exit code 6, and a server goes on. It needs the built program."""
import json
import pathlib
import re
import resource
import socket
import struct
import subprocess
import time

import live
from free_port import HOST, free_port
from serve_client import LIMIT, Client, entries_of, put_object, request
from spelled import create, frame, journal, put, text

UNIT = (live.TOOLS / "systemd" / "office.service").read_text("utf-8")
MIB = 1 << 20
LACKS = (500, {"error": "NoMemory", "number": 115})
GOES_ON = 3.0  # seconds for a server to begin
WIDEST = "\U00010000"  # a character of four bytes


def size_in_unit(name):
    """A size that the unit sets, in bytes."""
    number, unit = re.search(rf"^{name}=(\d+)([MG])$", UNIT, flags=re.MULTILINE).groups()
    return int(number) << {"M": 20, "G": 30}[unit]


def great_versions(count):
    """A journal with versions of a key, each with the ten greatest tags."""
    tags = b"".join(text(chr(97 + it) + WIDEST * 127) + text(WIDEST * 256) for it in range(10))
    version = frame(1, 5, text("load") + text("k") + struct.pack(">QBB", 1000, 0, 10) + tags)
    return journal(create(1, "load"), frame(1, 2, text("load") + b"\1"), *[version] * count)


class Limited(live.Case):
    in_memory = True

    def setUp(self):
        super().setUp()
        with open(self.program, "rb") as file:
            if file.read(4) != b"\x7fELF":
                self.skipTest("no built program")

    def within(self, limit):
        """What limits a process that is started."""
        return lambda: resource.setrlimit(resource.RLIMIT_AS, (limit, limit))

    def run_within(self, limit, sent=b""):
        """The status, the notes and the replies of `run`."""
        done = self.ended([self.program, "run"], cwd=self.folder / "served", input=sent, preexec_fn=self.within(limit))
        return done.returncode, done.stderr, done.stdout

    def start(self, limit, workers, patience=GOES_ON):
        """A server under a limit, and its port; nothing if it does not answer within so many seconds."""
        port = free_port()
        words = [self.program, "serve", "--listen", f"{HOST}:{port}", "--workers", str(workers)]
        server = subprocess.Popen(words, cwd=self.folder / "served", stdin=subprocess.DEVNULL, stdout=subprocess.DEVNULL, stderr=subprocess.DEVNULL,
                                  preexec_fn=self.within(limit))
        late = time.monotonic() + patience
        while server.poll() is None and time.monotonic() < late:
            try:
                socket.create_connection((HOST, port), patience).close()
                with Client(port, patience) as client:
                    if client.ask(request("GET", "/buckets/load")):
                        return server, port
            except OSError:
                time.sleep(0.02)
        self.stop(server)
        return None, port

    def stop(self, server):
        server.kill()
        server.wait()

    def ask(self, port, sent):
        """The status and the body of a reply; nothing if the connection ended without one."""
        with Client(port) as client:
            found = client.ask(sent)
            return found and (found[0], json.loads(found[1]))

    def least(self, works):
        """The least limit in steps of 256 KiB under which something works, from 1 MiB on."""
        low, high = 4, 8
        while not works(high * MIB // 4):
            low, high = high, high * 2
        while high - low > 1:
            middle = (low + high) // 2
            low, high = (low, middle) if works(middle * MIB // 4) else (middle, high)
        return high * MIB // 4

    def test_a_start(self):
        """A journal whose records do not fit: exit code 6 and its note, and all is there once they do."""
        (self.new_folder("served") / "office-data" / "check.0").unlink(missing_ok=True)
        enough = self.least(lambda limit: self.run_within(limit)[0] == 0)
        path = self.folder / "served" / "office-data" / "journal"
        whole = journal(create(1, "load"), *(put(1, "load", f"key-{place:06}", place) for place in range(100_000)))
        path.write_bytes(whole)
        for more in (1, 4, 8):
            self.check(f"{more} MiB more than for an empty office", (6, b"memory: refused\n", b""), self.run_within(enough + more * MIB))
        self.check("the journal is as it was", whole, path.read_bytes()[:len(whole)])
        status, notes, said = self.run_within(enough + 256 * MIB, request("GET", "/buckets/load"))
        self.check("with enough", (0, b"", 100_000), (status, notes, json.loads(said.rpartition(b"\r\n\r\n")[2])["versions"]))

    def test_a_request(self):
        """A body of 1 MiB under limits from the least one that does for a small put, by 512 KiB: 500 until it fits, and the server goes on."""
        self.new_folder("served")
        self.office("run", sent=request("PUT", "/buckets/load"), folder=self.folder / "served")

        def works(limit):
            """Whether a server begins and does a small put."""
            server, port = self.start(limit, 1)
            if not server:
                return False
            status = self.ask(port, put_object("small"))[0]
            self.stop(server)
            return status == 201
        least, found = self.least(works), []
        for step in range(40):
            server, port = self.start(least + step * MIB // 2, 1)
            self.check(f"step {step}: it begins", True, bool(server))
            if not server:
                break
            before = len(entries_of(self.folder / "served"))
            found.append(self.ask(port, request("PUT", "/buckets/load/objects/large", '{"size":1}'.ljust(1_000_000))))
            done = len(entries_of(self.folder / "served")) - before
            self.check(f"step {step}: 500 or done, and the journal says so", (True, found[-1][0] == 201),
                       (found[-1] == LACKS or found[-1][0] == 201, done == 1))
            self.check(f"step {step}: and it goes on", 201, self.ask(port, put_object(f"after-{step}"))[0])
            self.stop(server)
            if found[-1][0] == 201:
                break
        self.check("it was refused at least once, and done in the end", (LACKS, 201), (found[0], found[-1][0]))

    def test_the_limit_of_the_unit(self):
        """Four of the costliest requests at once, with the workers and the limit of the unit: the versions of a key with great tags, which are copied
        for each reply. No client reads past its status before each has one."""
        path = self.new_folder("served") / "office-data" / "journal"
        (path.parent / "check.0").unlink(missing_ok=True)
        path.write_bytes(great_versions(12_000))
        workers, limit = int(re.search(r"--workers (\d+)", UNIT)[1]), size_in_unit("LimitAS")
        server, port = self.start(limit, workers, LIMIT)
        self.check("it begins", True, bool(server))
        self.addCleanup(self.stop, server)
        clients = [Client(port) for _ in range(4)]
        for it in clients:
            it.send(request("GET", "/buckets/load/objects/k"))
        found = [int(it.socket.recv(12, socket.MSG_WAITALL)[9:]) for it in clients]
        self.check("each has a reply: there is memory for some of them, and not for all", {200, 500}, set(found))
        about = pathlib.Path(f"/proc/{server.pid}/status").read_text("utf-8")
        greatest = {name: int(kib) << 10 for name, kib in re.findall(r"^(Vm\w+):\s+(\d+) kB", about, flags=re.MULTILINE)}
        self.check("its addresses and memory stay below the limit, and that below MemoryMax", True,
                   greatest["VmHWM"] <= greatest["VmPeak"] <= limit < size_in_unit("MemoryMax"))
        for it in clients:
            it.reset()
        self.check("it goes on", (None, 201), (server.poll(), self.ask(port, put_object("after"))[0]))
        print(f"test_limited_memory: replies {sorted(found)}, VmPeak {greatest['VmPeak'] >> 20} MiB, VmHWM {greatest['VmHWM'] >> 20} MiB")


if __name__ == "__main__":
    live.main()
