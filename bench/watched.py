"""Processes of the program, and what they take: memory, processor time and syncs. `costs.py` measures by them.

Memory is what the system reports in /proc/PID/status: VmRSS is what a process has, VmHWM the most that it had. Processor time is
that of all threads, user and system.
"""
import concurrent.futures
import contextlib
import fcntl
import functools
import os
import pathlib
import re
import resource
import select
import shutil
import socket
import subprocess
import sys
import threading
import time
from collections.abc import Iterable, Iterator, Mapping
from typing import NamedTuple, Optional

from serve_memory import free_port

HANG, LATE = 300, 60  # seconds for a reply, and for a server to listen; only a hang takes as long
PAGE = 4_096
PLACES = 16  # how many long replies a server has in memory at once
SHOW = b"GET /buckets/logs HTTP/1.1\r\n\r\n"
# A request without a route. Its reply is the last one of those that a call of `Run.ask` reads.
END, END_REPLY = b"GET / HTTP/1.1\r\n\r\n", b'{"error":"NoRoute","number":121}'


class Wrong(Exception):
    """The program did not do what a row needs."""


class Reply(NamedTuple):
    """The status of a reply, the bytes of its body, and its front."""
    status: int
    length: int
    front: bytes


class Spent(NamedTuple):
    """The greatest memory of a process in bytes, and its processor seconds."""
    bytes: int
    seconds: float


class Process:
    """A process of the program that is watched while it lives."""

    def __init__(self, pid: int) -> None:
        self.pid = pid

    def _memory(self, line: str) -> int:
        status = pathlib.Path(f"/proc/{self.pid}/status").read_text("ascii")
        found = re.search(rf"^{line}:\s*(\d+) kB$", status, flags=re.MULTILINE)
        if not found:
            raise Wrong("the process has ended")
        return int(found[1]) << 10

    def memory(self) -> int:
        """What it has now, in bytes."""
        return self._memory("VmRSS")

    def rest(self) -> int:
        """What it has now, in bytes. `peak` counts from here on."""
        with contextlib.suppress(OSError):  # without it the peak is too high, and never too low
            pathlib.Path(f"/proc/{self.pid}/clear_refs").write_text("5", "ascii")
        return self.memory()

    def peak(self) -> int:
        """The most that it had since `rest`, in bytes."""
        return self._memory("VmHWM")

    def settled(self) -> int:
        """What it has, in bytes, once that stays the same for a while."""
        before, now = -1, self.memory()
        while now != before:
            time.sleep(0.2)
            before, now = now, self.memory()
        return now

    def seconds(self) -> float:
        """Its processor time so far."""
        # The number of another process's clock, as clock_getcpuclockid of the C library makes it.
        return time.clock_gettime(~self.pid << 3 | 2)


class Office:
    """An office in a folder of its own, whose servers listen on one port."""

    def __init__(self, program: str, folder: str, port: Optional[int] = None) -> None:
        self.program, self.folder, self.port = program, pathlib.Path(folder), port or free_port()
        subprocess.run([program, "init"], cwd=folder, check=True, stdout=subprocess.DEVNULL)
        self.journal = self.folder / "office-data" / "journal"

    def write(self, frames: Iterable[bytes]) -> None:
        """Makes the journal of these frames, each with an open gate at its end."""
        with open(self.journal, "wb") as file:
            file.write(b"\xa5METERJRN1\xa5")
            file.writelines(frames)
            file.seek(-1, os.SEEK_END)
            file.write(b"\0")
        self.forget()

    def forget(self) -> None:
        """Removes the checkpoints, so that the next opening replays the whole journal."""
        for name in ("check.0", "check.1"):
            self.journal.with_name(name).unlink(missing_ok=True)


def read_some(stream: int) -> bytes:
    """What comes next from a process, nothing at its end."""
    if not select.select([stream], [], [], HANG)[0]:
        raise Wrong(f"nothing came in {HANG} s")
    return os.read(stream, 1 << 20)


class Run(Process):
    """`office run`, whose input stays open, so that it is watched between requests."""

    def __init__(self, child: subprocess.Popen) -> None:
        super().__init__(child.pid)
        self.child = child
        self.ask([], b"")  # the journal is open now

    def _feed(self, sent: bytes) -> None:
        with contextlib.suppress(BrokenPipeError):
            self.child.stdin.write(sent)
            self.child.stdin.flush()

    def ask(self, messages: list[bytes], answer: bytes) -> float:
        """Sends messages, each of which has to have this in its reply. Returns the processor seconds that they took."""
        before = self.seconds()
        feeding = threading.Thread(target=self._feed, args=(b"".join(messages) + END,))
        feeding.start()
        said = bytearray()
        while not said.endswith(END_REPLY):
            more = read_some(self.child.stdout.fileno())
            if not more:
                raise Wrong(f"run ended with {self.child.wait(HANG)}")
            said += more
        feeding.join()
        taken = self.seconds() - before
        check(messages, answer, said)
        return taken


def check(messages: list[bytes], answer: bytes, said: bytes) -> None:
    """Raises `Wrong` unless each message was answered so."""
    count = said.count(answer) if answer else 0
    if count != len(messages):
        raise Wrong(f"{count} of {len(messages)} requests were answered {answer.decode()}, and last came {bytes(said[-300:])!r}")


@contextlib.contextmanager
def running(office: Office) -> Iterator[Run]:
    """`office run` over an office. At the end its input is closed, and it saves a checkpoint."""
    with subprocess.Popen([office.program, "run"], cwd=office.folder, stdin=subprocess.PIPE, stdout=subprocess.PIPE) as child:
        try:
            yield Run(child)
            child.stdin.close()
            if child.wait(HANG):
                raise Wrong(f"run ended with {child.returncode}")
        finally:
            child.kill()
            with contextlib.suppress(OSError):  # it may have ended before it read all
                child.stdin.close()


def connect(port: int, room: Optional[int] = None) -> socket.socket:
    """Connects to a server that may not listen yet. `room` is how many bytes the system holds for a client that does not read."""
    late = time.monotonic() + LATE
    while True:
        client = socket.socket()
        client.settimeout(HANG)
        if room:
            client.setsockopt(socket.SOL_SOCKET, socket.SO_RCVBUF, room)
        try:
            client.connect(("127.0.0.1", port))
            return client
        except ConnectionRefusedError:
            client.close()
            if time.monotonic() > late:
                raise Wrong(f"nobody listens on port {port}") from None
            time.sleep(0.01)


def reply_of(text: bytes) -> Reply:
    """Reads the front of a reply."""
    head, _, front = text.partition(b"\r\n\r\n")
    return Reply(int(head[9:12]), int(re.search(rb"content-length: (\d+)", head)[1]), front)


def read_reply(client: socket.socket) -> Reply:
    """Reads a reply, and keeps only its front."""
    text = b""
    while b"\r\n\r\n" not in text:
        more = client.recv(65_536)
        if not more:
            raise Wrong("a connection ended without a reply")
        text += more
    reply = reply_of(text)
    left = reply.length - len(reply.front)
    while left > 0:
        more = client.recv(1 << 20)
        if not more:
            raise Wrong("a reply was cut short")
        left -= len(more)
    return reply


class Server(Process):
    """`office serve`. Each of its workers has answered once, so it has what a worker keeps."""

    def __init__(self, child: subprocess.Popen, port: int, workers: int) -> None:
        super().__init__(child.pid)
        self.port = port
        with contextlib.ExitStack() as held:
            for client in [held.enter_context(connect(port)) for _ in range(workers)]:
                client.sendall(SHOW)
                read_reply(client)

    def _ask_one(self, request: bytes) -> Reply:
        with connect(self.port) as client:
            client.sendall(request)
            return read_reply(client)

    def ask(self, requests: list[bytes]) -> list[Reply]:
        """Sends each request over a connection of its own, all at once, and reads the replies."""
        with concurrent.futures.ThreadPoolExecutor(len(requests)) as clients:
            return list(clients.map(self._ask_one, requests))

    def leave_unread(self, requests: list[bytes]) -> list[Reply]:
        """Sends each request over a connection of its own, and waits until sixteen replies began to come, without reading them.

        The server then has each reply in memory that is longer than what the system holds for a connection. More than sixteen would come
        within a second if the others did not have to wait. All requests are equal, so the reply that came first stands for each.
        """
        with contextlib.ExitStack() as held:
            clients = [held.enter_context(connect(self.port, PAGE)) for _ in requests]
            for client, request in zip(clients, requests):
                client.sendall(request)
            begun: list[socket.socket] = []
            late = time.monotonic() + HANG
            while len(begun) < min(PLACES, len(clients)):
                if time.monotonic() > late:
                    raise Wrong(f"{len(begun)} replies began to come")
                time.sleep(0.01)
                begun = select.select(clients, [], [], HANG)[0]
            time.sleep(1)
            return [reply_of(begun[0].recv(PAGE, socket.MSG_PEEK))] * len(clients)


@contextlib.contextmanager
def serving(office: Office, workers: int = 4, limit: Optional[int] = None, setting: Optional[Mapping[str, str]] = None) -> Iterator[Server]:
    """`office serve` over an office, until the end of the block. `limit` is one on its address space, `setting` is for its environment."""
    within = (lambda: resource.setrlimit(resource.RLIMIT_AS, (limit, limit))) if limit else None
    with subprocess.Popen([office.program, "serve", "--listen", f"127.0.0.1:{office.port}", "--workers", str(workers)], cwd=office.folder,
                          env={**os.environ, **(setting or {})}, stdin=subprocess.DEVNULL, preexec_fn=within) as child:
        try:
            yield Server(child, office.port, workers)
        finally:
            child.kill()


def command(office: Office, *words: str) -> Spent:
    """Runs a command that prints more than a page, in one write.

    The pipe holds a page. So the process waits, with all that it prints in memory, when its first byte has come.
    """
    reading, writing = os.pipe()
    with open(reading, "rb", buffering=0) as printed:
        fcntl.fcntl(writing, fcntl.F_SETPIPE_SZ, PAGE)  # before the process writes: a pipe that holds more cannot shrink
        with subprocess.Popen([office.program, *words], cwd=office.folder, stdin=subprocess.DEVNULL, stdout=writing) as child:
            os.close(writing)
            first = os.read(printed.fileno(), 1)
            most = Process(child.pid).peak() if first else 0
            while read_some(printed.fileno()):
                pass
            _, status, used = os.wait4(child.pid, 0)
            child.returncode = os.waitstatus_to_exitcode(status)
    if child.returncode or not first:
        raise Wrong(f"{' '.join(words)} ended with {child.returncode}" + ("" if first else ", and printed nothing"))
    return Spent(most, used.ru_utime + used.ru_stime)


@functools.cache
def lacking() -> Optional[str]:
    """What is missing to count syncs."""
    if not shutil.which("strace"):
        return "strace"
    tried = subprocess.run(["strace", "-o", "/dev/null", sys.executable, "-c", ""], stderr=subprocess.DEVNULL, check=False)
    return "leave to trace a process" if tried.returncode else None


def _calls(office: Office, messages: list[bytes], answer: bytes) -> int:
    """The calls of fsync and fdatasync of a run over these messages, with those of its start and its end."""
    table = office.folder / "calls"
    words = ["strace", "-c", "-f", "-e", "trace=fsync,fdatasync", "-o", str(table), office.program, "run"]
    done = subprocess.run(words, cwd=office.folder, input=b"".join(messages), stdout=subprocess.PIPE, check=False, timeout=HANG)
    if done.returncode:
        raise Wrong(f"a run under strace ended with {done.returncode}")
    check(messages, answer, done.stdout)
    rows = (line.split() for line in table.read_text("ascii").splitlines())
    return sum(int(row[3]) for row in rows if row and row[-1] in ("fsync", "fdatasync"))


def syncs(office: Office, messages: list[bytes], answer: bytes) -> tuple[int, int]:
    """The calls of fsync and fdatasync that messages take, and how many messages these are: all but two.

    A run over the first and a run over all others start and end alike, so the difference is that of the messages.
    """
    one, others = messages[:1], messages[1:]
    alone = _calls(office, one, answer)
    return _calls(office, others, answer) - alone, len(others) - 1
