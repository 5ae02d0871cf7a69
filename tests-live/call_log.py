"""The calls of the program on its files, as disk_calls.c logs them, which of them fail, and what a loss of power leaves
of the files; for test_disk_calls.py and test_lost_power.py.

A disk is taken as crates/disk_core/specs/Files.antt states it. A file has what a read gives, what the last sync left,
the lengths and the ranges that were written since then. What a loss of power leaves has one of these lengths, any bytes
in these ranges and behind the synced length, and elsewhere the synced bytes."""
import errno
import os
import pathlib
import random
import struct
import subprocess
import typing

HERE = pathlib.Path(__file__).resolve().parent
LENGTH, READ, WRITE, CUT, SYNC, REPLY = range(6)
NAMES = ("length", "read", "write", "cut", "sync", "reply")
JOURNAL, SLOTS = "office-data/journal", ("office-data/check.0", "office-data/check.1")
HEAD = struct.Struct("=5Qq")


class Call(typing.NamedTuple):
    """A call: its number, what it does, its file, the offset or length, the number of bytes, the result, and the bytes
    of a write."""
    number: int
    kind: int
    file: str
    at: int
    size: int
    result: int
    data: bytes

    def __str__(self):
        return f"call {self.number}, {NAMES[self.kind]} of {self.size} bytes at {self.at} of {self.file}"


def built(folder):
    """The library, built in a folder."""
    path = pathlib.Path(folder) / "disk_calls.so"
    subprocess.run(["cc", "-O2", "-shared", "-fPIC", "-o", path, HERE / "disk_calls.c"], check=True,
                   capture_output=True)
    return path


def surroundings(library, folder, log, number=0, how="once", error=errno.EIO):
    """The environment in which the calls on the files of a folder are logged, and the one with a number fails."""
    pathlib.Path(log).unlink(missing_ok=True)
    return {**os.environ, "LD_PRELOAD": str(library), "DISK_FOLDER": os.path.realpath(folder), "DISK_LOG": str(log),
            "DISK_FAIL": str(number),
            "DISK_HOW": how, "DISK_ERROR": str(error)}


def calls_in(log):
    """The calls of a log."""
    data, at, found = pathlib.Path(log).read_bytes(), 0, []
    while at < len(data):
        number, kind, name, place, size, result = HEAD.unpack_from(data, at)
        at += HEAD.size
        file, at = data[at:at + name].decode(), at + name
        has_bytes = kind in (WRITE, REPLY)
        found.append(Call(number, kind, file, place, size, result, data[at:at + size] if has_bytes else b""))
        at += size if has_bytes else 0
    return found


class File:
    """A file between two syncs."""

    def __init__(self):
        self.seen, self.synced, self.lengths, self.written = b"", b"", [0], []

    def do(self, call):
        if call.result < 0:
            return
        if call.kind == WRITE:
            data = call.data[:call.result]
            before = self.seen.ljust(call.at, b"\0")
            self.seen = before[:call.at] + data + before[call.at + len(data):]
            self.written.append((call.at, data))
        elif call.kind == CUT:
            self.seen = self.seen[:call.at].ljust(call.at, b"\0")
        elif call.kind == SYNC:
            self.synced, self.lengths, self.written = self.seen, [], []
        self.lengths.append(len(self.seen))

    def least(self):
        """Nothing of what was written since the last sync, with the length of then."""
        return self.synced

    def image(self, draw):
        """What a loss of power may leave: each write done, not done, done in part, or other bytes in its place."""
        size = draw.choice(self.lengths)
        data = bytearray(self.synced[:size].ljust(size, b"\0"))
        if draw.random() < 0.2:  # what is behind the synced length may be anything
            data[len(self.synced):] = draw.randbytes(max(0, size - len(self.synced)))
        for at, written in self.written:
            how, room = draw.randrange(5), max(0, min(len(written), size - at))
            if how == 1:
                room = draw.randint(0, room)
            if how in (1, 2):
                data[at:at + room] = written[:room]
            elif how == 3:  # by blocks of 512 bytes
                for place in range(0, room, 512):
                    if draw.getrandbits(1):
                        data[at + place:at + min(room, place + 512)] = written[place:min(room, place + 512)]
            elif how == 4:
                data[at:at + room] = bytes(draw.choice((new, draw.randrange(256))) for new in written[:room])
        return bytes(data[:size])


class Disk:
    """The files of a folder."""

    def __init__(self):
        self.files = {}

    def do(self, call):
        if call.kind in (WRITE, CUT, SYNC) and call.file.startswith("office-data/"):
            self.files.setdefault(call.file, File()).do(call)

    def put(self, folder, image):
        """Writes an image of each file into a folder; `image` gives it."""
        (pathlib.Path(folder) / "office-data").mkdir(parents=True, exist_ok=True)
        for name in (JOURNAL, *SLOTS):
            (pathlib.Path(folder) / name).write_bytes(image(self.files.get(name, File())))


def some_image(seed):
    """A drawn image of each file."""
    draw = random.Random(seed)
    return lambda file: file.image(draw)
