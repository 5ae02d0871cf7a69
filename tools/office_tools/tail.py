"""Reads a journal from the place that the last reading reached, and keeps that place in a state file; for all tools with --journal.

The format is in docs/FORMATS.md. This reader checks gates, lengths and moments, not the fields: `journal-dump --check` does.
"""
import hashlib
import json
import os
import pathlib
import re
import stat
import struct
import typing

from office_tools.asking import Stop
from office_tools.entries import FIRST_MONTH, WITH_TOKEN
from office_tools.files import atomic_write

OPEN, MARK, FIRST_GATE = 0xA5, b"\xa5METERJRN1", 10
LONGEST_ENTRY, END_OF_TIME = 268_435_456, 4_102_444_800_000
CREATE, ACT, TARIFF, CLOSE, TIERS = 0x01, 0x0D, 0x0E, 0x0F, 0x10
HEAD = struct.Struct(">BIQB")  # gate, length, moment, kind
CHUNK, SAMPLE, VERSION = 1 << 22, 1 << 16, 2
NOTED = frozenset((CREATE, TARIFF, CLOSE, TIERS))
KEPT = ("gate", "count", "last", "buckets", "closed", "first", "tariffs", "closed_with")


class Tail:
    """What the entries up to `gate`, the first closed gate that was seen, say of the office."""

    def __init__(self, path: str):
        self.path = path
        self.gate, self.count, self.last = FIRST_GATE, 0, 0
        self.buckets, self.closed, self.first = [], None, None
        # The first months of the tariffs that were set, rising, and by closed month that of the tariff in force at its closing.
        self.tariffs, self.closed_with = [], {}
        self.size = 0

    # ---- the state file

    def state(self, sample):
        return {"version": VERSION, "before": sample, **{name: getattr(self, name) for name in KEPT}}

    def resume(self, found, file):
        """Takes a state, if it is one and the bytes before its place are those of this journal."""
        kinds = {"gate": int, "count": int, "last": int, "buckets": list, "tariffs": list, "closed_with": dict, "before": str}
        if not isinstance(found, dict) or found.get("version") != VERSION or any(
                not isinstance(found.get(name), kind) for name, kind in kinds.items()):
            return
        if FIRST_GATE <= found["gate"] < self.size and sample_of(file, found["gate"]) == found["before"]:
            for name in KEPT:
                setattr(self, name, found.get(name))

    # ---- the entries

    def damaged(self, at):
        return Stop(3, f"{self.path}: journal: damaged at {at}")

    def read(self, file: typing.BinaryIO, seen: typing.Optional[typing.Callable[[int, int, int, bytes], None]] = None) -> None:
        """Reads on to the first closed gate. `seen` is given each entry: its gate, moment, kind and fields, without its token."""
        try:
            self.size = os.fstat(file.fileno()).st_size
            while self.step(file, seen):
                pass
        except OSError as fault:
            raise Stop(3, f"{self.path}: {fault.strerror}") from None

    def step(self, file, seen):
        """Reads the entries of one piece of the file. Returns whether there may be more."""
        data, at, base = os.pread(file.fileno(), CHUNK, self.gate), 0, self.gate
        unpack, count, last, end = HEAD.unpack_from, self.count, self.last, len(data)
        while end - at >= 14:
            gate, length, moment, kind = unpack(data, at)
            if gate != OPEN:
                break
            behind = at + 5 + length
            if base + behind >= self.size:
                self.size = os.fstat(file.fileno()).st_size  # the server may have written on
            if length < 9 or length > LONGEST_ENTRY or moment < last or moment >= END_OF_TIME or base + behind >= self.size:
                raise self.damaged(base + at)
            if behind >= end:
                if at:
                    break
                data = os.pread(file.fileno(), behind + CHUNK, base)
                if (end := len(data)) <= behind:
                    raise self.damaged(base)
            fields = at + 14
            if kind & WITH_TOKEN:
                kind, fields = kind ^ WITH_TOKEN, fields + 1 + data[fields]
                if fields > behind:
                    raise self.damaged(base + at)
            if kind in NOTED or not count:
                self.note(kind, moment, data[fields:behind])
            if seen:
                seen(base + at, moment, kind, data[fields:behind])
            last, at, count = moment, behind, count + 1
        self.gate, self.count, self.last = base + at, count, last
        if at >= end or (data[at] == OPEN and end - at < 14 and base + end >= self.size):
            raise self.damaged(self.gate)
        return data[at] == OPEN

    def note(self, kind, moment, fields):
        """Keeps what an entry says of buckets and months."""
        if self.first is None:
            self.first = moment
        if kind == CREATE:
            self.buckets.append(bucket_of(fields))
        elif kind == TARIFF:
            self.tariffs = sorted({*self.tariffs, FIRST_MONTH})
        elif kind == TIERS and len(fields) >= 3:
            self.tariffs = sorted({*self.tariffs, month_in(fields)})
        elif kind == CLOSE and len(fields) >= 3:
            self.closed = month_in(fields)
            self.closed_with[self.closed] = in_force(self.closed, self.tariffs)


def month_in(fields):
    """The month that the first fields of an entry name."""
    return f"{int.from_bytes(fields[:2], 'big')}-{fields[2]:02}"


def in_force(month, tariffs):
    """Of the first months of tariffs the one whose tariff is in force in a month; nothing if all begin later."""
    return max((it for it in tariffs if it <= month), default=None)


def bucket_of(fields: bytes) -> str:
    """The bucket that the first field of an entry names."""
    return fields[2:2 + int.from_bytes(fields[:2], "big")].decode("ascii", "replace")


def sample_of(file: typing.BinaryIO, gate: int) -> str:
    """A sum of the last bytes before a place, and of that place: entries have moments, so another journal has others there."""
    start = max(0, gate - SAMPLE)
    return hashlib.sha256(b"%d " % gate + os.pread(file.fileno(), gate - start, start)).hexdigest()


def state_of(path):
    """The state file of a journal: in the folder of OFFICE_STATE, of a systemd unit, or of caches of the user."""
    folder = os.environ.get("OFFICE_STATE") or os.environ.get("CACHE_DIRECTORY")
    if not folder:
        caches = os.environ.get("XDG_CACHE_HOME") or os.path.join(os.path.expanduser("~"), ".cache")
        folder = os.path.join(caches, "nogawhin")
    real = os.path.realpath(path)
    name = re.sub(r"[^A-Za-z0-9.-]+", "-", real).strip("-")[-60:]
    return os.path.join(folder, f"{name}-{hashlib.sha256(os.fsencode(real)).hexdigest()[:12]}.json")


def open_journal(path: str) -> typing.BinaryIO:
    """A journal, opened for reading. Status 3 if there is none."""
    try:
        file = open(path, "rb", buffering=0)
    except OSError as fault:
        raise Stop(3, f"{path}: {fault.strerror}") from None
    about = os.fstat(file.fileno())
    head = os.pread(file.fileno(), FIRST_GATE, 0) if stat.S_ISREG(about.st_mode) else None
    if head is None:
        why = "not a regular file"
    elif about.st_size <= FIRST_GATE or (about.st_size == FIRST_GATE + 1 and head[:1] != MARK[:1]):
        why = "journal: not made"
    elif head != MARK:
        why = "journal: foreign"
    else:
        return file
    file.close()
    raise Stop(3, f"{path}: {why}")


def keep(state, text):
    """Writes the state file. It saves time and no more, so a folder that cannot be written changes nothing."""
    try:
        pathlib.Path(state).parent.mkdir(parents=True, exist_ok=True, mode=0o700)
        atomic_write(state, text, 0o600)
    except (OSError, Stop):
        pass


def read_tail(path: str) -> Tail:
    """Reads a journal: from the kept place if the journal is the one that it is of, else from the front."""
    with open_journal(path) as file:
        tail, state, found = Tail(path), state_of(path), None
        tail.size = os.fstat(file.fileno()).st_size
        try:
            with open(state, encoding="utf-8") as kept:
                found = json.load(kept)
        except (OSError, ValueError, RecursionError):
            pass
        tail.resume(found, file)
        before = tail.gate
        tail.read(file)
        if tail.gate != before or found is None:
            keep(state, json.dumps(tail.state(sample_of(file, tail.gate)), separators=(",", ":")) + "\n")
        return tail
