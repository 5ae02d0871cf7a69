"""The two slots beside a journal: what they hold, which one an opening takes, and whether they are of this journal.

An opening trusts its slot: it does not read the journal before the slot's position. So a slot has to be of the journal beside it. Its
position is then the offset of a gate, and what follows from the entries before that gate is in it: the last moment, the tariffs and
closed months, of each bucket what its configuration and versioning are, and the kept replies but for what they tell.
"""
import collections
import datetime
import os
import typing

from office_tools.asking import Stop
from office_tools.entries import KINDS
from office_tools.journals import Journal
from office_tools.ranges import EPOCH, Damaged
from office_tools.slots import MOST_KEPT, OPEN, Slot, Snapshot, month_at, number_of, read_slot

NAMES = ("check.0", "check.1")
TRIES = 20
KIND_OF = {name: kind for kind, (name, *_) in KINDS.items()}


class Found(typing.NamedTuple):
    """A slot file: its name in the folder of the office, where it is, and what it holds; `state` of the slot may be missing, too."""
    name: str
    path: str
    slot: Slot
    data: bytes


def paths_beside(journal: str) -> typing.List[str]:
    """The slot files of a journal. Those of a copy of backup have the same ending as the journal."""
    folder, name = os.path.split(journal)
    return [os.path.join(folder, it + (name[len("journal"):] if name.startswith("journal-") else "")) for it in NAMES]


def read_still(path: str) -> typing.Optional[bytes]:
    """The bytes of a slot file, which the program may be writing. Nothing if there is no file.

    The program closes the gate before it changes what comes after it, and opens it last. So a reading that mixes an old and a new body
    begins with an open gate, and the one after it with a closed gate or with all of the new body: the two differ.
    """
    before = None
    try:
        for _ in range(TRIES):
            with open(path, "rb") as file:
                data = file.read()
            if data[:1] != OPEN or data == before:
                return data
            before = data
    except FileNotFoundError:
        return None
    except OSError as fault:
        raise Stop(3, f"{path}: {fault.strerror}") from None
    raise Stop(3, f"{path}: is written again and again")


def read_slots(journal: str) -> typing.List[Found]:
    """What the slot files beside a journal hold."""
    found = []
    for name, path in zip(NAMES, paths_beside(journal)):
        data = read_still(path)
        found.append(Found(name, path, Slot("missing") if data is None else read_slot(data), data or b""))
    return found


def taken(slots: typing.List[Found]) -> typing.Optional[Found]:
    """The slot that an opening takes: the one that decodes with the greatest position, the first of two with the same one."""
    return max((it for it in slots if it.slot.state == "whole"), key=lambda it: it.slot.position, default=None)


def text_of(ms: typing.Optional[int]) -> str:
    """A moment as the program prints it."""
    return "none" if ms is None else (EPOCH + datetime.timedelta(milliseconds=ms)).isoformat(timespec="milliseconds") + "Z"


def opening(file: typing.BinaryIO, slot: Found) -> dict:
    """What an opening finds that takes this slot: where it begins, and the entries after it and the end gate, or the damage."""
    position, found = slot.slot.position, {"opening": slot.name, "from": slot.slot.position}
    if position >= os.fstat(file.fileno()).st_size:
        return {**found, "damaged": position}
    journal, damaged = Journal(file, (position, 0, slot.slot.snapshot.last or 0)), False
    try:
        for _ in journal.entries():
            pass
    except Damaged:
        damaged = True
    return {**found, **ended(journal, damaged)}


def ended(journal: Journal, damaged: bool) -> dict:
    """How a reading of a journal ended."""
    return {"damaged": journal.gate} if damaged else {"entries": journal.count, "end": journal.gate}


def about(found: Found, others: typing.Dict[str, str], waiting: typing.List[Found]) -> dict:
    """A slot in numbers. `of_journal` is unknown if the journal is damaged before the slot's position."""
    slot, it = found.slot, found.slot.snapshot
    if slot.state == "damaged":
        return {"slot": found.name, "state": slot.state, "position": slot.position, "damaged": slot.fault[0], "why": slot.fault[1]}
    if slot.state != "whole":
        return {"slot": found.name, "state": slot.state}
    return {"slot": found.name, "state": slot.state, "position": slot.position, "bytes": slot.size, "moment": text_of(it.last), "ms": it.last,
            "first_open": it.first_open, "tariffs": len(it.tariffs), "closed": len(it.closed), "buckets": len(it.buckets),
            "keys": sum(len(one.stacks) for one in it.buckets),
            "versions": sum(len(stack.versions) for one in it.buckets for stack in one.stacks), "uploads": sum(len(one.uploads) for one in it.buckets),
            "kept": len(it.kept), "of_journal": None if found in waiting else found.name not in others, "why": others.get(found.name)}


class Followed:
    """What follows from entries by themselves, without doing their commands."""

    def __init__(self):
        self.last, self.first, self.tariffs, self.closed = None, None, {}, []
        self.buckets, self.kept = {}, collections.OrderedDict()

    def take(self, entry: dict) -> None:
        """One entry more."""
        self.last = entry["ms"]
        self.first = self.first or entry["moment"][:7]
        kind = entry["kind"]
        if kind == "set-tariff":
            self.tariffs[entry["from"]] = {name: entry[name] for name in ("from", "storage", "transition")}
        elif kind == "close":
            # A closed month keeps the tariff in force in it at its closing.
            begun = [it for it in self.tariffs if it <= entry["month"]]
            self.closed.append((entry["month"], self.tariffs[max(begun)] if begun else None))
        else:
            self.take_bucket(kind, entry)
        if "token" in entry:
            command = {name: it for name, it in entry.items() if name not in ("offset", "moment", "ms", "token")}
            self.kept.pop(entry["token"], None)
            self.kept[entry["token"]] = (entry["token"], entry["ms"], KIND_OF[kind], command)
            while len(self.kept) > MOST_KEPT:
                self.kept.popitem(last=False)

    def take_bucket(self, kind, entry):
        name, ms = entry["bucket"], entry["ms"]
        bucket = self.buckets.setdefault(name, {"versioning": "Unversioned", "since": ms, "rules": None, "upload": 1})
        if kind == "start-upload":
            bucket["upload"] += 1
        elif kind == "set-versioning":
            bucket.update(versioning=entry["status"], since=ms)
        elif kind in ("set-rules", "drop-rules"):
            bucket.update(rules=entry.get("rules"), since=ms)

    def differs(self, found: Snapshot) -> typing.Optional[str]:
        """What of a snapshot is not what follows from these entries. Nothing if it is."""
        first_open = None if self.first is None else month_at(number_of(self.first) + len(self.closed))
        buckets = [(name, it["versioning"], it["since"], it["rules"], it["upload"]) for name, it in sorted(self.buckets.items())]
        for what, wanted, there in (
                ("last moment", self.last, found.last), ("first open month", first_open, found.first_open),
                ("tariffs", [self.tariffs[it] for it in sorted(self.tariffs)], found.tariffs), ("closed months", self.closed, found.closed),
                ("buckets", buckets, [(it.name, it.versioning, it.rules_since, it.rules, it.next_upload) for it in found.buckets]),
                ("kept replies", list(self.kept.values()), [(it.token, it.moment, it.kind, it.command) for it in found.kept])):
            if wanted != there:
                return what
        return None


class Comparison:
    """Slots beside a journal, while its entries are read: why a slot is of another journal, by its name."""

    def __init__(self, slots: typing.List[Found]):
        self.waiting = sorted((it for it in slots if it.slot.state == "whole"), key=lambda it: it.slot.position)
        self.followed, self.others = Followed(), {}

    def at_gate(self, gate: int) -> None:
        """The gate that is looked at, before its entry is taken."""
        while self.waiting and self.waiting[0].slot.position <= gate:
            it = self.waiting.pop(0)
            if it.slot.position < gate:
                self.others[it.name] = f"its position {it.slot.position} is no gate of the journal"
            elif what := self.followed.differs(it.slot.snapshot):
                self.others[it.name] = f"its {what} {'are' if what.endswith('s') else 'is'} not what the entries before {gate} say"

    def entries(self, journal: Journal) -> typing.Iterator[dict]:
        """The entries of a journal. Damaged as there; slots after the damage stay in `waiting`."""
        for entry in journal.entries():
            self.at_gate(entry["offset"])
            self.followed.take(entry)
            yield entry
        self.at_gate(journal.gate)
        for it in self.waiting:
            self.others[it.name] = f"its position {it.slot.position} is after the end gate of the journal"
        self.waiting = []
