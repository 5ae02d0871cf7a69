"""The journal of stand_in.py: reads one into the plain models, one that the cases spelled by hand too, and writes on in it."""
import fcntl
import json
import pathlib
import subprocess

from histories import CLOSE, KINDS, TARIFF, Drawn, number
from stand_in_rules import rules_of
from stand_in_slots import opened, save, tariff_in

DUMP = pathlib.Path(__file__).resolve().parent.parent / "tools" / "journal-dump"
NAMES = ("create-bucket", "set-versioning", "set-rules", "drop-rules", "put", "delete", "delete-version", "set-tags", "start-upload", "put-part",
         "complete", "abort", "act", "set-tariff", "close")
# What the fields of an entry are called in the models.
FIELDS = {"class": "storage_class", "key": "key", "tags": "tags", "size": "size", "upload": "upload", "part": "part"}


def drawn(now, name, **more):
    """What a command is about."""
    unused = {"key": "", "storage_class": "STANDARD", "tags": {}, "size": 0, "version": "null", "upload": 0, "part": 0, "is_enabled": False,
              "rules": [], "mode": "all_storage_classes_128K"}
    return Drawn(now, name, **{**unused, **more})


def made(now, kind, fields, token):
    """The bytes of an entry."""
    return number(now) + (number(kind, 1) if token is None else number(kind | 0x80, 1) + number(len(token), 1) + token.encode()) + fields


def about(it):
    """The kind of a command by its number, and what it is about."""
    kind = NAMES.index(it["kind"]) + 1
    if kind in (TARIFF, CLOSE):
        return kind, tariff_in(it) if kind == TARIFF else it["month"]
    more = {here: it[name] for name, here in FIELDS.items() if name in it}
    if "version" in it:
        more["version"] = str(it["version"])
    if "status" in it:
        more["is_enabled"] = it["status"] == "Enabled"
    if "rules" in it:
        more.update(rules_of(it["rules"]))
    return kind, drawn(it["ms"], it["bucket"], **more)


class Journal:
    """The file, whose last gate is closed."""
    path = pathlib.Path("office-data/journal")

    @classmethod
    def make(cls):
        cls.path.parent.mkdir(exist_ok=True)
        if not cls.path.exists():
            cls.path.write_bytes(b"\xa5METERJRN1\0")

    def __init__(self):
        """Status 2, as BlockingIOError, if another process has the lock."""
        self.make()
        self.lock, self.end, self.begun = open(self.path, "rb"), None, None
        fcntl.flock(self.lock, fcntl.LOCK_EX | fcntl.LOCK_NB)

    def replay(self, office, by_slot):
        """Does each entry at its moment: those after the position of a slot, if there is one and it is asked for."""
        found = opened(self.path, office, lambda it: office.do(*about({"ms": it.moment, **it.command}), it.moment)[0]) if by_slot else None
        if found is None:
            said = subprocess.run([DUMP, "--check", self.path], capture_output=True, text=True, check=True).stdout
            end = int(said.partition("end gate at ")[2].partition(";")[0])
            found = list(map(json.loads, subprocess.run([DUMP, self.path], capture_output=True, text=True, check=True).stdout.splitlines())), end
        for it in found[0]:
            office.command(*about(it), [it["token"]] if "token" in it else [], it["ms"])
        self.end = self.begun = found[1]

    def close(self, office):
        """Saves a checkpoint if the journal grew."""
        if self.end > self.begun:
            save(self.path, office, self.end)

    def append(self, entry):
        """Writes an entry, and last the gate before it."""
        with open(self.path, "r+b") as file:
            file.seek(self.end + 1)
            file.write(number(len(entry), 4) + entry + b"\0")
            file.flush()
            file.seek(self.end)
            file.write(b"\xa5")
        self.end += 5 + len(entry)


assert len(NAMES) == len(KINDS) + 2
