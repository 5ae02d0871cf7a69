"""The lines that say what a sweep did, and the file that keeps them over a stop at any moment; for act-all.

For each action the file FILE has one line, synced. Beside it FILE.state has, synced before each action is asked for, what the
program said it would do next and the place in the journal at that moment. After a stop the next run finds that last action
there. The entries of the journal behind the place tell whether it was done.
"""
import argparse
import fcntl
import json
import os
import time
import typing

from office_tools.asking import Stop
from office_tools.files import atomic_write, sync_folder
from office_tools.tail import ACT, Tail, bucket_of, open_journal, read_tail, sample_of

FIELDS = ("bucket", "key", "version", "upload", "kind", "class", "marker", "since", "rule")


def line_of(bucket: str, found: dict) -> str:
    """One action as a line: what the program replied, with a field for each name, null if the action has none."""
    said = {**found, "bucket": bucket, "kind": found.get("action"), "since": found.get("moment")}
    return json.dumps({name: said.get(name) for name in FIELDS}, ensure_ascii=False, separators=(",", ":")) + "\n"


class Log:
    """The lines of one run, in a file that goes on from the runs before."""

    def __init__(self, path, journal, target_of):
        self.path, self.state, self.target_of = path, f"{path}.state", target_of
        self.tail, self.journal, self.steps = read_tail(journal), open_journal(journal), None
        try:
            if os.path.exists(path) and not os.path.isfile(path):
                raise Stop(4, f"{path}: not a regular file")
            self.file = open(path, "a+b", buffering=0)
            fcntl.flock(self.file, fcntl.LOCK_EX | fcntl.LOCK_NB)
            sync_folder(path)
        except BlockingIOError:
            raise Stop(2, f"{path}: another run writes to it") from None
        except OSError as fault:
            raise Stop(4, f"{path}: {fault.strerror}") from None

    def write(self, file, text):
        try:
            file.write(text.encode())
            os.fdatasync(file.fileno())
        except OSError as fault:
            raise Stop(4, f"{file.name}: {fault.strerror}") from None

    # ---- what a run before this one left

    def before(self):
        """The lines of the state file: the head, and what the last run asked for last if it was stopped."""
        try:
            with open(self.state, encoding="utf-8") as file:
                # A last line that is cut short was not asked for.
                found = [json.loads(it) for it in file.read().splitlines(True) if it.endswith("\n")]
            if not found or not all(isinstance(it, dict) for it in found):
                raise ValueError
            return found[0], found[-1] if len(found) > 1 else None
        except FileNotFoundError:
            return {}, None
        except OSError as fault:
            raise Stop(4, f"{self.state}: {fault.strerror}") from None
        except ValueError:
            raise Stop(4, f"{self.state}: not a state of this tool; move it away") from None

    def settle(self, office):
        """Completes the file after a run that was stopped. Returns a note on its last action, or nothing."""
        (head, intent), note = self.before(), None
        if intent:
            size, fd = os.fstat(self.file.fileno()).st_size, self.file.fileno()
            written = os.pread(fd, size - intent["size"], intent["size"]) if size > intent["size"] else b""
            if not written.endswith(b"\n"):
                if written:
                    os.ftruncate(fd, intent["size"])
                if sample_of(self.journal, head["place"]) != head["before"]:
                    raise Stop(4, f"{self.state}: of another journal than {self.tail.path}; move it away")
                note = self.find(office, intent)
        self.begin(head.get("ended") or head.get("last_end"))
        return note

    def find(self, office, intent):
        """Looks in the journal for the action whose reply was lost, and writes its line if it was done."""
        bucket, entries, tail = intent["bucket"], [], Tail(self.tail.path)

        def seen(gate, _, kind, fields):
            if kind <= ACT and bucket_of(fields) == bucket:
                entries.append((gate, kind))
        tail.gate, tail.count = intent["place"], 1
        tail.read(self.journal, seen)
        acts = [gate for gate, kind in entries if kind == ACT]
        if not acts:
            return f"the last action of the run before, in bucket {bucket}, was not done"
        if entries[0][1] == ACT:  # what was due follows from the bucket only
            found = {**intent["found"], **self.marker(office, bucket, intent["found"])}
            note = f"the reply to the last action of the run before was lost, in bucket {bucket}; its line is written now"
        else:
            found = {"action": "unknown"}
            note = (f"the reply to an action in bucket {bucket} was lost, and the bucket was changed just before it: see the entry of "
                    f"the journal at {acts[0]}")
        self.write(self.file, line_of(bucket, found))
        return note

    def marker(self, office, bucket, found):
        """The version of the delete marker that an action put."""
        if found.get("action") != "marker":
            return {}
        status, stack = office.ask("GET", self.target_of(bucket, "objects", found.get("key")))
        versions = stack.get("versions") if status == 200 else None
        for it in versions if isinstance(versions, list) else []:
            if isinstance(it, dict) and it.get("kind") == "marker" and it.get("created") == found.get("moment"):
                return {"marker": it.get("version")}
        return {}

    # ---- this run

    def begin(self, last_end):
        """Notes that a run has begun, and at which place of the journal."""
        place = self.tail.gate
        head = {"begun": now(), "last_end": last_end, "place": place, "before": sample_of(self.journal, place)}
        atomic_write(self.state, json.dumps(head, separators=(",", ":")) + "\n")
        try:
            self.steps = open(self.state, "ab", buffering=0)
        except OSError as fault:
            raise Stop(4, f"{self.state}: {fault.strerror}") from None

    def intend(self, office, bucket):
        """Asks what is due in a bucket, and keeps it with the place of the journal. Returns the reply."""
        self.tail.read(self.journal)
        status, found = office.ask("GET", self.target_of(bucket, "due"))
        if status == 200 and found.get("action") != "none":
            about = {"bucket": bucket, "place": self.tail.gate, "size": os.fstat(self.file.fileno()).st_size, "found": found}
            self.write(self.steps, json.dumps(about, separators=(",", ":")) + "\n")
        return status, found

    def done(self, text):
        """Writes the line of an action that was done."""
        self.write(self.file, text)

    def end(self, about):
        """Notes that the run has ended, and how."""
        self.steps.close()
        atomic_write(self.state, json.dumps({"ended": now(), **about}, separators=(",", ":")) + "\n")


def now():
    return time.strftime("%Y-%m-%dT%H:%M:%SZ", time.gmtime())


def last_sweep(path: str) -> typing.Optional[str]:
    """The moment at which the last sweep with this file ended; nothing if none did."""
    try:
        with open(f"{path}.state", encoding="utf-8") as file:
            head = json.loads(file.readline())
        return head.get("ended") or head.get("last_end")
    except (OSError, ValueError, AttributeError):
        return None


def add_log(words: argparse.ArgumentParser) -> None:
    """The word that names the file of lines."""
    words.add_argument("--log", metavar="FILE", help="append a line of JSON for each action that is done; needs --journal")


def open_log(given: argparse.Namespace, target_of: typing.Callable[..., str]) -> typing.Optional[Log]:
    """The file of lines, if one is named."""
    if given.log and not given.journal:
        raise Stop(1, "--log needs --journal, which tells after a stop what was done")
    return Log(given.log, given.journal, target_of) if given.log else None
