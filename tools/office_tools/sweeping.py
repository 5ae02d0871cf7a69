"""Does what is due in buckets, action by action, and counts it; for act-all and month-end."""
import argparse
import json
import sys
import time
import typing
import urllib.parse

from office_tools.actions import Log, line_of
from office_tools.asking import Office, Stop, reason, say

KINDS = ("remove", "transition", "marker", "abort")


class Sweep:
    """What is counted on the way over the buckets."""

    def __init__(self, tool: str, names: typing.List[str], log: typing.Optional[Log] = None, json_lines: bool = False):
        self.tool, self.names, self.done, self.refused, self.left = tool, names, 0, 0, []
        self.log, self.json_lines = log, json_lines
        self.counts, self.begun = dict.fromkeys(KINDS, 0), time.monotonic()
        self.told = self.begun

    def note(self, text: str) -> None:
        print(f"{self.tool}: {text}", file=sys.stderr, flush=True)

    def refuse(self, name: str, status: int, found: dict) -> None:
        """A refusal of one bucket; a fault of the server ends all."""
        if status in (500, 501, 503):
            raise Stop(2, f"bucket {name}: {reason(status, found)}")
        self.refused += 1
        self.note(f"bucket {name}: {reason(status, found)}")

    def count(self, found: dict) -> None:
        if found.get("action") not in KINDS:
            raise Stop(2, f"a reply is not one of the program: {json.dumps(found)[:80]}")
        self.counts[found["action"]] += 1

    def keep(self, name: str, found: dict) -> None:
        """Counts an action that was done, and writes its line."""
        self.count(found)
        text = line_of(name, found)
        if self.log:
            self.log.done(text)
        if self.json_lines:
            say(text)

    def told_now(self) -> str:
        """How far it is, in one line."""
        actions, seconds = sum(self.counts.values()), max(time.monotonic() - self.begun, 0.001)
        kinds = ", ".join(f"{kind} {count}" for kind, count in self.counts.items())
        return (f"{self.done} of {len(self.names)} buckets, refused {self.refused}; actions {actions}: {kinds}; "
                f"{actions / seconds:.0f} a second")

    def tell(self) -> None:
        """Says every two seconds at a terminal how far it is."""
        if sys.stderr.isatty() and time.monotonic() > self.told + 2:
            self.told = time.monotonic()
            self.note(self.told_now())


def target_of(name: str, word: str, rest: typing.Optional[str] = None) -> str:
    """Where a bucket is asked for something, or for something of a key."""
    target = f"/buckets/{urllib.parse.quote(name, safe='')}/{word}"
    return target if rest is None else f"{target}/{urllib.parse.quote(rest, safe='/')}"


def act_once(office, sweep, name):
    """Does the first action that is due in a bucket. Returns the reply."""
    if sweep.log:
        status, found = sweep.log.intend(office, name)
        if status != 200 or found.get("action") == "none":
            return status, found
    status, found = office.ask("POST", target_of(name, "act"))
    if status == 200 and found.get("action") != "none":
        sweep.keep(name, found)
    return status, found


def act(office, sweep, name, most):
    """Does what is due in one bucket, at most `most` actions."""
    for done in range(most + 1):
        # At the bound it is only asked whether more is due.
        status, found = act_once(office, sweep, name) if done < most else office.ask("GET", target_of(name, "due"))
        if status != 200:
            return sweep.refuse(name, status, found)
        if found.get("action") == "none":
            break
        if done == most:
            sweep.left.append(name)
        sweep.tell()
    sweep.done += 1


def act_on_all(office: Office, sweep: Sweep, most: int) -> None:
    """Does what is due in all buckets of the sweep, and says at the end, however it comes, what was done."""
    if sweep.log and (note := sweep.log.settle(office)):
        sweep.note(note)
    try:
        for name in sweep.names:
            act(office, sweep, name, most)
    finally:
        left = f"; more is due in {', '.join(sweep.left)}" if sweep.left else ""
        sweep.note(sweep.told_now() + left)
    if sweep.log:
        sweep.log.end({"buckets": len(sweep.names), "refused": sweep.refused, "left": sweep.left, "actions": sum(sweep.counts.values())})


def count_of(text: str) -> int:
    if not (text.isascii() and text.isdigit() and int(text) > 0):
        raise argparse.ArgumentTypeError(f"'{text}' is not a number from 1 on")
    return int(text)


def add_most(words: argparse.ArgumentParser) -> None:
    """The word that bounds a sweep."""
    words.add_argument("--most", metavar="N", type=count_of, default=1_000_000,
                       help="at most N actions of a bucket; 1000000 if not given")
