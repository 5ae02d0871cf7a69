#!/usr/bin/env python3
"""Runs the gate and tells what it took, by crate and part: python3 bench/gate_run.py [WORD..]

It runs `rt ci`, or the command that is given, here, and looks once a second at the provers that it started. When that
has ended it prints, as docs/TESTING.md has it, the processor seconds of each crate, user and system:

    proof   the crate's own check
    tests   the check of its tests
    edits   its wrong bodies, with the two checks of the crate that they begin and end with

and then the sums, and the time that the whole took. What was kept by an earlier run is not proved again, so the table of a
clean machine is the whole one. What it takes to compile, to run tests and programs, and `rt` itself are left out, and
of each prover its last second at most. The status is that of the command.
"""
import collections
import os
import subprocess
import sys
import threading
import time

TICKS = os.sysconf("SC_CLK_TCK")
PARTS = ("proof", "tests", "edits")


def read(path):
    with open(path, encoding="utf-8", errors="replace") as it:
        return it.read()


def stat_of(process):
    """The name, the parent, the start and the processor seconds of a process."""
    text = read(f"/proc/{process}/stat")
    name, rest = text[text.index("(") + 1 : text.rindex(")")], text[text.rindex(")") + 2 :].split()
    return name, int(rest[1]), rest[19], (int(rest[11]) + int(rest[12])) / TICKS


def part_of(process):
    """The crate that a prover checks, and the part of the gate that this is."""
    words = read(f"/proc/{process}/cmdline").split("\0")
    crate = words[words.index("--crate-name") + 1]
    is_edit = os.path.basename(os.readlink(f"/proc/{process}/cwd")).startswith("rt-edit-")
    return crate, "edits" if is_edit else "tests" if "--test" in words else "proof"


class Watch:
    """The provers that a process started, with what each has taken so far."""

    def __init__(self, top):
        self.top, self.of, self.taken = top, {}, {}

    def look(self):
        found = {}
        for it in filter(str.isdigit, os.listdir("/proc")):
            try:
                found[int(it)] = stat_of(it)
            except (OSError, ValueError):
                pass  # it has ended
        for process, (name, _, start, seconds) in found.items():
            at = process
            while at in found and at != self.top:
                at = found[at][1]
            if name not in ("rattle", "antt-kernel") or at != self.top:
                continue
            try:
                if (process, start) not in self.of:
                    self.of[process, start] = part_of(process)
                self.taken[process, start] = seconds
            except (OSError, ValueError):
                pass

    def table(self):
        sums, counts = collections.defaultdict(float), collections.Counter()
        for key, seconds in self.taken.items():
            sums[self.of[key]] += seconds
            counts[self.of[key]] += 1
        print("| Crate | Proof | Tests | Wrong bodies | Checks for these |\n|---|---|---|---|---|")
        for crate in sorted({it for it, _ in sums}, key=lambda it: -sum(sums.get((it, part), 0) for part in PARTS)):
            cells = (f"{sums[crate, part]:.0f}" if (crate, part) in sums else "" for part in PARTS)
            print(f"| `{crate}` | {' | '.join(cells)} | {counts[crate, 'edits'] or ''} |")
        total = {part: sum(value for (_, it), value in sums.items() if it == part) for part in PARTS}
        minutes = ", ".join(f"{part} {total[part] / 60:.0f}" for part in PARTS)
        print(f"\nprocessor minutes: {minutes}, together {sum(total.values()) / 60:.0f}")


def main(words):
    began = time.time()
    child = subprocess.Popen(words)
    watch, ended = Watch(child.pid), threading.Event()

    def go_on():
        while not ended.wait(1):
            watch.look()

    looking = threading.Thread(target=go_on)
    looking.start()
    status = child.wait()
    ended.set()
    looking.join()
    watch.table()
    print(f"the whole took {(time.time() - began) / 60:.0f} minutes on {os.cpu_count()} processors, status {status}")
    return status


if __name__ == "__main__":
    if sys.argv[1:2] and sys.argv[1].startswith("-"):
        sys.exit(__doc__)
    sys.exit(main(sys.argv[1:] or ["rt", "ci"]))
