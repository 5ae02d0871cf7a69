#!/usr/bin/env -S python3 -B
"""Runs bench/costs.py over small sizes: no request takes more memory or syncs than the documents state. Then it shows that
the script fails if a bound is passed, and names what it leaves out. It needs the built program, and strace for the syncs."""
import os
import re
import sys

import live
from free_port import free_port
from serve_client import LIMIT

BENCH = live.ROOT / "bench"
# Runs the script with one bound changed.
CHANGED = """import sys
sys.path.insert(0, sys.argv[1])
import costs
costs.TABLE["due"] = costs.TABLE["due"]._replace(milliseconds=1e-9)
sys.exit(costs.main(sys.argv[2:]))
"""


def lines_of(done, kind):
    """The lines of a kind, without its name."""
    return re.findall(rf"^{kind}: (.*)$", done.stdout, flags=re.MULTILINE)


class Costs(live.Case):
    def setUp(self):
        super().setUp()
        with open(self.program, "rb") as file:
            if file.read(4) != b"\x7fELF":
                self.skipTest("no built program")
        if not os.access("/dev/shm", os.W_OK):
            self.skipTest("no /dev/shm")

    def costs(self, *rows, start=(BENCH / "costs.py",), **how):
        """A run of the script that measures small sizes of these rows."""
        words = [sys.executable, "-B", *start, "--small", "--port", str(free_port()), self.program, *rows]
        return self.ended(words, text=True, timeout=4 * LIMIT, **how)

    def test_each_row(self):
        """Each row stays within its bounds."""
        done = self.costs("--no-times")
        print(done.stdout, flush=True)
        helped = self.ended([sys.executable, "-B", BENCH / "costs.py", "--help"], text=True).stdout
        rows = re.findall(r"^  (\S+)", helped.partition("\nrows:\n")[2], flags=re.MULTILINE)
        left_out = lines_of(done, "left out")
        self.check("bounds that were passed, and rows that failed", ([], []), (lines_of(done, "BOUND PASSED"), lines_of(done, "FAILED")))
        self.check("each row was measured", rows, list(dict.fromkeys(re.findall(r"^(\S+) \d+ [^:]*: \S", done.stdout, flags=re.MULTILINE))))
        self.check("exit code, and notes", (live.LEFT_OUT if left_out else 0, ""), (done.returncode, done.stderr))
        if left_out:
            self.skipTest(left_out[0].rpartition(": ")[2])

    def test_a_bound_that_is_passed(self):
        """The row and both figures are named, and the exit code is 1."""
        done = self.costs("due", start=("-c", CHANGED, BENCH))
        self.check("exit code", (1, ""), (done.returncode, done.stderr))
        for size, line in zip((100, 2000), lines_of(done, "BOUND PASSED"), strict=True):
            self.check(f"{size} objects", True, bool(re.fullmatch(rf"due {size} objects: processor 0\.\d+ ms a request, at most 1e-09", line)))

    def test_without_strace(self):
        """Syncs that were not counted are named, and the exit code says so."""
        done = self.costs("commands", env={**os.environ, "PATH": str(self.folder)})
        self.check("exit code, and what is left out", (live.LEFT_OUT, ["commands 5 acts: syncs: no strace"]),
                   (done.returncode, lines_of(done, "left out")))
        self.check("it does not count as measured", True, done.stdout.splitlines()[-1].startswith("0 measured, 0 failed, 1 left out, "))


if __name__ == "__main__":
    live.main()
