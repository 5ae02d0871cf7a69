#!/usr/bin/env -S python3 -B
"""Compares the table of docs/SCALING.md with what bench/shards.py prints, and some of its figures with sums by hand. It needs no program."""
import re
import sys

import live

PAGE = (live.ROOT / "docs" / "SCALING.md").read_text("utf-8")
# By row of the table: where bench/shards.py prints it.
PLACES = (("offices, each a process", r"^  (\d+) offices,"), ("of them above the limit after a year", r"after a year (\d+ \([\d.]+%\)) are above"),
          ("memory in all", r"memory (\d+ GiB) in all"), ("machines of 256 GiB", r"an office; (\d+) machines of 256 GiB"),
          ("journals after a year, in three copies", r"three copies (\d+ GiB)"),
          ("syncs a second a machine; one disk took 19686", r"([\d.]+) syncs a second a machine"),
          ("a night's sweep", r"takes (\d+ s) on each machine"), ("start of a machine, without checkpoints", r"entries in (\d+ s) on"))


class Shards(live.Case):
    def test_the_table(self):
        done = self.ended([sys.executable, "-B", live.ROOT / "bench" / "shards.py"], text=True)
        self.check("status", (0, ""), (done.returncode, done.stderr))
        plans = re.split(r"^planned filling ", done.stdout, flags=re.MULTILINE)[1:]
        rows = {name: cells.split(" | ") for name, cells in re.findall(r"^\| (.*?) \| (.*) \|$", PAGE, flags=re.MULTILINE)}
        self.check("the plans", [it.partition(":")[0] for it in plans], rows["Planned filling"])
        for name, pattern in PLACES:
            self.check(name, [re.search(pattern, it, flags=re.MULTILINE)[1] for it in plans], rows[name])
        for plan in plans:
            # By hand: at least 10^9 versions, each with 288 bytes and 48 of its key beyond 12, and 4,036 KiB a process; no more than what a year adds.
            offices, memory = int(re.search(r"^  (\d+) offices", plan, flags=re.MULTILINE)[1]), int(re.search(r"memory (\d+) GiB", plan)[1])
            least = (10 ** 9 * (288 + 48) + offices * 4_036 * 1_024) / 2 ** 30
            self.check(f"memory of {offices} offices", True, least - 1 <= memory <= 1.25 * least)
            self.check(f"{offices} offices are enough", True, offices * 200_000 * int(plan.partition("%")[0]) / 100 >= 0.999 * 10 ** 9)


if __name__ == "__main__":
    live.main()
