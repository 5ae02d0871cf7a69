#!/usr/bin/env python3
"""How much sooner four workers print the table of stays: python3 bench/stays.py PROGRAM [ROUNDS] [ENTRIES] [FOLDER]

PROGRAM is crates/office_cli/out/office_cli. A journal of ENTRIES entries (200,000) in 100 buckets, which are made and
then get objects in turn, each key twice, is written in a new folder below FOLDER (/dev/shm). In each round
`explain --workers 1` and `explain --workers 4` run one after the other, the first of them in turn, and a run over an
empty input, which reads the journal and prints nothing. Stops where the two tables differ. The times include the start
of the process, about a millisecond; the ratio is that of the medians, and above 1 where four workers are sooner.
"""
import datetime
import os
import statistics
import subprocess
import sys
import tempfile
import time
from pathlib import Path

MOMENT, BUCKETS, CLASSES = 1_704_067_200_000, 100, 6


def place(text):
    return len(text).to_bytes(2, "big") + text


def frame(moment, kind, fields):
    entry = moment.to_bytes(8, "big") + bytes([kind]) + fields
    return len(entry).to_bytes(4, "big") + entry + b"\xa5"


def journal(entries):
    names = [b"bucket-%02d" % it for it in range(BUCKETS)]
    parts = [b"\xa5METERJRN1\xa5"] + [frame(MOMENT, 1, place(name)) for name in names]
    puts = entries - BUCKETS
    for number in range(puts):
        key = b"objects/%06d" % (number // BUCKETS % (puts // BUCKETS // 2 + 1))
        size = (1_000 + number).to_bytes(8, "big")
        fields = place(names[number % BUCKETS]) + place(key) + size + bytes([number % CLASSES, 0])
        parts.append(frame(MOMENT + number, 5, fields))
    return b"".join(parts)[:-1] + b"\0"


def seconds(command, folder):
    started = time.perf_counter()
    ended = subprocess.run(command, cwd=folder, stdin=subprocess.DEVNULL, capture_output=True, check=True)
    return time.perf_counter() - started, ended.stdout


def main(program, rounds=9, entries=200_000, below="/dev/shm"):
    with tempfile.TemporaryDirectory(dir=below) as folder:
        Path(folder, "office-data").mkdir()
        Path(folder, "office-data/journal").write_bytes(journal(entries))
        times, reads, tables = {1: [], 4: []}, [], set()
        for number in range(rounds):
            for workers in (1, 4) if number % 2 == 0 else (4, 1):
                taken, table = seconds([program, "explain", "--workers", str(workers)], folder)
                times[workers].append(taken)
                tables.add(table)
            reads.append(seconds([program, "run"], folder)[0])
        if len(tables) != 1:
            sys.exit("stays.py: the tables differ")
        one, four, read = (statistics.median(it) for it in (times[1], times[4], reads))
        lines = tables.pop().count(b"\n") - 1
        print(f"entries {entries} buckets {BUCKETS} stay_lines {lines} read_s {read:.4f} one_worker_s {one:.4f}", end=" ")
        print(f"four_workers_s {four:.4f} ratio {one / four:.2f} rounds {rounds} date {datetime.date.today()}")


if __name__ == "__main__":
    if not 2 <= len(sys.argv) <= 5:
        sys.exit(__doc__)
    main(os.path.abspath(sys.argv[1]), *map(int, sys.argv[2:4]), *sys.argv[4:])
