#!/usr/bin/env python3
"""How fast a journal is opened: python3 bench/opening.py PROGRAM [FOLDER] [ROUNDS] [ENTRIES] [BASELINE]

PROGRAM is crates/office_cli/out/office_cli. A journal with a bucket and ENTRIES puts of objects (100,000), each under a
key of its own, is made in FOLDER. Then runs over an empty input, which open it and end, alternate with plain reads of the
same file by this script: first without checkpoints, so that the whole journal is replayed, and, if the program saved one,
with it (`checkpoint_seconds`). BASELINE is start_baseline.rs, built: it makes the records of the same checkpoint, and nothing else
(`baseline_seconds`). Runs of one put more follow, whose end saves a checkpoint (`end_seconds`, without the opening). The time of a run includes the
start of the process, about a millisecond.
"""
import datetime
import os
import pathlib
import statistics
import subprocess
import sys
import tempfile
import time


def seconds(call):
    start = time.perf_counter()
    call()
    return time.perf_counter() - start


def read_all(path):
    with open(path, "rb") as file:
        return file.read()


def main(program, folder=None, rounds=9, entries=100_000, baseline=None):
    with tempfile.TemporaryDirectory(dir=folder) as work:
        subprocess.run([program, "init"], cwd=work, check=True, stdout=subprocess.DEVNULL)
        bucket = b"PUT /buckets/load HTTP/1.1\r\nHost: office\r\n\r\n"
        put = b'PUT /buckets/load/objects/key-%06d HTTP/1.1\r\nHost: office\r\nContent-Length: 13\r\n\r\n{"size":1000}'
        requests = bucket + b"".join(put % n for n in range(entries))
        made = subprocess.run([program, "run"], cwd=work, check=True, input=requests, capture_output=True).stdout
        if made.count(b"HTTP/1.1 201 ") != entries + 1:
            sys.exit("not all objects were put")
        journal = os.path.join(work, "office-data", "journal")
        slots = {path: read_all(path) for path in (os.path.join(work, "office-data", it) for it in ("check.0", "check.1")) if os.path.exists(path)}

        def opening(kept, sent=b""):
            """A run with these checkpoints."""
            for path, data in slots.items():
                pathlib.Path(path).write_bytes(data if kept else b"")
            return seconds(lambda: subprocess.run([program, "run"], cwd=work, check=True, input=sent, stdout=subprocess.DEVNULL))
        opens, reads, loads, bases = [], [], [], []
        for _ in range(rounds):
            opens.append(opening(False))
            reads.append(seconds(lambda: read_all(journal)))
            loads += [opening(True)] if any(slots.values()) else []
            if loads and baseline:
                slot = max(slots, key=lambda it: len(slots[it]))
                bases.append(seconds(lambda: subprocess.run([baseline, slot], check=True, stdout=subprocess.DEVNULL)))
        ends = [opening(True, put % (entries + it)) for it in range(rounds)] if loads else []
        opened, read = statistics.median(opens), statistics.median(reads)
        print(f"entries {entries} bytes {os.path.getsize(journal)} open_seconds {opened:.4f} read_seconds {read:.4f}", end=" ")
        if loads:
            print(f"checkpoint_bytes {max(map(len, slots.values()))} checkpoint_seconds {statistics.median(loads):.4f}", end=" ")
            if bases:
                print(f"baseline_seconds {statistics.median(bases):.4f}", end=" ")
            print(f"end_seconds {statistics.median(ends) - statistics.median(loads):.4f}", end=" ")
        print(f"entries_per_second {entries / opened:.0f} rounds {rounds} date {datetime.date.today()}")


if __name__ == "__main__":
    if not 2 <= len(sys.argv) <= 6:
        sys.exit(__doc__)
    main(os.path.abspath(sys.argv[1]), *sys.argv[2:3], *map(int, sys.argv[3:5]), *map(os.path.abspath, sys.argv[5:]))
