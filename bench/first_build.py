#!/usr/bin/env python3
"""How long the first command takes in a fresh clone: python3 bench/first_build.py [PROCESSORS] [FOLDER]

Clones the last commit of this repository into a new folder below FOLDER (the system's folder for temporary files), runs
`./office init` there on that many processors (all that this process may use), and then once more. Prints the seconds of both and
the greatest memory that was in use above that at the start; the lines of `office` go to standard error.
"""
import os
import subprocess
import sys
import tempfile
import threading
import time
from pathlib import Path

ROOT = os.path.dirname(os.path.dirname(os.path.abspath(__file__)))


def used_kib():
    rows = dict(row.split(":") for row in Path("/proc/meminfo").read_text(encoding="ascii").splitlines())
    return int(rows["MemTotal"].split()[0]) - int(rows["MemAvailable"].split()[0])


def watch(most, ended):
    while not ended.wait(1):
        most[0] = max(most[0], used_kib())


def main(processors, below):
    os.sched_setaffinity(0, sorted(os.sched_getaffinity(0))[:processors])
    with tempfile.TemporaryDirectory(dir=below) as folder:
        subprocess.run(["git", "clone", "-q", ROOT, f"{folder}/clone"], check=True)
        before, ended = used_kib(), threading.Event()
        most, seconds = [before], []
        watching = threading.Thread(target=watch, args=(most, ended))
        watching.start()
        try:
            for _ in range(2):
                started = time.monotonic()
                subprocess.run([f"{folder}/clone/office", "init"], cwd=folder, stdout=subprocess.DEVNULL, check=True)
                seconds.append(time.monotonic() - started)
        finally:
            ended.set()
            watching.join()
        used = len(os.sched_getaffinity(0))
        print(f"processors {used} first_seconds {seconds[0]:.0f} second_seconds {seconds[1]:.2f} memory_mib {(most[0] - before) // 1024}")


if __name__ == "__main__":
    if len(sys.argv) > 3 or not "".join(sys.argv[1:2]).isdigit() and sys.argv[1:]:
        sys.exit(__doc__)
    main(int(sys.argv[1]) if sys.argv[1:] else os.cpu_count(), sys.argv[2] if sys.argv[2:] else None)
