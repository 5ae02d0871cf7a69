#!/usr/bin/env python3
"""What a forecast costs: python3 bench/forecast.py PROGRAM [ROUNDS] [FOLDER]

Over a journal in a new folder below FOLDER (/dev/shm) with a bucket of 10,000 and of 200,000 objects: `forecast` by a day a year ahead of
a configuration that moves each object to GLACIER and removes it, and of one that removes it alone. Prints for each how many actions it
printed, the median of the rounds in seconds, and the same per action in microseconds; the time of a run without requests, which opens the
same journal, is taken off.

Then what the copy of the office costs: a forecast in which nothing comes due beside a report of a month, both with their opening, in seconds
(medians) and in the greatest memory of each in MiB.
"""
import datetime
import json
import os
import statistics
import subprocess
import sys
import tempfile
import time
from pathlib import Path

sys.dont_write_bytecode = True
from acts import journal

REMOVE = {"Expiration": {"Days": 200}}
MOVE_AND_REMOVE = REMOVE | {"Transitions": [{"Days": 30, "StorageClass": "GLACIER"}]}


def configuration(actions):
    return json.dumps({"Rules": [{"Filter": {"Prefix": ""}, "ID": "r", "Status": "Enabled"} | actions]}).encode()


def seconds(command, folder, sent):
    started = time.monotonic()
    ended = subprocess.run(command, cwd=folder, input=sent, capture_output=True, check=True)
    return time.monotonic() - started, ended.stdout


def forecast(program, folder, actions, rounds):
    """Seconds of a forecast without the opening, and how many actions it printed."""
    day = datetime.date.today() + datetime.timedelta(days=366)
    taken, printed = [], set()
    for _ in range(rounds):
        opened, _ = seconds([program, "run"], folder, b"")
        both, text = seconds([program, "forecast", "logs", day.isoformat()], folder, configuration(actions))
        taken.append(both - opened)
        printed.add(text.partition(b"\n\n")[0].count(b"\n"))
    return statistics.median(taken), printed.pop()


def peak(command, folder, sent):
    """Seconds of a command, and its greatest memory in MiB."""
    started = time.monotonic()
    child = subprocess.Popen(command, cwd=folder, stdin=subprocess.PIPE, stdout=subprocess.DEVNULL, stderr=subprocess.DEVNULL)
    child.stdin.write(sent)
    child.stdin.close()
    _, _, used = os.wait4(child.pid, 0)
    return time.monotonic() - started, used.ru_maxrss / 1024


def copy(program, folder, rounds):
    """Medians of a report and of a forecast without actions: seconds, and MiB."""
    today, month = datetime.date.today() + datetime.timedelta(days=1), datetime.date.today().strftime("%Y-%m")
    kept = configuration({"Expiration": {"Days": 365 * 70}})
    reports = [peak([program, "report", month], folder, b"") for _ in range(rounds)]
    forecasts = [peak([program, "forecast", "logs", today.isoformat()], folder, kept) for _ in range(rounds)]
    return [tuple(map(statistics.median, zip(*it))) for it in (reports, forecasts)]


def main(program, rounds, below):
    for count in (10_000, 200_000):
        with tempfile.TemporaryDirectory(dir=below) as folder:
            Path(folder, "office-data").mkdir()
            Path(folder, "office-data/journal").write_bytes(journal(count, {"Days": 365 * 70}))
            for name, actions in (("remove", REMOVE), ("move_and_remove", MOVE_AND_REMOVE)):
                took, printed = forecast(program, folder, actions, rounds)
                print(f"objects {count} {name} actions {printed} seconds {took:.2f} us_an_action {took / max(printed, 1) * 1e6:.1f}")
            for name, (took, memory) in zip(("report", "forecast_without_actions"), copy(program, folder, rounds)):
                print(f"objects {count} {name} seconds {took:.2f} MiB {memory:.0f}")


if __name__ == "__main__":
    if not 2 <= len(sys.argv) <= 4 or "--help" in sys.argv:
        sys.exit(__doc__)
    main(str(Path(sys.argv[1]).resolve()), int(sys.argv[2]) if len(sys.argv) > 2 else 5, sys.argv[3] if len(sys.argv) > 3 else "/dev/shm")
