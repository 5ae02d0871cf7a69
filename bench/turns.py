#!/usr/bin/env python3
"""Turns a second on a counter, against a lock of std in the same run: python3 bench/turns.py PROGRAM [ROUNDS]

PROGRAM is crates/turn_bench/out/turn_bench, which counts to 4,000,000 in one thread or in four, by turns or under a lock. Rounds
alternate the four ways; the time of a way includes the start of the process, about a millisecond.
"""
import datetime
import os
import statistics
import subprocess
import sys
import time

TURNS = 4_000_000
WAYS = [(how, threads) for threads in ("1", "4") for how in ("turns", "lock")]


def seconds(program, how, threads):
    start = time.perf_counter()
    subprocess.run([program, how, threads], check=True)
    return time.perf_counter() - start


def main(program, rounds=9):
    times = {way: [] for way in WAYS}
    for _ in range(rounds):
        for how, threads in WAYS:
            times[how, threads].append(seconds(program, how, threads))
    rates = {way: TURNS / statistics.median(times[way]) for way in WAYS}
    for threads in ("1", "4"):
        turns, lock = rates["turns", threads], rates["lock", threads]
        print(f"threads {threads} turns_per_second {turns:.0f} locks_per_second {lock:.0f} ratio {turns / lock:.2f}")
    print(f"four_over_one turns {rates['turns', '4'] / rates['turns', '1']:.2f} locks {rates['lock', '4'] / rates['lock', '1']:.2f}")
    print(f"counts {TURNS} rounds {rounds} processors {os.cpu_count()} date {datetime.date.today()}")


if __name__ == "__main__":
    if not 2 <= len(sys.argv) <= 3:
        sys.exit(__doc__)
    main(os.path.abspath(sys.argv[1]), *map(int, sys.argv[2:]))
