#!/usr/bin/env python3
"""A program beside an earlier one, in turns: python3 bench/versus.py PROGRAM BASELINE [FOLDER] [ROUNDS]

PROGRAM and BASELINE are two crates/office_cli/out/office_cli. A round of each is durable puts in FOLDER (by default the current
folder), whose disk is measured; and in /dev/shm, where syncs cost nothing, puts over keys of their own up to the last reply and up
to the end of the run (which may save a checkpoint), queries of their bucket and of its meters, and the opening of their journal.
Last comes the processor time of `gen`. Rounds (9) alternate, and so does which of the two begins. Prints the medians, and as ratio
the median of the rounds' ratios.
"""
import datetime
import os
import resource
import statistics
import subprocess
import sys
import time

sys.dont_write_bytecode = True
from keys import office, puts, rate

DURABLE, MANY = 2_000, 100_000
REPLY = b"HTTP/1.1 "
BUCKET = b"GET /buckets/load HTTP/1.1\r\nHost: office\r\n\r\n"


def answer(program, work, requests, count):
    """Requests a second of one run, up to its last reply and up to its end."""
    path = os.path.join(work, "requests")
    with open(path, "wb") as file:
        file.write(requests)
    begin, seen, rest = time.monotonic(), 0, b""
    with open(path, "rb") as source, subprocess.Popen([program, "run"], cwd=work, stdin=source, stdout=subprocess.PIPE) as child:
        while seen < count and (read := child.stdout.read1(1 << 20)):
            seen += (rest + read).count(REPLY)
            rest = read[1 - len(REPLY):]
        answered = time.monotonic() - begin
        child.stdout.read()
    if seen != count or child.returncode != 0:
        sys.exit(f"{seen} of {count} requests were answered")
    return count / answered, count / (time.monotonic() - begin)


def load(program):
    """Commands a second of processor time of `gen`."""
    before = resource.getrusage(resource.RUSAGE_CHILDREN)
    subprocess.run([program, "gen", "7", str(MANY)], check=True, stdout=subprocess.DEVNULL)
    after = resource.getrusage(resource.RUSAGE_CHILDREN)
    return MANY / (after.ru_utime + after.ru_stime - before.ru_utime - before.ru_stime)


def opening(program, work):
    """Entries a second of a run without requests."""
    begin = time.monotonic()
    subprocess.run([program, "run"], cwd=work, check=True, stdin=subprocess.DEVNULL, stdout=subprocess.DEVNULL)
    return (MANY + 1) / (time.monotonic() - begin)


def turn(program, folder):
    with office(program, folder) as work:
        rates = {"durable puts": rate(program, work, puts(DURABLE, DURABLE), b"201", DURABLE)}
    with office(program, "/dev/shm") as work:
        month = datetime.datetime.now(datetime.timezone.utc).strftime("%Y-%m").encode()
        meters = b"GET /buckets/load/meters/" + month + b" HTTP/1.1\r\nHost: office\r\n\r\n"
        rates["puts, to the last reply"], rates["puts, to the end"] = answer(program, work, puts(MANY, MANY), MANY)
        rates["queries of the bucket"] = rate(program, work, BUCKET * MANY, b"200", MANY)
        rates["queries of its meters"] = rate(program, work, meters * MANY, b"200", MANY)
        rates["entries opened"] = opening(program, work)
    rates["commands of gen, of processor time,"] = load(program)
    return rates


def main(program, baseline, folder=".", rounds=9):
    programs = [os.path.abspath(it) for it in (program, baseline)]
    found = []
    for number in range(int(rounds)):
        order = programs if number % 2 == 0 else programs[::-1]
        both = {it: turn(it, folder) for it in order}
        found.append([both[it] for it in programs])
    for what in found[0][0]:
        ours, theirs = ([it[side][what] for it in found] for side in (0, 1))
        ratio = statistics.median(a / b for a, b in zip(ours, theirs))
        print(f"{what} a second {statistics.median(ours):.0f} baseline {statistics.median(theirs):.0f} ratio {ratio:.2f}")
    print(f"rounds {len(found)} date {datetime.date.today()}")


if __name__ == "__main__":
    if not 3 <= len(sys.argv) <= 5 or "--help" in sys.argv:
        sys.exit(__doc__)
    main(*sys.argv[1:])
