#!/usr/bin/env python3
"""Durable puts a second of `office run`, as a ratio to what the disk allows.

    python3 bench/commits.py PROGRAM [FOLDER] [ROUNDS] [COMMANDS] [BUCKETS] [blocks]

Builds disk_limit.c into a new folder inside FOLDER (the folder that it is started in, where none is given), whose disk
is measured, and takes turns: the limit, the program, the limit, the program, and so on. A turn of the program reads
COMMANDS requests (5,000) from standard input, each to put an object under a key of its own, in BUCKETS buckets (1) in
turn, and has to answer each with 201; the buckets are made by a run before. A turn of the limit appends as many frames of
the same length with two syncs each, from a bare loop in C, which makes its file longer with each frame; with "blocks" as
the sixth word it does the writes of the program, which fills a block of the file at a time. A ratio is the rate of the
program over the mean of the limit's rates before it and after it; the last line has the medians. Needs cc.
"""
import datetime
import pathlib
import shutil
import statistics
import subprocess
import sys
import tempfile
import time

SOURCE = pathlib.Path(__file__).resolve().parent / "disk_limit.c"
BUCKET = "bucket-{:05}"
KEY = "key-{:07}"
# Of the entry of a put: its moment, its kind, the bucket's name and the key with two bytes of length each, the size, the
# class and the number of tags.
ENTRY_BYTES = 8 + 1 + 2 + len(BUCKET.format(0)) + 2 + len(KEY.format(0)) + 8 + 1 + 1
# Of each frame: the length of the entry, the entry and a gate.
FRAME_BYTES = 4 + ENTRY_BYTES + 1
BODY = '{"size":1000}'


def put(bucket, key):
    return (f"PUT /buckets/{BUCKET.format(bucket)}/objects/{KEY.format(key)} HTTP/1.1\r\nHost: office\r\n"
            f"Content-Length: {len(BODY)}\r\n\r\n{BODY}").encode()


def end_gate(journal):
    """The place of the gate that ends the journal."""
    held, gate = journal.read_bytes(), 10
    while held[gate] == 0xA5:
        gate += 5 + int.from_bytes(held[gate + 1 : gate + 5], "big")
    return gate


def limit_turn(work, mode, commands):
    """One turn of the bare loop: commands a second, with its start and end.

    The wait has no limit: one with a limit looks only every 50 milliseconds whether the process has ended.
    """
    words = [str(work / "disk_limit"), "limit", mode, str(commands), str(ENTRY_BYTES)]
    begin = time.monotonic()
    subprocess.run(words, cwd=work, check=True, stdout=subprocess.DEVNULL)
    return commands / (time.monotonic() - begin)


def office_turn(work, program, commands):
    """One turn of the program in an office of its own: commands a second, with its start and end."""
    folder = pathlib.Path(tempfile.mkdtemp(prefix="office-", dir=work))
    subprocess.run([program, "init"], cwd=folder, check=True, stdout=subprocess.DEVNULL)
    with open(work / "buckets", "rb") as requests:
        subprocess.run([program, "run"], cwd=folder, check=True, stdin=requests, stdout=subprocess.DEVNULL)
    before = end_gate(folder / "office-data" / "journal")
    with open(work / "requests", "rb") as requests, open(folder / "replies", "wb") as replies:
        begin = time.monotonic()
        subprocess.run([program, "run"], cwd=folder, check=True, stdin=requests, stdout=replies)
        seconds = time.monotonic() - begin
    made = (folder / "replies").read_bytes().count(b"HTTP/1.1 201 Created\r\n")
    if made != commands:
        sys.exit(f"{made} of {commands} commands were answered with 201")
    grown = end_gate(folder / "office-data" / "journal") - before
    if grown != commands * FRAME_BYTES:
        sys.exit(f"the journal grew by {grown} bytes in {commands} commands")
    shutil.rmtree(folder)
    return commands / seconds


def main():
    if not 2 <= len(sys.argv) <= 7 or sys.argv[6:] not in ([], ["blocks"]):
        sys.exit(__doc__)
    program = str(pathlib.Path(sys.argv[1]).resolve())
    where = sys.argv[2] if len(sys.argv) > 2 else "."
    rounds = int(sys.argv[3]) if len(sys.argv) > 3 else 15
    commands = int(sys.argv[4]) if len(sys.argv) > 4 else 5000
    buckets = int(sys.argv[5]) if len(sys.argv) > 5 else 1
    mode = "-".join(["fdatasync", *sys.argv[6:]])
    work = pathlib.Path(tempfile.mkdtemp(prefix="commits-", dir=where)).resolve()
    try:
        subprocess.run(["cc", "-O2", "-o", str(work / "disk_limit"), str(SOURCE)], check=True)
        with open(work / "buckets", "wb") as requests:
            for number in range(buckets):
                requests.write(f"PUT /buckets/{BUCKET.format(number)} HTTP/1.1\r\nHost: office\r\n\r\n".encode())
        with open(work / "requests", "wb") as requests:
            for number in range(commands):
                requests.write(put(number % buckets, number))
        limits = [limit_turn(work, mode, commands)]
        rates = []
        ratios = []
        for turn in range(rounds):
            rates.append(office_turn(work, program, commands))
            limits.append(limit_turn(work, mode, commands))
            ratios.append(2 * rates[-1] / (limits[-2] + limits[-1]))
            print(f"turn {turn + 1} office_per_second {rates[-1]:.0f} limit_per_second {(limits[-2] + limits[-1]) / 2:.0f} ratio {ratios[-1]:.3f}", flush=True)
        day = datetime.datetime.now(datetime.timezone.utc).date().isoformat()
        print(f"median office_per_second {statistics.median(rates):.0f} limit_per_second {statistics.median(limits):.0f} ratio {statistics.median(ratios):.3f}"
              f" commands {commands} buckets {buckets} limit {mode} entry_bytes {ENTRY_BYTES} turns {rounds} date {day}")
    finally:
        shutil.rmtree(work)


main()
