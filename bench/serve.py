#!/usr/bin/env python3
"""Requests a second of `office serve`: queries and durable puts against a plain server, puts against what the disk allows.

    python3 bench/serve.py PROGRAM [FOLDER] [ROUNDS] [SECONDS]

Builds load.c, plain_server.rs and disk_limit.c into a new folder inside FOLDER (the folder that it is started in, where
none is given), whose disk is measured. load.c keeps as many connections busy as there are workers, each with one
request at a time, for SECONDS (2). Turns of the office stand between turns of what it is compared with, ROUNDS (5) of
them; a ratio is the office's rate over the mean of the rates before it and after it. The lines have the medians. Needs
cc and rustc.
"""
import datetime
import os
import pathlib
import re
import shutil
import socket
import statistics
import subprocess
import sys
import tempfile
import time

HERE = pathlib.Path(__file__).resolve().parent
# Of the entry of a put by load.c: its moment, its kind, the bucket's name and the key with two bytes of length each,
# the size, the class and the number of tags.
KEY = "turn00-000-0000000"
ENTRY_BYTES = 8 + 1 + 2 + len("logs") + 2 + len(KEY) + 8 + 1 + 1
MAKE = b"PUT /buckets/logs HTTP/1.1\r\nHost: office\r\nConnection: close\r\n\r\n"


def build(work):
    for name, words in (("load", ["-O2", "-pthread"]), ("disk_limit", ["-O2"])):
        subprocess.run(["cc", *words, "-o", str(work / name), str(HERE / f"{name}.c")], check=True)
    subprocess.run(["rustc", "--edition", "2021", "-C", "opt-level=3", "-o", str(work / "plain_server"),
                    str(HERE / "plain_server.rs")], check=True)


def free_port():
    with socket.socket() as probe:
        probe.bind(("127.0.0.1", 0))
        return probe.getsockname()[1]


def make_bucket(port):
    """Waits until somebody listens, and makes the bucket."""
    for _ in range(1000):
        try:
            with socket.create_connection(("127.0.0.1", port), 10) as client:
                client.sendall(MAKE)
                reply = client.recv(1000)
        except ConnectionRefusedError:
            time.sleep(0.01)
            continue
        if not reply.startswith(b"HTTP/1.1 201 "):
            sys.exit(f"the bucket was not made: {reply}")
        return
    sys.exit(f"nobody listens on port {port}")


def served(words, folder, port, load, workers, seconds, what):
    """A turn of a server: its replies a second, p50 and p99 in microseconds."""
    server = subprocess.Popen(words, cwd=folder, stdin=subprocess.DEVNULL, stdout=subprocess.DEVNULL)
    try:
        make_bucket(port)
        busy = [load, str(port), str(workers), str(seconds), what]
        line = subprocess.run(busy, check=True, text=True, stdout=subprocess.PIPE).stdout
    finally:
        server.kill()
        server.wait()
    return [float(re.search(f"{name} ([0-9.]+)", line)[1]) for name in ("per_second", "p50_us", "p99_us")]


def office_turn(work, program, workers, seconds, what):
    folder = tempfile.mkdtemp(prefix="office-", dir=work)
    subprocess.run([program, "init"], cwd=folder, check=True, stdout=subprocess.DEVNULL)
    port = free_port()
    words = [program, "serve", "--listen", f"127.0.0.1:{port}", "--workers", str(workers)]
    found = served(words, folder, port, str(work / "load"), workers, seconds, what)
    shutil.rmtree(folder)
    return found


def plain_turn(work, workers, seconds, what):
    folder = tempfile.mkdtemp(prefix="plain-", dir=work)
    port = free_port()
    words = [str(work / "plain_server"), f"127.0.0.1:{port}", str(workers), "journal", str(ENTRY_BYTES)]
    found = served(words, folder, port, str(work / "load"), workers, seconds, what)
    shutil.rmtree(folder)
    return found


def limit_turn(work, mode, commands):
    """A turn of the bare loop of three writes, a data sync, one byte, a data sync: commands a second, p50 and p99."""
    words = [str(work / "disk_limit"), "limit", mode, str(commands), str(ENTRY_BYTES)]
    begin = time.monotonic()
    line = subprocess.run(words, cwd=work, check=True, text=True, stdout=subprocess.PIPE).stdout
    rate = commands / (time.monotonic() - begin)
    return [rate, *(float(re.search(f"{name}[^0-9]*([0-9.]+)", line)[1]) for name in ("p50", "p99"))]


def compare(name, unit, rounds, office, other):
    """Alternates both, and prints the medians."""
    others, turns, ratios = [other()], [], []
    for turn in range(rounds):
        turns.append(office(turn))
        others.append(other())
        ratios.append(2 * turns[-1][0] / (others[-2][0] + others[-1][0]))
    medians = [statistics.median(column) for rows in (turns, others) for column in zip(*rows)]
    rate, p50, p99, other_rate, other_p50, other_p99 = (f"{median:.0f}" for median in medians)
    print(f"{name} office_per_second {rate} {unit}_per_second {other_rate} ratio {statistics.median(ratios):.3f}"
          f" office_p50_us {p50} office_p99_us {p99} {unit}_p50_us {other_p50} {unit}_p99_us {other_p99}", flush=True)


def main():
    if not 2 <= len(sys.argv) <= 5:
        sys.exit(__doc__)
    program = str(pathlib.Path(sys.argv[1]).resolve())
    where = sys.argv[2] if len(sys.argv) > 2 else "."
    rounds = int(sys.argv[3]) if len(sys.argv) > 3 else 5
    seconds = float(sys.argv[4]) if len(sys.argv) > 4 else 2.0
    work = pathlib.Path(tempfile.mkdtemp(prefix="serve-", dir=where)).resolve()
    try:
        build(work)
        for workers in (1, 4):
            compare(f"queries workers {workers}", "plain", rounds,
                    lambda turn: office_turn(work, program, workers, seconds, "query"),
                    lambda: plain_turn(work, workers, seconds, "query"))
        for workers in (1, 4):
            for unit, other in (("limit", lambda: limit_turn(work, "fdatasync", 3000)),
                                ("blocks", lambda: limit_turn(work, "fdatasync-blocks", 3000)),
                                ("plain", lambda: plain_turn(work, workers, seconds, "turn00"))):
                compare(f"puts workers {workers}", unit, rounds,
                        lambda turn: office_turn(work, program, workers, seconds, f"turn{turn:02}"), other)
        print(f"rounds {rounds} seconds {seconds:.1f} entry_bytes {ENTRY_BYTES} processors {os.cpu_count()}"
              f" date {datetime.date.today()}")
    finally:
        shutil.rmtree(work)


main()
