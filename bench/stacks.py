#!/usr/bin/env python3
"""What a put costs on a key with many versions: python3 bench/stacks.py PROGRAM [ROUNDS] [FOLDER]

Each round runs, over journals in a new folder below FOLDER (/dev/shm), PUTS puts in turn: on one key of an Enabled bucket
that has 190,000 versions already, and on as many keys of one version each. Prints the medians of both in puts a second, and
of the rounds' ratios. Both runs open a journal of 190,000 puts first; the time of a run without puts is taken off.
"""
import statistics
import subprocess
import sys
import tempfile
import time
from pathlib import Path

HELD, PUTS, MOMENT = 190_000, 9_000, 1_704_067_200_000


def place(text):
    return len(text).to_bytes(2, "big") + text


def frame(kind, fields):
    entry = MOMENT.to_bytes(8, "big") + bytes([kind]) + place(b"logs") + fields
    return len(entry).to_bytes(4, "big") + entry + b"\xa5"


def journal(keys):
    """A journal of an Enabled bucket with a put under each of these keys."""
    head = b"\xa5METERJRN1\xa5" + frame(1, b"") + frame(2, b"\x01")
    return (head + b"".join(frame(5, place(key) + (1).to_bytes(8, "big") + b"\0\0") for key in keys))[:-1] + b"\0"


def puts(keys):
    body = b'{"size":1}'
    return b"".join(b"PUT /buckets/logs/objects/%s HTTP/1.1\r\nContent-Length: %d\r\n\r\n%s" % (key, len(body), body) for key in keys)


def seconds(program, file, sent, below):
    with tempfile.TemporaryDirectory(dir=below) as folder:
        Path(folder, "office-data").mkdir()
        Path(folder, "office-data/journal").write_bytes(file)
        started = time.monotonic()
        ended = subprocess.run([program, "run"], cwd=folder, input=sent, capture_output=True, check=True)
        taken = time.monotonic() - started
    wanted = sent.count(b"PUT /")
    if ended.stdout.count(b"HTTP/1.1 201 ") != wanted:
        sys.exit(f"stacks.py: of {wanted} puts not all were answered 201")
    return taken


def main(program, rounds, below):
    one, many = [b"a"] * HELD, [b"k%06d" % it for it in range(HELD)]
    fresh = [b"n%06d" % it for it in range(PUTS)]
    files, sent = {"stack": journal(one), "fresh": journal(many)}, {"stack": puts([b"a"] * PUTS), "fresh": puts(fresh)}
    rates = {name: [] for name in files}
    for _ in range(rounds):
        for name in files:
            taken = seconds(program, files[name], sent[name], below) - seconds(program, files[name], b"", below)
            rates[name].append(PUTS / taken)
    ratios = [deep / flat for deep, flat in zip(rates["stack"], rates["fresh"])]
    print(f"puts {PUTS} versions {HELD} stack_per_second {statistics.median(rates['stack']):.0f} "
          f"fresh_per_second {statistics.median(rates['fresh']):.0f} ratio {statistics.median(ratios):.2f}")


if __name__ == "__main__":
    if len(sys.argv) < 2:
        sys.exit(__doc__)
    main(str(Path(sys.argv[1]).resolve()), int(sys.argv[2]) if len(sys.argv) > 2 else 5, sys.argv[3] if len(sys.argv) > 3 else "/dev/shm")
