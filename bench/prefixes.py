#!/usr/bin/env python3
"""What a configuration of many rules costs a put: python3 bench/prefixes.py PROGRAM [ROUNDS] [FOLDER]

Over a journal in a new folder below FOLDER (/dev/shm) with a bucket of 100,000 keys, the program gets a configuration and then PUTS puts over keys
that are there. The configuration has 1,000 rules, each with a prefix of its own that 100 of the keys have, or one rule for all keys. Prints the
medians of both in puts a second, and of the rounds' ratios. Last comes what it takes to set each configuration, when each key is looked at anew, in
milliseconds. The time of a run over the same journal without puts, or without requests, is taken off.
"""
import json
import statistics
import subprocess
import sys
import tempfile
import time
from pathlib import Path

KEYS, RULES, PUTS, SETS, MOMENT = 100_000, 1_000, 50_000, 5, 1_704_067_200_000


def place(text):
    return len(text).to_bytes(2, "big") + text


def frame(kind, fields):
    entry = MOMENT.to_bytes(8, "big") + bytes([kind]) + place(b"logs") + fields
    return len(entry).to_bytes(4, "big") + entry + b"\xa5"


def key(number):
    return b"%03d/%06d" % (number % RULES, number)


def journal():
    """A bucket with an object under each key."""
    puts = (frame(5, place(key(it)) + (1).to_bytes(8, "big") + b"\0\0") for it in range(KEYS))
    return (b"\xa5METERJRN1\xa5" + frame(1, b"") + b"".join(puts))[:-1] + b"\0"


def message(line, body):
    return b"%s HTTP/1.1\r\nContent-Length: %d\r\n\r\n%s" % (line, len(body), body)


def setting(rules):
    """The request that sets this many rules: each key has one of them."""
    prefixes = [""] if rules == 1 else [f"{it:03}/" for it in range(rules)]
    listed = [{"ID": f"r{at}", "Status": "Enabled", "Filter": {"Prefix": it}, "Expiration": {"Days": 365 * 70}} for at, it in enumerate(prefixes)]
    return message(b"PUT /buckets/logs/lifecycle", json.dumps({"Rules": listed}, separators=(",", ":")).encode())


def seconds(program, file, sent, below):
    """The seconds of a run over this journal, in which each request is done."""
    with tempfile.TemporaryDirectory(dir=below) as folder:
        Path(folder, "office-data").mkdir()
        Path(folder, "office-data/journal").write_bytes(file)
        started = time.monotonic()
        ended = subprocess.run([program, "run"], cwd=folder, input=b"".join(sent), capture_output=True, check=True)
        taken = time.monotonic() - started
    if ended.stdout.count(b"HTTP/1.1 20") != len(sent):
        sys.exit(f"prefixes.py: of {len(sent)} requests not all were done")
    return taken


def main(program, rounds, below):
    file, counts = journal(), (1, RULES)
    puts = [message(b"PUT /buckets/logs/objects/" + key(it * 7 % KEYS).replace(b"/", b"%2F"), b'{"size":1}') for it in range(PUTS)]
    rates, sets = {it: [] for it in counts}, {it: [] for it in counts}
    for _ in range(rounds):
        empty = seconds(program, file, [], below)
        for count in counts:
            once = seconds(program, file, [setting(count)], below)
            rates[count].append(PUTS / (seconds(program, file, [setting(count), *puts], below) - once))
            sets[count].append((seconds(program, file, [setting(count)] * SETS, below) - empty) / SETS * 1_000)
    ratios = [many / one for one, many in zip(rates[1], rates[RULES])]
    print(f"puts {PUTS} keys {KEYS} one_rule_per_second {statistics.median(rates[1]):.0f} "
          f"rules {RULES} per_second {statistics.median(rates[RULES]):.0f} ratio {statistics.median(ratios):.2f}")
    print(f"set_one_rule_ms {statistics.median(sets[1]):.1f} set_{RULES}_rules_ms {statistics.median(sets[RULES]):.1f}")


if __name__ == "__main__":
    if len(sys.argv) < 2:
        sys.exit(__doc__)
    main(str(Path(sys.argv[1]).resolve()), int(sys.argv[2]) if len(sys.argv) > 2 else 5, sys.argv[3] if len(sys.argv) > 3 else "/dev/shm")
