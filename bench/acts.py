#!/usr/bin/env python3
"""What it costs to find the next lifecycle action: python3 bench/acts.py PROGRAM [ROUNDS] [FOLDER]

Over journals in a new folder below FOLDER (/dev/shm) with a bucket of 100, of 10,000 and of 200,000 objects under one rule: questions
what is due where nothing is, and acts that each remove one object. Prints for each the median of the rounds, in microseconds a call; the
time of a run without calls is taken off, and what comes after the last reply does not count. Last comes a sweep of 200,000 objects, and
the opening of the journal that it leaves beside the opening of the journal of puts alone, in entries a second.
"""
import json
import statistics
import subprocess
import sys
import tempfile
import time
from pathlib import Path

DAY, MOMENT, DUE, ACTS = 86_400_000, 1_704_067_200_000, 100_000, 50_000


def place(text):
    return len(text).to_bytes(2, "big") + text


def frame(kind, fields, at=MOMENT):
    entry = at.to_bytes(8, "big") + bytes([kind]) + place(b"logs") + fields
    return len(entry).to_bytes(4, "big") + entry + b"\xa5"


def journal(count, expires):
    """A bucket of so many objects, which expire by this part of a rule."""
    rules = json.dumps({"Rules": [{"Expiration": expires, "Filter": {"Prefix": ""}, "ID": "r", "Status": "Enabled"}],
                        "TransitionDefaultMinimumObjectSize": "all_storage_classes_128K"}, separators=(",", ":")).encode()
    head = b"\xa5METERJRN1\xa5" + frame(1, b"") + frame(3, len(rules).to_bytes(4, "big") + rules)
    objects = (frame(5, place(b"k%06d" % it) + (1).to_bytes(8, "big") + b"\0\0") for it in range(count))
    return (head + b"".join(objects))[:-1] + b"\0"


def seconds(program, file, sent, below):
    """The seconds of a run up to its last reply, or to its end if nothing is sent: the end of a run that did something saves a checkpoint."""
    with tempfile.TemporaryDirectory(dir=below) as folder:
        Path(folder, "office-data").mkdir()
        Path(folder, "office-data/journal").write_bytes(file)
        Path(folder, "sent").write_bytes(sent)
        wanted = sent.count(b" HTTP/1.1\r\n")
        started = time.monotonic()
        with open(Path(folder, "sent"), "rb") as source, subprocess.Popen([program, "run"], cwd=folder, stdin=source, stdout=subprocess.PIPE) as child:
            parts, seen, rest = [], 0, b""
            while (not wanted or seen < wanted) and (read := child.stdout.read1(1 << 20)):
                seen += (rest + read).count(b"HTTP/1.1 ")
                rest = read[-8:]
                parts.append(read)
            answered = time.monotonic() - started
            said = b"".join(parts) + child.stdout.read()
        return answered if wanted else time.monotonic() - started, said


def micros(program, file, message, count, answer, below):
    empty, _ = seconds(program, file, b"", below)
    taken, said = seconds(program, file, message * count, below)
    if said.count(answer) != count:
        sys.exit(f"acts.py: {said.count(answer)} of {count} calls were answered {answer.decode()}")
    return (taken - empty) / count * 1e6


def sweep(program, count, below):
    """Does all that is due in a bucket, and opens the journals from before and after."""
    entries = count + 2
    with tempfile.TemporaryDirectory(dir=below) as folder:
        Path(folder, "office-data").mkdir()
        place = Path(folder, "office-data/journal")
        place.write_bytes(journal(count, {"Days": 1}))
        taken = []
        for sent in (b"", b"POST /buckets/logs/act HTTP/1.1\r\n\r\n" * count, b""):
            for it in ("check.0", "check.1"):
                place.with_name(it).unlink(missing_ok=True)  # the whole journal is opened
            started = time.monotonic()
            subprocess.run([program, "run"], cwd=folder, input=sent, stdout=subprocess.DEVNULL, check=True)
            taken.append(time.monotonic() - started)
    puts, acts, both = taken
    print(f"sweep {count} acts_s {acts - puts:.2f} puts_opened_a_second {entries / puts:.0f} puts_and_acts_opened_a_second {(entries + count) / both:.0f}")


def main(program, rounds, below):
    for count in (100, 10_000, 200_000):
        never, now, acts_made = journal(count, {"Days": 365 * 70}), journal(count, {"Days": 1}), min(count - 10, ACTS)
        asks = [micros(program, never, b"GET /buckets/logs/due HTTP/1.1\r\n\r\n", DUE, b'{"action":"none"}', below) for _ in range(rounds)]
        acts = [micros(program, now, b"POST /buckets/logs/act HTTP/1.1\r\n\r\n", acts_made, b'{"action":"remove"', below) for _ in range(rounds)]
        print(f"objects {count} nothing_due_us {statistics.median(asks):.1f} act_us {statistics.median(acts):.1f}")
    sweep(program, 200_000, below)


if __name__ == "__main__":
    if len(sys.argv) < 2:
        sys.exit(__doc__)
    main(str(Path(sys.argv[1]).resolve()), int(sys.argv[2]) if len(sys.argv) > 2 else 5, sys.argv[3] if len(sys.argv) > 3 else "/dev/shm")
