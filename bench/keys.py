#!/usr/bin/env python3
"""What the number of keys costs: python3 bench/keys.py PROGRAM [FOLDER] [ROUNDS] [PUTS]

PROGRAM is crates/office_cli/out/office_cli; FOLDER is to be on a file system in memory (/dev/shm, where none is given), so that
syncs cost nothing. A turn puts PUTS objects (100,000) into one bucket, over 1,000 keys again and again or over PUTS keys; turns of
both alternate, each in a new office. Then, over the fuller office, a run answers PUTS queries of the bucket and PUTS of its
meters. Prints the medians; the first ratio is puts over many keys to puts over few, the last are queries to puts over few keys.
"""
import datetime
import os
import statistics
import subprocess
import sys
import tempfile
import time

BODY = '{"size":1000}'
BUCKET = b"PUT /buckets/load HTTP/1.1\r\nHost: office\r\n\r\n"


def puts(count, keys):
    head = "PUT /buckets/load/objects/key-%07d HTTP/1.1\r\nHost: office\r\nContent-Length: " + str(len(BODY)) + "\r\n\r\n" + BODY
    return b"".join((head % (n % keys)).encode() for n in range(count))


def rate(program, work, requests, status, count):
    """Requests a second of one run that answers each of these with this status."""
    with open(os.path.join(work, "requests"), "wb") as file:
        file.write(requests)
    with open(os.path.join(work, "requests"), "rb") as source, open(os.path.join(work, "replies"), "wb") as replies:
        begin = time.monotonic()
        subprocess.run([program, "run"], cwd=work, check=True, stdin=source, stdout=replies)
        seconds = time.monotonic() - begin
    with open(os.path.join(work, "replies"), "rb") as replies:
        if replies.read().count(b"HTTP/1.1 " + status) != count:
            sys.exit(f"not all of {count} requests were answered with {status}")
    return count / seconds


def office(program, folder):
    work = tempfile.TemporaryDirectory(dir=folder)
    subprocess.run([program, "init"], cwd=work.name, check=True, stdout=subprocess.DEVNULL)
    subprocess.run([program, "run"], cwd=work.name, check=True, input=BUCKET, stdout=subprocess.DEVNULL)
    return work


def main(program, folder="/dev/shm", rounds=5, count=100_000):
    few, many, shown, metered = [], [], [], []
    for _ in range(rounds):
        with office(program, folder) as work:
            few.append(rate(program, work, puts(count, 1_000), b"201 ", count))
        with office(program, folder) as work:
            many.append(rate(program, work, puts(count, count), b"201 ", count))
            bucket = b"GET /buckets/load HTTP/1.1\r\nHost: office\r\n\r\n" * count
            shown.append(rate(program, work, bucket, b"200 ", count))
            month = datetime.date.today().strftime("%Y-%m")
            meters = f"GET /buckets/load/meters/{month} HTTP/1.1\r\nHost: office\r\n\r\n".encode() * count
            metered.append(rate(program, work, meters, b"200 ", count))
    a, b, c, d = map(statistics.median, (few, many, shown, metered))
    print(f"puts_per_second keys 1000 {a:.0f} keys {count} {b:.0f} ratio {b / a:.2f}")
    print(f"queries_per_second bucket {c:.0f} ratio {c / a:.2f} meters {d:.0f} ratio {d / a:.2f} rounds {rounds} date {datetime.date.today()}")


if __name__ == "__main__":
    if not 2 <= len(sys.argv) <= 5:
        sys.exit(__doc__)
    main(os.path.abspath(sys.argv[1]), *sys.argv[2:3], *map(int, sys.argv[3:]))
