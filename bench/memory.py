#!/usr/bin/env python3
"""The greatest resident memory of `office run`: python3 bench/memory.py PROGRAM [FOLDER] [VERSIONS]

PROGRAM is crates/office_cli/out/office_cli. Its high-water mark is what the system tells of the process (VmHWM of /proc/PID/status),
read once it has answered all that it was asked and before its input ends: over 1,000 and 1,000,000 requests that are refused, so that
the records do not grow; over an empty input on an office of VERSIONS versions (200,000), which opens it; over the puts of these,
under keys of 12 bytes; and over the same puts under one rule for all keys. What a version takes is the last number less the first, over VERSIONS. FOLDER is /dev/shm if not given.
"""
import itertools
import os
import re
import subprocess
import sys
import tempfile
import threading

BUCKET = b"PUT /buckets/logs HTTP/1.1\r\nHost: office\r\n\r\n"
SHOW = b"GET /buckets/logs HTTP/1.1\r\nHost: office\r\n\r\n"
RULES = b'{"Rules":[{"ID":"all","Status":"Enabled","Filter":{"Prefix":""},"Expiration":{"Days":365}}]}'
SET = b"PUT /buckets/logs/lifecycle HTTP/1.1\r\nHost: office\r\nContent-Length: %d\r\n\r\n" % len(RULES) + RULES
PUT = b"PUT /buckets/logs/objects/key%09d HTTP/1.1\r\nHost: office\r\nContent-Length: 13\r\n\r\n" b'{"size":1000}'


def feed(stream, requests):
    for chunk in requests:
        stream.write(chunk)
    stream.write(SHOW)
    stream.flush()


def high_water_kib(program, requests):
    """Asks all requests and then for the bucket. Returns the high-water mark, and how many versions the bucket has."""
    with subprocess.Popen([program, "run"], stdin=subprocess.PIPE, stdout=subprocess.PIPE) as run:
        feeding = threading.Thread(target=feed, args=(run.stdin, requests))
        feeding.start()
        said = b""
        while not (found := re.search(rb'"versions":(\d+)}$', said)):
            more = os.read(run.stdout.fileno(), 1 << 20)
            if not more:
                sys.exit("run ended too early")
            said = said[-200:] + more
        feeding.join()
        with open(f"/proc/{run.pid}/status", encoding="ascii") as file:
            mark = int(re.search(r"VmHWM:\s+(\d+) kB", file.read())[1])
        run.stdin.close()
    if run.returncode != 0:
        sys.exit(f"run ended with {run.returncode}")
    return mark, int(found[1])


def main(program, folder, versions):
    with tempfile.TemporaryDirectory(dir=folder) as work:
        os.chdir(work)
        subprocess.run([program, "init"], check=True, stdout=subprocess.DEVNULL)
        for thousands in (1, 1_000):
            mark, _ = high_water_kib(program, [BUCKET * 1_000] * thousands)
            print(f"requests {thousands * 1_000} high_water_kib {mark}", flush=True)
        empty = mark
        mark, found = high_water_kib(program, (PUT % at for at in range(versions)))
        if found != versions:
            sys.exit(f"the bucket has {found} versions")
        each = 1024 * (mark - empty) / versions
        print(f"versions {versions} put high_water_kib {mark} bytes_a_version {each:.0f}", flush=True)
        for it in ("office-data/check.0", "office-data/check.1"):
            if os.path.exists(it):
                os.remove(it)  # the whole journal is opened
        mark, _ = high_water_kib(program, [])
        size = os.path.getsize("office-data/journal")
        print(f"versions {versions} opened high_water_kib {mark} journal_kib {size // 1024}", flush=True)
        os.mkdir("ruled")
        os.chdir("ruled")
        subprocess.run([program, "init"], check=True, stdout=subprocess.DEVNULL)
        mark, found = high_water_kib(program, itertools.chain([BUCKET, SET], (PUT % at for at in range(versions))))
        if found != versions:
            sys.exit(f"the bucket has {found} versions")
        each = 1024 * (mark - empty) / versions
        print(f"versions {versions} put under one rule high_water_kib {mark} bytes_a_version {each:.0f}", flush=True)
        os.chdir("/")


if __name__ == "__main__":
    if len(sys.argv) not in (2, 3, 4):
        sys.exit(__doc__)
    given = dict(enumerate(sys.argv))
    main(os.path.abspath(given[1]), given.get(2, "/dev/shm"), int(given.get(3, 200_000)))
