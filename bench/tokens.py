#!/usr/bin/env python3
"""Puts with a fresh token beside puts without one: python3 bench/tokens.py PROGRAM [FOLDER] [ROUNDS]

PROGRAM is crates/office_cli/out/office_cli. Both are answered by `run` in FOLDER (/dev/shm, where syncs cost nothing), on
an office of its own, 100,000 puts each, with tokens of 36 bytes. The last 10,000 are then sent again, ten times: each gets
its kept reply, without an entry (the opening of the journal counts in). Prints the medians of the rounds (9), as ratio the
median of the rounds' ratios, and the resident memory of both offices after an opening.
"""
import datetime
import os
import statistics
import subprocess
import sys

sys.dont_write_bytecode = True
from keys import office, puts, rate

MANY, KEPT = 100_000, 10_000


def with_tokens(requests):
    """The same puts, each with a token of its own, of 36 bytes."""
    parts = requests.split(b"Host: office\r\n")
    out = [parts[0]]
    for number, part in enumerate(parts[1:]):
        out.append(b"Host: office\r\nOffice-Token: %036d\r\n" % number + part)
    return b"".join(out)


def resident(program, work):
    """The greatest resident memory of a run without requests, in KiB."""
    run = subprocess.Popen([program, "run"], cwd=work, stdin=subprocess.DEVNULL, stdout=subprocess.DEVNULL)
    _, status, used = os.wait4(run.pid, 0)
    if status:
        sys.exit("the run failed")
    return used.ru_maxrss


def turn(program, folder, plain, tokened, last):
    found = {}
    for name, requests in (("without", plain), ("with", tokened)):
        with office(program, folder) as work:
            found[name] = rate(program, work, requests, b"201", MANY)
            found["resident " + name] = resident(program, work)
            if name == "with":
                found["again"] = rate(program, work, last * 10, b"201", 10 * KEPT)
    return found


def main(program, folder="/dev/shm", rounds=9):
    program = os.path.abspath(program)
    plain = puts(MANY, MANY)
    tokened = with_tokens(plain)
    last = b"PUT" + b"PUT".join(tokened.split(b"PUT")[-KEPT:])
    found = [turn(program, folder, plain, tokened, last) for _ in range(int(rounds))]
    middle = lambda key: statistics.median(it[key] for it in found)
    ratio = statistics.median(it["with"] / it["without"] for it in found)
    print(f"puts a second without {middle('without'):.0f} with a fresh token {middle('with'):.0f} ratio {ratio:.2f}")
    print(f"sent again a second {middle('again'):.0f}")
    print(f"resident KiB without {middle('resident without'):.0f} with {middle('resident with'):.0f}")
    print(f"rounds {len(found)} date {datetime.date.today()}")


if __name__ == "__main__":
    if not 2 <= len(sys.argv) <= 4 or "--help" in sys.argv:
        sys.exit(__doc__)
    main(*sys.argv[1:])
