#!/usr/bin/env python3
"""Time of `gen NUMBER COUNT` as a ratio to a plain Rust program of the same records: python3 bench/gen.py PROGRAM [TURNS] [COUNT ..]

The baseline, gen_baseline.rs, keeps the same records with an ordered queue of due actions, encodes the same entries, and with `--record` keeps each
disk call with its bytes, as a disk in memory does. Both have to print the same line. Times are the processor time of a process, user and system;
the least and the median of the turns, which alternate.
"""
import resource
import statistics
import subprocess
import sys
import tempfile
from pathlib import Path

HERE, NUMBER = Path(__file__).resolve().parent, "7"


def timed(command):
    before = resource.getrusage(resource.RUSAGE_CHILDREN)
    ended = subprocess.run(command, check=True, stdout=subprocess.PIPE, stderr=subprocess.DEVNULL, timeout=600)
    after = resource.getrusage(resource.RUSAGE_CHILDREN)
    return after.ru_utime - before.ru_utime + after.ru_stime - before.ru_stime, ended.stdout


def main(program, turns, counts):
    with tempfile.TemporaryDirectory() as work:
        baseline = str(Path(work, "gen_baseline"))
        subprocess.run(["rustc", "--edition", "2021", "-C", "opt-level=3", "-o", baseline, str(HERE / "gen_baseline.rs")], check=True)
        for count in counts:
            taken = {"program": [], "baseline": []}
            for _ in range(turns):
                seconds, line = timed([program, "gen", NUMBER, count])
                taken["program"].append(seconds)
                seconds, wanted = timed([baseline, NUMBER, count, "--record"])
                taken["baseline"].append(seconds)
                if line != wanted:
                    sys.exit(f"gen.py: {line!r} is not {wanted!r}")
            least = {name: min(times) for name, times in taken.items()}
            median = {name: statistics.median(times) for name, times in taken.items()}
            print(f"commands {count} program_s {least['program']:.3f} median {median['program']:.3f}"
                  f" baseline_s {least['baseline']:.3f} median {median['baseline']:.3f} ratio {least['baseline'] / least['program']:.3f}")


if __name__ == "__main__":
    main(sys.argv[1], int(sys.argv[2]) if len(sys.argv) > 2 else 5, sys.argv[3:] or ["20000", "100000"])
