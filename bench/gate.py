#!/usr/bin/env python3
"""What the gate costs, by crate and part: python3 bench/gate.py [--parts PART,..] [NAME..]

It works on a clone of the commit that is checked out, and leaves the repository as it is. For each crate that is
named, or for all, lowest first, it runs from nothing and with one job what `rt ci` runs, and prints the processor
seconds, user and system, of each part:

    proof   the crate's own check (`rt lib`, for a program `rt check`)
    tests   the check with its tests (`rt check --test`), which proves the crate once more
    edits   its wrong bodies (`rt must-fail`), and beside them how many there are

The libraries below a crate are proved first, and are not counted with it. What it takes to compile and run tests and
programs is left out. The table is printed as docs/TESTING.md has it.
"""
import datetime
import os
import re
import resource
import shutil
import subprocess
import sys
import tempfile

PARTS = ("proof", "tests", "edits")


def crates_of(root):
    """The libraries of the repository that each crate names, by crate."""
    lines = [it.partition("#")[0] for it in open(f"{root}/crates.txt", encoding="utf-8")]
    named = {it.split()[0].rstrip(":"): it.partition(":")[2].split() for it in lines if ":" in it}
    return {name: [it for it in deps if it in named] for name, deps in named.items()}


def below(name, crates):
    """The libraries of the repository that a crate stands on, lowest first."""
    order = []
    for dep in crates[name]:
        order += [it for it in [*below(dep, crates), dep] if it not in order]
    return order


def run(folder, *words):
    """The processor seconds of a command, whose last line is told where it fails."""
    before = resource.getrusage(resource.RUSAGE_CHILDREN)
    ran = subprocess.run(words, cwd=folder, stdout=subprocess.PIPE, stderr=subprocess.STDOUT, errors="replace")
    after = resource.getrusage(resource.RUSAGE_CHILDREN)
    if ran.returncode:
        last = (ran.stdout.strip().splitlines() or [""])[-1]
        sys.exit(f"{' '.join(words)} in {folder} ended with {ran.returncode}: {last}")
    return after.ru_utime + after.ru_stime - before.ru_utime - before.ru_stime


def has_tests(folder):
    files = (f"{at}/{name}" for at, _, names in os.walk(f"{folder}/src") for name in names)
    return any("#[test]" in open(it, encoding="utf-8").read() for it in files)


def edits_of(folder):
    names = os.listdir(f"{folder}/must-fail") if os.path.isdir(f"{folder}/must-fail") else []
    return sum(it.endswith(".edit") for it in names)


def measured(root, name, parts):
    """The processor seconds of the parts of a crate whose libraries are built, by part."""
    folder = f"{root}/crates/{name}"
    is_program = os.path.isfile(f"{folder}/src/main.rt")
    taken, kept = {}, f"{folder}/out/incremental"
    if "proof" in parts or not is_program:
        seconds = run(folder, "rt", "check" if is_program else "lib", "--jobs", "1")
        taken = {"proof": seconds} if "proof" in parts else {}
    if "tests" in parts and has_tests(folder):
        if os.path.isdir(kept):
            os.rename(kept, f"{folder}/kept")
        taken["tests"] = run(folder, "rt", "check", "--test", "--jobs", "1")
        shutil.rmtree(kept, ignore_errors=True)
        if os.path.isdir(f"{folder}/kept"):
            os.rename(f"{folder}/kept", kept)
    if "edits" in parts and edits_of(folder):
        taken["edits"] = run(root, "rt", "must-fail", name)
    return taken


def told(seconds):
    return "" if seconds is None else f"{seconds:.0f}"


def said(*words):
    return subprocess.run(words, capture_output=True, text=True, check=True).stdout.strip()


def main(parts, names):
    if shutil.which("rt") is None:
        sys.exit("rt is missing, so nothing is measured")
    top = said("git", "rev-parse", "--show-toplevel")
    crates = crates_of(top)
    if not set(names) <= set(crates) or not set(parts) <= set(PARTS):
        sys.exit(__doc__)
    order = []
    for name in names or crates:
        order += [it for it in [*below(name, crates), name] if it not in order]
    total, count = dict.fromkeys(PARTS, 0.0), 0
    with tempfile.TemporaryDirectory(prefix="gate-") as room:
        root = f"{room}/repository"
        said("git", "clone", "-q", top, root)
        print("| Crate | Proof | Tests | Edits | Number of edits |\n|---|---|---|---|---|", flush=True)
        for name in order:
            if names and name not in names:
                run(f"{root}/crates/{name}", "rt", "lib", "--jobs", "1")
                continue
            taken, edits = measured(root, name, parts), edits_of(f"{root}/crates/{name}")
            total, count = {it: total[it] + taken.get(it, 0) for it in PARTS}, count + edits
            print(f"| `{name}` | {' | '.join(told(taken.get(it)) for it in PARTS)} | {edits} |", flush=True)
        print(f"| together | {' | '.join(told(total[it]) for it in PARTS)} | {count} |")
        commit = said("git", "-C", root, "log", "-1", "--format=%h")
    model = re.search(r"model name\s*: (.*)", open("/proc/cpuinfo", encoding="utf-8").read())
    machine = model[1] if model else "unknown"
    print(f"\ncommit {commit} date {datetime.date.today()} processors {os.cpu_count()} machine {machine}")


if __name__ == "__main__":
    words = sys.argv[1:]
    wanted = PARTS
    if words[:1] == ["--parts"] and len(words) > 1:
        wanted, words = tuple(words[1].split(",")), words[2:]
    if any(it.startswith("-") for it in words):
        sys.exit(__doc__)
    main(wanted, words)
