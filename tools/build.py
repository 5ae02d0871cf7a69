#!/usr/bin/env python3
"""Builds a program with all processors busy: python3 tools/build.py CRATE

Crates below CRATE are proved side by side, one for each processor, and then `rt run` builds the program. The crate with
the longest chain above it comes first. How far it is goes to standard error, and what rt says to crates/CRATE/build.log.
Status 3: not possible here.

A run of rt holds its crate and all below it, so two crates over a common one would wait for each other. Here each is
proved in a tree of its own in .build/, with hard links to what is below it; its folder out/ is moved there and back.
"""
import fcntl
import os
import re
import shutil
import signal
import subprocess
import sys
import time
from pathlib import Path

ROOT = os.path.dirname(os.path.dirname(os.path.abspath(__file__)))
TREES = f"{ROOT}/.build"
PARTS = ("src", "specs", "proofs")
JOB_BYTES = 2_000_000_000  # about what a job takes in the larger crates
LARGE = 3_000  # lines of src/ above which a crate is proved faster by several jobs; each job reads all crates below it


def say(text):
    print(f"office: {text}", file=sys.stderr, flush=True)


def read_list():
    """Returns of each crate its line of crates.txt, and the crates of the repository that it names."""
    rows = (line.partition("#")[0].strip() for line in Path(ROOT, "crates.txt").read_text("utf-8").splitlines())
    rows = {re.match(r"\w+", row)[0]: row for row in rows if row}
    uses = {name: re.findall(r"\w+", row.partition(":")[2]) for name, row in rows.items()}
    return rows, {name: [it for it in uses[name] if it in rows] for name in rows}


def below(name, uses):
    """Returns the crates below this one, each after those that it names."""
    found = []
    for it in uses[name]:
        found += [low for low in [*below(it, uses), it] if low not in found]
    return found


def sources(name):
    return [it for part in PARTS for it in Path(ROOT, "crates", name, part).rglob("*.*t")]


def lines_of(name):
    return sum(len(it.read_bytes().splitlines()) for it in Path(ROOT, "crates", name, "src").rglob("*.rt"))


def is_built(name, lower):
    """Whether the library is newer than its sources and those below. Where rt sees more, `rt run` builds it again."""
    stamp = Path(ROOT, "crates", name, "out/rlib/stamp")
    files = (it for crate in [*lower, name] for it in sources(crate))
    return stamp.is_file() and all(it.stat().st_mtime < stamp.stat().st_mtime for it in files)


def hold(names):
    """Waits until no rt works in these crates, and returns what keeps others out until it is closed."""
    held = [os.open(f"{ROOT}/crates/{name}", os.O_RDONLY) for name in sorted(names)]
    for it in held:
        try:
            fcntl.flock(it, fcntl.LOCK_EX | fcntl.LOCK_NB)
        except BlockingIOError:
            say("waiting for another run of rt")
            fcntl.flock(it, fcntl.LOCK_EX)
    return held


class Run:
    """A run of rt on one crate, whose folder is given; with `aside`, on what others leave of the processors."""

    def __init__(self, name, folder, verb, jobs, log, aside=False):
        self.name, self.folder, self.jobs, self.log, self.started = name, folder, jobs, log, time.time()
        how = {"cwd": folder, "stdin": subprocess.DEVNULL, "stderr": subprocess.STDOUT}
        with open(log, "ab") as out:
            self.from_byte = out.tell()
            words = [*(("nice", "-n", "10") if aside else ()), "rt", verb, "--jobs", str(jobs)]
            self.child = subprocess.Popen(words, stdout=out, **how)

    def functions(self):
        """Returns how many functions are checked: what rt says, or else the files that it kept of them."""
        told = re.findall(rb"(?m)^so far: (\d+ of \d+)", Path(self.log).read_bytes()[self.from_byte :])
        if told:
            return told[-1].decode()
        kept = Path(self.folder).glob("out/incremental/*/*.Tie.oantt")
        return str(sum(it.stat().st_mtime >= self.started for it in kept if it.exists()))


def start_apart(name, jobs, rows, lower, aside):
    """Starts a run on the crate in a tree of its own."""
    tree = f"{TREES}/{name}"
    for it in [*lower, name]:
        for part in (*PARTS, "out/rlib") if it != name else PARTS:
            if os.path.isdir(f"{ROOT}/crates/{it}/{part}"):
                shutil.copytree(f"{ROOT}/crates/{it}/{part}", f"{tree}/crates/{it}/{part}", copy_function=os.link)
    Path(tree, "crates.txt").write_text("".join(f"{rows[it]}\n" for it in [*lower, name]), encoding="utf-8")
    if os.path.isdir(f"{ROOT}/crates/{name}/out"):
        os.rename(f"{ROOT}/crates/{name}/out", f"{tree}/crates/{name}/out")
    return Run(name, f"{tree}/crates/{name}", "lib", jobs, f"{tree}/log", aside)


def end_apart(run, log):
    """Ends the run where it still goes on, moves the crate's folder out/ back, and keeps what was said."""
    run.child.terminate()
    run.child.wait()
    if os.path.isdir(f"{run.folder}/out"):
        os.rename(f"{run.folder}/out", f"{ROOT}/crates/{run.name}/out")
    with open(run.log, "rb") as said, open(log, "ab") as file:
        shutil.copyfileobj(said, file)
    shutil.rmtree(f"{TREES}/{run.name}")


class Build:
    def __init__(self, program, log):
        self.rows, self.uses = read_list()
        self.program, self.log = program, log
        self.names = [*below(program, self.uses), program]
        self.done = [it for it in self.names[:-1] if is_built(it, below(it, self.uses))]
        self.lines = {it: lines_of(it) for it in self.names}
        # A sixtieth more for each crate below, since these are loaded too.
        self.cost = {it: (it not in self.done) * self.lines[it] * (1 + len(below(it, self.uses)) / 60) for it in self.names}
        self.chain = {}
        for it in reversed(self.names):
            self.chain[it] = self.cost[it] + max([self.chain[up] for up in self.chain if it in self.uses[up]] or [0])
        self.running, self.told, self.begun = [], 0, time.time()
        free = 1024 * int(re.search(r"MemAvailable:\s+(\d+)", Path("/proc/meminfo").read_text(encoding="ascii"))[1])
        self.room = max(1, free // JOB_BYTES)
        self.jobs = min(len(os.sched_getaffinity(0)), self.room)

    def start(self):
        """Starts what can be started, that with the longest chain first: one crate for each processor, as far as the
        memory goes. Beside the longest chain of all, the others wait for processors."""
        longest = max((it for it in self.names[:-1] if it not in self.done), key=self.chain.get)
        begun = [*self.done, *(it.name for it in self.running)]
        ready = [it for it in self.names[:-1] if it not in begun and {*self.uses[it]} <= {*self.done}]
        ready.sort(key=self.chain.get)
        while ready and len(self.running) < self.jobs and (room := self.room - sum(it.jobs for it in self.running)) > 0:
            name = ready.pop()
            jobs = min(self.jobs, room) if self.lines[name] > LARGE else 1
            self.running.append(start_apart(name, jobs, self.rows, below(name, self.uses), aside=name != longest))

    def tell(self):
        """Says every 15 seconds how far the build is, and sleeps for a moment."""
        if time.time() > self.told + 15:
            self.told = time.time()
            undone = [it for it in self.names if it not in self.done]
            work = sum(self.cost[it] for it in undone) - sum(self.cost[it.name] / 2 for it in self.running)
            spent = self.told - self.begun
            rate = (sum(self.cost.values()) - work) / spent if spent > 60 else 10 * self.jobs  # a first guess
            left = max(work, self.jobs * max(self.chain[it] for it in undone))  # one processor works on the longest chain
            runs = ", ".join(f"{it.name} ({it.functions()} functions)" for it in self.running)
            say(f"{len(self.done)} of {len(self.names)} crates, {1 + left // (60 * rate):.0f} min left; proving {runs}")
        time.sleep(0.2)

    def libraries(self):
        """Proves the crates below the program. Answers whether all are proved."""
        while len(self.done) < len(self.names) - 1:
            self.start()
            self.tell()
            for it in [it for it in self.running if it.child.poll() is not None]:
                if it.child.returncode:
                    self.running.sort(key=lambda run: run is it)  # its words are the last in the log
                    return False
                self.running.remove(it)
                end_apart(it, self.log)
                self.done.append(it.name)
        return True

    def finish(self):
        """Proves, builds and runs the program. Answers whether it is built."""
        self.running = [Run(self.program, f"{ROOT}/crates/{self.program}", "run", 1, self.log)]
        while self.running[0].child.poll() is None:
            self.tell()
        return os.access(f"{ROOT}/crates/{self.program}/out/{self.program}", os.X_OK)


def main(program):
    for it in (signal.SIGINT, signal.SIGTERM, signal.SIGHUP):
        signal.signal(it, lambda *_: sys.exit(1))
    build = Build(program, log := f"{ROOT}/crates/{program}/build.log")
    held = hold(build.names)
    open(log, "wb").close()
    shutil.rmtree(TREES, ignore_errors=True)
    try:
        proved = build.libraries()
    finally:
        for run in build.running:
            end_apart(run, log)
        shutil.rmtree(TREES, ignore_errors=True)
        for it in held:
            os.close(it)
    return 0 if proved and build.finish() else 1


if __name__ == "__main__":
    if len(sys.argv) != 2:
        sys.exit(__doc__)
    try:
        sys.exit(main(sys.argv[1]))
    except OSError as fault:
        say(f"proving one crate after another, since here is no place for several at once ({type(fault).__name__})")
        sys.exit(3)
