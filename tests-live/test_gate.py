#!/usr/bin/env -S python3 -B
"""Shows that the gate and its parts fail without a program, end a script that hangs, and name what they left out."""
import os
import pathlib
import shutil
import subprocess
import sys
import time

import live

HERE = live.ROOT / "tests-live"
HELPERS = ("all", "common", "live.py", "serve_client.py", "free_port.py")


def made(path, text):
    """Makes a script."""
    path.write_text(text, "utf-8")
    path.chmod(0o755)
    return path


def last_line(done):
    return done.stdout.splitlines()[-1]


class Gate(live.Case):
    """`.ci/run` on a copy, with a command `rt` that says what it was asked and builds what the case wants."""

    def setUp(self):
        super().setUp()
        self.copy, self.bin = self.folder / "copy", self.folder / "bin"
        self.built = self.copy / "crates/office_cli/out/office_cli"
        for it in (self.copy / ".ci", self.copy / "checks", self.copy / "tests-live", self.built.parent, self.bin):
            it.mkdir(parents=True)
        self.check_calls("exit 0")
        shutil.copy(live.ROOT / ".ci/run", self.copy / ".ci/run")
        for name in HELPERS:
            shutil.copy(HERE / name, self.copy / "tests-live" / name)
        made(self.copy / "tests-live/one.sh", '#!/bin/sh\n. "$(dirname -- "$0")/common"\ncheck one 1 1\nfinish\n')

    def gate(self, builds):
        """Runs the gate with an `rt` that does this."""
        made(self.bin / "rt", f'#!/bin/sh\necho "rt $*"\n{builds}\n')
        return self.ended([self.copy / ".ci/run"], text=True, env={**os.environ, "PATH": f"{self.bin}:{os.environ['PATH']}"})

    def check_calls(self, does):
        """A `checks/calls` that says what it was asked and does this."""
        made(self.copy / "checks/calls", f'#!/bin/sh\necho "checks/calls $*"\n{does}\n')

    def copied(self, program):
        return f"cp '{program}' '{self.built}' && chmod +x '{self.built}'"

    def test_a_program_that_is_built(self):
        done = self.gate(self.copied(made(self.folder / "usage", "#!/bin/sh\nexit 1\n")))
        self.check("status, and the last line", (0, "1 passed, 0 failed"), (done.returncode, last_line(done)))
        self.check("`rt ci`, plain, comes first, and the page of calls behind it", ["rt ci", "checks/calls --check"], done.stdout.splitlines()[:2])

    def test_nothing_is_built(self):
        done = self.gate("exit 0")
        self.check("status, and the last line", (1, "0 passed, 1 failed"), (done.returncode, last_line(done)))
        self.check("why", True, "FAILED: 'rt ci' built no crates/office_cli/out/office_cli" in done.stdout.splitlines())

    def test_a_program_of_an_earlier_run(self):
        made(self.built, "#!/bin/sh\nexit 1\n")
        done = self.gate("exit 0")
        self.check("status, and the last line", (1, "0 passed, 1 failed"), (done.returncode, last_line(done)))

    def test_a_program_that_cannot_be_started(self):
        done = self.gate(self.copied(made(self.folder / "broken", "#!/there/is/nothing\n")))
        self.check("status, and the last line", (1, "0 passed, 1 failed"), (done.returncode, last_line(done)))
        self.check("why", True, "cannot be started" in done.stdout)

    def test_the_page_of_calls_is_out_of_date(self):
        self.check_calls("echo '0 passed, 1 failed'; exit 1")
        done = self.gate(self.copied(made(self.folder / "usage", "#!/bin/sh\nexit 1\n")))
        self.check("status, and no script runs", (1, ["rt ci", "checks/calls --check", "0 passed, 1 failed"]), (done.returncode, done.stdout.splitlines()))

    def test_rt_fails(self):
        done = self.gate(f"{self.copied(made(self.folder / 'usage', '#!/bin/sh'))}\nexit 3")
        self.check("the status of rt, and no script runs", (3, ["rt ci"]), (done.returncode, done.stdout.splitlines()))


class EachScript(live.Case):
    def test_no_program(self):
        for path in [*HERE.glob("*.sh"), *HERE.glob("test_*.py")]:
            done = self.ended([path, "none"], text=True)
            self.check(path.name, (1, True), (done.returncode, "FAILED: there is no program 'none'" in done.stdout + done.stderr))

    def test_a_program_that_cannot_be_started(self):
        broken = made(self.folder / "broken", "#!/there/is/nothing\n")
        for name in ("killed.sh", "test_model.py"):
            done = self.ended([HERE / name, broken], text=True)
            self.check(name, (1, True), (done.returncode, "cannot be started" in done.stdout + done.stderr))

    def test_discovery_without_a_program(self):
        done = self.ended([sys.executable, "-B", "-m", "unittest", "discover", "-s", HERE, "-p", "test_usage.py"], text=True,
                          env={it: os.environ[it] for it in os.environ if it != "OFFICE_PROGRAM"})
        self.check("status, and why", (1, True), (done.returncode, "there is no program ''" in done.stderr))


class LeftOut(live.Case):
    """The real scripts, if a tool is missing."""

    def path_without(self, *tools):
        """A PATH that has each command of this one but these."""
        folder = self.folder / "bin"
        folder.mkdir(exist_ok=True)
        for place in os.environ["PATH"].split(":"):
            for it in os.scandir(place) if os.path.isdir(place) else ():
                if it.name not in tools and not (folder / it.name).is_symlink():
                    (folder / it.name).symlink_to(it.path)
        return {**os.environ, "PATH": str(folder)}

    def all(self, *words, env=None):
        return self.ended([HERE / "all", self.program, *words], text=True, env=env)

    def test_without_nginx(self):
        env = self.path_without("nginx")
        done = self.ended([HERE / "proxy.sh", self.program], text=True, env=env)
        self.check("the script", (77, "skipped: proxy: no nginx"), (done.returncode, done.stdout.splitlines()[0]))
        done = self.all("proxy", env=env)
        self.check("all of them", (0, "0 passed, 0 failed, 1 skipped", True),
                   (done.returncode, last_line(done), "skipped: proxy: no nginx" in done.stdout.splitlines()))
        done = self.all("proxy", "--require", "nginx", env=env)
        self.check("for a release", (1, "0 passed, 1 failed", "FAILED: no nginx, which --require names"),
                   (done.returncode, last_line(done), done.stdout.splitlines()[0]))

    def test_a_case_without_its_tool(self):
        env = {**self.path_without("sqlite3"), "OFFICE_SEEDS": "1,1"}
        done = self.ended([sys.executable, "-B", HERE / "test_report.py", self.program, "Report.test_read_by_sqlite3"], text=True, env=env)
        self.check("the case", (77, ["skipped: Report.test_read_by_sqlite3: no sqlite3", "0 passed, 0 failed, 1 skipped"]),
                   (done.returncode, done.stdout.splitlines()))


class All(live.Case):
    """`tests-live/all` over scripts of each kind."""

    def setUp(self):
        super().setUp()
        self.here = self.folder / "tests-live"
        self.here.mkdir()
        shutil.copy(HERE / "all", self.here)

    def script(self, name, text):
        made(self.here / f"{name}.sh", f"#!/bin/sh\n{text}\n")

    def all(self, *words):
        return self.ended([self.here / "all", self.program, *words], text=True)

    def test_each_kind_of_end(self):
        self.script("well", "echo '1 passed, 0 failed'")
        self.script("early", "echo 'ok: one'; exit 0")
        self.script("wrong", "exit 1")
        self.script("lacks", "echo 'ok: one'; echo 'skipped: two: no such-tool'; exit 77")
        self.script("silent", "exit 77")
        done = self.all()
        self.check("status, and the last line", (1, "1 passed, 3 failed, 1 skipped"), (done.returncode, last_line(done)))
        self.check("what was left out", True, "skipped: lacks: two: no such-tool" in done.stdout.splitlines())
        self.check("what failed, and why", ["FAILED: early: status 0, and it does not say that all passed", "FAILED: silent: status 77",
                                            "FAILED: wrong: status 1"], [it for it in done.stdout.splitlines() if it.startswith("FAILED")])
        done = self.all("well", "lacks")
        self.check("of those that are named, status and last line", (0, "1 passed, 0 failed, 1 skipped"), (done.returncode, last_line(done)))
        self.check("a name that is none, status", 1, self.all("none").returncode)

    def test_a_tool_that_is_required_and_of_no_use(self):
        self.script("lacks", "echo 'skipped: two: no sh'; exit 77")
        done = self.all("--require", "sh")
        self.check("status, and the last line", (1, "0 passed, 1 failed"), (done.returncode, last_line(done)))
        self.check("why", True, "FAILED: lacks: left out: two: no sh, which --require names" in done.stdout.splitlines())

    def test_a_script_that_hangs(self):
        self.script("hangs", "sleep 1000 & echo $! >child; mv child \"$0.child\"; wait")
        done = self.all("--limit", "1")
        self.check("status, and the last line", (1, "0 passed, 1 failed"), (done.returncode, last_line(done)))
        self.check("why", True, "FAILED: hangs: timed out after 1 s" in done.stdout.splitlines())
        child = int((self.here / "hangs.sh.child").read_text())
        self.check("what it started has ended", True, is_gone(child))

    def test_a_run_that_is_stopped(self):
        self.script("hangs", "sleep 1000 & echo $! >child; mv child \"$0.child\"; wait")
        said, late = self.here / "hangs.sh.child", time.monotonic() + live.LIMIT
        with subprocess.Popen([self.here / "all", self.program], stdout=subprocess.DEVNULL, cwd=self.folder) as run:
            while not said.exists() and time.monotonic() < late:
                time.sleep(0.05)
            run.terminate()
        self.check("status", 1, run.returncode)
        self.check("what it started has ended", True, is_gone(int(said.read_text())))

    def test_no_script(self):
        done = self.all()
        self.check("nothing that ran is no success", (1, "0 passed, 0 failed"), (done.returncode, last_line(done)))


def is_gone(process):
    """Whether a process ends soon; one that nobody has waited for yet counts as ended."""
    late = time.monotonic() + live.LIMIT
    while time.monotonic() < late:
        try:
            state = pathlib.Path(f"/proc/{process}/stat").read_text("utf-8").rpartition(") ")[2][:1]
        except (FileNotFoundError, ProcessLookupError):
            return True
        if state == "Z":
            return True
        time.sleep(0.05)
    return False


if __name__ == "__main__":
    live.main()
