"""What the files of cases share: the program, a folder for each test, the tools as processes, and the end of a run.

A file test_NAME.py is started by itself (`tests-live/test_NAME.py PROGRAM [words of unittest]`), by `tests-live/all`, or by
unittest's discovery with the program in OFFICE_PROGRAM. It ends with 0 if all passed, 1 if a test failed, and 77 if none failed
and one was left out because a tool is missing.
"""
import atexit
import functools
import json
import os
import pathlib
import select
import shutil
import signal
import socket
import subprocess
import sys
import tempfile
import unittest

from serve_client import LIMIT, Server, entries_of

ROOT = pathlib.Path(__file__).resolve().parent.parent
TOOLS = ROOT / "tools"
CLASSES = ("STANDARD", "STANDARD_IA", "ONEZONE_IA", "GLACIER_IR", "GLACIER", "DEEP_ARCHIVE")
LEFT_OUT = 77  # as automake and meson have it

# A shell has what it runs in the background ignore the keyboard's signal, and all that this starts would too.
signal.signal(signal.SIGINT, signal.default_int_handler)
# The tools keep the places that they reached in journals here, and not in the caches of who runs the tests.
os.environ["OFFICE_STATE"] = tempfile.mkdtemp()
atexit.register(shutil.rmtree, os.environ["OFFICE_STATE"], ignore_errors=True)


class NoProgram(AssertionError):
    """Why there is nothing to test."""


@functools.cache
def program():
    """The path of the program. Without words it prints its usage and ends with 1."""
    path = pathlib.Path(os.environ.get("OFFICE_PROGRAM", "")).absolute()
    if not path.is_file() or not os.access(path, os.X_OK):
        raise NoProgram(f"there is no program '{os.environ.get('OFFICE_PROGRAM', '')}'")
    try:
        ended = subprocess.run([path], stdin=subprocess.DEVNULL, capture_output=True, timeout=LIMIT, check=False)
    except (OSError, subprocess.TimeoutExpired) as fault:
        raise NoProgram(f"'{path}' cannot be started: {fault}") from None
    if ended.returncode != 1:
        raise NoProgram(f"'{path}' cannot be started: without words its status is {ended.returncode}, not 1")
    return str(path)


def has(*tools):
    """Whether one of these commands is there."""
    return any(map(shutil.which, tools))


def needs(*tools):
    """Leaves a test out if none of these commands is there, and says which."""
    return unittest.skipUnless(has(*tools), f"no {tools[0]}")


def needs_word(word):
    """Leaves the tests of a class out if the program's usage line does not have this word."""
    def begin(kind):
        before = kind.setUp

        def set_up(self):
            before(self)
            usage = subprocess.run([self.program], stdin=subprocess.DEVNULL, capture_output=True, timeout=LIMIT, check=False).stderr.decode("utf-8", "replace")
            if f"; {word} " not in usage:
                self.skipTest(f"no {word}")
        kind.setUp = set_up
        return kind
    return begin


class Case(unittest.TestCase):
    """Tests of the program, each with a new folder that is removed at its end."""
    maxDiff = None
    # A folder in memory, if the machine has one, for tests that do not depend on what a disk keeps.
    in_memory = False

    def setUp(self):
        self.program = program()
        shared = "/dev/shm" if self.in_memory and os.access("/dev/shm", os.W_OK) else None
        self.folder = pathlib.Path(tempfile.mkdtemp(dir=shared))
        self.addCleanup(shutil.rmtree, self.folder, ignore_errors=True)

    def check(self, name, wanted, found):
        """One of several expectations of a test; those after it are tried if it fails."""
        with self.subTest(name):
            self.assertEqual(wanted, found)

    def ended(self, words, **how):
        """A process that ended. One that does not end is a failure."""
        try:
            return subprocess.run(words, **{"cwd": self.folder, "capture_output": True, "timeout": LIMIT, "check": False, **how})
        except subprocess.TimeoutExpired as late:
            self.fail(f"{pathlib.Path(words[0]).name} timed out after {late.timeout} s")

    def run_tool(self, name, *words, **how):
        """The status of a tool, its standard output, and its notes."""
        done = self.ended([TOOLS / name, *words], text=True, **how)
        return done.returncode, done.stdout, done.stderr.strip()

    def office(self, *words, sent=b"", folder=None):
        """Runs the program in a folder, with these bytes as its input."""
        return self.ended([self.program, *words], cwd=folder or self.folder, input=sent)

    def new_folder(self, name):
        """A folder in which `init` ran."""
        folder = self.folder / name
        folder.mkdir()
        self.office("init", folder=folder)
        return folder

    def serve(self, name="served", *words):
        """A server over a folder, which answers from here on and is killed at the end of the test."""
        server = Server(self.program, self.folder / name, *words)
        self.addCleanup(server.__exit__)
        server.client().socket.close()
        return server

    def file(self, name, text):
        """Writes a file, and returns its path."""
        path = self.folder / name
        path.write_bytes(text if isinstance(text, bytes) else text.encode())
        return path

    def move_state(self, name, server):
        """Says in the state file of import-inventory that its office is at this server now."""
        path = self.folder / name
        head, rest = path.read_text("utf-8").split("\n", 1)
        path.write_text(json.dumps({**json.loads(head), "server": f"http://127.0.0.1:{server.port}"}) + "\n" + rest, encoding="utf-8")

    def relay(self, server, port, words, replies, stop):
        """Runs import-inventory against a server through this port, and calls `stop` instead of passing on one reply more.

        The command of that reply is done then, and the tool does not know it.
        """
        with socket.create_server(("127.0.0.1", port)) as door:
            sending = [TOOLS / "import-inventory", "--to", f"http://127.0.0.1:{port}", *words]
            with subprocess.Popen(sending, cwd=self.folder, stderr=subprocess.DEVNULL) as tool:
                tool_side, (behind, count) = door.accept()[0], (server.client().socket, 0)
                with tool_side, behind:
                    while count <= replies:
                        for ready in select.select([tool_side, behind], [], [], LIMIT)[0] or [None]:
                            data = ready and ready.recv(65536)
                            if not data:
                                raise EOFError(f"only {count} replies came")
                            count += data.count(b"HTTP/1.1 ") if ready is behind else 0
                            if count <= replies:
                                (tool_side if ready is behind else behind).sendall(data)
                    stop(tool)
                return tool.wait(LIMIT)


def objects_of(folder):
    """The objects in the journal of a folder, in order, with bucket, key, size and class; by docs/FORMATS.md."""
    found = []
    for entry in entries_of(folder):
        if entry[8] == 5:
            fields, rest = [], entry[9:]
            for _ in range(2):
                size = int.from_bytes(rest[:2], "big")
                fields, rest = [*fields, rest[2:2 + size].decode()], rest[2 + size:]
            found.append((*fields, int.from_bytes(rest[:8], "big"), CLASSES[rest[8]]))
    return found


def seeds(first, count):
    """The numbers of the random histories to try: those of OFFICE_SEEDS, as 1000,200 for 200 from 1000 on, or these."""
    first, count = map(int, os.environ.get("OFFICE_SEEDS", f"{first},{count}").split(","))
    return range(first, first + count)


def main():
    """Runs the tests of the file that was started, and says how many passed."""
    if sys.argv[1:] and not sys.argv[1].startswith("-"):
        os.environ["OFFICE_PROGRAM"] = sys.argv.pop(1)
    try:
        program()
    except NoProgram as why:
        sys.exit(f"FAILED: {why}")
    result = unittest.main(module="__main__", verbosity=2, exit=False).result
    for test, why in result.skipped:
        print(f"skipped: {test.id().removeprefix('__main__.')}: {why}", flush=True)
    wrong = {getattr(test, "test_case", test).id() for test, _ in result.failures + result.errors}
    passed = result.testsRun - len(wrong) - len(result.skipped)
    print(f"{passed} passed, {len(wrong)} failed" + (f", {len(result.skipped)} skipped" if result.skipped else ""), flush=True)
    sys.exit(1 if wrong or not result.testsRun else LEFT_OUT if result.skipped else 0)
