"""How long a tool takes to read the names of buckets from a journal of 1,000,000 entries: python3 bench/journal_tail.py [ENTRIES]

Prints the seconds of the first reading, of one that finds nothing new, and of one behind 1,000 new entries, each a process of its
own (wall clock and processor); with the start of Python.
"""
import os
import pathlib
import resource
import struct
import subprocess
import sys
import tempfile
import time

TOOLS = pathlib.Path(__file__).resolve().parent.parent / "tools"
READ = "import sys; sys.dont_write_bytecode = True; sys.path.insert(0, sys.argv[1]); from office_tools import tail; print(len(tail.read_tail(sys.argv[2]).buckets))"


def text(of):
    return struct.pack(">H", len(of)) + of.encode()


def frame(ms, kind, fields):
    return b"\xa5" + struct.pack(">IQB", len(fields) + 9, ms, kind) + fields


def puts(first, count):
    for it in range(first, first + count):
        yield frame(1_704_067_200_000 + it, 5, text(f"bucket-{it % 10}") + text(f"some/longer/key/name-{it:08}") + struct.pack(">QBB", it, 0, 0))


def measure(name, path, folder):
    before, began = resource.getrusage(resource.RUSAGE_CHILDREN), time.monotonic()
    said = subprocess.run([sys.executable, "-c", READ, TOOLS, path], env={**os.environ, "OFFICE_STATE": folder}, capture_output=True, text=True, check=True)
    took, after = time.monotonic() - began, resource.getrusage(resource.RUSAGE_CHILDREN)
    spent = after.ru_utime + after.ru_stime - before.ru_utime - before.ru_stime
    print(f"{name}: {took:.3f} s, {spent:.3f} s of the processor, {said.stdout.strip()} buckets", flush=True)


def main():
    count = int(sys.argv[1]) if sys.argv[1:] else 1_000_000
    with tempfile.TemporaryDirectory() as folder:
        path = os.path.join(folder, "journal")
        with open(path, "wb") as file:
            file.write(b"\xa5METERJRN1" + b"".join(frame(1_704_067_200_000, 1, text(f"bucket-{it}")) for it in range(10)))
            file.writelines(puts(0, count))
            end = file.tell()
            file.write(b"\0" * 4_096)
        print(f"a journal of {count + 10} entries and {end} bytes")
        measure("first reading", path, folder)
        for turn in range(3):
            measure(f"nothing new, turn {turn + 1}", path, folder)
        with open(path, "r+b") as file:
            file.seek(end)
            file.write(b"".join(puts(count, 1_000)) + b"\0")
        measure("1,000 new entries", path, folder)


if __name__ == "__main__":
    main()
