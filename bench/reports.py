#!/usr/bin/env python3
"""Rows of a report a second, beside Python's csv writer of the same rows: python3 bench/reports.py PROGRAM [ROUNDS] [FOLDER]

Over a journal in a new folder below FOLDER (/dev/shm) with 1,000 buckets, each with an object of every class, and one of every class that was deleted
before its least duration. Prints the time of `report`, that of `explain`, and how much of a report is the opening of the journal (a run without requests),
medians of the rounds; and the time that Python takes to write the same rows.
"""
import csv
import io
import statistics
import subprocess
import sys
import tempfile
import time
from pathlib import Path

MOMENT, DAY, MONTH = 1_704_067_200_000, 86_400_000, "2024-01"


def place(text):
    return len(text).to_bytes(2, "big") + text


def frame(moment, kind, fields):
    entry = moment.to_bytes(8, "big") + bytes([kind]) + fields
    return len(entry).to_bytes(4, "big") + entry + b"\xa5"


def journal():
    names = [b"bucket-%04d" % it for it in range(1_000)]
    parts = [b"\xa5METERJRN1\xa5", frame(MOMENT, 14, (23_000).to_bytes(4, "big") * 11)]
    parts += [frame(MOMENT, 1, place(name)) for name in names]
    for key in (b"kept", b"gone"):
        for name in names:
            for rank in range(6):
                size = (1_000_000_007).to_bytes(8, "big")
                parts.append(frame(MOMENT, 5, place(name) + place(key + b"%d" % rank) + size + bytes([rank, 0])))
    parts += [frame(MOMENT + DAY, 6, place(name) + place(b"gone%d" % rank)) for name in names for rank in range(6)]
    return b"".join(parts)[:-1] + b"\0"


def seconds(command, folder):
    started = time.monotonic()
    ended = subprocess.run(command, cwd=folder, stdin=subprocess.DEVNULL, capture_output=True, check=True)
    return time.monotonic() - started, ended.stdout.decode()


def python_seconds(text):
    rows = list(csv.reader(io.StringIO(text)))
    started = time.monotonic()
    out = io.StringIO()
    csv.writer(out, lineterminator="\n").writerows(rows)
    taken = time.monotonic() - started
    if out.getvalue() != text:
        sys.exit("reports.py: Python writes other bytes")
    return len(rows), taken


def main(program, rounds, below):
    with tempfile.TemporaryDirectory(dir=below) as folder:
        Path(folder, "office-data").mkdir()
        Path(folder, "office-data/journal").write_bytes(journal())
        opening, report, explain, python = [], [], [], []
        for _ in range(rounds):
            opening.append(seconds([program, "run"], folder)[0])
            taken, text = seconds([program, "report", MONTH], folder)
            report.append(taken)
            rows, taken = python_seconds(text)
            python.append(taken)
            taken, table = seconds([program, "explain"], folder)
            explain.append(taken)
        opens, whole, writes = statistics.median(opening), statistics.median(report), statistics.median(python)
        print(f"rows {rows} report_s {whole:.4f} opening_s {opens:.4f} share {opens / whole:.2f} rows_per_second {rows / (whole - opens):.0f}"
              f" python_rows_per_second {rows / writes:.0f} ratio {writes / (whole - opens):.2f}")
        stays = table.count("\n") - 1
        print(f"stay_lines {stays} explain_s {statistics.median(explain):.4f} lines_per_second {stays / statistics.median(explain):.0f}")


if __name__ == "__main__":
    main(sys.argv[1], int(sys.argv[2]) if len(sys.argv) > 2 else 9, sys.argv[3] if len(sys.argv) > 3 else "/dev/shm")
