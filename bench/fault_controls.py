#!/usr/bin/env python3
"""Counts what wrong bodies change in the tables of faults: python3 bench/fault_controls.py [CRATE/NAME..]

CRATE/NAME is a must-fail edit; without names, the edits of CONTROLS. Each one is applied to a copy of the tree, where `rt try` compiles
office_faults without proofs and runs the tables of TABLES. Its output is compared with crates/office_faults/stdout, line by line. A wrong body
that changes no line is an error: exit code 1. An edit takes some four minutes of a processor, and 4 GB.
"""
import argparse
import difflib
import pathlib
import re
import shutil
import subprocess
import sys
import tempfile

ROOT = pathlib.Path(__file__).resolve().parent.parent
CONTROLS = (
    "meter_journal/last-sync-left-out",
    "meter_journal/gate-opened-with-the-frame",
    "slots/saved-over-what-is-loaded",
    "slots/gate-opened-before-the-body",
)
TABLES = (
    "The end of a session stops, in a new slot",
    "The end of a session stops, in the second slot",
    "The end of a session stops, in a slot that was open",
    "01: a bucket is made",
    "05: an object is put",
    "06: a key is deleted, over a checkpoint",
)
SECONDS = 3_000


def read_edit(name: str) -> tuple[str, str, str]:
    """Returns the file, the old text and the new text of an edit."""
    crate, _, edit = name.partition("/")
    text = (ROOT / "crates" / crate / "must-fail" / f"{edit}.edit").read_text("utf-8")
    file, old, new = re.fullmatch(r"file: (.*)\nold: (.*)\nnew: (.*)\n", text, re.S).groups()
    return f"crates/{crate}/{file}", old, new


def copy_tree(folder: pathlib.Path) -> None:
    """Copies what `rt try` needs, without what was built and without edits."""
    skipped = shutil.ignore_patterns("out", "must-fail", "build.log")
    shutil.copytree(ROOT / "crates", folder / "crates", ignore=skipped)
    for name in ("crates.txt", "HANDLES"):
        shutil.copy(ROOT / name, folder)


def apply(folder: pathlib.Path, name: str) -> None:
    """Applies an edit to a copied tree. Its old text must stand there once."""
    file, old, new = read_edit(name)
    path = folder / file
    text = path.read_text("utf-8")
    if text.count(old) != 1:
        sys.exit(f"{name}: {file} has its text {text.count(old)} times")
    path.write_text(text.replace(old, new), "utf-8")


def read_tables() -> str:
    """Returns the text of the tables of TABLES."""
    tables = (ROOT / "crates/office_faults/stdin").read_text("utf-8").split("[[table]]")[1:]
    return "".join("[[table]]" + it for it in tables if re.match(r'\s*name = "(.*)"', it)[1] in TABLES)


def read_expected() -> list[str]:
    """Returns the lines that office_faults prints for these tables."""
    cases = (ROOT / "crates/office_faults/stdout").read_text("utf-8").split("case: ")[1:]
    kept = ["case: " + it for it in cases if it.partition("\n")[0] in TABLES]
    if len(kept) != len(TABLES):
        sys.exit("a table of TABLES is missing")
    return "".join(kept).splitlines()


def run_tables(folder: pathlib.Path) -> list[str]:
    """Runs office_faults over these tables, compiled with checks and without proofs: the lines that it prints."""
    ran = subprocess.run(["rt", "try", "--seconds", str(SECONDS), "--steps", "1"], cwd=folder / "crates/office_faults",
                         input=read_tables(), capture_output=True, text=True, check=False)
    if not ran.stdout:
        sys.exit(f"office_faults printed nothing: {ran.stderr[-500:]}")
    return ran.stdout.splitlines()


def count_changed(found: list[str], expected: list[str]) -> int:
    """Counts the expected lines that are missing or another one."""
    same = sum(block.size for block in difflib.SequenceMatcher(None, found, expected, False).get_matching_blocks())
    return len(expected) - same


def main() -> int:
    parser = argparse.ArgumentParser(description=__doc__.splitlines()[0])
    parser.add_argument("edits", nargs="*", metavar="CRATE/NAME")
    names = parser.parse_args().edits or list(CONTROLS)
    expected = read_expected()
    silent = 0
    for name in names:
        with tempfile.TemporaryDirectory() as folder:
            copy_tree(pathlib.Path(folder))
            apply(pathlib.Path(folder), name)
            changed = count_changed(run_tables(pathlib.Path(folder)), expected)
        print(f"{name}: {changed} of {len(expected)} lines differ", flush=True)
        silent += changed == 0
    return 1 if silent else 0


if __name__ == "__main__":
    sys.exit(main())
