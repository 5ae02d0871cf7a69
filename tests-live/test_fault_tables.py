#!/usr/bin/env -S python3 -B
"""Compares crates/office_faults/stdout with what a plain model computes from crates/office_faults/stdin.

It needs no program: python3 -B -m unittest discover -s tests-live -p test_fault_tables.py
"""
import re
import tomllib
import unittest

import live
import plain_faults

TABLES = live.ROOT / "crates" / "office_faults"


class FaultTables(unittest.TestCase):
    def test_what_is_printed(self):
        tables = tomllib.loads((TABLES / "stdin").read_text("utf-8"))["table"]
        printed = re.split(r"^(?=case: )", (TABLES / "stdout").read_text("utf-8"), flags=re.MULTILINE)[1:]
        self.assertEqual([it["name"] for it in tables], [it.partition("\n")[0].removeprefix("case: ") for it in printed])
        for table, text in zip(tables, printed):
            with self.subTest(table["name"]):
                self.assertEqual(plain_faults.printed(table), text)

    def test_what_was_acknowledged_is_there(self):
        """Each outcome in which the command was done ends with it, and no image was without it."""
        for line in (TABLES / "stdout").read_text("utf-8").splitlines():
            if " | " in line and "done" in line:
                self.assertRegex(line, r"^ +\d+: done, with, (0|2 store: failed)( \| images with)? \| (?!images).* \| with, 0$")


if __name__ == "__main__":
    live.main()
