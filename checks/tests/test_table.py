"""The table of a small repository, what is wrong with it, and its page."""
import pathlib
import subprocess
import sys
import tempfile
import unittest

from small import CHECKS, KEPT, written

import kept
import page
import shown
import table


class Small(unittest.TestCase):
    def setUp(self):
        folder = tempfile.TemporaryDirectory()
        self.addCleanup(folder.cleanup)
        self.folder = pathlib.Path(folder.name)

    def table(self, by_hand=KEPT, **changed):
        return table.entries(table.read(written(self.folder, by_hand, **changed)))

    def wrong(self, old, new, **changed):
        """What is wrong with the table if one text of the lines kept by hand is another one."""
        self.assertIn(old, KEPT)
        return self.table(KEPT.replace(old, new), **changed)[1]


class Table(Small):
    def test_cells(self):
        found, wrong = self.table()
        self.assertEqual([], wrong)
        cells = {it.call.label: [(one.answer, one.clauses, one.shown) for one in it.cells] for it in found}
        self.assertEqual([("Shut", (("shut", ()),), (("edit", "yard/gate-left-open"),)),
                          ("Broken", (("opens", ("Opens",)),), (("test", "gate_tests::a_shut_gate"), ("case", "A gate breaks"))),
                          ("NoMemory", (), ())], cells["Gate::open"])
        self.assertEqual([("Failed", (("cause", ()),), (("script", "tests-live/one.sh"),))], cells["Key::turn"])
        self.assertEqual([], cells["open_all"])

    def test_an_answer_without_a_line(self):
        self.assertEqual(["checks/calls.txt: no line for Shut of yard Gate::open, crates/yard/src/gate.rt:19; named by: shut"],
                         self.wrong("  Shut | | edit yard/gate-left-open\n", ""))
        self.assertIn("gate.rt:19; named by: opens (Opens)", self.wrong("  Broken | opens (Opens) | test gate_tests::a_shut_gate & case A gate br..\n", "")[0])

    def test_an_exit_code_without_a_line(self):
        self.assertEqual(["checks/calls.txt: no line for 8 of yard run, crates/yard/src/gate.rt:49; named by: statuses"],
                         self.wrong("  8 | | case A gate is shut [status 3]\n", ""))

    def test_exit_codes(self):
        of = table.read(written(self.folder))
        self.assertEqual({"run": ["5", "8"]}, {it.label: found for it in of.calls if (found := table.statuses(of, it))})

    def test_a_clause_that_does_not_name_the_answer(self):
        self.assertIn("clause 'opens' does not name it", self.wrong("opens (Opens)", "opens")[0])
        self.assertIn("clause 'opens' does not name it", self.wrong("opens (Opens)", "opens (Breaks)")[0])
        self.assertIn("no clause names it", self.wrong("opens (Opens)", "")[0])
        self.assertIn("write why no clause names it", self.wrong("opens (Opens)", "-")[0])

    def test_what_does_not_exist(self):
        for old, new, why in (("opens (Opens)", "closes (Opens)", "there is no clause 'closes'"), ("(Opens)", "(Kept)", "leads to no definition 'Kept'"),
                              ("gate-left-open", "gate-shut", "there is no edit 'yard/gate-shut'"), ("A gate br..", "A gate..", "there is no case"),
                              ("a_shut_gate", "an_open_gate", "there is no test"), ("one.sh", "two.sh", "there is no script"),
                              ("yard Gate::number\n", "yard Gate::count\n", "there is no public call yard Gate::count")):
            self.assertTrue(any(why in it for it in self.wrong(old, new)), why)

    def test_a_row_that_does_not_say_the_answer(self):
        self.assertIn("does not say 'Broken'", self.wrong("a_shut_gate", "nothing")[0])
        self.assertIn("does not say 'Broken'", self.wrong("A gate br..", "A gate is shut")[0])
        self.assertEqual([], self.wrong("A gate br..", "A gate is shut [status 3]"))

    def test_nothing_that_shows_an_answer(self):
        self.assertIn("nothing is named that shows it", self.wrong("  None | | - it is always open", "  None")[0])
        self.assertIn("write why nothing shows it", self.wrong("- it is always open", "-")[0])

    def test_a_contract_that_changed(self):
        changed = (self.folder / "crates/yard/src/gate.rt")
        written(self.folder)
        text = changed.read_text("utf-8").replace("    Shut,", "    Shut,\n    Stuck,")
        self.assertEqual(["checks/calls.txt: no line for Stuck of yard Gate::open, crates/yard/src/gate.rt:20; named by: no clause"],
                         self.table(gate=text)[1])

    def test_patterns(self):
        rows = [kept.read_row("  never * NoMemory | x", 1), kept.read_row("  A(*) | x", 2), kept.read_row("  C A(b) | x", 3)]
        told = ["A(a)", "A(b)", "C", "D", "NoMemory"]
        self.assertEqual([("A(a)", "*"), ("D", "*"), ("NoMemory", "*")], list(table.meant(rows[0], rows, told)))
        self.assertEqual([("A(a)", "A(*)")], list(table.meant(rows[1], rows, told)))


class Kept(unittest.TestCase):
    def test_rows(self):
        self.assertEqual(kept.Row("", ["A", "B"], (("c", ("D", "E.f")), ("g", ())), [kept.Showing("test", "h::i", "J k"), kept.Showing("-", "", "")], 7),
                         kept.read_row("  A B | c (D E.f), g | test h::i [J k] & -", 7))
        self.assertEqual(kept.Row("never", ["*"], (("c", ()),), [], 1), kept.read_row("  never * | c", 1))

    def test_lists(self):
        found = kept.read_kept("left-out a b\ngood Made Now\nexpand Bad\n\n# x\na F::g\n  A | | -\na h\n  B\n")
        self.assertEqual(({"a", "b"}, {"Made": {"Now"}}, {"Bad"}), found[:3])
        self.assertEqual({("a", "F::g"): ["A"], ("a", "h"): ["B"]}, {call: rows[0].answers for call, rows in found.rows.items()})


class WhatShows(Small):
    def test_what_a_test_leads_to(self):
        found = shown.read_shown(written(self.folder))
        self.assertIn("Broken", found.tests["gate_tests::a_shut_gate"])
        self.assertNotIn("Shut", found.tests["gate_tests::nothing"])


class Page(Small):
    def page(self, by_hand=KEPT):
        found, wrong = self.table(by_hand)
        self.assertEqual([], wrong)
        return page.text(found)

    def test_rows(self):
        text = self.page()
        self.assertIn("| `Gate::open` | `Shut` | `shut` | `yard/gate-left-open.edit` |\n", text)
        self.assertIn("|  | `Broken` | `opens` (`Opens`) | `gate_tests::a_shut_gate`, “A gate breaks” |\n|  | `NoMemory` |  |  |\n", text)
        self.assertIn("| `Gate::number` | `None` | `ensures` | **no row**: it is always open |\n", text)
        self.assertIn("| `run` | status 5 | `statuses` (`gate_exit`) | **no row**: it never breaks |\n", text)
        self.assertIn("| `Gate::number` | `None` | **no clause**: it is free | ", self.page(KEPT.replace("None | |", "None | - (it is free) |")))
        self.assertIn("No other answer: `open_all`.", text)
        self.assertIn("hold if they return: `Key::turn`.", text)
        self.assertIn("6 answers other than the good one and `NoMemory`; 0 of these have no clause, 2 no row", " ".join(text.split()))

    def test_kinds_of_lines(self):
        text = self.page(KEPT + "  after the key stays | cause\nyard Gate::open\n  never NoMemory | opens\n")
        self.assertIn("| then: the key stays | `cause` | the proof |\n", text)
        self.assertIn("| never: `NoMemory` | `opens` | the proof |\n", text)

    def test_no_cell_is_empty_but_that_of_no_memory(self):
        for row in (it for it in self.page().splitlines() if it.startswith("|") and "NoMemory" not in it):
            self.assertNotIn("", [it.strip() for it in row.split("|")[2:-1]], row)


class Program(unittest.TestCase):
    def test_the_page_of_this_repository(self):
        done = subprocess.run([sys.executable, "-B", CHECKS / "calls", "--check"], capture_output=True, text=True, check=False)
        self.assertEqual((0, "docs/CALLS.md: "), (done.returncode, done.stdout[:15]), done.stdout)


if __name__ == "__main__":
    unittest.main()
