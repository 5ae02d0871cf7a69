"""Calls, clauses and enums of a source."""
import pathlib
import tempfile
import unittest

from small import written

import sources


class Sources(unittest.TestCase):
    def setUp(self):
        folder = tempfile.TemporaryDirectory()
        self.addCleanup(folder.cleanup)
        self.crate = written(pathlib.Path(folder.name)) / "crates/yard"
        self.calls = {it.label: it for it in sources.public_calls(self.crate)}

    def test_calls_that_are_given_out(self):
        self.assertEqual(["Gate::number", "Gate::open", "Key::turn", "open_all", "run"], sorted(self.calls))

    def test_results(self):
        self.assertEqual("Result<[u8; 24], (GateFault, T)>", self.calls["Gate::open"].result)
        self.assertEqual("Result<(), Failed>", self.calls["Key::turn"].result)
        self.assertEqual("", self.calls["open_all"].result)

    def test_clauses(self):
        self.assertEqual({"opens": "Opens self.old result", "shut": "IsErrOf result GateFault.Shut → self.new ≡ self.old",
                          "whole": "(IsErrOf result GateFault.Broken → ⊥) → self.new ≡ 1"}, self.calls["Gate::open"].clauses)
        self.assertEqual({"ensures": "IfNone result (self.now ≡ 0)"}, self.calls["Gate::number"].clauses)
        self.assertEqual({"cause": "OnErr result (Rose 1 2)"}, self.calls["Key::turn"].clauses)

    def test_which_may_wait(self):
        self.assertEqual(["Key::turn"], [label for label, it in self.calls.items() if it.waits])

    def test_line(self):
        line = self.calls["Gate::open"].line
        self.assertIn("pub fn open(", (self.crate / "src/gate.rt").read_text("utf-8").splitlines()[line - 1])

    def test_enums(self):
        self.assertEqual({"GateFault": ["Shut", "Broken { by: u64, at: u64 }", "NoMemory"]}, sources.enums_of(self.crate))

    def test_another_name_of_a_type(self):
        (self.crate / "src/gate.rt").write_text("pub struct Wide<T> {}\npub type Gate = Wide<u8>;\nimpl<T> Wide<T> {\n    pub fn open() {}\n}\n", "utf-8")
        (self.crate / "src/lib.rt").write_text("mod gate;\npub use gate::{Gate, Wide};\n", "utf-8")
        self.assertEqual(["Gate::open"], [it.label for it in sources.public_calls(self.crate)])


class Text(unittest.TestCase):
    def test_parts(self):
        self.assertEqual(["A { b: u8, c: u8 }", " D(E<F, G>)", ""], sources.parts("A { b: u8, c: u8 }, D(E<F, G>),"))

    def test_closing(self):
        self.assertEqual(7, sources.closing("a {b {}} c", 2))
        with self.assertRaises(ValueError):
            sources.closing("a {b", 2)


if __name__ == "__main__":
    unittest.main()
