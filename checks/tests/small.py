"""A small repository: one crate with a gate that opens for a number, one crate of tests, a case and a wrong body."""
import pathlib
import sys

CHECKS = pathlib.Path(__file__).resolve().parent.parent
sys.path.insert(0, str(CHECKS))

LIB = """\
//! A gate.
mod gate;

pub use gate::{Gate, GateFault, Key, open_all, run};
"""

GATE = """\
// ensures { a brace in a comment
ghost use Rattle.std.specs.Prelude.{◌≡◌, IsErrOf, IfNone};
ghost use Rattle.yard.specs.Gates.{Opens, IsRunExit};

/// Why.
pub enum GateFault {
    /// It is shut.
    Shut,
    Broken { by: u64, at: u64 },
    NoMemory,
}

pub trait Key {
    fn turn<R: Wait>(&self, rt: &R) -> Result<(), Failed>
        ensures cause { OnErr result (Rose 1 2) };
}

impl<T: Fn() -> u64> Gate<T> {
    pub fn open(&mut self, text: &'static str) -> Result<[u8; 24], (GateFault, T)>
    where
        T: Drop,

        requires small { self.old < 2 }
        // The gate.
        ensures opens { Opens self.old result }
        ensures shut { IsErrOf result GateFault.Shut → self.new ≡ self.old }
        ensures whole { (IsErrOf result GateFault.Broken → ⊥) → self.new ≡ 1 }
    {
        "ensures { in a text"
    }

    pub(crate) fn hidden(&self) -> Option<u64> {
        None
    }

    pub fn number(&self) -> Option<u64>
        ensures { IfNone result (self.now ≡ 0) }
    {
        None
    }
}

impl<T> Drop for Gate<T> {
    pub fn none(&self) -> Option<u64> {}
}

pub fn open_all() {}

pub fn run(gate: Gate) -> End<Gate>
    ensures statuses { (result.status ≡ 8) ⊎ IsRunExit result.status }
    ensures only { (result.status ≡ 3 → ⊥) × (result.status ≡ 12 → ⊥) }
    ensures sound { IsSound gate → result.status ≡ 5 → ⊥ }
{
}

pub fn not_given_out() -> Option<u64> {}
"""

GATES = """\
use Rattle.yard.specs.More as more
use Rattle.yard.specs.More.{tells as says}

-- what opening answers; Hidden in a comment
abbrev pub Opens : Gate → Result Unit GateFault → Type 0
Opens gate (Err Broken) = more.Breaks gate × says gate

abbrev pub gate_exit : GateFault → ℕ
gate_exit Shut = 3
gate_exit (Broken by at) = 5

abbrev pub IsRunExit : ℕ → Type 0
IsRunExit status = (status ≡ 0) ⊎ (status ≡ gate_exit Shut)

pub record Kept : Type 0 where
  pub first : status ≡ 3
  pub second : status ≡ 4
"""

MORE = """\
abbrev pub Breaks : Gate → Type 0
Breaks gate = gate ≡ bad_weather

abbrev pub tells : Gate → Type 0
tells gate = Kept
"""

TESTS = """\
use crate::rows::ROWS;

fn told(fault: GateFault) -> u64 {
    match fault {
        GateFault::Shut => 1,
    }
}

fn other() {}

#[test]
fn a_shut_gate(rt: HostRuntime) {
    told(ROWS);
}

#[test]
fn nothing() {
    other();
}
"""

FILES = {
    "crates/yard/src/lib.rt": LIB, "crates/yard/src/gate.rt": GATE, "crates/yard/specs/Gates.antt": GATES, "crates/yard/specs/More.antt": MORE,
    "crates/yard/must-fail/gate-left-open.edit": "file: src/gate.rt\n",
    "crates/yard_tests/src/lib.rt": "mod gate_tests;\n", "crates/yard_tests/src/gate_tests.rt": TESTS,
    "crates/yard_tests/src/rows.rt": "pub(crate) const ROWS: &str = \"Broken\";\n",
    "crates/office_cases/stdout": "case: A gate is shut\n  status 3\ncase: A gate breaks\n  Broken\n",
    "tests-live/one.sh": "#!/bin/sh\n",
}

KEPT = """\
# The rows.
yard Gate::open
  Shut | | edit yard/gate-left-open
  Broken | opens (Opens) | test gate_tests::a_shut_gate & case A gate br..
yard Gate::number
  None | | - it is always open
yard run
  5 | statuses (gate_exit) | - it never breaks
  8 | | case A gate is shut [status 3]
yard Key::turn
  Failed | | script tests-live/one.sh
"""


def written(folder: pathlib.Path, kept: str = KEPT, **changed: str) -> pathlib.Path:
    """The repository in this folder, with these lines kept by hand; a file with another text by the last part of its name."""
    for name, text in {**FILES, "checks/calls.txt": kept}.items():
        path = folder / name
        path.parent.mkdir(parents=True, exist_ok=True)
        path.write_text(changed.get(path.stem, text), "utf-8")
    return folder
