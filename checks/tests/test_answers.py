"""The answers of a result, and texts that name them."""
import unittest

import small  # noqa: F401
from answers import Types, answers, is_named

ENUMS = {
    "OpenFault": {"journal": ["NotMade", "Damaged { offset: u64 }", "NoMemory"], "slots": ["Shut"]},
    "Bad": {"asks": ["NoRoute", "Body(BodyFault)"]},
    "BodyFault": {"bodies": ["BadSize", "BadBody { field: String }", "NoMemory"]},
    "Heard": {"asks": ["Asked { ask: Ask }", "Bad { bad: Bad }", "End"]},
    "Made": {"journal": ["Before", "Now"]},
}
TYPES = Types(ENUMS, {"Heard": {"Asked"}, "Made": {"Now"}}, {"Bad", "BodyFault"})


class Answers(unittest.TestCase):
    def check(self, wanted, result, crate="journal"):
        self.assertEqual(wanted, answers(result, crate, TYPES))

    def test_results(self):
        self.check(["NotMade", "Damaged", "NoMemory"], "Result<(), OpenFault>")
        self.check(["Shut"], "Result<(), OpenFault>", "slots")
        self.check(["None", "NotMade", "Damaged", "NoMemory"], "Result<Option<(Entry, u64)>, OpenFault>")
        self.check(["Before", "NoMemory"], "Result<Made, AllocError>")
        self.check(["Failed"], "Result<u64, Failed>")
        self.check(["Error"], "Result<(), Error>")

    def test_what_comes_back_beside_a_fault(self):
        self.check(["NotMade", "Damaged", "NoMemory"], "Result<Desk<D, C>, (OpenFault, D, C)>")
        self.check(["NotMade", "Damaged", "NoMemory"], "(D, C, Result<(), OpenFault>)")
        self.check(["NoMemory"], "Result<(Turns<T>, Pass<T>), T>")

    def test_enums_inside_others(self):
        self.check(["Bad(NoRoute)", "Body(BadSize)", "Body(BadBody)", "NoMemory", "End", "NotMade", "Damaged"], "Result<Heard, OpenFault>")

    def test_no_other_answer(self):
        for result in ("", "u64", "Self", "&Result<Reply, OpenFault>", "[u8; 24]", "Vec<Option<u8>>"):
            self.check([], result)


class Named(unittest.TestCase):
    def check(self, wanted, answer, text):
        self.assertEqual(wanted, is_named(answer, text), (answer, text))

    def test_variants(self):
        self.check(True, "Damaged", "IsErrOf result OpenFault.Damaged → x")
        self.check(True, "Body(BadSize)", "refuses (in_body bad_size)")
        self.check(False, "Damaged", "IsDamagedAt at file")
        self.check(False, "Damaged", "damaged")

    def test_an_absence_is_no_name(self):
        self.check(False, "StoreFault", "(IsErrOf result OpenFault.StoreFault → ⊥) → now ≡ before")
        self.check(False, "StoreFault", "e.0 ≡ StoreFault → ⊥")

    def test_answers_without_a_variant(self):
        self.check(True, "None", "IfNone result (n ≡ 0)")
        self.check(True, "Failed", "OnErr result (Rose before now)")
        self.check(True, "12", "result.status ≡ 12")
        self.check(False, "2", "result.status ≡ 12")


if __name__ == "__main__":
    unittest.main()
