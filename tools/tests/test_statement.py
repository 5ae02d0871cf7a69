"""Unit tests of tools/statement.py and the moments of tools/months.py."""
import argparse
import pathlib
import sys
import types
import unittest

sys.path.insert(0, str(pathlib.Path(__file__).resolve().parent.parent))
from office_tools.asking import Stop  # noqa: E402
from office_tools.months import bounds_of, gib_months, moment, ms_of  # noqa: E402
from office_tools.reports import Report  # noqa: E402
from office_tools.statement import Overdue, Statement, Unit, is_closed, unit_of  # noqa: E402

NEW_YEAR, DAY = 1_704_067_200_000, 86_400_000


class Units(unittest.TestCase):
    def test_text(self):
        for unit, charge, wanted in ((("units", 1), 1_234_567, "1,234,567"), (("EUR", 1_000_000), 42_629, "0.042629"), (("EUR", 1_000_000), 0, "0.000000"),
                                     (("EUR", 1_000_000), 1_234_567_000_000, "1,234,567.000000"), (("ct", 100), 5, "0.05"), (("x", 10), 19, "1.9"),
                                     (("x", 3), 1, "0.333333"), (("x", 3), 2, "0.666667"), (("x", 8), 1, "0.125000")):
            self.assertEqual(wanted, Unit(*unit).text(charge))

    def test_words(self):
        self.assertEqual([Unit("EUR", 1_000_000), Unit("coins", 1), Unit("€", 10)], [unit_of(it) for it in ("EUR=1000000", "coins", "€=10")])
        for text in ("", "=5", "EUR=", "EUR=0", "EUR=01", "EUR=-1", "EUR=1.5", "a b", "EUR=1=2", "a\u202eb", "x" * 21, "EUR=" + "9" * 14):
            with self.assertRaises(argparse.ArgumentTypeError, msg=text):
                unit_of(text)


class Moments(unittest.TestCase):
    def test_bounds(self):
        self.assertEqual((NEW_YEAR, NEW_YEAR + 31 * DAY), bounds_of("2024-01"))
        self.assertEqual(29 * DAY, bounds_of("2024-02")[1] - bounds_of("2024-02")[0])
        self.assertEqual((0, 31 * DAY), bounds_of("1970-01"))
        self.assertEqual(4_102_444_800_000, bounds_of("2099-12")[1])

    def test_both_ways(self):
        for ms, text in ((0, "1970-01-01T00:00:00.000Z"), (NEW_YEAR + 1, "2024-01-01T00:00:00.001Z"), (4_102_444_799_999, "2099-12-31T23:59:59.999Z")):
            self.assertEqual((text, ms), (moment(ms), ms_of(text)))
        for text in ("", "2024-01-01", "2024-01-01T00:00:00Z", "2024-02-30T00:00:00.000Z", "2024-01-01T00:00:00.000+01:00", "２024-01-01T00:00:00.000Z"):
            with self.assertRaises(Stop, msg=text):
                ms_of(text)

    def test_digits(self):
        gib = 2 ** 30 * 31 * DAY
        self.assertEqual(["1.000000", "0.333333", "0.666667"], [gib_months(it, "2024-01", 6) for it in (gib, gib // 3, gib * 2 // 3)])


class States(unittest.TestCase):
    def statement(self, **more):
        return Statement(**{"month": "2024-01", "report": Report([], 0), "is_closed": None, "as_of": None, "overdue": [], "source": "a file", **more})

    def test_state(self):
        over, within = "2024-02-01T00:00:00.000Z", "2024-01-31T23:59:59.000Z"
        for wanted, more in (("closed", {"is_closed": True, "as_of": over}), ("open", {"is_closed": False, "as_of": over}), ("over", {"as_of": over}),
                             ("open", {"as_of": within}), ("open", {"is_closed": False, "as_of": within}), ("not known", {}),
                             ("open", {"is_closed": False})):
            self.assertEqual(wanted, self.statement(**more).state()[0], more)

    def test_warnings(self):
        late = [Overdue(f"bucket-{it}", f"2024-01-{20 - it}T00:00:00.000Z", "remove", "key") for it in range(7)]
        (told,) = self.statement(overdue=late).warnings()
        self.assertTrue(told.startswith("7 buckets have overdue lifecycle actions: bucket-0, bucket-1, bucket-2, bucket-3, bucket-4, ... The first is remove of "
                                        "the key 'key' in bucket bucket-6, due since 2024-01-14T00:00:00Z."), told)
        self.assertEqual([], self.statement().warnings())
        self.assertEqual(1, len(self.statement(overdue=None).warnings()))
        self.assertEqual([], self.statement(overdue=None, is_closed=True).warnings())

    def test_is_closed(self):
        for first, closed, wanted in ((None, None, [False, False, False]), (NEW_YEAR, None, [True, False, False]), (NEW_YEAR, "2024-01", [True, True, False])):
            tail = types.SimpleNamespace(first=first, closed=closed)
            self.assertEqual(wanted, [is_closed(it, tail) for it in ("2023-12", "2024-01", "2024-02")])
        self.assertIsNone(is_closed("2024-01", None))


if __name__ == "__main__":
    unittest.main()
