"""Months, and quantities in GiB-months."""
import argparse
import pathlib
import sys
import unittest

sys.path.insert(0, str(pathlib.Path(__file__).resolve().parent.parent))
from office_tools.months import gib_months, month_of  # noqa: E402

GIB, DAY = 2 ** 30, 86_400_000


class MonthOf(unittest.TestCase):
    def test_months(self):
        for text in ("1970-01", "2000-02", "2024-12", "2099-12"):
            self.assertEqual(text, month_of(text))

    def test_what_is_no_month(self):
        for text in ("", "2024", "2024-1", "24-01", "2024-00", "2024-13", "1969-12", "2100-01", "2024-01-01", " 2024-01", "2024-01\n", "2024/01",
                     "../x", "\u0662\u0660\u0662\u0664-01"):
            with self.subTest(text), self.assertRaises(argparse.ArgumentTypeError):
                month_of(text)


class GibMonths(unittest.TestCase):
    def test_the_example_of_the_s3_faq(self):
        """"How will I be charged and billed": 100 GB for 15 days of March and 100 TB for the other 16 are 52,900 GB-months."""
        self.assertEqual("52900.000000000", gib_months(100 * GIB * 15 * DAY + 100 * 1024 * GIB * 16 * DAY, "2026-03"))

    def test_one_gib_for_a_whole_month(self):
        for month, days in (("2024-01", 31), ("2024-02", 29), ("2023-02", 28), ("2100-02", 28), ("2024-04", 30)):
            self.assertEqual("1.000000000", gib_months(GIB * days * DAY, month))

    def test_no_digit_is_lost(self):
        self.assertEqual("0.000000000", gib_months(0, "2024-01"))
        self.assertEqual("0.500000000", gib_months(GIB * 31 * DAY // 2, "2024-01"))
        self.assertEqual("1.193548387", gib_months(GIB * 37 * DAY, "2024-01"))  # 37 / 31

    def test_more_than_a_float_holds(self):
        self.assertEqual("9007199254740993.000000000", gib_months((2 ** 53 + 1) * GIB * 30 * DAY, "2024-04"))


if __name__ == "__main__":
    unittest.main()
