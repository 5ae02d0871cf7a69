"""The report of a month: its CSV and its table, by docs/FORMATS.md, "Reports"."""
import pathlib
import sys
import unittest

sys.path.insert(0, str(pathlib.Path(__file__).resolve().parent.parent))
from office_tools.reports import NoReport, read_report, text_of  # noqa: E402

HEAD = "bucket,line,class,quantity,price,charge\n"
LOGS = "logs,storage,STANDARD,2875879120896000000,23000,23000\n"
RAW = "raw,transitions,GLACIER,1000,30000,30000\n"
WHOLE = HEAD + LOGS + RAW + ",total,,,,53000\n"


class ReadReport(unittest.TestCase):
    def refused(self, text, why):
        with self.assertRaises(NoReport) as found:
            read_report(text)
        self.assertEqual(why, str(found.exception))

    def test_lines_and_total(self):
        found = read_report(WHOLE)
        self.assertEqual([("logs", "storage", "STANDARD", 2_875_879_120_896_000_000, 23_000, 23_000),
                          ("raw", "transitions", "GLACIER", 1_000, 30_000, 30_000)], [tuple(it) for it in found.lines])
        self.assertEqual(53_000, found.total)

    def test_a_month_without_use(self):
        self.assertEqual(([], 0), tuple(read_report(HEAD + ",total,,,,0\n")))

    def test_the_largest_numbers(self):
        most = 10 ** 39 - 1
        self.assertEqual(most, read_report(f"{HEAD}a,early,GLACIER,{most},0,0\n,total,,,,0\n").lines[0].quantity)
        self.refused(f"{HEAD}a,early,GLACIER,{most + 1},0,0\n,total,,,,0\n", f"line 2: the quantity is '{most + 1}'")

    def test_another_file(self):
        for text in ("", "bucket,charge\n", "\ufeff" + WHOLE, WHOLE[1:], "<html>\n"):
            with self.subTest(text[:10]):
                self.refused(text, f"line 1 is not '{HEAD.strip()}'")
        self.refused(HEAD + '"logs\n', "it is not CSV: unexpected end of data")

    def test_a_report_cut_short(self):
        why = "the last line is not that of the total: it is cut short, or something follows"
        for text in (HEAD, HEAD + LOGS, WHOLE[:-1], WHOLE[:-3], WHOLE + "more\n", WHOLE + "\n"):
            with self.subTest(text[-10:]):
                self.refused(text, why)

    def test_lines_of_others(self):
        for line in ("logs,storage\n", "logs,other,STANDARD,1,1,0\n", ",storage,STANDARD,1,1,0\n", "logs,storage,,1,1,0\n",
                     "logs,storage,STANDARD,1,1,0,0\n", "\n"):
            with self.subTest(line):
                self.refused(f"{HEAD}{line},total,,,,0\n", "line 2 is not a line of a report")

    def test_numbers_of_others(self):
        for number in ("", "-1", "+1", "01", "1.0", "1e3", " 1", "\u0661"):
            with self.subTest(number):
                self.refused(f"{HEAD}logs,early,STANDARD,1,{number},0\n,total,,,,0\n", f"line 2: the price is '{number}'")
        self.refused(f"{HEAD}logs,early,STANDARD,0,1,0\n,total,,,,0\n", "line 2: the quantity is 0, and has no line")

    def test_a_total_that_is_no_sum(self):
        self.refused(WHOLE.replace("53000", "53001"), "the total is 53001, and the sum of the charges 53000")


class TextOf(unittest.TestCase):
    def test_columns(self):
        """Left of 24, 12 and 14 columns, right of 28 and 16, a space between two."""
        self.assertEqual(
            "logs                     storage      STANDARD                2875879120896000000            23000\n"
            "raw                      transitions  GLACIER                                1000            30000\n"
            "                         total                                                               53000\n",
            text_of(read_report(WHOLE)))

    def test_longer_texts_stand_as_they_are(self):
        name = "a" * 63
        line = text_of(read_report(f"{HEAD}{name},early,DEEP_ARCHIVE,1,0,0\n,total,,,,0\n")).splitlines()[0]
        self.assertTrue(line.startswith(f"{name} early "))


if __name__ == "__main__":
    unittest.main()
