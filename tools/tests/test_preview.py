"""What is made of two forecasts: days, bytes, charges, the text and the page. The numbers are by hand."""
import argparse
import datetime
import pathlib
import sys
import unittest

sys.path.insert(0, str(pathlib.Path(__file__).resolve().parent.parent))
from office_tools.forecasting import Action, Forecast, Line  # noqa: E402
from office_tools.preview import (Preview, Side, a_year_on, both, by_day, charges, day_after, day_before, stored_between, sums, text_of,  # noqa: E402
                                  until_of)
from office_tools.preview_page import page_of  # noqa: E402
from office_tools.statement import Unit  # noqa: E402

DAY_MS, GIB = 86_400_000, 2 ** 30
ACTIONS = [Action("2026-11-29T12:00:00.001Z", "remove", "<a>", "v:1", "", "r"), Action("2026-11-29T12:00:00.001Z", "abort", "b", "u:1", "", "r"),
           Action("2026-12-05T00:00:00.000Z", "transition", "c", "v:null", "GLACIER", "r"), Action("2026-12-05T00:00:00.000Z", "transition", "d", "v:2", "GLACIER", "r"),
           Action("2026-12-06T00:00:00.000Z", "marker", "e", "v:null", "", "r")]
PRESENT = Forecast([], [Line("2026-11", "storage", "STANDARD", 10 * DAY_MS * GIB, 2_000_000), Line("2026-12", "storage", "STANDARD", 60 * DAY_MS * GIB, 46_000_000)])
PROPOSED = Forecast(ACTIONS, [Line("2026-11", "storage", "STANDARD", 10 * DAY_MS * GIB, 2_000_000), Line("2026-12", "storage", "STANDARD", 8 * DAY_MS * GIB, 6_000_000),
                              Line("2026-12", "storage", "GLACIER", 52 * DAY_MS * GIB, 4_500_000), Line("2026-12", "early", "STANDARD_IA", 5, 1_250_000),
                              Line("2026-12", "transitions", "GLACIER", 2, 60)])
PREVIEW = Preview("logs", "office-data/journal", "2026-11-29T12:00:00Z", "2027-01-01", {"STANDARD": 2 * GIB},
                  Side(PRESENT, {"STANDARD": 2 * GIB}), Side(PROPOSED, {"STANDARD": 0, "GLACIER": 2 * GIB}))
EUR = Unit("EUR", 1_000_000)
TEXT = """\
What the proposed configuration would do to bucket logs
From a copy of office-data/journal, as of 2026-11-29T12:00:00Z. Nothing was changed.
Up to 2027-01-01 00:00 UTC. It holds if only lifecycle actions happen to the bucket until then. Both
configurations are set now, so what is overdue is done at once.
The first month counts from its beginning, the last one up to 2027-01-01.

day         remove  transition  marker  abort
---------------------------------------------
at once          1           0       0      1
2026-12-05       0           2       0      0
2026-12-06       0           0       1      0
total            1           2       1      1

GiB billed     now  2026-12-31, present  2026-12-31, proposed
-------------------------------------------------------------
STANDARD     2.000                2.000                 0.000
GLACIER      0.000                0.000                 2.000
all classes  2.000                2.000                 2.000

month, EUR    present   proposed  difference  of it storage  of it early  of it transitions
-------------------------------------------------------------------------------------------
2026-11      2.000000   2.000000    0.000000       2.000000     0.000000           0.000000
2026-12     46.000000  11.750060  -34.249940      10.500000     1.250000           0.000060
all months  48.000000  13.750060  -34.249940
"""


class Days(unittest.TestCase):
    def test_words(self):
        self.assertEqual("2027-01-31", until_of("2027-01-31"))
        for text in ("2027-02-29", "2027-1-1", "2027-01", "2100-01-01", "27-01-01", "2027-01-01T00:00:00Z", ""):
            with self.subTest(text), self.assertRaises(argparse.ArgumentTypeError):
                until_of(text)

    def test_a_year_on(self):
        for today, wanted in (("2026-11-29", "2027-12-01"), ("2026-12-31", "2028-01-01"), ("2027-01-01", "2028-02-01"), ("2099-03-01", "2099-12-31")):
            self.assertEqual(wanted, a_year_on(datetime.date.fromisoformat(today)))

    def test_neighbours(self):
        self.assertEqual(("2024-02-29", "2024-03-01"), (day_before("2024-03-01"), day_after("2024-02-29")))


class Tables(unittest.TestCase):
    def test_actions_by_day(self):
        self.assertEqual([("at once", [1, 0, 0, 1]), ("2026-12-05", [0, 2, 0, 0]), ("2026-12-06", [0, 0, 1, 0])],
                         [(day, list(it.values())) for day, it in by_day(ACTIONS).items()])

    def test_bytes_of_a_day(self):
        """A day with 3 GiB in STANDARD, of which 1 GiB came in the milliseconds between the two forecasts, and none in GLACIER any more."""
        one = Forecast([], [Line("2026-12", "storage", "STANDARD", 7, None), Line("2026-12", "storage", "GLACIER", 9, None), Line("2026-11", "storage", "STANDARD", 1, None)])
        two = Forecast([], [Line("2026-12", "storage", "STANDARD", 7 + 3 * GIB * DAY_MS + 5, None), Line("2026-12", "storage", "GLACIER", 9, None),
                            Line("2026-12", "early", "GLACIER", 1, None)])
        self.assertEqual({"STANDARD": 3 * GIB, "GLACIER": 0}, stored_between(one, two, "2026-12-31"))
        self.assertEqual({"STANDARD": 1}, stored_between(Forecast([], []), Forecast([], [Line("2027-01", "storage", "STANDARD", DAY_MS, None)]), "2027-01-01"))

    def test_charges(self):
        self.assertEqual({"2026-11": {"storage": 2_000_000, "early": 0, "transitions": 0}, "2026-12": {"storage": 10_500_000, "early": 1_250_000, "transitions": 60}},
                         charges(PROPOSED))
        rows = both(PREVIEW)
        self.assertEqual([("2026-11", 2_000_000, 2_000_000), ("2026-12", 46_000_000, 11_750_060)], [row[:3] for row in rows])
        self.assertEqual((48_000_000, 13_750_060), sums(rows))

    def test_a_month_without_a_tariff(self):
        without = Forecast([], [PRESENT.lines[0]._replace(charge=None), PRESENT.lines[1]])
        rows = both(PREVIEW._replace(present=Side(without, None)))
        self.assertEqual([("2026-11", None, 2_000_000), ("2026-12", 46_000_000, 11_750_060)], [row[:3] for row in rows])
        self.assertEqual((None, 13_750_060), sums(rows))

    def test_a_month_of_one_side(self):
        """What is removed for good uses nothing later, so the month comes to 0."""
        gone = Side(Forecast([], PROPOSED.lines[:1]), None)
        self.assertEqual([("2026-11", 2_000_000, 2_000_000), ("2026-12", 46_000_000, 0)], [row[:3] for row in both(PREVIEW._replace(proposed=gone))])


class Texts(unittest.TestCase):
    def test_text(self):
        self.assertEqual(TEXT, text_of(PREVIEW, EUR))

    def test_nothing_to_show(self):
        free = Forecast([], [Line("2026-12", "storage", "STANDARD", 5, None)])
        text = text_of(PREVIEW._replace(stored=None, present=Side(free, None), proposed=Side(free, None)), EUR)
        self.assertEqual("The proposed configuration does nothing up to then.\n\nThe bytes by class are not shown: the day is too near.\n\n"
                         "No charges are shown: no tariff holds in these months.\n", text.partition("\n\n")[2])
        nothing = Side(Forecast([], []), {})
        self.assertTrue(text_of(PREVIEW._replace(present=nothing, proposed=nothing), EUR).endswith("\nNothing is charged.\n"))

    def test_page(self):
        page = page_of(PREVIEW._replace(bucket="logs", journal="<j>"), EUR)
        self.assertTrue(page.startswith("<!DOCTYPE html>") and page.endswith("</html>\n"))
        self.assertIn("From a copy of &lt;j&gt;", page)
        self.assertNotIn("<script", page)
        self.assertEqual(["charges", "stored", "days"], [it.partition('"')[0] for it in page.split('<table id="')[1:]])
        # The largest charge is 46 EUR, so 11.75006 EUR are 255 thousandths of a bar; the day with most has two actions.
        for text in ('value="1000">100.0%', 'value="255">25.5%', '-<data value="34.249940">34.249940</data>', '<tr><th scope="row">at once</th>', 'value="500">50.0%'):
            self.assertIn(text, page)

    def test_page_with_nothing_to_show(self):
        nothing = Side(Forecast([], []), None)
        page = page_of(PREVIEW._replace(stored=None, present=nothing, proposed=nothing), EUR)
        for text in ('<p id="charges">Nothing is charged.</p>', '<p id="stored">', '<p id="days">'):
            self.assertIn(text, page)


if __name__ == "__main__":
    unittest.main()
