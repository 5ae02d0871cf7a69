"""Tariffs in tiers: what each tier takes, by hand, and reports, bills, pages and merged reports that have the price `tiered`."""
import io
import os
import pathlib
import sys
import tempfile
import types
import unittest
import unittest.mock

sys.path.insert(0, str(pathlib.Path(__file__).resolve().parent.parent))
from office_tools.asking import Stop  # noqa: E402
from office_tools.commands import bill, merge_reports, month_end, usage_page  # noqa: E402
from office_tools.page import page_of  # noqa: E402
from office_tools.reports import NoReport, read_report  # noqa: E402
from office_tools.statement import Statement, Unit, its_tariff  # noqa: E402
from office_tools.tariffs import NoTariffs, in_force, is_of, taken, tariffs_in, tiers_in  # noqa: E402

CLASSES = ("STANDARD", "STANDARD_IA", "ONEZONE_IA", "GLACIER_IR", "GLACIER", "DEEP_ARCHIVE")
# The byte-milliseconds of one GiB-month of January 2024: 2^30 bytes for 31 days of 86,400,000 ms.
UNIT = 2 ** 30 * 31 * 86_400_000
TIERS = [{"upto": 1, "price": 23_000}, {"price": 20_000}]
# By hand: of 3 GiB-months 1 costs 23,000 and 2 cost 20,000 each, together 63,000. Of half a one the half of 23,000 is 11,500.
THREE, HALF = 3 * UNIT, UNIT // 2
HEAD = "bucket,line,class,quantity,price,charge\n"
REPORT = HEAD + f"logs,storage,STANDARD,{THREE},tiered,63000\nlogs,early,STANDARD,{HALF},tiered,11500\nraw,transitions,GLACIER,1500,30000,45000\n,total,,,,119500\n"


def shown(first="2024-01", **more):
    """A tariff as the program shows it."""
    storage = {**dict.fromkeys(CLASSES, 5), "STANDARD": TIERS, **more}
    return {"from": first, "storage": storage, "transition": dict.fromkeys(CLASSES[1:], 30_000)}


class Tiers(unittest.TestCase):
    def test_the_worked_quantities(self):
        self.assertEqual((8_627_730_304_204_800_000, 1_437_955_050_700_800_000), (THREE, HALF))
        tiers = tiers_in(TIERS)
        self.assertEqual([(0, 1, UNIT, 23_000, 23_000), (1, None, 2 * UNIT, 20_000, 40_000)], [tuple(it) for it in taken(THREE, tiers, "2024-01")])
        self.assertEqual([(0, 1, HALF, 23_000, 11_500)], [tuple(it) for it in taken(HALF, tiers, "2024-01")])
        self.assertEqual([], taken(0, tiers, "2024-01"))

    def test_ends_of_tiers(self):
        tiers = tiers_in([{"upto": 1, "price": 3}, {"upto": 4, "price": 2}, {"price": 1}])
        for quantity, wanted in ((UNIT - 1, [2]), (UNIT, [3]), (UNIT + 1, [3, 0]), (4 * UNIT, [3, 6]), (4 * UNIT + UNIT // 2, [3, 6, 0]), (6 * UNIT, [3, 6, 2])):
            self.assertEqual(wanted, [it.charge for it in taken(quantity, tiers, "2024-01")])
            self.assertEqual(quantity, sum(it.quantity for it in taken(quantity, tiers, "2024-01")))
        # February 2024 has 29 days, so the same quantity fills more of a tier.
        self.assertEqual([3, 0], [it.charge for it in taken(UNIT, tiers, "2024-02")])

    def test_the_sum_is_rounded_down_once(self):
        tiers = tiers_in([{"upto": 2, "price": 7}, {"upto": 5, "price": 1_048_576}, {"price": 999_983}])
        for quantity in (1, UNIT // 7, 2 * UNIT + 1, 5 * UNIT - 1, 5 * UNIT + UNIT // 3, 2 ** 127):
            parts = [min(quantity, 2 * UNIT), max(0, min(quantity, 5 * UNIT) - 2 * UNIT), max(0, quantity - 5 * UNIT)]
            whole = sum(part * price for part, price in zip(parts, (7, 1_048_576, 999_983))) // UNIT
            self.assertEqual(whole, sum(it.charge for it in taken(quantity, tiers, "2024-01")))


class Shown(unittest.TestCase):
    def test_which_is_in_force(self):
        found = tariffs_in({"tariffs": [shown("1970-01"), shown("2024-01"), shown("2024-03")]})
        self.assertEqual(["1970-01", "2024-01", "2024-01", "2024-03"], [in_force(it, found).first for it in ("2023-12", "2024-01", "2024-02", "2024-03")])
        self.assertIsNone(in_force("2023-12", found[1:]))

    def test_what_is_none(self):
        for found in ([], {}, {"tariffs": {}}, {"tariffs": [{}]}, {"tariffs": [{**shown(), "to": 1}]}, {"tariffs": [shown("2024-13")]},
                      {"tariffs": [shown(STANDARD=True)]}, {"tariffs": [shown(STANDARD=1_048_577)]}, {"tariffs": [shown(STANDARD=[])]},
                      {"tariffs": [shown(STANDARD=[{"price": 1}])]}, {"tariffs": [shown(STANDARD=[{"price": 1, "upto": 1}] * 2)]},
                      {"tariffs": [shown(STANDARD=[{"price": 1, "upto": 5}, {"price": 1, "upto": 5}, {"price": 1}])]}, {"tariffs": [shown(COLD=1)]},
                      {"tariffs": [shown(STANDARD=[{"price": 1, "upto": it} for it in range(1, 9)] + [{"price": 1}])]}, {"tariffs": [shown()] * 2}):
            with self.subTest(str(found)[:80]), self.assertRaises(NoTariffs):
                tariffs_in(found)

    def test_whether_a_report_is_of_it(self):
        report = read_report(REPORT)
        (tariff,) = tariffs_in({"tariffs": [shown()]})
        self.assertTrue(is_of(report, tariff, "2024-01"))
        self.assertFalse(is_of(report, tariff, "2024-02"))
        for other in (shown(STANDARD=5), shown(STANDARD=[{"upto": 1, "price": 23_000}, {"price": 20_001}]), shown(STANDARD=[{"upto": 2, "price": 23_000}, {"price": 20_000}]),
                      {**shown(), "transition": dict.fromkeys(CLASSES[1:], 29_999)}):
            self.assertIsNone(its_tariff(report, tariffs_in({"tariffs": [other]}), "2024-01"))
        self.assertIsNone(its_tariff(report, tariffs_in({"tariffs": [shown("2024-02")]}), "2024-01"))


class Reports(unittest.TestCase):
    def test_the_price_tiered(self):
        report = read_report(REPORT)
        self.assertEqual((["tiered", "tiered", 30_000], 119_500, True), ([it.price for it in report.lines], report.total, report.has_tiers()))
        for text in (REPORT.replace("1500,30000", "1500,tiered"), REPORT.replace(f"{THREE},tiered", "tiered,1"), REPORT.replace("tiered,63000", "Tiered,63000"),
                     REPORT.replace("tiered,63000", "1,tiered")):
            with self.assertRaises(NoReport):
                read_report(text)

    def statement(self, tariff=None):
        return Statement("2024-01", read_report(REPORT), True, None, [], "a file", tariff)

    def test_bill(self):
        lines = bill.bill_of(self.statement(), Unit("EUR", 1_000_000)).splitlines()
        self.assertEqual([["logs", "storage", "STANDARD", "3.000000", "GiB-months", "in", "tiers", "0.063000"],
                          ["logs", "early", "STANDARD", "0.500000", "GiB-months", "in", "tiers", "0.011500"],
                          ["raw", "transitions", "GLACIER", "1,500", "moves", "0.030000", "per", "1,000", "0.045000"]], [it.split() for it in lines[5:8]])

    def test_page(self):
        (tariff,) = tariffs_in({"tariffs": [shown()]})
        text = page_of(self.statement(tariff), usage_page.meters_of(read_report(REPORT)), Unit("units", 1))
        for found in ('<table id="tiers-1">', '<table id="tiers-2">', "Tiers of STANDARD (from 2024-01)", '<th scope="row">0 to 1</th>', '<th scope="row">above 1</th>',
                      '<data value="40000">40,000</data>', '<data value="2.000000000">2.000000000</data>', "logs, storage, STANDARD: ", "52.7% of the whole charge",
                      "<meter min=\"0\" max=\"1000\" value=\"634\">63.4%</meter>", '<td class="n">in tiers</td>'):
            self.assertIn(found, text)
        text = page_of(self.statement(), usage_page.meters_of(read_report(REPORT)), Unit("units", 1))
        self.assertIn("What each tier took is not shown", text)
        self.assertNotIn("tiers-1", text)


class Closed(unittest.TestCase):
    """With which tariff month-end says that a month was closed."""

    def told(self, before, *after, said="2024-03 is closed"):
        replies = [(200, {"tariffs": [shown(it) for it in after]}) if after else (409, {"error": "NoTariff"})]
        office = types.SimpleNamespace(ask=lambda *_: replies.pop(0))
        return month_end.with_tariff(office, types.SimpleNamespace(journal=None, month="2024-03"), said, before)

    def test_what_the_program_says_before_and_after(self):
        self.assertEqual("2024-03 is closed, with the tariff from 2024-01", self.told("2024-01", "1970-01", "2024-01", "2024-04"))
        self.assertEqual("2024-03 is closed", self.told("1970-01", "1970-01", "2024-01"), "one was set meanwhile")
        self.assertEqual("2024-03 is closed", self.told(None))
        self.assertEqual("2024-03 was closed already", self.told("2024-01", "2024-01", said="2024-03 was closed already"))


class Merged(unittest.TestCase):
    def merge(self, *texts):
        with tempfile.TemporaryDirectory() as folder:
            paths = [os.path.join(folder, f"{place}.csv") for place in range(len(texts))]
            for path, text in zip(paths, texts):
                pathlib.Path(path).write_text(text, "utf-8")
            with unittest.mock.patch.object(sys, "argv", ["merge-reports", *paths]), unittest.mock.patch("sys.stdout", io.StringIO()) as said:
                merge_reports.main()
            return said.getvalue()

    def test_other_buckets_add_up_whatever_their_tariffs_are(self):
        other = HEAD + f"media,storage,STANDARD,{THREE},30000,90000\n,total,,,,90000\n"
        tiered = HEAD + f"zoo,storage,STANDARD,{THREE},tiered,1\n,total,,,,1\n"
        rows = (REPORT + other + tiered).splitlines()
        wanted = [HEAD.strip(), *sorted(it for it in rows if it.startswith(("logs,", "media,", "raw,", "zoo,")) and ",early," not in it), ",total,,,,209501"]
        wanted.insert(2, rows[2])
        self.assertEqual(wanted, self.merge(tiered, other, REPORT).splitlines())

    def test_charges_above_the_integers_of_a_database(self):
        largest = 2 ** 128 - 1
        one, other = (HEAD + f"{name},early,A,1,1,{largest}\n,total,,,,{largest}\n" for name in ("b", "a"))
        self.assertEqual([HEAD.strip(), f"a,early,A,1,1,{largest}", f"b,early,A,1,1,{largest}", f",total,,,,{2 * largest}"], self.merge(one, other).splitlines())

    def test_buckets_in_byte_order(self):
        names = ("z", "\u00e9", "a", "Z", "\U0001f600", "\uffff")
        found = self.merge(*(HEAD + f"{name},early,A,1,1,1\n,total,,,,1\n" for name in names)).splitlines()
        self.assertEqual(sorted(names, key=str.encode), [it.partition(",")[0] for it in found[1:-1]])

    def test_a_bucket_in_two_offices(self):
        again = HEAD + f"logs,storage,STANDARD,{HALF},tiered,11500\nlogs,storage,GLACIER,{HALF},5,2\n,total,,,,11502\n"
        with self.assertRaises(Stop) as found:
            self.merge(REPORT, again)
        status, note = found.exception.args
        self.assertEqual(5, status)
        self.assertRegex(note, "^bucket logs is in .*0.csv and in .*1.csv; the charges of storage of STANDARD do not add up, because each went through the tiers by itself$")
        with self.assertRaises(Stop) as found:
            self.merge(REPORT, HEAD + f"logs,storage,GLACIER,{HALF},5,2\n,total,,,,2\n")
        self.assertRegex(found.exception.args[1], "1.csv$")


if __name__ == "__main__":
    unittest.main()
