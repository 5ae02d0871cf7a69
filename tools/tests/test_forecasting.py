"""The two tables of a forecast, read from texts as the program prints them, and what the program says where it makes none."""
import os
import pathlib
import shutil
import sys
import tempfile
import unittest

sys.path.insert(0, str(pathlib.Path(__file__).resolve().parent.parent))
from office_tools.asking import Stop  # noqa: E402
from office_tools.forecasting import Action, Forecast, Line, NoForecast, forecast, read_forecast  # noqa: E402

# A key of 1,000,000 bytes in STANDARD, put on 2023-12-10, and a rule that moves it after 30 days to STANDARD_IA; without a tariff.
TEXT = """\
since,action,key,item,class,rule
2024-01-10T00:00:00.000Z,transition,a,v:null,STANDARD_IA,r1

month,line,class,quantity,charge
2023-12,storage,STANDARD,1868400000000000,
2024-01,storage,STANDARD,777600000000000,
2024-01,storage,STANDARD_IA,1814400000000000,
2024-01,transitions,STANDARD_IA,1,
"""
FOUND = Forecast([Action("2024-01-10T00:00:00.000Z", "transition", "a", "v:null", "STANDARD_IA", "r1")],
                 [Line("2023-12", "storage", "STANDARD", 1_868_400_000_000_000, None), Line("2024-01", "storage", "STANDARD", 777_600_000_000_000, None),
                  Line("2024-01", "storage", "STANDARD_IA", 1_814_400_000_000_000, None), Line("2024-01", "transitions", "STANDARD_IA", 1, None)])
HEADS = TEXT.splitlines(True)[0], TEXT.splitlines(True)[3]
EMPTY = f"{HEADS[0]}\n{HEADS[1]}"
MOVE = TEXT.splitlines(True)[1]


class Tables(unittest.TestCase):
    def test_the_example(self):
        self.assertEqual(FOUND, read_forecast(TEXT))

    def test_nothing_is_done_and_nothing_used(self):
        self.assertEqual(Forecast([], []), read_forecast(EMPTY))

    def test_keys_with_marks_of_csv(self):
        text = EMPTY.replace("\n\n", '\n2024-01-10T00:00:00.000Z,remove,"a,""b""\n\nc",v:18446744073709551615,,"r,1"\n\n')
        self.assertEqual([Action("2024-01-10T00:00:00.000Z", "remove", 'a,"b"\n\nc', "v:18446744073709551615", "", "r,1")], read_forecast(text).actions)

    def test_each_kind(self):
        rows = [f"2024-01-10T00:00:00.000Z,{row},r\n" for row in ("remove,a,v:1,", "marker,a,v:null,", "abort,b,u:7,", "transition,c,v:2,DEEP_ARCHIVE")]
        found = read_forecast(EMPTY.replace("\n\n", "\n" + "".join(rows) + "\n"))
        self.assertEqual(["remove", "marker", "abort", "transition"], [it.kind for it in found.actions])

    def test_charges(self):
        self.assertEqual([Line("2024-01", "early", "GLACIER", 5, 2 ** 127)], read_forecast(f"{EMPTY}2024-01,early,GLACIER,5,{2 ** 127}\n").lines)
        self.assertEqual([0], [it.charge for it in read_forecast(f"{EMPTY}2024-01,early,GLACIER,5,0\n").lines])

    def test_what_is_none(self):
        def with_action(row):
            return EMPTY.replace("\n\n", f"\n{row}\n\n")
        for text, why in (
                ("", "row 1 is not 'since,"), (EMPTY[:-1], "two tables"), (HEADS[0], "two tables"), (EMPTY + "\n", "two tables"), (HEADS[0] + "\n", "row 3 is not 'month,"),
                (TEXT.replace("month,line", "line,month"), "row 4 is not 'month,"), (HEADS[0] + MOVE + HEADS[1], "two tables"), (TEXT[:-9], "two tables"),
                (with_action("2024-01-10,remove,a,v:1,,r"), "row 2 is not an action"), (with_action("2024-01-10T00:00:00.000Z,drop,a,v:1,,r"), "row 2 is not an action"),
                (with_action("2024-01-10T00:00:00.000Z,remove,,v:1,,r"), "row 2 is not an action"), (with_action("2024-01-10T00:00:00.000Z,remove,a,v:01,,r"), "row 2 is not an action"),
                (with_action("2024-01-10T00:00:00.000Z,remove,a,v:1,,r,"), "row 2 is not an action"), (with_action("2024-01-10T00:00:00.000Z,remove,a,u:1,,r"), "row 2: remove of u:1"),
                (with_action("2024-01-10T00:00:00.000Z,abort,a,v:1,,r"), "row 2: abort of v:1"), (with_action("2024-01-10T00:00:00.000Z,remove,a,v:1,GLACIER,r"), "row 2: remove"),
                (with_action("2024-01-10T00:00:00.000Z,transition,a,v:1,,r"), "row 2: transition"), (with_action("2024-01-10T00:00:00.000Z,transition,a,v:1,STANDARD,r"), "row 2: transition"),
                (with_action(MOVE + MOVE.replace("-10T", "-09T").rstrip()), "row 3 is of a moment before"), (with_action('2024-01-10T00:00:00.000Z,remove,"a"b,v:1,,r'), "it is not CSV"),
                (EMPTY + "2024-13,storage,STANDARD,1,\n", "row 4 is not a line"), (EMPTY + "2024-01,total,STANDARD,1,\n", "row 4 is not a line"), (EMPTY + "2024-01,storage,COLD,1,\n", "row 4 is not a line"),
                (EMPTY + "2024-01,storage,STANDARD,1\n", "row 4 is not a line"), (EMPTY + "2024-01,storage,STANDARD,0,\n", "row 4: the quantity is '0'"),
                (EMPTY + "2024-01,storage,STANDARD,1,-1\n", "row 4: the quantity is '1', the charge '-1'")):
            with self.subTest(text=text), self.assertRaises(NoForecast) as found:
                read_forecast(text)
            self.assertIn(why, str(found.exception))


class Program(unittest.TestCase):
    """Programs that are shell scripts."""

    def setUp(self):
        self.folder = tempfile.mkdtemp()
        self.addCleanup(shutil.rmtree, self.folder)

    def ends(self, script):
        path = pathlib.Path(self.folder) / "program"
        path.write_text(f"#!/bin/sh\n{script}\n", encoding="utf-8")
        os.chmod(path, 0o755)
        return forecast(str(path), self.folder, "logs", "2024-01-31", {"Rules": []})

    def test_what_it_is_given(self):
        said = self.ends(f"cat >sent; echo \"$@\" >words; printf '%s' '{TEXT}'")
        self.assertEqual(FOUND, said)
        self.assertEqual(('{"Rules":[]}', "forecast logs 2024-01-31\n"), tuple((pathlib.Path(self.folder) / it).read_text("utf-8") for it in ("sent", "words")))

    def test_none(self):
        for script, status, why in (
                ("echo 'forecast: refused 140' >&2; exit 14", 5, "the forecast is refused: the day is past (number 140)"),
                ("echo 'forecast: refused 81' >&2; exit 14", 5, "the forecast is refused: there is no bucket of this name (number 81)"),
                ("echo 'forecast: refused 124' >&2; exit 14", 5, "the forecast is refused: the configuration has more than 1,048,576 bytes (number 124)"),
                ("echo 'forecast: refused 28' >&2; exit 14", 5,
                 "the forecast is refused: a rule: a transition to STANDARD_IA or ONEZONE_IA has fewer than 30 days (number 28)"),
                ("echo 'forecast: refused 99' >&2; exit 14", 5, "the forecast is refused: for another reason (number 99)"),
                ("echo 'usage: office init' >&2; exit 1", 9, "knows no forecast: it ended with exit code 1"),
                ("echo 'store: failed' >&2; exit 2", 2, "ended with exit code 2: store: failed"), ("exit 14", 2, "ended with exit code 14"),
                ("echo nothing", 2, "the forecast is not one of the program: row 1 is not"), ("printf '\\377\\n'", 2, "the forecast is not one of the program: not UTF-8")):
            with self.subTest(script), self.assertRaises(Stop) as found:
                self.ends(script)
            self.assertEqual((status, True), (found.exception.args[0], why in found.exception.args[1]), found.exception.args)
        with self.assertRaises(Stop) as found:
            forecast("/no/program", self.folder, "logs", "2024-01-31", {})
        self.assertEqual((2, "/no/program is not started: No such file or directory"), found.exception.args)


if __name__ == "__main__":
    unittest.main()
