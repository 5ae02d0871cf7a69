#!/usr/bin/env -S python3 -B
"""Sets tariffs in tiers that hold from a month on, and compares reports, entries and refusals with numbers by hand, and the bill of
three months with that of examples/three-months.md."""
import json

import live
from serve_client import entries_of, request
from spelled import CLASSES, DAY, GIB, create, delete, journal, put

EXAMPLES = live.ROOT / "examples"
HEAD = "bucket,line,class,quantity,price,charge\n"
TIERS = "[{ upto = 1, price = 23000 }, { price = 20000 }]"


def tariff(first=None, **storage):
    """A document with a price of 5 for each class but those that are given, and of 7 for each move."""
    rows = "".join(f"{it} = {storage.get(it, 5)}\n" for it in CLASSES)
    moves = "".join(f"{it} = 7\n" for it in CLASSES[1:])
    return (f'from = "{first}"\n' if first else "") + f"[storage]\n{rows}[transition]\n{moves}"


def shown(first, **storage):
    return {"from": first, "storage": {**dict.fromkeys(CLASSES, 5), **storage}, "transition": dict.fromkeys(CLASSES[1:], 7)}


def report(*lines):
    return HEAD + "".join(it + "\n" for it in lines) + f",total,,,,{sum(int(it.rpartition(',')[2]) for it in lines)}\n"


class Tariffs(live.Case):
    def start(self, *frames):
        """A server on a journal of these entries."""
        self.folder_of_it = self.new_folder("served")
        if frames:
            (self.folder_of_it / "office-data" / "journal").write_bytes(journal(*frames))
        self.server = self.serve()

    def ask(self, method, target, body=""):
        with self.server.client() as client:
            return client.ask(request(method, target, body))

    def put(self, *how, **storage):
        self.check("a tariff is set", (200, '{"tariff":"set"}'), self.ask("PUT", "/tariff", tariff(*how, **storage)))

    def test_through_the_tiers(self):
        """3 GiB through January: one at 23,000 and two at 20,000. Half of one: the half of 23,000."""
        self.start(create(1, "half"), create(1, "logs"), put(1, "half", "a", 536_870_912), put(1, "logs", "a", 3_221_225_472))
        self.put("2024-01", STANDARD=TIERS)
        self.check("the report", (200, report("half,storage,STANDARD,1437955050700800000,tiered,11500", "logs,storage,STANDARD,8627730304204800000,tiered,63000")),
                   self.ask("GET", "/months/2024-01/report"))
        entry = entries_of(self.folder_of_it)[-1]
        # 2024 and 1; two tiers of STANDARD, and one of each other class; five prices of moves.
        one, moves = "01" "00000000" "00000005", "00000007" * 5
        wanted = "10" "07e8" "01" "02" "00000001" "000059d8" "00000000" "00004e20" + one * 5 + moves
        self.check("its entry has 94 bytes", (94, wanted), (len(entry), entry[8:].hex()))
        tool = [json.loads(it) for it in self.run_tool("journal-dump", self.folder_of_it / "office-data" / "journal")[1].splitlines()]
        self.check("as journal-dump shows it", ["2024-01", [[{"price": 23_000, "upto": 1}, {"price": 20_000}], 5, 5, 5, 5, 5], [7] * 5],
                   [tool[-1][name] for name in ("from", "storage", "transition")])

    def test_which_one_is_in_force(self):
        self.start(create(1, "logs"), put(1, "logs", "a", GIB))
        self.check("none is set", (409, '{"error":"NoTariff","number":88}'), self.ask("GET", "/tariff"))
        self.put("2024-03", STANDARD=9_000)
        self.put("2024-01", STANDARD=TIERS)
        self.check("by first month", {"tariffs": [shown("2024-01", STANDARD=[{"price": 23_000, "upto": 1}, {"price": 20_000}]), shown("2024-03", STANDARD=9_000)]},
                   json.loads(self.ask("GET", "/tariff")[1]))
        for month, days, price, charge in (("2024-01", 31, "tiered", 23_000), ("2024-02", 29, "tiered", 23_000), ("2024-03", 31, "9000", 9_000), ("2024-04", 30, "9000", 9_000)):
            self.check(month, (200, report(f"logs,storage,STANDARD,{GIB * days * DAY},{price},{charge}")), self.ask("GET", f"/months/{month}/report"))
        self.check("before all", (409, '{"error":"NoTariff","number":88}'), self.ask("GET", "/months/2023-12/report"))
        self.put("2024-03", STANDARD=8_000)
        self.check("in the place of the one with the same first month", [("2024-01", None), ("2024-03", 8_000)],
                   [(it["from"], it["storage"]["STANDARD"] if it["from"] == "2024-03" else None) for it in json.loads(self.ask("GET", "/tariff")[1])["tariffs"]])
        self.put()
        self.check("without a first month it holds from January 1970 on", (200, ["1970-01", "2024-01", "2024-03"], 200),
                   ((it := self.ask("GET", "/tariff"))[0], [one["from"] for one in json.loads(it[1])["tariffs"]], self.ask("GET", "/months/2023-12/report")[0]))

    def test_a_closed_month_keeps_its_tariff(self):
        self.start(create(1, "logs"), put(1, "logs", "a", 3 * GIB))
        self.check("no tariff is in force in it", (409, '{"error":"NoTariff","number":88}'), self.ask("POST", "/months/2024-01/close"))
        self.put("2024-02")
        self.check("nor is one that begins later", (409, '{"error":"NoTariff","number":88}'), self.ask("POST", "/months/2024-01/close"))
        self.put("2024-01", STANDARD=TIERS)
        self.check("closed", (200, '{"closed":"2024-01"}'), self.ask("POST", "/months/2024-01/close"))
        wanted = self.ask("GET", "/months/2024-01/report")
        self.check("its bill", (200, report(f"logs,storage,STANDARD,{3 * GIB * 31 * DAY},tiered,63000")), wanted)
        self.put("2024-01", STANDARD=1)
        self.put(STANDARD=2)
        self.check("it keeps its tariff", wanted, self.ask("GET", "/months/2024-01/report"))
        february = (200, report(f"logs,storage,STANDARD,{3 * GIB * 29 * DAY},5,15"))
        self.check("the next one has its own", february, self.ask("GET", "/months/2024-02/report"))
        self.server.stop(9)
        self.server = self.serve()
        self.check("also after a stop", [wanted, february], [self.ask("GET", f"/months/{it}/report") for it in ("2024-01", "2024-02")])
        said = self.run_tool("month-end", "--server", f"http://127.0.0.1:{self.server.port}", "--journal",
                             self.folder_of_it / "office-data" / "journal", "2024-01")
        self.check("month-end tells it", (0, "month-end: 2024-01 was closed already, with the tariff from 2024-01"), (said[0], said[2].splitlines()[-1]))
        said = self.run_tool("month-end", "--server", f"http://127.0.0.1:{self.server.port}", "--bucket", "logs", "2024-02")
        self.check("and of the one that it closes", (0, "month-end: 2024-02 is closed, with the tariff from 2024-02"), (said[0], said[2].splitlines()[-1]))

    def test_refusals(self):
        self.start()
        nine = "[" + "".join(f"{{ upto = {it}, price = 1 }}, " for it in range(1, 9)) + "{ price = 1 }]"
        tiers = '{"class":"STANDARD","error":"BadTiers","number":74}'
        first = '{"error":"BadFrom","number":75}'
        price = '{"class":"STANDARD","error":"BadPrice","number":72,"table":"storage"}'
        rows = [
            ("no TOML", "storage = [", '{"error":"NotToml","number":70}'),
            ("a field that is none", tariff().replace("[storage]", "until = 1\n[storage]"), '{"error":"UnknownField","name":"until","number":73}'),
            ("a table that is none, before the first month", 'from = "2024-13"\nstorage = 5\n', '{"error":"UnknownField","name":"storage","number":73}'),
            ("a month that is none", tariff("2024-13"), first), ("a month too early", tariff("1969-12"), first), ("one too late", tariff("2100-01"), first),
            ("a first month that is not a text", "from = 2024\n" + tariff(), first), ("a day", tariff("2024-01-01"), first),
            ("a first month, before a class that is none", tariff("2024-13") + "COLD = 1\n", first),
            ("a class that is none, before tiers that are none", tariff(STANDARD="[]") + "COLD = 1\n", '{"error":"UnknownField","name":"COLD","number":73}'),
            ("a class that is missing, before the tiers of the next", tariff(STANDARD_IA="[]").replace("STANDARD = 5\n", "", 1),
             '{"class":"STANDARD","error":"MissingClass","number":71,"table":"storage"}'),
            ("tiers, before a class that is missing behind them", tariff(STANDARD="[]").replace("STANDARD_IA = 5\n", "", 1), tiers),
            ("no tiers", tariff(STANDARD="[]"), tiers), ("nine tiers", tariff(STANDARD=nine), tiers),
            ("an end twice", tariff(STANDARD="[{ upto = 5, price = 1 }, { upto = 5, price = 1 }, { price = 1 }]"), tiers),
            ("an end that is 0", tariff(STANDARD="[{ upto = 0, price = 1 }, { price = 1 }]"), tiers),
            ("an end above 2^32", tariff(STANDARD="[{ upto = 4294967296, price = 1 }, { price = 1 }]"), tiers),
            ("an end at the last", tariff(STANDARD="[{ upto = 1, price = 1 }]"), tiers),
            ("no end before the last", tariff(STANDARD="[{ price = 1 }, { price = 1 }]"), tiers),
            ("another field", tariff(STANDARD="[{ price = 1, from = 1 }]"), tiers), ("a price in place of a tier", tariff(STANDARD="[5]"), tiers),
            ("tiers, before a price in them", tariff(STANDARD='[{ upto = 1, price = "x" }, { price = 1, upto = 2 }]'), tiers),
            ("a price in a tier", tariff(STANDARD="[{ upto = 1, price = 1 }, { price = 1048577 }]"), price),
            ("a table in place of a price", tariff(STANDARD="{ price = 1 }"), price), ("a price that is negative", tariff(STANDARD="-1"), price),
            ("tiers of a move", tariff().replace("GLACIER = 7", "GLACIER = [{ price = 7 }]"), '{"class":"GLACIER","error":"BadPrice","number":72,"table":"transition"}'),
        ]
        for name, text, wanted in rows:
            self.check(name, (400, wanted), self.ask("PUT", "/tariff", text))
        for name, text in (("one tier in a list", tariff(STANDARD="[{ price = 5 }]")), ("the last end", tariff(STANDARD="[{ upto = 4294967295, price = 0 }, { price = 1048576 }]"))):
            self.check(name, 200, self.ask("PUT", "/tariff", text)[0])
        self.check("nothing else was set", 2, len(entries_of(self.folder_of_it)))
        self.check("a list of one tier is a price", (0x0E, 0x10), tuple(it[8] for it in entries_of(self.folder_of_it)))

    def test_a_hundred(self):
        self.start()
        months = [f"{2000 + place // 12}-{place % 12 + 1:02}" for place in range(101)]
        self.check("a hundred are set", {200}, {self.ask("PUT", "/tariff", tariff(it))[0] for it in months[:100]})
        full = (507, '{"error":"Full","limit":100,"number":90,"what":"Tariffs"}')
        self.check("and not one more", full, self.ask("PUT", "/tariff", tariff(months[100])))
        self.check("but in the place of another", 200, self.ask("PUT", "/tariff", tariff(months[99], STANDARD=6))[0])
        self.check("all are shown", months[:100], [it["from"] for it in json.loads(self.ask("GET", "/tariff")[1])["tariffs"]])


class ThreeMonths(live.Case):
    """The bill of examples/three-months.md; its charges are computed there by hand."""

    def setUp(self):
        super().setUp()
        folder = self.new_folder("served")
        path = folder / "office-data" / "journal"
        # January 1 is day 1, February 15 day 46, February 20 day 51, March 11 day 71.
        path.write_bytes(journal(create(1, "logs"), create(1, "media"), *(put(1, "media", f"film-{it:02}", 5_000 * GIB) for it in range(12)),
                                 delete(46, "media", "film-00"), put(51, "logs", "february.tar", 400 * GIB, "STANDARD_IA"), delete(71, "logs", "february.tar")))
        self.server, self.journal = self.serve(), path
        for name in ("tariff.toml", "tariff-2024-03.toml"):
            self.set_prices((EXAMPLES / name).read_text("ascii"))

    def set_prices(self, text):
        with self.server.client() as client:
            self.check("prices are set", 200, client.ask(request("PUT", "/tariff", text))[0])

    def reports(self):
        with self.server.client() as client:
            return [client.ask(request("GET", f"/months/2024-{it}/report")) for it in ("01", "02", "03")]

    def test_the_bill(self):
        gib_day = GIB * DAY
        wanted = [(200, report(f"media,storage,STANDARD,{60_000 * 31 * gib_day},tiered,1371200000")),
                  (200, report(f"logs,storage,STANDARD_IA,{4_000 * gib_day},12500,1724137", f"media,storage,STANDARD,{1_665_000 * gib_day},tiered,1314303448")),
                  (200, report(f"logs,storage,STANDARD_IA,{4_000 * gib_day},tiered,1569354", f"logs,early,STANDARD_IA,{4_000 * gib_day},tiered,1569354",
                               f"media,storage,STANDARD,{55_000 * 31 * gib_day},tiered,1248700000"))]
        self.check("before the months are closed", wanted, self.reports())
        self.check("the totals of the text", ["1371200000", "1316027585", "1251838708"], [it[1].rstrip().rpartition(",")[2] for it in self.reports()])
        for month in ("2024-01", "2024-02", "2024-03"):
            ended = self.run_tool("month-end", "--server", f"http://127.0.0.1:{self.server.port}", "--journal", self.journal, month)
            first = "2024-03" if month == "2024-03" else "1970-01"
            self.check(month, (0, f"month-end: {month} is closed, with the tariff from {first}"), (ended[0], ended[2].splitlines()[-1]))
        for first in (None, "2024-03"):
            self.set_prices(tariff(first))
        self.check("other prices change none of the closed months", wanted, self.reports())

    def test_the_text_has_these_numbers(self):
        text = (EXAMPLES / "three-months.md").read_text("utf-8")
        for number in ("**1,371,200,000**", "**1,314,303,448**", "**1,724,137**", "**1,248,700,000**", "**1,569,354**", "1,316,027,585", "1,251,838,708"):
            self.check(number, True, number in text)

    def test_the_page(self):
        page = self.folder / "page.html"
        ended = self.run_tool("usage-page", "--server", f"http://127.0.0.1:{self.server.port}", "--journal", self.journal, "--out", page, "2024-03")
        text = page.read_text("utf-8")
        self.check("each tier of March", (0, True, [True] * 4), (ended[0], '<table id="tiers-3">' in text, [f'<data value="{it}">' in text for it in (
            "240000000", "927000000", "81700000", "319354")]))
        status, said, _ = self.run_tool("bill", "--server", f"http://127.0.0.1:{self.server.port}", "--journal", self.journal, "--unit", "coins=1000000", "2024-03")
        self.check("the bill", (0, ["total", "1,251.838708", "coins"]), (status, next(it.split() for it in said.splitlines() if it.startswith("total"))))


if __name__ == "__main__":
    live.main()
