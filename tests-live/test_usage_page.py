#!/usr/bin/env -S python3 -B
"""Makes pages of a month with tools/usage-page, from what a server reports and from files by hand, and compares their values with
the CSV by the HTML reader of Python, and by Chromium."""
import collections
import csv
import fractions
import html.parser
import json
import shutil
import subprocess

import live
from live import TOOLS
from serve_client import request
from spelled import CLASSES, DAY, GIB, create, journal, put

TARIFF = ("[storage]\n" + "\n".join(f"{it} = {price}" for it, price in zip(CLASSES, (23_000, 12_500, 10_000, 4_000, 3_600, 990)))
          + "\n[transition]\n" + "\n".join(f"{it} = 30000" for it in CLASSES[1:]) + "\n")
BROWSERS = ("chromium", "chromium-browser", "google-chrome")


class Page(html.parser.HTMLParser):
    """The rows of each table of a page, and what a browser would load or run."""

    def __init__(self, text):
        super().__init__()
        self.tables, self.rows, self.foot, self.loads, self.wrong, self.exact, self.total = {}, None, None, [], [], None, None
        self.cell, self.in_total = None, False
        self.feed(text)
        self.close()

    def handle_starttag(self, tag, attrs):
        found = dict(attrs)
        self.loads += [(tag, name) for name in found if name in ("src", "href", "srcset", "action") or name.startswith("on")]
        self.loads += [tag] if tag in ("script", "link", "iframe", "img", "object", "svg", "base") else []
        if tag == "table":
            self.rows = self.tables.setdefault(found["id"], [])
        elif tag == "tr":
            self.rows.append([])
        elif tag in ("td", "th"):
            self.cell, self.exact = "", None
        elif tag == "data":
            self.exact = found["value"]
            self.total = self.exact if self.in_total else self.total
        elif tag == "strong":
            self.in_total = True

    def handle_data(self, data):
        if self.cell is not None:
            self.cell += data

    def handle_endtag(self, tag):
        if tag in ("td", "th"):
            # What a reader sees is the exact value, in groups of three.
            if self.exact is not None and self.cell.replace(",", "") != self.exact:
                self.wrong.append((self.cell, self.exact))
            self.rows[-1].append(self.exact or self.cell)
            self.cell = None
        elif tag == "strong":
            self.in_total = False


def rows_of(path):
    with open(path, encoding="utf-8", newline="") as file:
        return list(csv.reader(file))


def summed(meters, report, of):
    """By bucket (0) or class (2) what the files have: stored and early GiB-months, moves and charges."""
    found = collections.defaultdict(lambda: [0, 0, 0, 0])
    for row in meters[1:]:
        for place, value in enumerate((row[6], row[7], row[5])):
            found[row[of]][place] += int(value)
    for row in report[1:-1]:
        found[row[of]][3] += int(row[5])
    whole = GIB * 31 * DAY
    for it in [*found.values()]:
        found["total"] = [one + other for one, other in zip(found["total"], it)]
    return {name: [f"{float(fractions.Fraction(stored, whole)):.6f}", f"{float(fractions.Fraction(early, whole)):.6f}", str(moves), str(charge)]
            for name, (stored, early, moves, charge) in found.items()}

class FromServer(live.Case):
    """Pages of a month that a server closed."""

    def setUp(self):
        super().setUp()
        path = self.new_folder("served") / "office-data" / "journal"
        path.write_bytes(journal(
            create(1, "logs"), create(1, "raw"), create(1, "unused"), put(1, "logs", "a", GIB), put(1, "raw", "b", 5 * GIB + 7, "GLACIER"),
            put(3, "raw", "c", 300_000_000, "STANDARD_IA"), put(16, "raw", "c", 1), put(20, "logs", "d", 12_345_678_901, "DEEP_ARCHIVE")))
        self.report, self.meters = self.folder / "2024-01-report.csv", self.folder / "2024-01.csv"
        server = self.serve()
        with server.client() as client:
            self.assertEqual(200, client.ask(request("PUT", "/tariff", TARIFF))[0])
        at = f"http://127.0.0.1:{server.port}"
        self.assertEqual(0, self.run_tool("month-end", "--server", at, "--journal", path, "2024-01")[0])
        self.assertEqual(0, self.run_tool("usage", "--from", at, "--journal", path, "--out", self.meters, "2024-01")[0])
        self.page = self.folder / "2024-01.html"

    def make(self, *words):
        return self.run_tool("usage-page", "--report", self.report, "--meters", self.meters, *words, "2024-01")

    def compare(self, page):
        """Each value of the page with those of the two files."""
        report, meters = rows_of(self.report), rows_of(self.meters)
        self.check("more than a few lines", True, len(report) > 7)
        self.check("each line of the report, and its total", report[1:],
                   [row if row[0] != "total" else ["", *row[:1], *row[2:]] for row in page.tables["lines"][1:]])
        self.check("the total above", report[-1][5], page.total)
        for table, of in (("buckets", 0), ("classes", 2)):
            found = {row[0]: [*(f"{float(it):.6f}" for it in row[1:3]), *row[3:5]] for row in page.tables[table][1:]}
            self.check(f"the sums by {table}", summed(meters, report, of), found)
        self.check("seen values are the exact ones", [], page.wrong)
        self.check("nothing is loaded or run", [], page.loads)

    def test_a_page(self):
        self.check("status", (0, "", ""), self.make("--out", self.page))
        text = self.page.read_text("utf-8")
        self.compare(Page(text))
        self.check("the same page again", (0, text), self.make()[:2])

    @live.needs(*BROWSERS)
    def test_shown_by_a_browser(self):
        self.make("--out", self.page)
        browser = next(filter(shutil.which, BROWSERS))
        shown = self.ended([browser, "--headless", "--no-sandbox", "--disable-gpu", f"--user-data-dir={self.folder / 'profile'}", "--dump-dom",
                            self.page.as_uri()], text=True)
        self.compare(Page(shown.stdout))


HEAD = "bucket,line,class,quantity,price,charge\n"
METERS = "bucket,month,class,gib_months,early_gib_months,moves,byte_ms,early_byte_ms\n"
ODD = '<script>alert(1)</script>&amp;"\'é'
NAME = '"' + ODD.replace('"', '""') + '"'
LINE, ROW = "logs,storage,STANDARD,2678400000,1,0\n", "logs,2024-01,STANDARD,0.000000001,0.000000000,0,2678400000,0\n"
TOTAL, APART = ",total,,,,0\n", "the report and the meters do not belong together: "
# Lines of a report and rows of meters that do not make a page, and why.
WRONG = (
    ("a quantity that is another", LINE.replace("26", "27"), ROW, f"{APART}storage of bucket logs and STANDARD is 2778400000 in the report "
     "and 2678400000 in the meters"),
    ("a bucket without meters", LINE, "", f"{APART}storage of bucket logs and STANDARD is 2678400000 in the report and 0 in the meters"),
    ("meters without a line", "", ROW, f"{APART}storage of bucket logs and STANDARD is 0 in the report and 2678400000 in the meters"),
    ("a line twice", LINE * 2, ROW, "the report has storage of bucket logs and STANDARD twice"),
    ("a quantity of 0", LINE.replace("2678400000", "0"), ROW, "{one}: line 2: the quantity is 0, and has no line"),
    ("a report that is none", "logs,storage\n", ROW, "{one}: line 2 is not a line of a report"),
    ("a report without its total", None, ROW, "{one}: the last line is not that of the total: it is cut short, or something follows"),
    ("meters twice", LINE, ROW * 2, "{other}: line 3: bucket logs has STANDARD twice"),
    ("meters of another month", LINE, ROW.replace("2024-01", "2024-02"), "{other}: line 2 is of the month '2024-02'"),
    ("GiB-months that are none", LINE, ROW.replace("0001,", "0002,"),
     "{other}: line 2: the GiB-months are not those of the byte-milliseconds"),
    ("meters with a fraction", LINE, ROW.replace(",0,2678400000,", ",0,26784e5,"), "{other}: line 2: the byte_ms is '26784e5'"),
    ("meters that are cut", LINE, ROW[:-1], "{other}: its last line is cut short"),
    ("meters with an open quote", LINE, '"logs\n', "{other}: it is not CSV: unexpected end of data"))


class FromFiles(live.Case):
    """Pages of two files by hand, and what is none."""

    def setUp(self):
        super().setUp()
        self.report, self.meters = self.folder / "one.csv", self.folder / "other.csv"

    def make(self, lines, rows, *words):
        """What is said of files with these lines of a report and these rows of meters."""
        self.report.write_text(HEAD + lines, "utf-8")
        self.meters.write_text(METERS + rows, "utf-8")
        return self.page_of(self.report, self.meters, *words)

    def page_of(self, report, meters, *words):
        return self.run_tool("usage-page", "--report", report, "--meters", meters, *words, "2024-01")

    def test_a_name_with_marks_of_html(self):
        status, text, _ = self.make(f"{NAME},transitions,<b>,3,1000,3\n,total,,,,3\n", f"{NAME},2024-01,<b>,0.000000000,0.000000000,3,0,0\n")
        found = Page(text)
        self.check("it is a text", (0, [ODD, "transitions", "<b>", "3", "1000", "3"], []), (status, found.tables["lines"][1], found.loads))

    def test_a_month_without_use(self):
        status, text, _ = self.make(TOTAL, "")
        self.check("the total alone", (0, [["total", "", "", "", "", "0"]]), (status, Page(text).tables["lines"][1:]))

    def test_lines_in_tiers(self):
        """3 GiB through January 2024: one at 23,000, and two at 20,000."""
        quantity = 3 * GIB * 31 * DAY
        lines, rows = f"logs,storage,STANDARD,{quantity},tiered,63000\n,total,,,,63000\n", f"logs,2024-01,STANDARD,3.000000000,0.000000000,0,{quantity},0\n"

        def shown(price):
            return json.dumps({"tariffs": [{"from": "2024-01", "transition": dict.fromkeys(CLASSES[1:], 0), "storage": {
                **dict.fromkeys(CLASSES, 0), "STANDARD": [{"price": price, "upto": 1}, {"price": 20_000}]}}]})
        status, text, _ = self.make(lines, rows, "--tariff", self.file("tariffs.json", shown(23_000)))
        found = Page(text)
        self.check("its price", (0, ["logs", "storage", "STANDARD", str(quantity), "in tiers", "63000"]), (status, found.tables["lines"][1]))
        self.check("what each tier took", [["0 to 1", "1.000000000", "23000", "23000"], ["above 1", "2.000000000", "20000", "40000"], ["all tiers", "3.000000000", "", "63000"]],
                   [row[:4] for row in found.tables["tiers-1"][1:]])
        self.check("seen values are the exact ones, and nothing is loaded", ([], []), (found.wrong, found.loads))
        for name, words in (("no tariff is given", ()), ("another one is", ("--tariff", self.file("other.json", shown(22_999))))):
            status, text, _ = self.make(lines, rows, *words)
            self.check(name, (0, True, {"buckets", "classes", "lines"}), (status, "What each tier took is not shown" in text, set(Page(text).tables)))
        for name, text in (("no JSON", "{"), ("no tariffs", "{}"), ("a list", "[]")):
            self.check(f"a tariff that is none: {name}", (5, ""), self.make(lines, rows, "--tariff", self.file("none.json", text))[:2])

    def test_files_that_make_no_page(self):
        page = self.file("page", "before\n")
        for name, lines, rows, note in WRONG:
            note = note.format(one=self.report, other=self.meters)
            self.check(name, (5, "", f"usage-page: {note}"), self.make("" if lines is None else lines + TOTAL, rows, "--out", page))
        self.make(LINE + TOTAL, ROW)
        self.check("the two in place of each other, status", 5, self.page_of(self.meters, self.report, "--out", page)[0])
        self.check("a page in place of a report, status", 5, self.page_of(page, self.meters)[0])
        self.report.write_bytes(b"\xff\xfe")
        self.check("no UTF-8", (5, "", f"usage-page: {self.report}: not UTF-8"), self.page_of(self.report, self.meters))
        self.check("what was there is left", "before\n", page.read_text())

    def test_what_cannot_be_done(self):
        page = self.file("page", "before\n")
        self.make(LINE + TOTAL, ROW)
        self.check("a file that is not there", (3, "", "usage-page: none: No such file or directory"), self.page_of("none", self.meters))
        self.check("a folder", (3, "", f"usage-page: {self.folder}: Is a directory"), self.page_of(self.folder, self.meters))
        self.check("a folder that is not there, status", 4, self.page_of(self.report, self.meters, "--out", self.folder / "none" / "x")[0])
        with open("/dev/full", "wb") as full:
            done = self.ended([TOOLS / "usage-page", "--report", self.report, "--meters", self.meters, "2024-01"],
                              stdout=full, stderr=subprocess.DEVNULL, capture_output=False)
        self.check("a full output, status", 4, done.returncode)
        self.check("what was there is left", "before\n", page.read_text())
        for words in ([], ["2024-13"], ["--report", self.report, "2024-01"], ["--report", self.report, "--meters", self.meters]):
            self.check(f"words that are none, status: {len(words)}", 1, self.run_tool("usage-page", *words)[0])
        self.check("help, status", 0, self.run_tool("usage-page", "--help")[0])


if __name__ == "__main__":
    live.main()
