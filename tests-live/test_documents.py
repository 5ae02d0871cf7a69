#!/usr/bin/env python3
"""The documents: links lead somewhere, named files exist, and the commands of README, OPERATIONS and BILLING run as they are shown.

    tests-live/test_documents.py PROGRAM
"""
import datetime
import os
import re

import live
from free_port import free_port
from serve_client import request
from spelled import DAY, GIB, create, journal, put
from test_preview import SHOWN

DOCUMENTS = [live.ROOT / "README.md", live.ROOT / "CHANGELOG.md", *sorted((live.ROOT / "docs").glob("*.md")),
             live.ROOT / "bench" / "README.md", *sorted((live.ROOT / "crates").glob("*/README.md"))]

# Blocks of commands that are not run here, by a word of theirs, and why.
LEFT_OUT = {
    "stays.csv": "needs stays: test_billing_by_stays",
    "apt-get": "needs root, and a package: package.sh",
    "list-object-versions": "needs a store: test_import_versions.py, test_lifecycle_tool.py",
    "store.map": "needs a store: test_beside_a_store.py",
    "dd of=": "needs a damaged journal: backup.sh",
    "ulimit -v": "a server that does not end: test_limited_memory.py",
}
RUN = ("README.md", "docs/OPERATIONS.md", "docs/BILLING.md")


def prose(text):
    """A document without its blocks of code."""
    return re.sub(r"^```.*?^```", "", text, flags=re.DOTALL | re.MULTILINE)


def blocks(text):
    """The blocks of shell commands of a document."""
    return re.findall(r"^```sh\n(.*?)^```", text, flags=re.DOTALL | re.MULTILINE)


def anchor(heading):
    """The anchor of a heading, as the usual renderers of Markdown make it."""
    kept = (c for c in heading.strip().replace("`", "").replace("*", "").lower() if c.isalnum() or c in " -_")
    return "".join(kept).replace(" ", "-")


def anchors(path):
    return {anchor(heading) for heading in re.findall(r"^#+ (.*)$", prose(path.read_text("utf-8")), flags=re.MULTILINE)}


class Links(live.Case):
    def test_links_lead_somewhere(self):
        for document in DOCUMENTS:
            for link in re.findall(r"\]\(([^)\s]+)\)", prose(document.read_text("utf-8"))):
                if re.match(r"[a-z]+:", link):
                    continue
                path, _, place = link.partition("#")
                target = (document.parent / path).resolve() if path else document
                with self.subTest(document=document.name, link=link):
                    self.assertTrue(target.exists())
                    if place:
                        self.assertIn(place, anchors(target))

    def test_named_files_exist(self):
        for document in DOCUMENTS:
            if document.name == "CHANGELOG.md":
                continue
            text = document.read_text("utf-8")
            for name in set(re.findall(r"(?<![\w/.-])(?:tools|bench|checks|tests-live|examples)/[A-Za-z0-9_/.-]*[A-Za-z0-9_]", text)):
                with self.subTest(document=document.name, file=name):
                    self.assertTrue((live.ROOT / name).exists())


@live.needs("bash")
@live.needs("curl")
@live.needs("jq")
class Commands(live.Case):
    def setUp(self):
        super().setUp()
        self.port = free_port()
        self.last = last = datetime.datetime.now(datetime.timezone.utc).date().replace(day=1) - datetime.timedelta(days=1)
        self.changed = {
            "./office": self.program, "8080": str(self.port), "2026-11-": f"{last:%Y-%m}-", "2026-11.": f"{last:%Y-%m}.",
            " 2026-11 ": f" {last:%Y-%m} ", " 2026-11\n": f" {last:%Y-%m}\n", "/backup/office": "backup/office", "/srv/reports": "reports",
            "--listen 9101": "--out metrics.prom",
        }
        for name in ("tools", "examples"):
            os.symlink(live.ROOT / name, self.folder / name)
        (self.folder / "tariff.toml").write_bytes((live.ROOT / "examples" / "tariff.toml").read_bytes())
        (self.folder / "reports").mkdir()

    def shell(self, commands, name):
        """Runs a block with this test's port, month and folders; each command has to succeed. A server may not listen yet."""
        for shown, here in self.changed.items():
            commands = commands.replace(shown, here)
        begin = "set -e\ncurl() { command curl -sS --retry 50 --retry-delay 0 --retry-connrefused --retry-max-time 60 \"$@\"; }\n"
        done = self.ended(["bash", "-m", "-c", begin + commands], text=True)
        self.check(name, (0, ""), (done.returncode, "".join(line for line in done.stderr.splitlines(True) if "retry" not in line)
                                   if done.returncode else ""))
        return done.stdout

    def runnable(self, document):
        for block in blocks((live.ROOT / document).read_text("utf-8")):
            if not any(word in block for word in LEFT_OUT):
                yield block

    def test_readme(self):
        quick, rules, foreseen, again = self.runnable("README.md")
        said = self.shell(quick, "quick start")
        self.check("the office is made", True, said.startswith("made\n"))
        self.check("the bill of this month", 1, len(re.findall(r"backups,storage,STANDARD_IA,[1-9][0-9]*,12500,[0-9]+\n", said)))
        said = self.shell(foreseen, "a forecast")
        self.check("both tables", True, said.startswith("since,action,key,") and "\n\nmonth,line,class,quantity,charge\n" in said)
        moved, removed = "transition,daily/monday.tar,v:null,GLACIER,cool down\n", "remove,daily/monday.tar,v:null,,cool down\n"
        self.check("it is moved after 90 days, and removed after 365", True, 0 < said.find(moved) < said.find(removed))
        serving = f"{self.program} serve --listen 127.0.0.1:8080 &\ntrap 'kill %1' EXIT\n"
        said = self.shell(serving + rules, "a lifecycle configuration")
        self.check("three rules, nothing is due", '{"rules":3}{"action":"none"}', said)
        first, second = re.findall(r"\{[^}]*\}", self.shell(serving + again, "a request that is sent again"))
        self.check("the second reply is the first one again", first, second)
        self.check("it tells of a version", True, '"version":"null"' in first)

    def test_readme_bill(self):
        """The bill has the lines that the README shows; the amounts depend on how long the objects were there."""
        shown = re.search(r"^```text\n(backups .*?)^```", (live.ROOT / "README.md").read_text("utf-8"), flags=re.DOTALL | re.MULTILINE)[1]
        month = f"{datetime.datetime.now(datetime.timezone.utc):%Y-%m}"
        self.office("init")
        for name in ("first-bill.http", "bill.http"):
            self.office("run", sent=(live.ROOT / "examples" / name).read_bytes().replace(b"2026-11", month.encode()))
        found = self.office("report", month, "--text").stdout.decode()
        self.check("the lines of the bill", [re.sub(r" +[0-9]+", " N", line) for line in shown.splitlines()],
                   [re.sub(r" +[0-9]+", " N", line) for line in found.splitlines()
                    if not re.match(r"backups +storage +STANDARD_IA ", line)])

    def shown(self, begin):
        """The output that BILLING shows, by its first words."""
        text = (live.ROOT / "docs" / "BILLING.md").read_text("utf-8")
        return re.search(rf"^```text\n({re.escape(begin)}.*?)^```", text, flags=re.DOTALL | re.MULTILINE)[1]

    def january(self):
        """A server with what BILLING bills: 500 GiB, 40 and then 41 GiB under one key, and 2,000 GiB in an archive, all in January 2024."""
        data = self.new_folder("served") / "office-data" / "journal"
        data.write_bytes(journal(create(1, "logs"), create(1, "media"), put(1, "logs", "2023.tar", 500 * GIB),
                                 put(3, "logs", "jan.tar", 40 * GIB, "STANDARD_IA"), put(10, "media", "film", 2000 * GIB, "GLACIER"),
                                 put(13, "logs", "jan.tar", 41 * GIB, "STANDARD_IA")))
        server = self.serve()
        with server.client() as client:
            client.ask(request("PUT", "/tariff", (live.ROOT / "examples" / "tariff.toml").read_text("ascii")))
        return "--server", f"http://127.0.0.1:{server.port}", "--journal", data

    def test_billing_bill(self):
        where, shown = self.january(), self.shown("Object storage in ")
        status, found, notes = self.run_tool("bill", *where, "--unit", "EUR=1000000", "2024-01")
        self.check("the bill", (0, "", re.sub("as of [0-9TZ:-]+", "as of", shown)), (status, notes, re.sub("as of [0-9TZ:-]+", "as of", found)))
        status, found, notes = self.run_tool("usage", *where, "2024-01")
        found = "".join(line for line in found.splitlines(True) if not line.startswith("media"))
        self.check("its quantities", self.shown("bucket,month"), found)
        end = ("month-end", *where, "--folder", self.folder / "reports", "--bill", self.program, "2024-01")
        found = "".join(f"{self.run_tool(*end)[2].splitlines()[-1]}\n" for _ in range(2))
        self.check("its posting", self.shown("month-end: "), found)

    def test_billing_units(self):
        """One GiB-month in byte-milliseconds, for each length of a month."""
        text = (live.ROOT / "docs" / "BILLING.md").read_text("utf-8")
        for days in range(28, 32):
            self.check(days, True, f"| {days} | {days * DAY:,} | {days * DAY * GIB:,} |" in text)

    @live.needs("sqlite3")
    def test_billing_by_stays(self):
        """The check of a month by its stays finds nothing in a right report, and a line that was changed."""
        self.office("init")
        if not self.office("explain").stdout:
            self.skipTest("no explain")
        end = ("month-end", *self.january(), "--folder", self.folder / "reports", "--bill", self.program, "2024-01")
        self.check("the month is closed", 0, self.run_tool(*end)[0])
        self.changed.update({"2026-11-": "2024-01-", "&& office": f"&& {self.program}"})
        check, = (it for it in blocks((live.ROOT / "docs" / "BILLING.md").read_text("utf-8")) if "stays.csv" in it)
        self.check("nothing is wrong", "", self.shell(check, "the stays of a month"))
        report, right, wrong = self.folder / "reports" / "2024-01-report.csv", "109377355146854400000", "109377355146854400001"
        report.write_text(report.read_text("ascii").replace(right, wrong), "ascii")
        self.check("a wrong line", f"logs,STANDARD_IA,{wrong},{right}", self.shell(check, "the same with it").strip())

    def lines_of(self, document):
        """The commands of a page. The server is the one of this test, and behind the proxy there is none here."""
        found = list(self.runnable(document))
        self.assertGreater(len(found), 4)
        return "".join(line for block in found for line in block.splitlines(True)
                       if not line.startswith("office serve") and "https://" not in line)

    def serving(self):
        """Begins a server over a journal whose first command was at the beginning of last month, so that it can be closed."""
        first = (self.last.replace(day=1) - datetime.date(2024, 1, 1)).days + 1
        (self.folder / "office-data").mkdir()
        (self.folder / "office-data" / "journal").write_bytes(journal(create(first, "old"), put(first, "old", "a", GIB)))
        return f"{self.program} serve --listen 127.0.0.1:{self.port} --workers 4 &\ntrap 'kill %1' EXIT\n"

    def test_operations(self):
        rules = '{"Rules":[{"Status":"Enabled","Filter":{},"Expiration":{"Date":"2024-01-01T00:00:00.000Z"}}]}'
        begin = "".join(f"curl -X PUT -H Expect: {words} http://127.0.0.1:8080/buckets/logs{path} >made\n" for words, path in (
            ("", ""), (f"-d '{rules}'", "/lifecycle"), ("-d '{\"size\":5}'", "/objects/old")))
        said = self.shell(self.serving() + begin + self.lines_of("docs/OPERATIONS.md"), "the commands of OPERATIONS")
        self.check("what was removed", 1, said.count("logs\told\tnull\n"))
        self.check("metrics", True, "office_up 1\n" in (self.folder / "metrics.prom").read_text("utf-8"))

    @live.needs("sqlite3")
    def test_billing(self):
        prices = "curl -X PUT -H Expect: --data-binary @tariff.toml http://127.0.0.1:8080/tariff\n"
        said = self.shell(self.serving() + prices + self.lines_of("docs/BILLING.md"), "the commands of BILLING")
        reports = self.folder / "reports"
        self.check("the page and the report", [True] * 2, [any(self.folder.glob("20*.html")), any(reports.glob("*-report.csv"))])
        bill = (reports / f"{self.last:%Y-%m}-bill.txt").read_text("utf-8")
        self.check("the bill of the closed month", True, "State: closed." in bill)
        self.check("the month and its bills", True, f"{self.last:%Y-%m}  1        23000" in said)

    def test_operations_preview(self):
        """OPERATIONS shows the preview that test_preview.py compares with numbers by hand."""
        shown = (live.ROOT / "docs" / "OPERATIONS.md").read_text("utf-8")
        self.check("the preview", True, f"```text\n{SHOWN.replace('served/', '')}```\n" in shown)

    def test_each_block_left_out_is_there(self):
        text = "".join((live.ROOT / name).read_text("utf-8") for name in RUN)
        for word in LEFT_OUT:
            self.check(word, True, any(word in block for block in blocks(text)))


if __name__ == "__main__":
    live.main()
