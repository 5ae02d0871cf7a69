#!/usr/bin/env -S python3 -B
"""Shows with tools/lifecycle what a configuration would do and cost, beside a running server, and compares that with numbers by hand.
Left out if the program knows no forecast."""
import json
import os

import live
from serve_client import request
from spelled import GIB, create, journal, put

NEW_YEAR = 2193  # the day 2030-01-01 as spelled.py counts them: later than the clock, so each forecast begins there
RULES = {"Rules": [{"ID": "cool", "Status": "Enabled", "Filter": {"Prefix": ""}, "Transitions": [{"Days": 30, "StorageClass": "STANDARD_IA"}],
                    "Expiration": {"Days": 100}}]}
# 2 GiB for four months at 23,000 a GiB-month; else 30 of the 31 days of January, then at 12,500 up to April 11, and one move at 10 a piece.
SHOWN = """\
What the proposed configuration would do to bucket logs
From a copy of served/office-data/journal, as of 2030-01-01T00:00:00Z. Nothing was changed.
Up to 2030-05-01 00:00 UTC. It holds if only lifecycle actions happen to the bucket until then. Both
configurations are set now, so what is overdue is done at once.
The first month counts from its beginning, the last one up to 2030-05-01.

day         remove  transition  marker  abort
---------------------------------------------
2030-01-31       0           1       0      0
2030-04-11       1           0       0      0
total            1           1       0      0

GiB billed     now  2030-04-30, present  2030-04-30, proposed
-------------------------------------------------------------
STANDARD     2.000                2.000                 0.000
all classes  2.000                2.000                 0.000

month, EUR   present  proposed  difference  of it storage  of it early  of it transitions
-----------------------------------------------------------------------------------------
2030-01     0.046000  0.045332   -0.000668       0.045322     0.000000           0.000010
2030-02     0.046000  0.025000   -0.021000       0.025000     0.000000           0.000000
2030-03     0.046000  0.025000   -0.021000       0.025000     0.000000           0.000000
2030-04     0.046000  0.008333   -0.037667       0.008333     0.000000           0.000000
all months  0.184000  0.103665   -0.080335
"""


@live.needs_word("forecast")
class Preview(live.Case):
    def setUp(self):
        super().setUp()
        self.data = self.new_folder("served") / "office-data" / "journal"
        self.data.write_bytes(journal(create(NEW_YEAR, "logs"), create(NEW_YEAR, "rest"), put(NEW_YEAR, "logs", "a", 2 * GIB)))
        self.server = self.serve()
        self.client = self.server.client()
        self.addCleanup(self.client.socket.close)
        self.client.ask(request("PUT", "/tariff", (live.ROOT / "examples" / "tariff.toml").read_text("ascii")))
        self.rules = self.file("rules.json", json.dumps(RULES))
        self.scratch = self.folder / "scratch"
        self.scratch.mkdir()

    def preview(self, *words, bucket="logs", program=None, **how):
        return self.run_tool("lifecycle", "--bucket", bucket, "--journal", "served/office-data/journal", "--program", program or self.program,
                             "--unit", "EUR=1000000", "--until", "2030-05-01", *words, env={**os.environ, "TMPDIR": str(self.scratch)}, **how)

    def present(self):
        status, said = self.client.ask(request("GET", "/buckets/logs/lifecycle"))
        return [it["ID"] for it in json.loads(said)["Rules"]] if status == 200 else status

    def test_preview(self):
        before = self.data.read_bytes()
        self.check("the text", (0, SHOWN, ""), self.preview("--page", "page.html", "preview", self.rules))
        page = (self.folder / "page.html").read_text("utf-8")
        self.check("the page", [True] * 4, [it in page for it in ("<h1>Preview of bucket logs</h1>", '-<data value="0.080335">', '<table id="days">', "<meter")])
        self.check("nothing is changed, and no copy is left", (before, [], 404), (self.data.read_bytes(), os.listdir(self.scratch), self.present()))

    def test_set_with_a_preview(self):
        to = ("--to", f"http://127.0.0.1:{self.server.port}", "--preview")
        status, said, notes = self.preview(*to, "set", self.rules)
        self.check("without an answer nothing is sent", (7, "", True, 404), (status, said, SHOWN in notes, self.present()))
        self.check("before the question", True, notes.index("+++ logs as it will be") < notes.index(SHOWN) < notes.index("nothing was sent"))
        status, _, notes = self.preview(*to, "--yes", "set", self.rules)
        self.check("with one it is set", (0, True, ["cool"]), (status, SHOWN in notes, self.present()))
        status, _, notes = self.preview(*to, "--yes", "remove", "cool")
        self.check("the last rule goes", (0, True, 404), (status, "The proposed configuration does nothing up to then." in notes, self.present()))

    def test_what_cannot_be_done(self):
        for name, status, why, words, how in (
                ("no bucket", 5, "lifecycle: bucket none: 404 NoSuchBucket", (), {"bucket": "none"}),
                ("a day that is past", 5, "lifecycle: the forecast is refused: the day is past (number 140)", ("--until", "2029-12-31"), {}),
                ("no program", 1, "lifecycle: no-program: no program", (), {"program": "no-program"}),
                ("no journal", 3, "lifecycle: none: No such file or directory", ("--journal", "none"), {}),
                ("a program without a forecast", 9, "knows no forecast: it ended with exit code 1", (), {"program": self.old()})):
            found, said, notes = self.preview(*words, "preview", self.rules, **how)
            self.check(f"{name}: {notes}", (status, "", True), (found, said, why in notes))
        idle = self.file("idle.json", json.dumps({"Rules": [{"Status": "Enabled", "Filter": {"Prefix": ""}}]}))
        self.check("rules that the program refuses", (5, "lifecycle: the forecast is refused: a rule: it has no action (number 23)"), self.preview("preview", idle)[::2])
        self.check("no copy is left", [], os.listdir(self.scratch))

    def old(self):
        """A program that does all but forecast."""
        path = self.file("old", f'#!/bin/sh\n[ "$1" != forecast ] || exit 1\nexec {self.program} "$@"\n')
        path.chmod(0o755)
        return str(path)


class Words(live.Case):
    def test_words_that_do_not_go_together(self):
        rules = self.file("rules.json", json.dumps(RULES))
        for words in (["preview", rules], ["--journal", "j", "preview"], ["--journal", "j", "set", rules], ["--server", "http://127.0.0.1:1", "--preview", "set", rules],
                      ["--server", "http://127.0.0.1:1", "--journal", "j", "--preview", "get"], ["--journal", "j", "--until", "2100-01-01", "preview", rules]):
            self.check(" ".join(map(str, words)), 1, self.run_tool("lifecycle", "--bucket", "logs", *words)[0])


if __name__ == "__main__":
    live.main()
