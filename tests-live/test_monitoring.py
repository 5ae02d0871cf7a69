#!/usr/bin/env -S python3 -B
"""Has promtool check the alert rules and the queries of the dashboard of tools/monitoring, and compares their names with tools/metrics."""
import json
import re
import sys

import live

sys.path.insert(0, str(live.TOOLS))
from office_tools.samples import HELP  # noqa: E402

RULES, BOARD = live.TOOLS / "monitoring" / "office-alerts.yml", live.TOOLS / "monitoring" / "office-dashboard.json"


def names_in(text):
    return set(re.findall(r"\boffice_[a-z_]+", text))


class Monitoring(live.Case):
    def queries(self):
        board = json.loads(BOARD.read_text("utf-8"))
        return [it["expr"].replace("$instance", ".*") for panel in board["panels"] for it in panel["targets"]]

    def test_names(self):
        self.check("each name of the rules is one of metrics", set(), names_in(RULES.read_text("utf-8")) - set(HELP))
        self.check("each name of the dashboard is one of metrics", set(), names_in(" ".join(self.queries())) - set(HELP))
        board = json.loads(BOARD.read_text("utf-8"))
        self.check("panels have numbers of their own", len(board["panels"]), len({it["id"] for it in board["panels"]}))
        places = [(x, y) for it in board["panels"] for x in range(it["gridPos"]["x"], it["gridPos"]["x"] + it["gridPos"]["w"])
                  for y in range(it["gridPos"]["y"], it["gridPos"]["y"] + it["gridPos"]["h"])]
        self.check("no panel lies on another, and none is wider than the page", (len(places), True), (len(set(places)), max(places)[0] < 24))

    @live.needs("promtool")
    def test_rules(self):
        self.check("check rules", 0, self.ended(["promtool", "check", "rules", RULES]).returncode)
        cases = (live.ROOT / "tests-live" / "alerts.yml").read_text("utf-8").replace("[RULES]", f"[{RULES}]")
        done = self.ended(["promtool", "test", "rules", self.file("alerts.yml", cases)], text=True)
        self.check("test rules", (0, ""), (done.returncode, done.stdout.partition("FAILED")[2]))
        wrong = self.ended(["promtool", "test", "rules", self.file("wrong.yml", cases.replace("49h", "46h"))], text=True)
        self.check("the cases can fail", 1, wrong.returncode)

    @live.needs("promtool")
    def test_queries(self):
        groups = {"groups": [{"name": "queries", "rules": [{"record": f"query:{place}", "expr": it} for place, it in enumerate(self.queries())]}]}
        done = self.ended(["promtool", "check", "rules", self.file("queries.yml", json.dumps(groups))], text=True)
        self.check("each query of the dashboard", (0, ""), (done.returncode, done.stderr))


if __name__ == "__main__":
    live.main()
