#!/usr/bin/env -S python3 -B
"""Shows that tools/month-end does nothing to a bucket while something else than lifecycle actions keeps the month open."""
import datetime
import json

import live
from serve_client import request
from spelled import CLASSES, GIB, create, journal, put, rules

RULES = ('{"Rules":[{"Expiration":{"Date":"2024-01-11T00:00:00.000Z"},"Filter":{"Prefix":"tmp/"},"ID":"gone","Status":"Enabled"}],'
         '"TransitionDefaultMinimumObjectSize":"all_storage_classes_128K"}')
TARIFF = "[storage]\n" + "\n".join(f"{it} = 5" for it in CLASSES) + "\n[transition]\n" + "\n".join(f"{it} = 5" for it in CLASSES[1:]) + "\n"


class MonthEndFirst(live.Case):
    def setUp(self):
        super().setUp()
        self.journal = self.new_folder("served") / "office-data" / "journal"
        self.journal.write_bytes(journal(create(1, "raw"), put(1, "raw", "tmp/x", GIB), put(1, "raw", "a", GIB), rules(1, "raw", RULES)))
        self.server = self.serve()

    def ask(self, method, target, body=""):
        with self.server.client() as client:
            status, said = client.ask(request(method, target, body))
            return status, json.loads(said)

    def versions(self):
        return self.ask("GET", "/buckets/raw")[1]["versions"]

    def end(self, month):
        status, said, notes = self.run_tool("month-end", "--server", f"http://127.0.0.1:{self.server.port}", "--journal", self.journal, month)
        return status, said, len(notes.splitlines())

    def test_nothing_is_done(self):
        this = f"{datetime.datetime.now(datetime.timezone.utc):%Y-%m}"
        for name, month, status in (("a month that is not over", this, 6), ("an earlier month is open", "2024-02", 8), ("no prices", "2024-01", 10)):
            self.check(name, ((status, "", 1), 2), (self.end(month), self.versions()))
        self.check("prices are set", 200, self.ask("PUT", "/tariff", TARIFF)[0])
        self.check("a month that is not over, with prices", ((6, "", 1), 2), (self.end(this), self.versions()))
        self.check("the month, and what is due", ((0, 2), 1), ((it := self.end("2024-01"))[:1] + (len(it[1].splitlines()),), self.versions()))
        self.check("again", 0, self.end("2024-01")[0])


if __name__ == "__main__":
    live.main()
