#!/usr/bin/env -S python3 -B
"""Does what is due in some buckets of a server with tools/act-all, and compares what is there then with the rules by hand."""
import json
import os
import re

import live
from serve_client import request

PAST = "2024-01-05T00:00:00Z"
RULES = {"Rules": [
    {"ID": "gone", "Status": "Enabled", "Filter": {"Prefix": "tmp/"}, "Expiration": {"Date": PAST}},
    {"ID": "cold", "Status": "Enabled", "Filter": {"And": {"Prefix": "raw/", "ObjectSizeGreaterThan": 1}},
     "Transitions": [{"Date": PAST, "StorageClass": "GLACIER"}]}]}
REFUSED = ["act-all: bucket none-there: 404 NoSuchBucket", "act-all: bucket Bad: 400 BadBucketName"]


def ask(client, method, target, body=None):
    status, said = client.ask(request(method, target, "" if body is None else json.dumps(body)))
    return status, json.loads(said)


def fill(client, bucket, enabled=False):
    """A bucket with four objects: two expire, one is moved, one stays."""
    ask(client, "PUT", f"/buckets/{bucket}")
    if enabled:
        ask(client, "PUT", f"/buckets/{bucket}/versioning", {"Status": "Enabled"})
    for key in ("tmp/1", "tmp/2", "raw/1", "kept"):
        ask(client, "PUT", f"/buckets/{bucket}/objects/{key}", {"size": 1000})
    ask(client, "PUT", f"/buckets/{bucket}/lifecycle", RULES)


class ActAll(live.Case):
    def setUp(self):
        super().setUp()
        self.server = self.serve()
        self.names = self.file("names", "plain\nnone-there\nmany\nBad\nempty\n")
        self.client = self.server.client()
        self.addCleanup(self.client.socket.close)
        fill(self.client, "plain")
        fill(self.client, "many", enabled=True)
        ask(self.client, "PUT", "/buckets/empty")

    def run_act(self, *words):
        return self.run_tool("act-all", "--to", f"http://127.0.0.1:{self.server.port}", *words)

    def versions(self, bucket):
        return ask(self.client, "GET", f"/buckets/{bucket}")[1]["versions"]

    def stack(self, bucket, key):
        return ask(self.client, "GET", f"/buckets/{bucket}/objects/{key}")[1]["versions"]

    def test_dry_run(self):
        status, said, notes = self.run_act("--dry-run", "--buckets", self.names)
        shown = [json.loads(line) for line in said.splitlines()]
        self.check("status and what is refused", (5, REFUSED), (status, notes.splitlines()))
        # Of one moment a removal goes before a transition, and a transition before a delete marker.
        self.check("the first action of each bucket",
                   [("plain", "remove", "tmp/1", "gone"), ("many", "transition", "raw/1", "cold"), ("empty", "none", None, None)],
                   [tuple(it.get(name) for name in ("bucket", "action", "key", "rule")) for it in shown])
        self.check("nothing is done", 4, self.versions("plain"))

    def test_dry_run_of_all(self):
        """What it lists is what --json then lists, and nothing is done before."""
        scratch, data = self.folder / "scratch", self.folder / "served" / "office-data" / "journal"
        scratch.mkdir()
        before = data.read_bytes()
        words, where = ["--dry-run", "--program", self.program, "--journal", data, "--bucket", "none-there"], {"env": {**os.environ, "TMPDIR": str(scratch)}}
        status, listed, notes = self.run_tool("act-all", *words, **where)
        self.check("status and what is refused", (5, REFUSED[0].replace("act-all:", "act-all --dry-run:")), (status, notes.splitlines()[0]))
        self.check("how many", True, "3 of 4 buckets, refused 1; actions 6: remove 2, transition 2, marker 2, abort 0" in notes)
        self.check("nothing is done, and no copy is left", (before, []), (data.read_bytes(), os.listdir(scratch)))
        status, done, _ = self.run_act("--json", "--bucket", "none-there", "--journal", data)
        self.check("what is done then", (5, listed), (status, done))
        self.check("nothing is due any more", (0, ""), self.run_tool("act-all", *words[:-2], **where)[:2])
        self.check("at most one a bucket", 1, self.run_tool("act-all", "--dry-run", "--program", self.program, **where)[0])

    def test_all_that_is_due(self):
        status, _, notes = self.run_act("--bucket", "plain", "--most", "1")
        self.check("at most one action, status", (6, True), (status, notes.endswith("; more is due in plain")))
        self.check("one is done", 3, self.versions("plain"))
        status, said, notes = self.run_act("--buckets", self.names)
        self.check("all buckets, status and what is refused", (5, "", REFUSED), (status, said, notes.splitlines()[:-1]))
        self.check("all buckets, the last line",
                   "act-all: 3 of 5 buckets, refused 2; actions 5: remove 1, transition 2, marker 2, abort 0; N a second",
                   re.sub(r"\d+ a second", "N a second", notes.splitlines()[-1]))
        self.check("the bucket without versions", (2, "GLACIER"), (self.versions("plain"), self.stack("plain", "raw/1")[0]["class"]))
        self.check("a marker on what expired", ["marker", "object"], [it["kind"] for it in self.stack("many", "tmp/1")])
        status, _, notes = self.run_act("--bucket", "plain", "--bucket", "many")
        self.check("again, nothing is due", (0, 1, True),
                   (status, len(notes.splitlines()), "2 of 2 buckets, refused 0; actions 0:" in notes))
        self.check("nothing is due at --most", 0, self.run_act("--bucket", "plain", "--most", "1")[0])

    def test_what_cannot_be_done(self):
        self.check("no bucket, status", 1, self.run_act()[0])
        for words in (["--bucket", "plain", "--most", "0"], ["--bucket", "plain", "--most", "x"], ["plain"]):
            self.check(f"words that are none, status: {' '.join(words)}", 1, self.run_act(*words)[0])
        self.check("a list that is not there, status", 3, self.run_act("--buckets", self.folder / "nothing")[0])
        self.server.process.kill()
        self.server.process.wait()
        self.check("a server that was killed, status", 2, self.run_act("--bucket", "plain")[0])
        self.check("help, status", 0, self.run_tool("act-all", "--help")[0])


if __name__ == "__main__":
    live.main()
