#!/usr/bin/env -S python3 -B
"""Reads a server's meters with tools/metrics, compares them with the server's own replies, and has promtool check the text."""
import datetime
import http.client
import json
import re
import subprocess
import time

import live
from free_port import free_port
from live import CLASSES, LIMIT, TOOLS
from serve_client import request

SAMPLE = re.compile(r'^([a-z_]+)(?:\{(.*)\})? (\S+)$')
MONTH = datetime.datetime.now(datetime.timezone.utc).strftime("%Y-%m")


def samples_of(text):
    """The samples of a text by name and labels, each once."""
    found = {}
    for line in text.splitlines():
        if not line.startswith("#"):
            name, labels, value = SAMPLE.match(line).groups()
            found[name, labels or ""] = value
    return found


def fetch(port, path="/metrics"):
    """Reads the endpoint, which may not listen yet."""
    late = time.monotonic() + LIMIT
    while time.monotonic() < late:
        link = http.client.HTTPConnection("127.0.0.1", port, timeout=LIMIT)
        try:
            link.request("GET", path)
            reply = link.getresponse()
            return reply.status, reply.read().decode()
        except ConnectionRefusedError:
            time.sleep(0.02)
        finally:
            link.close()
    raise TimeoutError(f"timed out after {LIMIT} s: nobody listens on port {port}")


def byte_ms(value):
    """Byte-seconds with three digits behind the point, as byte-milliseconds."""
    whole, _, rest = value.partition(".")
    return int(whole) * 1000 + int(rest) if len(rest) == 3 else None


class Metrics(live.Case):
    def setUp(self):
        super().setUp()
        self.server = self.serve()
        self.url, self.out = f"http://127.0.0.1:{self.server.port}", self.folder / "office.prom"
        self.before = self.fill()

    def fill(self):
        """Puts objects of each class, and one more, which is then replaced and owes its least duration."""
        with self.server.client() as client:
            for bucket in ("logs", "photos"):
                client.ask(request("PUT", f"/buckets/{bucket}"))
            for rank, name in enumerate([*CLASSES, "STANDARD_IA", "STANDARD"]):
                body = json.dumps({"size": 2 ** 40 + rank, "class": name})
                client.ask(request("PUT", f"/buckets/logs/objects/{min(rank, 6)}", body))
            return self.meters(client)

    def meters(self, client):
        return json.loads(client.ask(request("GET", f"/buckets/logs/meters/{MONTH}"))[1])["classes"]

    def metrics(self, *words):
        return self.run_tool("metrics", "--from", self.url, *words)

    def compare(self, text):
        """Each class of the bucket lies between the meters before and after the reading, to the byte-millisecond."""
        samples = samples_of(text)
        with self.server.client() as client:
            after = self.meters(client)
        wrong = []
        for before, later in zip(self.before, after):
            labels = f'bucket="logs",class="{before["class"]}",month="{MONTH}"'
            found = byte_ms(samples["office_month_storage_byte_seconds", labels])
            if not int(before["byte_ms"]) <= found <= int(later["byte_ms"]):
                wrong.append((before, found, later))
            if byte_ms(samples["office_month_early_deletion_byte_seconds", labels]) != int(later["early_byte_ms"]):
                wrong.append((before, labels))
        self.check("the meters are those of the server", [], wrong)
        moves = [labels for name, labels in samples if name == "office_month_transitions" and 'bucket="logs"' in labels]
        self.check("all classes are there", 6, sum(MONTH in labels for labels in moves))
        self.check("versions of a bucket", "7", samples["office_bucket_versions", 'bucket="logs"'])
        self.check("the office is up", "1", samples["office_up", ""])

    def test_the_buckets_of_a_journal(self):
        journal = self.server.folder / "office-data/journal"
        status, _, note = self.metrics("--journal", journal, "--out", self.out)
        self.check("status", (0, ""), (status, note))
        text = self.out.read_text("utf-8")
        self.compare(text)
        self.check("the size of the journal", str(journal.stat().st_size), samples_of(text)["office_journal_size_bytes", ""])
        self.check("both buckets of the journal", 2, len(re.findall("^office_bucket_up{", text, re.M)))
        self.check("an early quantity is told", True, byte_ms(samples_of(text)["office_month_early_deletion_byte_seconds",
                   f'bucket="logs",class="STANDARD_IA",month="{MONTH}"']) > 2 ** 40 * 2_591_000_000)

    @live.needs("promtool")
    def test_checked_by_promtool(self):
        self.metrics("--bucket", "logs", "--bucket", "none-of-it", "--out", self.out)
        found = self.ended(["promtool", "check", "metrics"], input=self.out.read_text("utf-8"), text=True)
        self.check("promtool check metrics", (0, ""), (found.returncode, found.stdout + found.stderr))

    def test_the_buckets_that_are_named(self):
        status, _, note = self.metrics("--bucket", "logs", "--bucket", "none-of-it", "--out", self.out)
        self.check("a bucket that is not made, status", (5, "metrics: bucket none-of-it: 404 NoSuchBucket"), (status, note))
        text = self.out.read_text("utf-8")
        self.check("it is told, and the other one too", (True, True),
                   ('up{bucket="none-of-it"} 0' in text, 'office_bucket_versions{bucket="logs"} 7' in text))
        status, said, _ = self.metrics("--buckets", self.file("list", "photos\nlogs\n"), "--out", "-")
        self.check("buckets of a file, to standard output", (0, 2), (status, said.count("office_bucket_up{")))
        status, said, _ = self.metrics("--bucket", 'a"b\\c', "--out", "-")
        self.check("a name that is none", (5, 'office_bucket_up{bucket="a\\"b\\\\c"} 0'), (status, said.splitlines()[8]))
        self.check("no bucket is named", 0, self.metrics("--out", self.out)[0])

    def test_an_endpoint(self):
        port = free_port()
        words = [TOOLS / "metrics", "--from", self.url, "--bucket", "logs", "--listen", str(port)]
        with subprocess.Popen(words, stderr=subprocess.DEVNULL) as exporter:
            try:
                status, text = fetch(port)
                self.check("the endpoint", 200, status)
                self.compare(text)
                self.check("another path", 404, fetch(port, "/")[0])
                self.check("a port that is taken, status", 7, self.metrics("--bucket", "logs", "--listen", str(port))[0])
                self.server.process.kill()
                self.server.process.wait()
                status, text = fetch(port)
                self.check("a server that was killed is told as down", (200, {("office_up", ""): "0"}), (status, samples_of(text)))
            finally:
                exporter.terminate()

    def test_what_cannot_be_done(self):
        self.server.process.kill()
        self.server.process.wait()
        self.check("no server, status", 2, self.metrics("--bucket", "logs", "--out", self.out)[0])
        self.check("no server, the file", {("office_up", ""): "0"}, samples_of(self.out.read_text("utf-8")))
        for words in ([], ["--from", "ftp://x:1", "--out", self.out], ["--from", self.url], ["--from", self.url, "--listen", "0"],
                      ["--from", self.url, "--out", self.out, "--listen", "9000"], ["--from", self.url, "--out", self.out, "more"]):
            self.check(f"words that are none, status: {len(words)}", 1, self.run_tool("metrics", *words)[0])
        before, other = self.out.read_bytes(), self.file("list", "photos\nlogs\n")
        self.check("no journal, status", 3, self.metrics("--journal", self.folder / "none", "--out", self.out)[0])
        self.check("a file that is not a journal, status", 3, self.metrics("--journal", other, "--out", self.out)[0])
        self.check("no file of buckets, status", 3, self.metrics("--buckets", self.folder / "none", "--out", self.out)[0])
        self.check("a folder in place of the file, status", 4, self.metrics("--bucket", "logs", "--out", self.folder)[0])
        self.check("a folder that is none, status", 4, self.metrics("--bucket", "logs", "--out", self.folder / "a/b")[0])
        self.check("the file is as it was, and no part is left", (before, []), (self.out.read_bytes(), [*self.folder.rglob("*.part")]))


if __name__ == "__main__":
    live.main()
