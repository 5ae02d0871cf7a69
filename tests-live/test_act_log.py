#!/usr/bin/env -S python3 -B
"""Sweeps with tools/act-all --json and --log, is stopped at each place, and compares the lines with what the program did."""
import json
import signal
import socket
import subprocess

import live
from odd_server import LOSE_REPLY, LOSE_REQUEST, Odd
from serve_client import entries_of, request
from spelled import create, frame, journal, rules, text

PAST = "2024-01-05T00:00:00Z"
RULES = {"Rules": [
    {"ID": "gone", "Status": "Enabled", "Filter": {"Prefix": "tmp/"}, "Expiration": {"Date": PAST}},
    {"ID": "cold", "Status": "Enabled", "Filter": {"And": {"Prefix": "raw/", "ObjectSizeGreaterThan": 1}},
     "Transitions": [{"Date": PAST, "StorageClass": "GLACIER"}]}]}
FIELDS = ["bucket", "key", "version", "upload", "kind", "class", "marker", "since", "rule"]


class ActLog(live.Case):
    def setUp(self):
        super().setUp()
        self.server, self.log = self.serve(), self.folder / "actions.jsonl"
        self.journal = self.folder / "served" / "office-data" / "journal"
        if not self.journal.exists():
            self.skipTest("this program keeps no journal")
        self.client = self.server.client()
        self.addCleanup(self.client.socket.close)
        self.at = f"http://127.0.0.1:{self.server.port}"

    def ask(self, method, target, body=None):
        status, said = self.client.ask(request(method, target, "" if body is None else json.dumps(body)))
        return status, json.loads(said)

    def fill(self, *buckets, enabled=(), count=2):
        """Buckets with objects that expire, one that is moved, and one that stays."""
        for bucket in buckets:
            self.ask("PUT", f"/buckets/{bucket}")
            if bucket in enabled:
                self.ask("PUT", f"/buckets/{bucket}/versioning", {"Status": "Enabled"})
            for key in (*(f"tmp/{it}" for it in range(count)), "raw/é", "kept"):
                self.ask("PUT", f"/buckets/{bucket}/objects/{key.replace('é', '%C3%A9')}", {"size": 1000})
            self.ask("PUT", f"/buckets/{bucket}/lifecycle", RULES)

    def act_all(self, *words, at=None):
        return self.run_tool("act-all", "--server", at or self.at, "--journal", self.journal, *words)

    def lines(self):
        return [json.loads(it) for it in self.log.read_text("utf-8").splitlines()]

    def acts(self):
        """The buckets of the actions that are in the journal, in order."""
        return [entry[11:].decode() for entry in entries_of(self.journal.parent.parent) if entry[8] == 0x0D]

    def complete(self, name):
        """Each action of the journal has one line, in order, and no line has another one."""
        self.check(f"{name}: a line for each action", self.acts(), [it["bucket"] for it in self.lines()])
        self.check(f"{name}: none is there twice", len(self.lines()), len({tuple(it.items()) for it in self.lines()}))

    def test_the_lines(self):
        self.fill("plain", "many", enabled=("many",))
        status, said, _ = self.act_all("--json", "--log", self.log)
        lines = [json.loads(it) for it in said.splitlines()]
        self.check("status, and the same lines in the file", (0, said), (status, self.log.read_text("utf-8")))
        self.check("the fields of each line", [FIELDS] * 6, [[*it] for it in lines])
        found = [tuple(it[name] for name in ("bucket", "key", "version", "kind", "class", "marker", "rule")) for it in lines]
        self.check("each action", [
            ("plain", "tmp/0", "null", "remove", None, None, "gone"), ("plain", "tmp/1", "null", "remove", None, None, "gone"),
            ("plain", "raw/é", "null", "transition", "GLACIER", None, "cold"), ("many", "raw/é", "3", "transition", "GLACIER", None, "cold"),
            ("many", "tmp/0", "1", "marker", None, "5", "gone"), ("many", "tmp/1", "2", "marker", None, "6", "gone")], found)
        self.complete("a whole sweep")
        self.check("again, no line more", (0, "", 6), (*self.act_all("--json", "--log", self.log)[:2], len(self.lines())))
        state = json.loads((self.folder / "actions.jsonl.state").read_text())
        self.check("how the run ended", (2, 0, [], 0), tuple(state[name] for name in ("buckets", "refused", "left", "actions")))
        self.fill("third")
        self.check("--json without a file", (0, 3), ((it := self.act_all("--json"))[0], len(it[1].splitlines())))

    def test_an_upload_is_aborted(self):
        rule = ('{"Rules":[{"AbortIncompleteMultipartUpload":{"DaysAfterInitiation":7},"Filter":{"Prefix":""},"ID":"stop","Status":"Enabled"}],'
                '"TransitionDefaultMinimumObjectSize":"all_storage_classes_128K"}')
        path = self.new_folder("uploads") / "office-data" / "journal"
        path.write_bytes(journal(create(1, "logs"), rules(1, "logs", rule), frame(2, 9, text("logs") + text("big") + b"\0\0")))
        server = self.serve("uploads")
        self.check("status", 0, self.run_tool("act-all", "--server", f"http://127.0.0.1:{server.port}", "--journal", path, "--log", self.log)[0])
        self.check("the line", [dict(zip(FIELDS, ("logs", "big", None, 1, "abort", None, None, "2024-01-09T00:00:00.000Z", "stop")))], self.lines())

    def test_replies_and_requests_are_lost(self):
        self.fill("one", "two", enabled=("two",), count=3)
        with Odd(self.server.port) as odd:
            at = f"http://127.0.0.1:{odd.port}"
            for bucket in ("one", "two", "two"):
                for lost in (LOSE_REQUEST, LOSE_REPLY, LOSE_REPLY):
                    odd.replies = {("POST", f"/buckets/{bucket}/act"): lost}
                    self.check(f"{bucket}, {lost}: status", 2, self.act_all("--log", self.log, at=at)[0])
            odd.replies = {}
            status, _, notes = self.act_all("--log", self.log, at=at)
            self.check("the same words go on", (0, True), (status, "its line is written now" in notes.splitlines()[0]))
        self.complete("replies were lost")
        self.check("a marker's version is found", ["6", "7", "8"], [it["marker"] for it in self.lines() if it["kind"] == "marker"])

    def test_cut_off_at_each_write(self):
        """The file and its state as a stop leaves them: a part of the last line, or none of it."""
        self.fill("logs", count=4)
        with Odd(self.server.port) as odd:
            odd.replies = {("POST", "/buckets/logs/act"): LOSE_REPLY}
            self.act_all("--log", self.log, at=f"http://127.0.0.1:{odd.port}")
        state = self.folder / "actions.jsonl.state"
        kept = state.read_text("utf-8")
        self.check("one more is done", 6, self.act_all("--log", self.log, "--most", "1")[0])
        first = self.log.read_bytes().split(b"\n")[0] + b"\n"
        self.complete("settled")
        # The same stop again, with the file and its state as they were then; the actions behind it are done by now.
        for count in (0, 1, len(first) // 2, len(first) - 1, len(first)):
            self.log.write_bytes(first[:count])
            state.write_text(kept)
            status, _, notes = self.act_all("--log", self.log, "--most", "1")
            self.check(f"{count} bytes of the line", (True, first, count < len(first)), (status in (0, 6), self.log.read_bytes()[:len(first)],
                                                                                          "its line is written now" in notes))
        self.log.write_bytes(b"")
        state.write_text(kept + kept.splitlines()[1][:30])
        self.check("a part of a line of the state", (0, first), (self.act_all("--log", self.log)[0], self.log.read_bytes()[:len(first)]))

    def test_killed(self):
        self.fill("logs", enabled=("logs",), count=150)
        for after in (3, 20, 47, 90):
            words = [live.TOOLS / "act-all", "--server", self.at, "--journal", self.journal, "--log", self.log, "--json"]
            with subprocess.Popen(words, cwd=self.folder, stdout=subprocess.PIPE, stderr=subprocess.DEVNULL) as tool:
                for _ in range(after):
                    tool.stdout.readline()
                tool.kill()
            self.check(f"lines and actions differ by the last at most, {after}", True, 0 <= len(self.acts()) - len(self.log.read_text().splitlines()) <= 1)
        self.check("the last run, status", 0, self.act_all("--log", self.log)[0])
        self.complete("killed four times")
        self.check("all are done", 151, len(self.lines()))

    def test_others_change_the_bucket(self):
        self.fill("logs", count=3)
        with Odd(self.server.port) as odd:
            at = f"http://127.0.0.1:{odd.port}"
            odd.replies = {("POST", "/buckets/logs/act"): LOSE_REQUEST}
            self.act_all("--log", self.log, at=at)
        self.ask("DELETE", "/buckets/logs/objects/tmp/0")
        self.check("another one sweeps", 0, self.run_tool("act-all", "--server", self.at, "--bucket", "logs")[0])
        status, _, notes = self.act_all("--log", self.log)
        self.check("it is not known what was done", (0, True, ["unknown"]), (status, "the bucket was changed just before it: see the entry of the journal at"
                                                                             in notes, [it["kind"] for it in self.lines()]))

    def test_what_cannot_be_done(self):
        self.fill("logs")
        self.check("--log without --journal", (1, "", "act-all: --log needs --journal, which tells after a stop what was done"),
                   self.run_tool("act-all", "--server", self.at, "--bucket", "logs", "--log", self.log))
        self.check("--log of a dry run", 1, self.act_all("--dry-run", "--log", self.log)[0])
        self.check("a folder", 4, self.act_all("--log", self.folder)[0])
        self.check("no folder", 4, self.act_all("--log", self.folder / "none" / "x")[0])
        state = self.folder / "actions.jsonl.state"
        for name, text in (("noise", "x\n"), ("a list", "[]\n")):
            state.write_text(text)
            self.check(f"a state that is {name}", (4, f"act-all: {state}: not a state of this tool; move it away"),
                       ((it := self.act_all("--log", self.log))[0], it[2].splitlines()[0]))
        state.unlink()
        self.check("nothing was done", [], self.acts())
        with open(self.log, "ab") as file:
            import fcntl
            fcntl.flock(file, fcntl.LOCK_EX)
            self.check("another run is at work", (2, "", f"act-all: {self.log}: another run writes to it"), self.act_all("--log", self.log))
        if not live.os.path.exists("/dev/full"):
            return
        self.check("a full output, status", 4, self.ended(["sh", "-c", f"{live.TOOLS}/act-all --server {self.at} --journal {self.journal} --json "
                                                           f"--log {self.log} >/dev/full"]).returncode)
        self.check("the line is in the file all the same", (1, self.acts()), (len(self.lines()), [it["bucket"] for it in self.lines()]))

    def test_month_end_has_the_file_too(self):
        self.fill("logs")
        storage = "\n".join(f"{it} = 5" for it in live.CLASSES)
        self.client.ask(request("PUT", "/tariff", f"[storage]\n{storage}\n[transition]\n" + storage.partition("\n")[2] + "\n"))
        month = json.loads(self.client.ask(request("POST", "/months/2026-12/close"))[1])
        self.check("the month is not over", "MonthNotOver", month.get("error"))
        status = self.run_tool("month-end", "--server", self.at, "--journal", self.journal, "--log", self.log, "2020-01")[0]
        self.check("a month before the first command: what is due is done", (0, 3), (status, len(self.lines())))
        self.complete("month-end")

    def test_stopped_by_hand(self):
        self.fill("logs", count=3)
        with socket.create_server(("127.0.0.1", 0)) as door:
            words = [live.TOOLS / "act-all", "--server", f"http://127.0.0.1:{door.getsockname()[1]}", "--journal", self.journal, "--log", self.log]
            with subprocess.Popen(words, cwd=self.folder, stderr=subprocess.PIPE, text=True) as tool:
                with door.accept()[0] as link:
                    link.recv(10)
                    tool.send_signal(signal.SIGINT)
                    said = tool.stderr.read().splitlines()
        self.check("status and note", (2, "act-all: stopped; the same command continues"), (tool.returncode, said[-1]))
        self.check("the same words go on", 0, self.act_all("--log", self.log)[0])
        self.complete("stopped")


if __name__ == "__main__":
    live.main()
