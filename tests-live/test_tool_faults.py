#!/usr/bin/env -S python3 -B
"""Shows what the tools say if the server is not there, ends in the middle, refuses, or is another one, and if a file is not what it
says: a status of their --help, one line, and nothing half done."""
import datetime
import gzip
import json
import signal
import socket
import subprocess

import live
from free_port import free_port
from live import TOOLS
from odd_server import LOSE_REPLY, LOSE_REQUEST, Odd, reply
from serve_client import request

RULES = {"Rules": [{"ID": "gone", "Status": "Enabled", "Filter": {"Prefix": "tmp/"}, "Expiration": {"Date": "2024-01-05T00:00:00Z"}}]}
MONTH = "2024-01"


def meters(**more):
    """The reply of a bucket's meters with one class, of which some fields are others."""
    return json.dumps({"bucket": "logs", "month": MONTH, "classes": [{"byte_ms": "5", "class": "STANDARD", "early_byte_ms": "0", "moves": 0, **more}]})


# What no program of ours says, whatever was asked.
STRANGE = {
    "a page": reply(200, "<html>"), "a page that was not found": reply(404, "<html>"), "nothing": reply(200, ""), "a list": reply(200, "[]"),
    "an object of others": reply(200, '{"ok":true}'), "half an object": reply(200, '{"action":"none"'), "deep lists": reply(200, "[" * 100_000),
    "half a pair of code units": reply(200, '{"action":"none","key":"\\ud800"}'), "an action of others": reply(200, '{"action":"burn"}'),
    "a list of actions": reply(200, '{"action":["remove"]}'), "rules that are none": reply(200, '{"Rules":[5]}'), "a CSV": reply(200, "a,b\n", "text/csv"),
    "a body that ends early": reply(200, "{}", length=99), "no reply": b"", "noise": b"\x16\x03\x01\r\n\r\n", "no status": b"HTTP/1.1 abc\r\n\r\n",
    "another place": b"HTTP/1.1 301 x\r\nlocation: /\r\ncontent-length: 0\r\n\r\n", "chunks that are none": b"HTTP/1.1 200 x\r\ntransfer-encoding: chunked\r\n\r\nz\r\n",
    "no class": reply(200, meters().replace('"class"', '"name"')), "classes that are none": reply(200, '{"bucket":"logs","month":"2024-01","classes":{}}'),
    "a number in place of a text": reply(200, meters(byte_ms=5)), "a text in place of a number": reply(200, meters(moves="1")),
    "a number below 0": reply(200, meters(byte_ms="-5")), "a fraction": reply(200, meters(early_byte_ms="1.5")), "true": reply(200, meters(moves=True)),
    "a number without end": reply(200, meters(byte_ms="9" * 5_000)), "the meters of another bucket": reply(200, meters().replace("logs", "rest")),
}
# Refusals of the program, which each tool tells with its status 2 or 5 and the name.
REFUSALS = ((400, "BadBucketName", 10), (404, "NoSuchBucket", 81), (409, "ClockEnd", 91), (500, "NoMemory", 115), (503, "StoreFault", 114))


def one_line(words, found):
    """Whether the notes end with one line of the tool, and no reader of Python has any."""
    lines = found[2].splitlines()
    return bool(lines) and all(it.startswith(f"{words[0]}: ") for it in lines) and "Traceback" not in found[2]


class ToolFaults(live.Case):
    def setUp(self):
        super().setUp()
        self.file("rules.json", json.dumps(RULES))
        self.file("other.json", json.dumps(RULES).replace("gone", "other"))
        self.file("listing.csv", "Bucket,Key,Size\nlogs,a,5\n")
        self.server = self.serve()
        self.odd = Odd(self.server.port)
        self.odd.__enter__()
        self.addCleanup(self.odd.__exit__)
        self.at = f"http://127.0.0.1:{self.odd.port}"

    def words_of(self, port):
        """A command line of each tool that asks a server."""
        at, rules, listing = f"http://127.0.0.1:{port}", self.folder / "rules.json", self.folder / "listing.csv"
        return (("act-all", "--to", at, "--bucket", "logs"), ("act-all", "--to", at, "--bucket", "logs", "--dry-run"),
                ("month-end", "--server", at, "--bucket", "logs", MONTH), ("usage", "--from", at, "--bucket", "logs", "--out", "out", MONTH),
                ("metrics", "--from", at, "--bucket", "logs", "--out", "prom"), ("lifecycle", "--to", at, "--bucket", "logs", "get"),
                ("lifecycle", "--to", at, "--bucket", "logs", "--yes", "add", rules), ("import-inventory", "--to", at, listing))

    def fill(self):
        """Two buckets, each with two objects that are due."""
        with self.server.client() as client:
            for bucket in ("one", "two"):
                client.ask(request("PUT", f"/buckets/{bucket}"))
                for key in ("tmp/1", "tmp/2"):
                    client.ask(request("PUT", f"/buckets/{bucket}/objects/{key}", '{"size":1000}'))
                client.ask(request("PUT", f"/buckets/{bucket}/lifecycle", json.dumps(RULES)))

    def everywhere(self, name, port, wanted):
        """Each tool against this server: which statuses are wrong, and which notes."""
        wrong = []
        for words in self.words_of(port):
            found = self.run_tool(*words)
            if found[0] not in wanted or not one_line(words, found):
                wrong.append((words[0], words[-1], *found))
            (self.folder / "listing.csv.import").unlink(missing_ok=True)
        self.check(name, [], wrong)

    def test_a_server_that_ends_in_the_middle(self):
        """A server that ends while a tool is at work, and the same words again."""
        self.fill()
        both = ("--bucket", "one", "--bucket", "two")
        for lost in (LOSE_REQUEST, LOSE_REPLY):
            self.odd.replies = {("POST", "/buckets/two/act"): lost}
            status, _, notes = self.run_tool("act-all", "--to", self.at, *both)
            self.check(f"act-all, {lost}: status, and what was done", (2, True), (status, "1 of 2 buckets, refused 0; actions" in notes))
        self.odd.replies = {}
        # Of the two actions of the second bucket one was done, and its reply was lost.
        status, _, notes = self.run_tool("act-all", "--to", self.at, *both)
        self.check("act-all, the same words go on", (0, True), (status, "2 of 2 buckets, refused 0; actions 1: remove 1" in notes))
        self.odd.replies = {("GET", f"/buckets/two/meters/{MONTH}"): LOSE_REPLY}
        self.check("usage, status", 2, self.run_tool("usage", "--from", self.at, *both, "--out", "out", MONTH)[0])
        self.check("usage, no file", False, (self.folder / "out").exists())
        self.odd.replies = {("GET", "/buckets/two"): LOSE_REPLY}
        self.check("metrics, status", 2, self.run_tool("metrics", "--from", self.at, *both, "--out", "prom")[0])
        self.check("metrics, the office is down", True, (self.folder / "prom").read_text("utf-8").endswith("\noffice_up 0\n"))
        self.odd.replies = {("PUT", "/buckets/one/lifecycle"): LOSE_REPLY}
        change = ("lifecycle", "--to", self.at, "--bucket", "one", "--yes", "set", "other.json")
        self.check("lifecycle, status", 2, self.run_tool(*change)[0])
        self.odd.replies = {}
        status, _, notes = self.run_tool(*change)
        self.check("lifecycle, it was set", (0, "lifecycle: nothing changes, and nothing was sent"), (status, notes))

    def test_stopped_by_the_keyboard(self):
        """Somebody stops each tool while a server that says nothing is asked."""
        # A shell lets what runs in the background ignore this signal, and its children with it.
        self.addCleanup(signal.signal, signal.SIGINT, signal.signal(signal.SIGINT, signal.default_int_handler))
        with socket.create_server(("127.0.0.1", 0)) as door:
            for words in self.words_of(door.getsockname()[1]):
                with subprocess.Popen([TOOLS / words[0], *words[1:]], cwd=self.folder, stderr=subprocess.PIPE, text=True) as tool:
                    with door.accept()[0] as link:
                        link.recv(10)
                        tool.send_signal(signal.SIGINT)
                        said = tool.stderr.read().splitlines()
                status = 7 if words[0] == "lifecycle" else 2
                self.check(f"{words[0]} is stopped", (status, True), (tool.returncode, said[-1].startswith(f"{words[0]}: stopped") and len(said) < 3))
                (self.folder / "listing.csv.import").unlink(missing_ok=True)

    def test_closed_streams(self):
        """Standard output or standard error is closed, or nobody reads it."""
        self.fill()
        self.file("report.csv", "bucket,line,class,quantity,price,charge\n,total,,,,0\n")
        asked = (f"act-all --to {self.at} --bucket one --dry-run", f"usage --from {self.at} --bucket one {MONTH}", f"metrics --from {self.at} --bucket one --out -",
                 f"lifecycle --to {self.at} --bucket one get", "merge-reports report.csv")
        for line in asked:
            for where, status in ((">&-", 4), (">/dev/full", 4), ("2>&-", 0)):
                said = self.ended(["sh", "-c", f"{TOOLS}/{line} {where}"], text=True)
                self.check(f"{line.split()[0]} {where}, status and notes", (status, status // 4), (said.returncode, len(said.stderr.splitlines())))
        # A note does not go to standard output in place of standard error.
        this = datetime.datetime.now(datetime.timezone.utc).strftime("%Y-%m")
        said = self.ended(["sh", "-c", f"{TOOLS}/usage --from {self.at} --bucket one {this} 2>&-"], text=True)
        self.check("usage of this month 2>&-, no note among the rows", (0, False), (said.returncode, "is not over" in said.stdout))

    def test_bad_files(self):
        """Files that are not what they say."""
        self.fill()
        huge = "9" * 5_000
        state = '{"format_version":"1.0","values":%s}'
        rows = [("lifecycle", "--to", self.at, "--bucket", "one", "--yes", "set"), 3, {
            "a number in place of a state": state % "5", "a state with modules of others": state % '{"root_module":{"resources":[5]}}',
            "a state with rules of others": state % ('{"root_module":{"resources":[{"type":"aws_s3_bucket_lifecycle_configuration","address":"a",'
                                                     '"values":{"bucket":"one","rule":[5]}}]}}'),
            "deep lists": "[" * 100_000, "a number without end": '{"Rules":[{"Days":%s}]}' % huge, "nothing": "", "a CSV": "a,b\n", "noise": b"\xff\x00",
            "a picture of Python": "{'Rules': [__import__('os')]}"}]
        tags = [rows[0], 5, {"tags that are none": '{"Rules":[{"ID":"a","Status":"Enabled","Filter":{"Tags":5},"Expiration":{"Days":3}}]}'}]
        lists = [("import-inventory", "--to", self.at, "--bucket", "one"), 3, {
            "a listing of numbers": '{"Versions":5}', "a listing with a name of others": '{"Name":5,"Versions":[]}',
            "a version of others": '{"Versions":[{"Key":"a","Size":1,"VersionId":[1]}]}', "a class of others": '{"Versions":[{"Key":"a","Size":1,"StorageClass":5}]}',
            "a size without end": f"Bucket,Key,Size\none,a,{huge}\n", "deep lists": '{"a":' * 100_000, "an open quote": 'Bucket,Key,Size\none,"a,5\n',
            "half a packed file": gzip.compress(b"Bucket,Key,Size\none,a,5\n" * 9)[:-9], "noise": b"\xff\x00", "nothing": "", "a folder": None}]
        names = [("act-all", "--to", self.at, "--buckets"), 3, {"names that are no UTF-8": b"\xff\n", "a folder": None}]
        journals = [("month-end", "--server", self.at, MONTH, "--journal"), 3, {
            "a text": "none\n", "a journal that is cut": b"\xa5METERJRN1\xa5\x00\x00", "a folder": None, "nothing": ""}]
        for words, status, files in (rows, tags, lists, names, journals):
            for name, data in files.items():
                path = self.folder if data is None else self.folder / "bad"
                if data is not None:
                    path.write_bytes(data if isinstance(data, bytes) else data.encode())
                found = self.run_tool(*words, path)
                self.check(f"{words[0]}, {name}", (status, True), (found[0], one_line(words, found) or status == 5))
        self.check("of all these nothing was sent", [],
                   [it for it in self.odd.asked if it[0] in ("POST", "PUT", "DELETE") and it[1] != "/buckets/one/lifecycle"])

    def test_no_server(self):
        self.everywhere("nobody listens", free_port(), {2})
        self.nothing_is_written()

    def test_servers_of_others(self):
        for name, said in STRANGE.items():
            self.odd.always = said
            self.everywhere(name, self.odd.port, {2})
        self.odd.always = reply(502, "<html>")
        self.everywhere("a proxy without a server", self.odd.port, {2})
        self.nothing_is_written()

    def test_refusals(self):
        self.odd.always = reply(409, '{"error":"\\u001b[31m","number":[1]}')
        self.everywhere("a refusal with marks of a terminal", self.odd.port, {2, 5})
        for status, error, number in REFUSALS:
            self.odd.always = reply(status, f'{{"error":"{error}","number":{number}}}')
            self.everywhere(f"refused: {status} {error}", self.odd.port, {2, 5})
        self.nothing_is_written()

    def nothing_is_written(self):
        self.check("no file was written but the one of metrics", ["listing.csv", "other.json", "prom", "rules.json", "served"],
                   sorted(it.name for it in self.folder.iterdir()))


if __name__ == "__main__":
    live.main()
