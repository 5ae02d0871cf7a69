#!/usr/bin/env -S python3 -B
"""Applies lines of actions with tools/apply to moto on loopback, by boto3 and by the aws command, and compares the store with what each
line says; what a client put since is neither removed nor hidden."""
import http.server
import json
import os
import sqlite3
import subprocess
import sys
import threading

import live
from a_store import ACCESS, Moto, needs_moto
from free_port import free_port

sys.path.insert(0, str(live.TOOLS))
from office_tools.idmap import IdMap  # noqa: E402

FIELDS = ("bucket", "key", "version", "upload", "kind", "class", "marker", "since", "rule")
LATER, BEFORE = "2099-01-01T00:00:00.000Z", "2001-01-01T00:00:00.000Z"


def line(bucket, key, kind, **more):
    """A line of act-all --log by docs/FORMATS.md."""
    return json.dumps({**dict.fromkeys(FIELDS), "bucket": bucket, "key": key, "kind": kind, "since": LATER, "rule": "r", **more}, separators=(",", ":")) + "\n"


class Refusing(http.server.BaseHTTPRequestHandler):
    """A store that refuses all."""
    protocol_version, log_message = "HTTP/1.1", staticmethod(lambda *_: None)

    def do_GET(self):
        said = b"" if self.command == "HEAD" else b'<?xml version="1.0"?><Error><Code>AccessDenied</Code><Message>no</Message></Error>'
        self.send_response(403)
        self.send_header("Content-Type", "application/xml")
        self.send_header("Content-Length", str(len(said)))
        self.end_headers()
        self.wfile.write(said)
    do_HEAD = do_DELETE = do_PUT = do_POST = do_GET


@needs_moto
class Apply(live.Case):
    def setUp(self):
        super().setUp()
        os.environ.update(ACCESS)
        self.store = Moto()
        self.addCleanup(self.store.end)
        self.map, self.log = self.folder / "store.map", self.folder / "actions.jsonl"
        self.ids = IdMap(self.map)
        self.store.bucket("many", "Enabled")
        self.store.bucket("plain")

    def put(self, bucket, key, size, number):
        version = self.store.put(bucket, key, size)
        self.ids.keep(bucket, key, version or "null", number, size, self.store.s3.head_object(Bucket=bucket, Key=key)["ETag"])
        return version

    def apply(self, *words, store=None):
        status, said, notes = self.run_tool("apply", "--map", self.map, "--endpoint-url", store or self.store.url, *words, self.log)
        return status, [json.loads(it)["how"] for it in said.splitlines()], notes

    def has(self, bucket):
        """The versions and delete markers at the store, as (key, kind, size)."""
        found = self.store.s3.list_object_versions(Bucket=bucket)
        return sorted([(it["Key"], "object", it["Size"]) for it in found.get("Versions", [])]
                      + [(it["Key"], "marker", None) for it in found.get("DeleteMarkers", [])], key=str)

    def write(self, *found):
        self.log.write_text("".join(found), "utf-8")

    def all_kinds(self):
        """Each kind of line once, and a line that is left to the store."""
        self.put("many", "a", 1, "1")
        self.put("many", "a", 2, "2")
        self.put("many", "é +", 3, "3")
        self.put("plain", "b", 4, "null")
        gone = self.store.delete("many", "a")
        self.ids.keep("many", "a", gone, "4")
        name = self.store.s3.create_multipart_upload(Bucket="many", Key="big")["UploadId"]
        self.ids.keep_upload("many", name, "big", 1)
        self.write(line("many", "a", "remove", version="1"), line("many", "é +", "marker", version="3", marker="5"),
                   line("plain", "b", "remove", version="null"), line("many", "big", "abort", upload=1),
                   line("many", "a", "transition", version="2", **{"class": "GLACIER"}), line("many", "a", "remove", version="4"))

    def check_each_kind(self, *client):
        self.all_kinds()
        before = (self.has("many"), self.has("plain"))
        status, how, notes = self.apply(*client)
        would = ["would be done"] * 4 + ["left to the store", "would be done"]
        self.check(f"dry by default: {notes}", (0, would, before), (status, how, (self.has("many"), self.has("plain"))))
        status, how, notes = self.apply(*client, "--yes", "--limit", "2")
        self.check(f"a limit: {notes}", (6, ["done"] * 2), (status, how))
        status, how, notes = self.apply(*client, "--yes")
        wanted = [("a", "object", 2), ("é +", "marker", None), ("é +", "object", 3)]
        self.check(f"all: {notes}", (0, ["there already"] * 2 + ["done"] * 2 + ["left to the store", "done"], wanted, []),
                   (status, how, self.has("many"), self.has("plain")))
        self.check("no upload is left", None, self.store.s3.list_multipart_uploads(Bucket="many").get("Uploads"))
        self.check("says that transitions are left", True, "left to the store 1 (transitions)" in notes)
        with sqlite3.connect(self.map) as link:
            self.check("the new delete marker is in the map", 1, link.execute("select count(*) from versions where number = '5' and id <> ''").fetchone()[0])
            link.execute("delete from applied")  # as if it was stopped behind each reply
        status, how, _ = self.apply(*client, "--yes")
        self.check("nothing is done twice", (0, ["there already"] * 4 + ["left to the store", "there already"], wanted), (status, how, self.has("many")))

    def test_by_boto3(self):
        self.check_each_kind("--client", "boto3")

    @live.needs("aws")
    def test_by_aws(self):
        self.check_each_kind("--client", "aws")

    def test_what_a_client_did_since(self):
        old = self.put("many", "k", 1, "1")
        self.put("plain", "late", 1, "null")
        self.put("plain", "other", 1, "null")
        self.store.put("many", "k", 2)
        self.store.s3.put_object(Bucket="plain", Key="other", Body=b"y")
        self.ids.keep("many", "size", self.store.put("many", "size", 5), "2", 6)
        self.write(line("many", "k", "marker", version="1", marker="9"), line("plain", "late", "remove", version="null", since=BEFORE),
                   line("plain", "other", "remove", version="null"), line("many", "size", "remove", version="2"), line("many", "k", "remove", version="7"),
                   line("many", "k", "abort", upload=5), line("many", "k", "unknown"))
        twice = self.put("many", "twice", 3, "8")
        self.ids.keep("many", "twice", "another id with this number", "8", 3)
        self.write(self.log.read_text("utf-8"), line("many", "twice", "remove", version="8"))
        before = (self.has("many"), self.has("plain"))
        status, how, notes = self.apply("--yes")
        self.check(f"a number that two ids have: {twice}", True, "refused 8" in notes)
        self.check(f"all are refused: {notes}", (5, ["refused"] * 8, before), (status, how, (self.has("many"), self.has("plain"))))
        self.store.remove("many", "k", old)
        self.write(line("many", "k", "remove", version="1"), line("plain", "none", "remove", version="null"))
        self.check("what is gone already", (0, ["there already"] * 2), self.apply("--yes")[:2])
        self.store.s3.put_bucket_versioning(Bucket="plain", VersioningConfiguration={"Status": "Suspended"})
        self.write(line("plain", "late", "remove", version="null"))
        self.apply("--yes")
        self.check("a null version is removed, and not hidden", ["other"], [it[0] for it in self.has("plain")])

    def test_bad_input(self):
        self.all_kinds()
        text, before = self.log.read_text("utf-8"), self.has("many")
        self.log.write_text(text[:-20], "utf-8")
        status, how, notes = self.apply()
        self.check("a last line that is not whole", (0, 5, True), (status, len(how), "is not whole" in notes))
        for name, bad in (("no JSON", "hello\n"), ("another object", '{"a":1}\n'), ("a list", "[]\n")):
            self.log.write_text(text + bad, "utf-8")
            self.check(f"{name}: nothing is done", (3, [], before), (*self.apply("--yes")[:2], self.has("many")))
        self.log.write_text(text, "utf-8")
        self.check("another bucket", (0, 1), ((it := self.apply("--bucket", "plain"))[0], len(it[1])))
        self.check("no map", 3, self.run_tool("apply", "--map", "none", self.log)[0])
        self.check("a store that does not answer", 2, self.apply("--yes", store=f"http://127.0.0.1:{free_port()}")[0])
        door = http.server.ThreadingHTTPServer(("127.0.0.1", 0), Refusing)
        self.addCleanup(door.server_close)
        threading.Thread(target=door.serve_forever, daemon=True).start()
        self.addCleanup(door.shutdown)
        for client in ("boto3", "aws") if live.has("aws") else ("boto3",):
            status, how, notes = self.apply("--yes", "--client", client, store=f"http://127.0.0.1:{door.server_address[1]}")
            self.check(f"a store that refuses, by {client}: {notes}", (5, ["refused"] * 4 + ["left to the store", "refused"]), (status, how))
        self.check("and nothing was noted as done", (0, ["done"] * 4 + ["left to the store", "done"]), self.apply("--yes")[:2])
        self.check("a report", 0, self.apply("--report", self.folder / "report", "--yes")[0])
        self.check("has a line for each", 6, len((self.folder / "report").read_text("utf-8").splitlines()))

    def test_neither_boto3_nor_aws(self):
        """The other tools need none of them."""
        self.all_kinds()
        python = "import sys; sys.modules['boto3'] = None; sys.argv[0] = 'apply'; import runpy; runpy.run_path(%r, run_name='__main__')" % str(live.TOOLS / "apply")
        ended = subprocess.run([sys.executable, "-B", "-c", f"import sys; sys.path.insert(0, {str(live.TOOLS)!r}); {python}", "--map", self.map, self.log],
                               env={**os.environ, "PATH": str(self.folder)}, capture_output=True, text=True, check=False)
        self.check("status, and the line", (2, "apply: neither boto3 nor the aws command is here"), (ended.returncode, ended.stderr.strip()))


if __name__ == "__main__":
    live.main()
