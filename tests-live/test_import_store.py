#!/usr/bin/env -S python3 -B
"""Imports what a listing lacks, tags and unfinished uploads, with a map of the store's version ids, and is stopped at each reply."""
import json
import signal
import sqlite3

import live
from free_port import free_port
from serve_client import entries_of, request


def version(key, name, latest, day, size=None, kind="STANDARD"):
    found = {"Key": key, "VersionId": name, "IsLatest": latest, "LastModified": f"2024-01-{day:02}T00:00:00+00:00"}
    return found if size is None else {**found, "ETag": f'"e-{name}"', "Size": size, "StorageClass": kind}


LISTING = {"Versions": [version("a", "v3", True, 9, 30, "INTELLIGENT_TIERING"), version("a", "v1", False, 3, 10, "REDUCED_REDUNDANCY"),
                        version("é b", "null", True, 4, 5), version("gone", "u", False, 2, 7)],
           "DeleteMarkers": [version("a", "v2", False, 5), version("gone", "m", True, 6)], "RequestCharged": None, "Prefix": ""}
# Oldest first: gone/u, a/v1, é b/null, a/v2, gone/m, a/v3.
NUMBERS = {("gone", "u"): "1", ("a", "v1"): "2", ("é b", "null"): "3", ("a", "v2"): "4", ("gone", "m"): "5", ("a", "v3"): "6"}
TAGS = [{"Key": "a", "VersionId": "v1", "TagSet": [{"Key": "team", "Value": "x"}, {"Key": "e", "Value": ""}]},
        {"Key": "é b", "TagSet": [{"Key": "keep", "Value": "no"}]}, {"Key": "gone", "VersionId": "u", "TagSet": []}]
UPLOADS = {"Uploads": [{"UploadId": "up2", "Key": "big", "Initiated": "2024-01-02T00:00:00Z", "StorageClass": "GLACIER"},
                       {"UploadId": "up1", "Key": "big", "Initiated": "2024-01-01T00:00:00Z", "StorageClass": "STANDARD"}], "RequestCharged": None}
PARTS = [{"UploadId": "up2", "Parts": [{"PartNumber": 1, "Size": 5_242_880, "ETag": '"x"'}, {"PartNumber": 3, "Size": 7, "ETag": '"y"'}]},
         {"UploadId": "up1", "Parts": [{"PartNumber": 10_000, "Size": 1}]}]


class ImportStore(live.Case):
    in_memory = True

    def setUp(self):
        super().setUp()
        self.file("photos.json", json.dumps(LISTING, indent=4))
        self.file("tags", "".join(json.dumps(it) + "\n" for it in TAGS))
        self.file("uploads", json.dumps(UPLOADS, indent=4))
        self.file("parts", "".join(json.dumps(it) + "\n" for it in PARTS))

    def words(self, *more):
        return ("--bucket", "photos", "--map", "store.map", "--nearest", "STANDARD_IA", "--tags", "tags", "--uploads", "uploads", "--parts", "parts",
                *more, "photos.json")

    def run_it(self, server, *words):
        status, _, notes = self.run_tool("import-inventory", "--server", f"http://127.0.0.1:{server.port}", *words)
        return status, notes

    def ask(self, server, target):
        with server.client() as client:
            return json.loads(client.ask(request("GET", target))[1])

    def check_all(self, name, server):
        """What the office and the map have then."""
        stack = self.ask(server, "/buckets/photos/objects/a")["versions"]
        self.check(f"{name}: versions, classes and tags", [(30, "STANDARD_IA", {}), (None, None, None), (10, "STANDARD_IA", {"team": "x", "e": ""})],
                   [(it.get("size"), it.get("class"), it.get("tags")) for it in stack])
        self.check(f"{name}: tags of the current version", {"keep": "no"}, self.ask(server, "/buckets/photos/objects/%C3%A9%20b")["versions"][0]["tags"])
        about = self.ask(server, "/buckets/photos")
        self.check(f"{name}: how many", (6, 2), (about["versions"], about["uploads"]))
        found = [self.ask(server, f"/buckets/photos/upload/{number}") for number in (1, 2)]
        self.check(f"{name}: uploads, the oldest first", [("STANDARD", [{"part": 10_000, "size": 1}]), ("GLACIER", [{"part": 1, "size": 5_242_880}, {"part": 3, "size": 7}])],
                   [(it["class"], it["parts"]) for it in found])
        with sqlite3.connect(self.folder / "store.map") as link:
            self.check(f"{name}: numbers in the map", NUMBERS, {(key, it): number for key, it, number in link.execute("select key, id, number from versions")})
            self.check(f"{name}: sizes and ETags", {(10, "e-v1"), (None, None), (30, "e-v3"), (5, "e-null"), (7, "e-u")}, set(link.execute("select size, etag from versions")))
            self.check(f"{name}: uploads in the map", [("up1", 1), ("up2", 2)], link.execute("select id, number from uploads order by number").fetchall())

    def test_once_and_again(self):
        server = self.serve()
        status, notes = self.run_it(server, *self.words())
        self.check(f"status: {notes}", 0, status)
        self.check("what was mapped is counted", True, "INTELLIGENT_TIERING put as STANDARD_IA: 1; REDUCED_REDUNDANCY put as STANDARD_IA: 1" in notes)
        self.check_all("once", server)
        entries = len(entries_of(server.folder))
        (self.folder / "store.map").unlink()
        status, notes = self.run_it(server, *self.words())
        self.check(f"a map that is lost is made anew, by the tokens: {notes}", (0, entries), (status, len(entries_of(server.folder))))
        self.check_all("a map that is lost", server)
        self.check("and again, by the map", (0, True), ((it := self.run_it(server, *self.words()))[0], "of these 6 by an earlier try" in it[1]))
        self.check_all("again", server)

    def test_stopped_at_each_reply(self):
        for replies in range(2, 16, 2):
            (self.folder / "store.map").unlink(missing_ok=True)
            (self.folder / "photos.json.import").unlink(missing_ok=True)
            server, port = self.serve(f"stopped {replies}"), free_port()
            self.relay(server, port, self.words(), replies, lambda tool: tool.send_signal(signal.SIGKILL))
            # The office is at another address than the import went to; its files say where it was begun.
            with self.subTest(replies):
                if (self.folder / "photos.json.import").exists():
                    self.move_state("photos.json.import", server)
                with sqlite3.connect(self.folder / "store.map") as link:
                    link.execute("update about set value = ? where name = 'office'", (f"http://127.0.0.1:{server.port}",))
                status, notes = self.run_it(server, *self.words())
                self.check(f"the same words go on after {replies} replies: {notes}", 0, status)
                self.check_all(f"after {replies} replies", server)

    def test_bad_input(self):
        server = self.serve()
        for name, words, status in (
                ("tags of a key that is not listed", ("--tags", self.file("t", '{"Key":"x","TagSet":[]}\n')), 3),
                ("tags without a key", ("--tags", self.file("t2", '{"TagSet":[]}\n')), 3), ("tags that are cut", ("--tags", self.file("t3", '{"Key":"a","TagSet":[{"Ke')), 3),
                ("a class that is none", ("--nearest", "COLD"), 1), ("uploads without a map", ("--uploads", "uploads"), 1),
                ("parts without uploads", ("--parts", "parts"), 1), ("parts of no upload", ("--map", "m", "--uploads", self.file("u", '{"Uploads":[]}'), "--parts", "parts"), 3),
                ("uploads that are cut", ("--map", "m", "--uploads", self.file("u2", json.dumps(UPLOADS)[:-9])), 3)):
            self.check(name, status, self.run_it(server, "--bucket", "photos", *words, "photos.json")[0])
        self.check("nothing was sent", "NoSuchBucket", self.ask(server, "/buckets/photos").get("error"))
        self.check("a class that is not here is refused and named", (5, True), ((it := self.run_it(server, "--bucket", "photos", "photos.json"))[0], "UnsupportedClass" in it[1]))


if __name__ == "__main__":
    live.main()
