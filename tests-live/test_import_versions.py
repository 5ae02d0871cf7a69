#!/usr/bin/env -S python3 -B
"""Imports listings of versions with tools/import-inventory, and compares the versions of each key with the listing."""
import csv
import io
import json

import live
from free_port import free_port
from serve_client import request

COLUMNS = "Bucket, Key, VersionId, IsLatest, IsDeleteMarker, Size, LastModifiedDate, StorageClass"


def version(key, name, latest, day, size=None, kind="STANDARD"):
    """A version as the AWS command line lists it, of this day of January 2024; a marker has no size."""
    found = {"Key": key, "VersionId": name, "IsLatest": latest, "LastModified": f"2024-01-{day:02}T00:00:00+00:00"}
    return found if size is None else {**found, "ETag": '"x"', "Size": size, "StorageClass": kind}


# S3 lists the newest version of a key first. The last key's current version was begun as an upload before the one below it.
LISTING = {"Name": "photos", "Versions": [
    version("a", "v3", True, 9, 30, "GLACIER"), version("a", "v1", False, 3, 10), version("a", "null", False, 1, 5),
    version("back", "w2", True, 6, 2), version("back", "w1", False, 4, 1), version("gone", "u", False, 2, 7),
    version("same", "s2", True, 5, 2), version("same", "s1", False, 5, 1), version("slow", "t2", True, 7, 2), version("slow", "t1", False, 8, 1)],
    "DeleteMarkers": [version("a", "v2", False, 5), version("gone", "m", True, 2), version("back", "wm", False, 5)], "Prefix": None}
WANTED = {"a": [30, None, 10, 5], "back": [2, None, 1], "gone": [None, 7], "same": [2, 1], "slow": [2, 1]}


class ImportVersions(live.Case):
    in_memory = True

    def setUp(self):
        super().setUp()
        self.server = self.serve("versions")
        self.to = f"http://127.0.0.1:{self.server.port}"

    def run_it(self, *words):
        status, _, notes = self.run_tool("import-inventory", *words)
        return status, notes

    def write_json(self, name, found):
        (self.folder / name).write_text(json.dumps(found), encoding="utf-8")
        return name

    def write_csv(self, name, rows):
        text = io.StringIO(newline="")
        csv.writer(text, quoting=csv.QUOTE_ALL).writerows(rows)
        (self.folder / name).write_text(text.getvalue(), encoding="utf-8")
        return name

    def ask(self, target):
        with self.server.client() as client:
            return json.loads(client.ask(request("GET", target))[1])

    def sizes(self, bucket, keys=tuple(WANTED)):
        """The versions of some keys, newest first: the size of an object, nothing of a marker."""
        return {key: [it.get("size") for it in self.ask(f"/buckets/{bucket}/objects/{key}").get("versions", [])] for key in keys}

    def test_json(self):
        listing = self.write_json("photos.json", LISTING)
        status, notes = self.run_it("--to", self.to, listing)
        told = "put 10, delete markers put 3, refused 0; left out: noncurrent versions 0, delete markers 0, second rows of a key 0"
        self.check("JSON with versions, status and the last line", (0, True, True, True),
                   (status, told in notes, "ages begin at the import" in notes, "version numbers are new" in notes))
        self.check("JSON with versions, each key's versions", WANTED, self.sizes("photos"))
        found = self.ask("/buckets/photos")
        self.check("JSON with versions, the bucket", ("Enabled", 13), (found["versioning"], found["versions"]))
        self.check("the class of a version", "GLACIER", self.ask("/buckets/photos/objects/a")["versions"][0]["class"])
        self.check("the same words again", (0, 13), (self.run_it("--to", self.to, listing)[0], self.ask("/buckets/photos")["versions"]))
        self.check("suspended at the end", (0, "Suspended"), (self.run_it("--to", self.to, "--suspended", "photos", listing)[0],
                                                              self.ask("/buckets/photos")["versioning"]))
        self.check("a bucket of --suspended that is not there, status", 1, self.run_it("--to", self.to, "--suspended", "other", listing)[0])
        status, _ = self.run_it("--to", self.to, "--bucket", "current", "--current", self.write_json("current.json", {**LISTING, "Name": "current"}))
        found = self.ask("/buckets/current")
        self.check("current ones alone", (0, "Unversioned", 4), (status, found["versioning"], found["versions"]))

    def test_csv(self):
        """An inventory in no order, of a bucket with versions and one without."""
        rows = [("pics", it["Key"], it["VersionId"], str(it["IsLatest"]).lower(), str("Size" not in it).lower(), it.get("Size", ""),
                 it["LastModified"].replace("+00:00", ".000Z"), it.get("StorageClass", ""))
                for it in sorted(LISTING["Versions"] + LISTING["DeleteMarkers"], key=lambda it: (it["VersionId"][1:], it["Key"]), reverse=True)]
        rows[3:3] = [("flat", "k", "", "true", "false", 1, "2024-01-01T00:00:00.000Z", "STANDARD")]
        refused = [("pics", "odd", "q", "true", "false", 1, "2024-01-01T00:00:00.000Z", "INTELLIGENT_TIERING"),
                   ("pics", "%FF", "q", "true", "true", "", "2024-01-01T00:00:00.000Z", "")]
        status, notes = self.run_it("--to", self.to, "--schema", COLUMNS, "--names", "names", self.write_csv("pics.csv", rows + refused))
        self.check("CSV with versions, status", (5, True), (status, "put 11, delete markers put 3, refused 2;" in notes))
        self.check("CSV with versions, each key's versions", WANTED, self.sizes("pics"))
        self.check("CSV with versions, what is refused", ["pics,%FF,refused: BadKey", "pics,odd,refused: UnsupportedClass"],
                   sorted((self.folder / "names").read_text("utf-8").splitlines()))
        self.check("a bucket without versions", "Unversioned", self.ask("/buckets/flat")["versioning"])
        status, notes = self.run_it("--schema", COLUMNS, "--out", "requests", self.write_csv("twice.csv", rows[:1] * 2))
        self.check("two rows of a version", (0, True), (status, "second rows of a key 1;" in notes))

    def test_stopped_in_the_middle(self):
        """A tool that is killed in the middle; the same words go on, and each version is put once."""
        versions = [version(f"k{n % 40:02}", f"v{n}", n >= 160, 1 + n // 40, n) for n in range(200)]
        markers = [version(f"k{n:02}", f"m{n}", False, 3) for n in range(40)]
        name = self.write_json("load.json", {"Name": "load", "Versions": versions[::-1], "DeleteMarkers": markers})

        def kill(tool):
            tool.kill()
            tool.wait()
        self.check("a tool that is killed in the middle, status", -9, self.relay(self.server, free_port(), ["--state", "state", name], 104, kill))
        self.move_state("state", self.server)
        there = self.ask("/buckets/load")["versions"]
        self.check("some versions are there", True, 90 < there < 110)
        status, notes = self.run_it("--to", self.to, "--state", "state", name)
        self.check("the same words go on, status", (0, True), (status, "put 200, delete markers put 40, refused 0" in notes))
        wanted = {f"k{n:02}": [n + 160, n + 120, None, n + 80, n + 40, n] for n in range(40)}
        self.check("each version is put once, in order", wanted, self.sizes("load", tuple(wanted)))


if __name__ == "__main__":
    live.main()
