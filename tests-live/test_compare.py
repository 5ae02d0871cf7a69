#!/usr/bin/env -S python3 -B
"""Compares listings in each format with an office by tools/compare, where nothing and where one thing of each kind differs."""
import csv
import gzip
import json
import sqlite3
import urllib.parse

import live
from serve_client import request

KEYS = ["plain", "a b+c%20d", "é/€/\U0001d11e", "/front//twice/", "?#[]@!$&'()*,;=:", "k" * 1024]


class Compare(live.Case):
    in_memory = True

    def setUp(self):
        super().setUp()
        self.server = self.serve()
        self.journal, self.at = self.folder / "served" / "office-data" / "journal", f"http://127.0.0.1:{self.server.port}"

    def ask(self, method, target, body=None):
        with self.server.client() as client:
            status, said = client.ask(request(method, target, "" if body is None else json.dumps(body)))
        return status, json.loads(said)

    def put(self, bucket, key, size, name="STANDARD"):
        return self.ask("PUT", f"/buckets/{bucket}/objects/{urllib.parse.quote(key, safe='/')}", {"size": size, "class": name})[1].get("version")

    def compare(self, *words):
        """The status, the sums and the differences."""
        status, said, notes = self.run_tool("compare", "--server", self.at, "--json", *words)
        if not said:
            return status, notes, None
        found = json.loads(said)
        sums = {name: it for name, it in found["total"].items() if it}
        return status, sums, [(it["bucket"], it["key"], it["kind"], it["store"], it["office"]) for it in found["differences"]]

    def plain(self):
        """A bucket without versions, and its objects."""
        self.ask("PUT", "/buckets/plain")
        found = [(key, 10 + place, live.CLASSES[place % 6]) for place, key in enumerate(KEYS)]
        for it in found:
            self.put("plain", *it)
        return found

    def formats(self, objects, bucket="plain"):
        """The words for a listing of these objects in each format."""
        when = "2024-01-01T00:00:00.000Z"
        v2 = {"Contents": [{"Key": key, "LastModified": when, "ETag": '"x"', "Size": size, "StorageClass": name} for key, size, name in objects],
              "RequestCharged": None, "Prefix": ""}
        mc = [{"status": "success", "type": "file", "lastModified": when, "size": size, "key": key, "etag": "x", "url": "http://127.0.0.1:9000/",
               "versionOrdinal": 1, "storageClass": name} for key, size, name in objects]
        rclone = [{"Path": key, "Name": key.rpartition("/")[2], "Size": size, "MimeType": "x", "ModTime": when, "IsDir": False, "Tier": name} for key, size, name in objects]
        rows = [("Bucket", "Key", "Size", "LastModifiedDate", "StorageClass")]
        rows += [(bucket, urllib.parse.quote_plus(key, safe="/"), size, when, name) for key, size, name in objects]
        with gzip.open(self.folder / "inventory.csv.gz", "wt", encoding="utf-8", newline="") as file:
            csv.writer(file, quoting=csv.QUOTE_ALL).writerows(rows)
        return {"list-objects-v2": f"{bucket}={self.file('v2.json', json.dumps(v2, indent=4))}",
                "mc ls --json": f"{bucket}={self.file('mc.json', ''.join(json.dumps(it) + chr(10) for it in mc))}",
                "rclone lsjson": f"{bucket}={self.file('rclone.json', json.dumps(rclone, indent=0))}", "S3 Inventory": "inventory.csv.gz"}

    def test_each_format(self):
        objects = self.plain()
        for name, listing in self.formats(objects).items():
            self.check(f"{name}, the same", (0, {"same": 6}, []), self.compare(listing))
            self.check(f"{name}, the same, with the journal", (0, {"same": 6}, []), self.compare("--journal", self.journal, listing))
        (key, size, _), *others = objects
        changed = [(key, size, "GLACIER"), (others[0][0], 999, others[0][2]), *others[1:-1], ("new é", 5, "STANDARD")]
        wanted = [("plain", "new é", "missing", "5 bytes in STANDARD", None), ("plain", KEYS[0], "other_class", "GLACIER", "STANDARD"),
                  ("plain", KEYS[1], "other_size", 999, 11), ("plain", KEYS[5], "surplus", None, "15 bytes in DEEP_ARCHIVE")]
        sums = {"same": 3, "missing": 1, "surplus": 1, "other_size": 1, "other_class": 1}
        for name, listing in self.formats(changed).items():
            self.check(f"{name}, one of each kind", (5, sums, wanted), self.named(self.compare("--journal", self.journal, listing)))
            self.check(f"{name}, without the journal the surplus has no name", (5, sums, wanted[:-1]), self.named(self.compare(listing)))
        status, said, notes = self.run_tool("compare", "--server", self.at, "--journal", self.journal, "--names", "names", listing)
        self.check("a table", (5, ["plain", "3", "1", "1", "1", "1"], ["total", "3", "1", "1", "1", "1"]), (status, *[it.split() for it in said.splitlines()[1:]]))
        with open(self.folder / "names", encoding="utf-8", newline="") as file:
            self.check("names", [["bucket", "key", "store_version", "office_version", "what", "store", "office"], 4], [(it := list(csv.reader(file)))[0], len(it) - 1])

    def named(self, found):
        """The differences in one order."""
        return found if found[2] is None else (*found[:2], sorted(found[2], key=lambda it: (it[2], it[1])))

    def test_versions(self):
        self.ask("PUT", "/buckets/many")
        self.ask("PUT", "/buckets/many/versioning", {"Status": "Enabled"})
        numbers = [self.put("many", "k", size) for size in (1, 2, 3)]
        numbers += [self.ask("DELETE", "/buckets/many/objects/k")[1]["marker"], self.put("many", "k", 4)]
        self.ask("DELETE", "/buckets/many/objects/never")

        def version(place, size, key="k", latest=False):
            return {"Key": key, "VersionId": f"v{place}", "Size": size, "StorageClass": "STANDARD", "IsLatest": latest, "LastModified": f"2024-01-0{place}T00:00:00Z"}

        def marker(place, key="k", latest=False):
            return {"Key": key, "VersionId": f"m{place}", "IsLatest": latest, "LastModified": f"2024-01-0{place}T00:00:00Z"}
        versions, markers = [version(5, 4, latest=True), version(3, 3), version(2, 2), version(1, 1)], [marker(4), marker(1, "never", True)]

        def listing(versions, markers):
            return f"many={self.file('many.json', json.dumps({'Versions': versions, 'DeleteMarkers': markers, 'RequestCharged': None}))}"
        self.check("the same", (0, {"same": 6}, []), self.compare(listing(versions, markers)))
        self.check("one in the middle is here alone", (5, {"same": 5, "surplus": 1}, [("many", "k", "surplus", None, "2 bytes in STANDARD")]),
                   self.compare(listing([*versions[:2], versions[3]], markers)))
        self.check("a marker is here alone", (5, {"same": 5, "surplus": 1}, [("many", "k", "surplus", None, "delete marker")]), self.compare(listing(versions, markers[1:])))
        self.check("one is there alone", (5, {"same": 6, "missing": 1}, [("many", "k", "missing", "9 bytes in STANDARD", None)]),
                   self.compare(listing([version(6, 9, latest=True), {**versions[0], "IsLatest": False}, *versions[1:]], markers)))
        self.check("a key is here alone, and has no name", (5, {"same": 5, "surplus": 1}, []), self.compare(listing(versions, markers[:1])))
        self.check("and has one by the journal", (5, {"same": 5, "surplus": 1}, [("many", "never", "surplus", None, "delete marker")]),
                   self.compare("--journal", self.journal, listing(versions, markers[:1])))
        self.check("current objects alone", (0, {"same": 1}, []), self.compare("--current", "--journal", self.journal, listing(versions, markers)))
        self.check("an empty bucket", (5, {"surplus": 6}), self.compare(f"many={self.file('empty.json', json.dumps({'RequestCharged': None, 'Prefix': ''}))}")[:2])

        # The map says which version is which: two of the store are changed with each other.
        self.run_tool("import-inventory", "--server", self.at, "--map", "map", "--bucket", "none", self.file("none.json", json.dumps({"RequestCharged": None})))
        with sqlite3.connect(self.folder / "map") as link:
            names = ["v1", "v2", "v3", "m4", "v5"]
            link.executemany("insert into versions (bucket, key, id, number) values ('many', 'k', ?, ?)", zip(names, numbers))
        self.check("by the map", (0, {"same": 6}, []), self.compare("--map", "map", listing(versions, markers)))
        other = [versions[0], versions[1], {**versions[3], "Size": 2}, {**versions[2], "Size": 1}]
        self.check("the map knows better than the order", (5, {"same": 4, "other_size": 2}), self.compare("--map", "map", listing(other, markers))[:2])

    def test_classes_that_are_not_here(self):
        self.ask("PUT", "/buckets/plain")
        self.put("plain", "a", 1)
        listing = self.formats([("a", 1, "INTELLIGENT_TIERING")])["rclone lsjson"]
        self.check("differs", (5, {"other_class": 1}), self.compare(listing)[:2])
        self.check("--nearest", (0, {"same": 1}), self.compare("--nearest", "STANDARD", listing)[:2])

    def test_several_buckets(self):
        self.plain()
        rows = "Bucket,Key,Size,StorageClass\nplain,plain,10,STANDARD\nother,a,1,STANDARD\nBad_Name,b,1,STANDARD\n"
        status, sums, differences = self.compare("--journal", self.journal, self.file("inventory.csv", rows))
        self.check("a bucket that is not here is missing, the others are compared", (5, {"same": 1, "missing": 2, "surplus": 5}, 7), (status, sums, len(differences)))

    def test_bad_input(self):
        formats = self.formats(self.plain())
        for name, word in formats.items():
            path = self.folder / word.partition("=")[2] if "=" in word else self.folder / word
            whole = path.read_bytes()
            path.write_bytes(whole[:-30])
            self.check(f"{name}, cut in the middle", (3, None), self.compare(word)[::2])
            path.write_bytes(whole)
        failed = self.file("mc", (self.folder / "mc.json").read_text("utf-8") + json.dumps({"status": "error", "error": {"message": "timeout"}}))
        self.check("mc that could not list all", (3, None), self.compare(f"plain={failed}")[::2])
        self.check("no bucket is named", (3, None), self.compare("v2.json")[::2])
        self.check("no file", (3, None), self.compare("plain=none")[::2])
        self.check("an empty file", (3, None), self.compare(f"plain={self.file('empty', '')}")[::2])
        twice = json.loads((self.folder / "v2.json").read_text("utf-8"))
        twice["Contents"] *= 2
        self.check("an object twice", (3, None), self.compare(f"plain={self.file('twice.json', json.dumps(twice))}")[::2])
        self.check("no map", (3, None), self.compare("--map", "none", formats["rclone lsjson"])[::2])
        self.check("no journal", (3, None), self.compare("--journal", "none", formats["rclone lsjson"])[::2])
        self.check("no server", 2, self.run_tool("compare", "--server", "http://127.0.0.1:1", formats["rclone lsjson"])[0])
        self.check("no listing", 1, self.run_tool("compare", "--server", self.at)[0])


if __name__ == "__main__":
    live.main()
