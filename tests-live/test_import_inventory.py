#!/usr/bin/env -S python3 -B
"""Imports listings of objects with tools/import-inventory, and compares the journal with the listings: by `office run`, by a
server, and by a server or a tool that is killed in the middle, where each object has to be put once."""
import csv
import gzip
import io
import json
import os
import re
import resource
import signal
import urllib.parse

import listing_server
import live
from free_port import free_port
from live import CLASSES, TOOLS, objects_of
from serve_client import Server, request, token_in, whole_entries_of

SCHEMA = "Bucket, Key, VersionId, IsLatest, IsDeleteMarker, Size, LastModifiedDate, StorageClass"
SHORT = "Bucket, Key, Size, StorageClass"
KEYS = ["plain", "a b+c%20d", "\u00e9/\u20ac/\U0001d11e", "/front//twice/", "..", "?#[]@!$&'()*,;=:", "\x01\n\"\\", "%",
        "k" * 1024]


class Import(live.Case):
    in_memory = True

    def run_it(self, *words):
        """The status of the tool, and its notes."""
        status, _, notes = self.run_tool("import-inventory", *words)
        return status, notes

    def write_csv(self, path, rows, pack=False):
        text = io.StringIO(newline="")
        csv.writer(text, quoting=csv.QUOTE_ALL).writerows(rows)
        data = text.getvalue().encode()
        (self.folder / path).write_bytes(gzip.compress(data) if pack else data)
        return path

    def test_files_of_requests(self):
        """Files of requests, that `office run` reads."""
        wanted = [("data-1" if n % 2 else "data-2", key, n * 1000, CLASSES[n % 6]) for n, key in enumerate(KEYS)]
        rows = [(bucket, urllib.parse.quote_plus(key, safe="/"), "v1", "true", "false", size, "2024-01-01T00:00:00.000Z", name)
                for bucket, key, size, name in wanted]
        header = [name.strip() for name in SCHEMA.split(",")]
        for name, words in (("with a schema", ["--schema", SCHEMA, self.write_csv("plain.csv", rows)]),
                            ("with a first line, packed", [self.write_csv("head.csv.gz", [header, *rows], pack=True)]),
                            ("in two files", ["--schema", SCHEMA, self.write_csv("1.csv", rows[:4]), self.write_csv("2.csv", rows[4:])])):
            folder = self.new_folder(f"run {name}")
            status, notes = self.run_it("--out", "requests", *words)
            self.check(f"CSV {name}, status", 0, status)
            self.check(f"CSV {name}, says when ages begin", True, "ages begin at the import" in notes)
            ended = self.office("run", sent=(self.folder / "requests").read_bytes(), folder=folder)
            self.check(f"CSV {name}, all is accepted", 2 + len(rows), ended.stdout.count(b"HTTP/1.1 201 "))
            self.check(f"CSV {name}, the journal has the objects", wanted, objects_of(folder))

    def test_a_file_of_requests_twice(self):
        """`office run` on the file of --out, twice: the second time nothing is put, by the tokens."""
        listing = self.versions_listing()
        listing["DeleteMarkers"][0]["LastModified"] = "2024-01-02T00:00:00+00:00"
        self.file("versions.json", json.dumps(listing))
        self.write_csv("plain.csv", [("plain", f"k{it}", it, "STANDARD") for it in range(20)])
        for name, words, bucket, count in (("versions", ("--bucket", "photos", "versions.json"), "photos", 4),  # two rows name one version
                                           ("current objects", ("--schema", SHORT, "plain.csv"), "plain", 20)):
            folder = self.new_folder(name)
            self.check(f"{name}: the file", 0, self.run_it("--out", "requests", *words)[0])
            first, second = (self.office("run", sent=(self.folder / "requests").read_bytes(), folder=folder) for _ in range(2))
            self.check(f"{name}: status", (0, 0), (first.returncode, second.returncode))
            puts = [it for it in whole_entries_of(folder) if token_in(it)]
            self.check(f"{name}: each row once", count, len(puts))
            about = self.office("run", sent=request("GET", f"/buckets/{bucket}"), folder=folder).stdout
            self.check(f"{name}: versions in the bucket", count, json.loads(about.rpartition(b"\r\n\r\n")[2])["versions"])
        many = self.write_csv("many.csv", [("plain", f"k{it}", 1, "") for it in range(10_001)])
        status, notes = self.run_it("--schema", SHORT, "--out", "requests", many)
        self.check("more than the program keeps replies to", (0, "import-inventory: give requests to `office run` once: the program knows the last 10000 "
                   "of its 10001 rows alone again"), (status, notes.splitlines()[0]))

    def versions_listing(self):
        """What the AWS command line prints of a bucket with versions."""
        def version(key, latest, size, name="STANDARD"):
            return {"ETag": '"x"', "Size": size, "StorageClass": name, "Key": key, "VersionId": "v", "IsLatest": latest,
                    "LastModified": "2024-01-01T00:00:00+00:00", "Owner": {"ID": "o"}}
        listing = {"Versions": [version("a+b c", True, 5, "GLACIER"), version("a+b c", False, 4), version("gone", False, 3),
                                version("%41", True, 0)],
                   "DeleteMarkers": [{"Key": "gone", "VersionId": "m", "IsLatest": True}], "RequestCharged": None, "Prefix": ""}
        (self.folder / "versions.json").write_text(json.dumps(listing, indent=4), encoding="utf-8")
        return listing

    def test_a_listing_in_json(self):
        """What is put of a listing of versions, if current ones alone are wanted, and what is left out."""
        listing = self.versions_listing()
        server = self.serve("json")
        to = f"http://127.0.0.1:{server.port}"
        self.check("without --bucket, status", 3, self.run_it("--to", to, "versions.json")[0])
        status, notes = self.run_it("--to", to, "--bucket", "photos", "--current", "--names", "names", "versions.json")
        self.check("status", 0, status)
        told = "put 2, delete markers put 0, refused 0; left out: noncurrent versions 2, delete markers 1, second rows of a key 0"
        self.check("what is left out is counted", True, told in notes)
        self.check("and named", "photos,a%2Bb%20c,noncurrent versions\nphotos,gone,noncurrent versions\n"
                   "photos,gone,delete markers\n", (self.folder / "names").read_text("utf-8"))
        self.check("the objects", [("photos", "a+b c", 5, "GLACIER"), ("photos", "%41", 0, "STANDARD")], objects_of(server.folder))
        self.file("part.json", json.dumps({**listing, "IsTruncated": True}))
        self.check("a listing that is not whole, status", 3, self.run_it("--to", to, "--bucket", "other", "part.json")[0])
        self.check("the same words again, status", 0, self.run_it("--to", to, "--bucket", "photos", "--current", "versions.json")[0])
        self.check("nothing is put twice", 2, len(objects_of(server.folder)))
        (self.folder / "versions.json.import").unlink()
        status, notes = self.run_it("--to", to, "--bucket", "photos", "--current", "versions.json")
        self.check("not even without the file of the state, by the tokens", (0, 2), (status, len(objects_of(server.folder))))
        many = self.write_csv("many.csv", [("photos", f"k{n}", 1, "") for n in range(9_001)])
        status, notes = self.run_it("--to", to, "--schema", SHORT, many)
        self.check("more rows than the program keeps replies to, where versions are already", (6, 2, True),
                   (status, len(objects_of(server.folder)), "no file many.csv.import says how many of the 9001" in notes))

    def test_rows_that_the_program_refuses(self):
        server = self.serve("csv")
        to = f"http://127.0.0.1:{server.port}"
        rows = [("logs", "a", 1, "STANDARD"), ("logs", "b", 1, "INTELLIGENT_TIERING"), ("logs", "%FF", 1, "STANDARD"),
                ("Bad_Name", "c", 1, "STANDARD"), ("logs", "d", 5497558138881, "STANDARD"), ("logs", "a", 2, "STANDARD"),
                ("logs", "e", 1, "")]
        self.write_csv("refused.csv", rows)
        status, _ = self.run_it("--to", to, "--schema", SHORT, "--names", "names", "refused.csv")
        self.check("status", 5, status)
        wanted = [("logs", "b", "UnsupportedClass"), ("logs", "%FF", "BadKey"), ("Bad_Name", "c", "BadBucketName"),
                  ("logs", "d", "BadSize")]
        named = (self.folder / "names").read_text("utf-8").splitlines()
        self.check("they are named with the reason of the program, and a key that stands twice too",
                   ["logs,a,second rows of a key", *(f"{bucket},{key},refused: {why}" for bucket, key, why in wanted)], named)
        self.check("the others are put", [("logs", "a", 1, "STANDARD"), ("logs", "e", 1, "STANDARD")], objects_of(server.folder))
        self.write_csv("refused.csv", rows[:1])
        self.check("the state file of another import, status", 1, self.run_it("--to", to, "--schema", SHORT, "refused.csv")[0])

    @live.needs("aws")
    def test_what_aws_lists(self):
        """What the AWS command line prints of a bucket in two pages."""
        server = listing_server.serve()
        self.addCleanup(server.server_close)
        self.addCleanup(server.shutdown)
        listed = self.ended(["aws", "--no-sign-request", "--endpoint-url", f"http://127.0.0.1:{server.server_port}", "s3api",
                             "list-object-versions", "--bucket", "photos"],
                            env={**os.environ, "AWS_DEFAULT_REGION": "us-east-1", "NO_PROXY": "*"})
        (self.folder / "aws.json").write_bytes(listed.stdout)
        objects = b"/buckets/photos/objects/"
        status, notes = self.run_it("--bucket", "photos", "--out", "requests", "aws.json")
        self.check("what aws lists, status", (0, True), (status, "put 3, delete markers put 1, refused 0" in notes))
        wanted = [b"PUT /buckets/photos", b"PUT /buckets/photos/versioning", b"PUT " + objects + b"a%2Bb%20c", b"PUT " + objects + b"a%2Bb%20c",
                  b"PUT " + objects + b"%C3%A9/%2541", b"DELETE " + objects + b"gone"]
        self.check("what aws lists, the requests", wanted, re.findall(rb"(?:PUT|DELETE) \S+", (self.folder / "requests").read_bytes()))
        status, notes = self.run_it("--bucket", "photos", "--current", "--out", "requests", "aws.json")
        self.check("what aws lists, current ones, status", (0, True), (status, "noncurrent versions 1, delete markers 1" in notes))
        targets = re.findall(rb"PUT (\S+)", (self.folder / "requests").read_bytes())
        self.check("what aws lists, the keys", [b"/buckets/photos", objects + b"a%2Bb%20c", objects + b"%C3%A9/%2541"], targets)

    def test_stopped_in_the_middle(self):
        """A server that is killed, a tool that is killed, and a disk that is full, each in the middle; the same words go on."""
        rows = [("load", f"key-{n:05}", n, "UNKNOWN" if n % 100 == 50 else CLASSES[n % 6]) for n in range(1000)]
        wanted = [row for row in rows if row[3] != "UNKNOWN"]
        words, folder, port = ["--schema", SHORT, self.write_csv("load.csv", rows)], self.folder / "load", free_port()

        def kill(process):
            process.kill()
            process.wait()

        def move(server):
            """The same office at another address, which is said in the state file."""
            server.client().socket.close()
            self.move_state("load.csv.import", server)
            return ["--to", f"http://127.0.0.1:{server.port}", *words]
        with Server(self.program, folder) as server:
            self.check("a server that is killed in the middle, status", 2, self.relay(server, port, words, 201, lambda _: kill(server.process)))
        self.check("200 rows have a reply, two of them are refused, and one more is put", 199, len(objects_of(folder)))
        with Server(self.program, folder) as server:
            self.check("a tool that is killed in the middle, status", -9, self.relay(server, port, words, 401, kill))
        self.check("400 rows have a reply, four of them are refused, and one more is put", 397, len(objects_of(folder)))
        limit = folder.joinpath("office-data/journal").stat().st_size + 8000
        signal.signal(signal.SIGXFSZ, signal.SIG_IGN)
        with Server(self.program, folder) as server:
            self.check("another server, status", 1, self.run_it("--to", f"http://127.0.0.1:{server.port}", *words)[0])
            words_there = move(server)
            resource.prlimit(server.process.pid, resource.RLIMIT_FSIZE, (limit, limit))
            self.check("a disk that is full in the middle, status", 2, self.run_it(*words_there)[0])
        self.check("it went on behind the one before", True, 397 < len(objects_of(folder)) < len(wanted))
        with Server(self.program, folder) as server:
            status, notes = self.run_it(*move(server))
            self.check("the last one ends the import, and 10 rows are refused", (5, True), (status, "refused 10;" in notes))
        self.check("each object is put once, in order", wanted, objects_of(folder))

    def test_beside_others(self):
        """Three slices into a bucket in which others put too, killed in the last one; the same words go on, and each row is put once."""
        rows = [("load", f"key-{n:05}", n, "UNKNOWN" if n % 500 == 250 else "STANDARD") for n in range(2_500)]
        name, server, port = self.write_csv("load.csv", rows), self.serve("beside"), free_port()
        with server.client() as client:
            client.ask(request("PUT", "/buckets/load"))
            client.ask(request("PUT", "/buckets/load/objects/key-02400", '{"size":77777}'))

        def kill(tool):
            tool.kill()
            tool.wait()
        words = ["--schema", SHORT, name]
        self.check("killed, status", -9, self.relay(server, port, words, 2_301, kill))
        with server.client() as client:
            client.ask(request("PUT", "/buckets/load/objects/another", '{"size":8}'))
        self.move_state("load.csv.import", server)
        status, notes = self.run_it("--to", f"http://127.0.0.1:{server.port}", *words)
        self.check("goes on at the third slice", (5, True, True), (status, "put 2495, " in notes and "refused 5;" in notes, "of these 1996 by an earlier try" in notes))
        found = objects_of(server.folder)
        wanted = [row for row in rows if row[3] != "UNKNOWN"]
        self.check("each row once, in order, and those of others", (2_497, wanted), (len(found), [it for it in found if it[1] != "another" and it[2] != 77_777]))
        self.check("each with a token of its own", len(wanted), len({token_in(it) for it in whole_entries_of(server.folder)} - {None}))

    def test_what_cannot_be_done(self):
        """Servers and files that are not what they should be: a status, and nothing done."""
        listing = self.write_csv("good.csv", [("logs", "a", 1, "STANDARD")])
        words = ["--schema", SHORT, listing]
        self.check("nobody listens, status", 2, self.run_it("--to", "http://127.0.0.1:1", *words)[0])
        other = listing_server.serve()
        status, notes = self.run_it("--to", f"http://127.0.0.1:{other.server_port}", *words)
        self.check("another server, status", (2, True), (status, "is not the program" in notes))
        other.shutdown()
        other.server_close()
        self.check("no import is said to be begun", False, (self.folder / "good.csv.import").exists())
        for words in (["--to", "127.0.0.1:80", listing], ["--out", "x", "--to", "http://a:1", listing], [listing], ["--out", "x"]):
            self.check(f"words that are none, status: {' '.join(words)}", 1, self.run_it(*words)[0])
        files = {"no file": None, "Parquet": b"PAR1abc", "ORC": b"ORCabc", "gzip, cut short": gzip.compress(b"logs,a,1,\n" * 99)[:30],
                 "not UTF-8": b"logs,\xff,1,\n", "a field too few": b"logs,a,1,\nlogs,b,1\n", "a size that is none": b"logs,a,1k,\n",
                 "no size": b"logs,a,,\n", "a quote that does not end": b'logs,"a,1,\n', "JSON, cut short": b'{"Versions": [',
                 "JSON of something else": b'{"Buckets": []}', "a version without a key": b'{"Name":"logs","Versions":[{"Size":1}]}',
                 "two versions without a moment": b'{"Name":"logs","Versions":[{"Key":"a","Size":1},{"Key":"a","Size":1,"IsLatest":false}]}',
                 "a moment that is none": b'{"Name":"logs","Versions":[{"Key":"a","Size":1,"LastModified":"today"}]}'}
        for name, data in files.items():
            if data is not None:
                (self.folder / "bad").write_bytes(data)
            else:
                (self.folder / "bad").unlink(missing_ok=True)
            self.check(f"{name}, status", 3, self.run_it("--schema", SHORT, "--out", "never", "bad")[0])
        (self.folder / "bad").write_bytes(b"logs,a,1,\n")
        self.check("no line that names the columns, status", 3, self.run_it("--out", "never", "bad")[0])
        self.check("nothing was written", [], [it.name for it in self.folder.glob("never*")])
        self.check("a folder that is none, status", 4, self.run_it("--schema", SHORT, "--out", "none/x", listing)[0])
        (self.folder / "whole").write_bytes(b"before")
        limited = ["sh", "-c", "ulimit -f 0; trap '' XFSZ; exec \"$0\" \"$@\"", TOOLS / "import-inventory"]
        done = self.ended([*limited, "--schema", SHORT, "--out", "whole", listing])
        self.check("a full disk, status, and the file as it was", (4, b"before", False),
                   (done.returncode, (self.folder / "whole").read_bytes(), (self.folder / "whole.part").exists()))
        self.check("what is no file, status", 4, self.run_it("--schema", SHORT, "--out", ".", listing)[0])


if __name__ == "__main__":
    live.main()
