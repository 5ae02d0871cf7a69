#!/usr/bin/env -S python3 -B
"""What a store may send that is bad: a listing cut in the middle, an event twice, out of order, of another bucket, of an unknown class,
and a store that refuses. For each tool that reads it: the line that it says, its exit code, what the journal then has, and that a second run
finishes the work and a third one has nothing to do."""
import gzip
import http.server
import json
import os
import threading

import live
from a_store import ACCESS, Moto, event, lines, needs_moto
from free_port import free_port
from serve_client import entries_of, name_at, request
from test_apply import Refusing, line
from test_follow import MARKER, PUT, REMOVE

COLUMNS = ("--schema", "Bucket, Key, Size, StorageClass")
ROWS = "".join(f'"plain","k{place}","{place}","STANDARD"\n' for place in range(40))
UNKNOWN = "INTELLIGENT_TIERING"
WHOLE = {"Versions": [{"Key": f"k{place}", "VersionId": f"v{place}", "IsLatest": True, "Size": place, "StorageClass": "STANDARD", "ETag": '"x"',
                       "LastModified": "2024-01-01T00:00:00+00:00"} for place in range(40)], "RequestCharged": None}


class BadInput(live.Case):
    def setUp(self):
        super().setUp()
        self.server, self.map = self.serve(), self.folder / "store.map"
        self.at, self.journal = f"http://127.0.0.1:{self.server.port}", self.folder / "served" / "office-data" / "journal"

    def ask(self, method, target, body=None):
        with self.server.client() as client:
            return json.loads(client.ask(request(method, target, "" if body is None else json.dumps(body)))[1])

    def tool(self, name, *words):
        """Its status, and its notes without its name, a list of lines."""
        status, said, notes = self.run_tool(name, "--server", self.at, *words)
        return status, [it.removeprefix(f"{name}: ") for it in notes.splitlines()], said

    def puts(self):
        """The objects that were put, in order, as (bucket, key, size)."""
        found = []
        for entry in entries_of(self.server.folder):
            if entry[8] == 5:
                bucket, at = name_at(entry, 9)
                key, at = name_at(entry, at)
                found.append((bucket, key, int.from_bytes(entry[at:at + 8], "big")))
        return found

    def finishes(self, name, tool, *words):
        """A second run ends with 0, and a third one changes nothing."""
        status, notes, _ = self.tool(tool, *words)
        self.check(f"{name}: a second run finishes: {notes}", 0, status)
        before = len(entries_of(self.server.folder))
        status, notes, _ = self.tool(tool, *words)
        self.check(f"{name}: a third one changes nothing: {notes}", (0, before), (status, len(entries_of(self.server.folder))))


class ListingsCut(BadInput):
    """A listing that was cut in the middle, by import-inventory and compare."""

    def forms(self):
        """By name: a file, its whole bytes, where it is cut, the words, and how the line ends."""
        whole = json.dumps(WHOLE, indent=4)
        mc = "".join(json.dumps({"status": "success", "type": "file", "lastModified": "2024-01-01T00:00:00Z", "size": place, "key": f"k{place}"}) + "\n"
                     for place in range(40))
        rclone = json.dumps([{"Path": f"k{place}", "Size": place, "ModTime": "2024-01-01T00:00:00Z", "IsDir": False} for place in range(40)], indent=0)
        packed = gzip.compress(ROWS.encode())
        return {"csv": ("plain.csv", ROWS.encode(), ROWS.index('"k20"') + 5, COLUMNS, ":21: 2 fields in place of 4"),
                "csv, in a quote": ("quote.csv", ROWS.encode(), ROWS.index('"k20"') + 3, COLUMNS, ":21: no CSV: unexpected end of data"),
                "csv, packed": ("packed.csv.gz", packed, len(packed) // 2, COLUMNS, "the compressed file is cut short or damaged"),
                "list-object-versions": ("whole.json", whole.encode(), len(whole) // 2, (), ")"),
                "mc": ("mc.json", mc.encode(), len(mc) // 2, (), ")"), "rclone": ("rclone.json", rclone.encode(), len(rclone) // 2, (), ")")}

    def test_listings(self):
        for place, (name, (file, whole, cut, words, end)) in enumerate(self.forms().items()):
            bucket = f"bucket-{place}"
            whole, short = (it.replace(b'"plain"', f'"{bucket}"'.encode()) if file.endswith(".csv") else it for it in (whole, whole[:cut]))
            if file.endswith(".gz"):
                bucket = "plain"
            listed = () if words else ("--bucket", bucket)
            path, before = self.file(file, short), len(entries_of(self.server.folder))
            status, notes, _ = self.tool("import-inventory", *words, *listed, path)
            self.check(f"{name}, import: one line", (3, 1), (status, len(notes)))
            self.check(f"{name}, import: names the file and what is wrong: {notes}", (True, True),
                       (str(path) in notes[0], notes[0].endswith(end)))
            self.check(f"{name}, import: nothing was sent, and no import is begun", (before, False),
                       (len(entries_of(self.server.folder)), path.with_name(f"{file}.import").exists()))
            path.write_bytes(whole)
            self.finishes(f"{name}, import", "import-inventory", *words, *listed, path)
            self.check(f"{name}, import: each object once", sorted((bucket, f"k{it}", it) for it in range(40)),
                       sorted(it for it in self.puts() if it[0] == bucket))
            path.write_bytes(short)
            status, notes, said = self.tool("compare", *words, f"{bucket}={path}" if listed else path)
            self.check(f"{name}, compare: {notes}", (3, 1, "", True),
                       (status, len(notes), said, str(path) in notes[0] and notes[0].endswith(end)))
            path.write_bytes(whole)
            self.finishes(f"{name}, compare", "compare", *words, f"{bucket}={path}" if listed else path)

    def test_beside_the_listing(self):
        """Tags, uploads and parts that are cut: nothing is sent, and the whole files are done by the same command."""
        whole = self.file("whole.json", json.dumps(WHOLE))
        texts = {"tags": "".join(json.dumps({"Key": f"k{it}", "TagSet": [{"Key": "a", "Value": "b"}]}) + "\n" for it in range(40)),
                 "uploads": json.dumps({"Uploads": [{"UploadId": "u", "Key": "big", "Initiated": "2024-01-01T00:00:00Z"}]}),
                 "parts": json.dumps({"UploadId": "u", "Parts": [{"PartNumber": 1, "Size": 5}]})}
        words = ["--bucket", "many", "--map", self.map]
        for name, text in texts.items():
            words += [f"--{name}", self.file(name, text)]
        for name, text in texts.items():
            self.file(name, text[:-9])
            status, notes, _ = self.tool("import-inventory", *words, whole)
            self.check(f"{name}: {notes}", (3, 1, True, 0),
                       (status, len(notes), str(self.folder / name) in notes[0], len(entries_of(self.server.folder))))
            self.file(name, text)
        self.finishes("beside the listing", "import-inventory", *words, whole)
        self.check("versions and uploads", (40, 1), tuple(self.ask("GET", "/buckets/many")[it] for it in ("versions", "uploads")))

    def test_lines_of_actions(self):
        """The file of act-all is cut within its last line: the rest is done, and the last line by a later run."""
        os.environ.update(ACCESS)
        self.tool("import-inventory", "--map", self.map, "--bucket", "many", self.file("whole.json", json.dumps(WHOLE)))
        text = "".join(line("many", f"k{it}", "transition", version=str(it + 1), **{"class": "GLACIER"}) for it in range(3))
        log = self.file("actions.jsonl", text[:-9])
        words = ("apply", "--map", self.map, "--endpoint-url", f"http://127.0.0.1:{free_port()}")
        status, said, notes = self.run_tool(*words, log)
        self.check("two lines, and a note on the third", (0, 2, True),
                   (status, len(said.splitlines()), f"{log}: its last line is not whole" in notes))
        log.write_text(text)
        status, said, notes = self.run_tool(*words, log)
        self.check("whole", (0, 3, False), (status, len(said.splitlines()), "not whole" in notes))


class Events(BadInput):
    """Events twice, out of order, of another bucket, of an unknown class, and cut, by follow."""

    def setUp(self):
        super().setUp()
        self.ask("PUT", "/buckets/plain")
        self.ask("PUT", "/buckets/many")
        self.ask("PUT", "/buckets/many/versioning", {"Status": "Enabled"})

    def words(self, *words):
        return ("--journal", self.journal, "--map", self.map, *words)

    def follow(self, *words):
        return self.tool("follow", *self.words(*words))[:2]

    def test_twice(self):
        one, two = event(PUT, "plain", "a", 1), event(PUT, "many", "b", 2, "v1")
        self.check("in one file", (0, ["puts 2, sent twice or late 2"]), self.follow(self.file("one", lines(one, one, two, two))))
        self.check("in another file", (0, ["sent twice or late 2"]), self.follow(self.file("two", lines(two, one))))
        self.check("each is done once", [("many", "b", 2), ("plain", "a", 1)], sorted(self.puts()))
        self.finishes("twice", "follow", *self.words("one", "two"))

    def test_out_of_order(self):
        there = {"Key": "c", "VersionId": "w1", "IsLatest": True, "Size": 4, "StorageClass": "STANDARD", "LastModified": "2024-01-02T00:00:00Z"}
        first = self.file("first.json", json.dumps({"Versions": [there], "RequestCharged": None}))
        self.check("an import", 0, self.tool("import-inventory", "--bucket", "many", "--map", self.map, first)[0])
        plain = [event(PUT, "plain", "a", size) for size in (1, 2)]
        many = [event(PUT, "many", "b", 1, "v1"), event(MARKER, "many", "b", version="m1"), event(REMOVE, "many", "b", version="v1")]
        self.check("in one file they are put in order", 0, self.follow(self.file("one", lines(*many[::-1], *plain[::-1])))[0])
        self.check("the order of the sequencers", [("plain", "a", 1), ("plain", "a", 2)], [it for it in self.puts() if it[0] == "plain"])
        stack = self.ask("GET", "/buckets/many/objects/b")["versions"]
        self.check("the marker is there, and the version is not", [None], [it.get("size") for it in stack])
        late = event(PUT, "plain", "a", 7, order="0000000000000001")
        self.check("a late one without versions counts for nothing", (0, ["sent twice or late 1"]), self.follow(self.file("late", lines(late))))
        below = event(PUT, "many", "b", 9, "v0", order="0000000000000001")
        status, notes = self.follow(self.file("below", lines(below)))
        why = "a later event of this key was done already, so this version has no place below it any more"
        self.check("a late version is a dead letter", (5, True, f"dead letters 1; dead letters in all 1, in {self.map}.dead"),
                   (status, notes[0].startswith(f"dead letter: {why}: "), notes[1]))
        self.check("nothing of it is done", 4, len(self.puts()))
        # As OPERATIONS says: the versions of its key are removed here, and the key is imported anew.
        for key in "bc":
            for it in self.ask("GET", f"/buckets/many/objects/{key}")["versions"]:
                self.ask("DELETE", f"/buckets/many/versions/{it['version']}/{key}")
        marker = {"Key": "b", "VersionId": "m1", "IsLatest": True, "LastModified": "2024-01-02T00:00:00Z"}
        listing = {"Versions": [{**there, "Key": "b", "VersionId": "v0", "IsLatest": False, "Size": 9, "LastModified": "2024-01-01T00:00:00Z"}, there],
                   "DeleteMarkers": [marker], "RequestCharged": None}
        listed = self.file("b.json", json.dumps(listing))
        words = ("--anew", "late", "--bucket", "many", "--map", self.map, listed)
        self.check("the key is imported again", 0, self.tool("import-inventory", *words)[0])
        self.check("nothing differs", 0, self.tool("compare", "--map", self.map, "--journal", self.journal, f"many={listed}")[0])
        self.check("the dead letter is done", (0, ["sent twice or late 1"]), self.follow("--retry"))
        self.finishes("out of order", "follow", *self.words("one", "late", "below"))

    def test_of_another_bucket(self):
        path = self.file("one", lines(event(PUT, "other", "a", 1), event(PUT, "plain", "b", 2)))
        status, notes = self.follow(path)
        self.check("a bucket that is not here", (5, True, [("plain", "b", 2)]),
                   (status, notes[0].startswith("dead letter: there is no bucket 'other' here: "), self.puts()))
        self.ask("PUT", "/buckets/other")
        self.finishes("a bucket that is made then", "follow", *self.words("--retry"))
        self.check("both are done", [("other", "a", 1), ("plain", "b", 2)], sorted(self.puts()))
        path = self.file("two", lines(event(PUT, "other", "c", 3), event(PUT, "plain", "d", 4)))
        status, notes = self.follow("--bucket", "plain", path)
        self.check("a bucket that is not followed", (5, True, 3),
                   (status, notes[0].startswith("dead letter: bucket 'other' is not followed: "), len(self.puts())))
        self.finishes("a bucket that is followed then", "follow", *self.words("--retry"))
        self.check("both are done, too", 4, len(self.puts()))

    def test_of_an_unknown_class(self):
        cold = event(PUT, "plain", "cold", 5)
        cold["s3"]["object"]["userMetadata"] = {"x-amz-storage-class": UNKNOWN}
        status, notes = self.follow(self.file("one", lines(cold, event(PUT, "plain", "b", 2))))
        self.check("a dead letter", (5, True, [("plain", "b", 2)]),
                   (status, notes[0].startswith("dead letter: refused: 400 UnsupportedClass"), self.puts()))
        status, notes = self.follow("--retry", "--nearest", "STANDARD")
        self.check("--nearest, and a count", (0, [f"puts 1; {UNKNOWN} put as STANDARD: 1"]), (status, notes))
        self.finishes("an unknown class", "follow", *self.words("--retry", "--nearest", "STANDARD"))

    def test_cut(self):
        whole = json.dumps({"Records": [event(PUT, "plain", f"k{it}", it) for it in range(5)]}, indent=2)
        path = self.file("one", whole[:len(whole) // 2])
        said = f"{path}: neither JSON nor lines of JSON, or cut in the middle; nothing of it was done"
        self.check("one JSON text", (3, ["no event", said], []), (*self.follow(path), self.puts()))
        path.write_text(whole)
        self.finishes("one JSON text", "follow", *self.words(path))
        text = lines(*(event(PUT, "plain", f"l{it}", it) for it in range(5)))
        path = self.file("two", text[:-20])
        self.check("lines", (0, [f"{path}: its last line is not whole; it is left for the next run", "puts 4"]), self.follow(path))
        path.write_text(text)
        self.finishes("lines", "follow", *self.words(path))
        self.check("each once", 10, len(self.puts()))


class Classes(BadInput):
    """Objects and rules of a class that the office does not have, by import-inventory, compare and lifecycle."""

    def test_of_a_listing(self):
        text = ROWS.replace('"k7","7","STANDARD"', f'"k7","7","{UNKNOWN}"')
        path, counts = self.file("plain.csv", text), "left out: noncurrent versions 0, delete markers 0, second rows of a key 0"
        status, notes, _ = self.tool("import-inventory", *COLUMNS, path)
        said = f"buckets 1, put 39, delete markers put 0, refused 1; {counts}; ages begin at the import, not at LastModified"
        self.check("import", (5, ["left out: plain/k7: refused: UnsupportedClass", said], 39), (status, notes, len(self.puts())))
        status, notes, said = self.tool("compare", *COLUMNS, "--json", path)
        self.check("compare", (5, [("k7", "missing")]), (status, [(it["key"], it["kind"]) for it in json.loads(said)["differences"]]))
        status, notes, _ = self.tool("import-inventory", *COLUMNS, "--nearest", "GLACIER", path)
        self.check(f"--nearest puts it, and counts it: {notes}", (0, True, ("plain", "k7", 7)),
                   (status, f"1 refused before and put now; {UNKNOWN} put as GLACIER: 1;" in notes[-1], self.puts()[-1]))
        self.check("in that class", "GLACIER", self.ask("GET", "/buckets/plain/objects/k7")["versions"][0]["class"])
        self.finishes("import", "import-inventory", *COLUMNS, "--nearest", "GLACIER", path)
        self.finishes("compare", "compare", *COLUMNS, "--nearest", "GLACIER", path)
        self.check("each once", 40, len(self.puts()))

    def test_of_rules(self):
        self.ask("PUT", "/buckets/plain")
        rules = [{"ID": "one", "Status": "Enabled", "Filter": {"Prefix": ""}, "Transitions": [{"Days": 30, "StorageClass": UNKNOWN}],
                  "Expiration": {"Days": 400}}]
        words = ("--bucket", "plain", "--yes", "set", self.file("rules.json", json.dumps({"Rules": rules})))
        before = len(entries_of(self.server.folder))
        status, notes, _ = self.tool("lifecycle", *words)
        self.check(f"is named, and nothing is sent: {notes}", (6, True, True, before),
                   (status, "Rules[0].Transitions[0].StorageClass" in notes[0], "nothing was sent" in notes[1], len(entries_of(self.server.folder))))
        self.finishes("the rest is sent", "lifecycle", "--leave-out", *words)
        self.check("the rest", [{"Days": 400}], [it["Expiration"] for it in self.ask("GET", "/buckets/plain/lifecycle")["Rules"]])


@needs_moto
class StoreRefuses(BadInput):
    """A store that refuses: by apply, and by follow that asks it for classes or for a queue."""

    def setUp(self):
        super().setUp()
        os.environ.update(ACCESS)
        self.store = Moto()
        self.addCleanup(self.store.end)

    def test_apply(self):
        self.store.bucket("many", "Enabled")
        for it in range(3):
            self.store.put("many", f"k{it}", it + 1)
        self.tool("import-inventory", "--map", self.map, "--bucket", "many", self.file("many.json", self.store.listing("many")))
        numbers = {it: self.ask("GET", f"/buckets/many/objects/k{it}")["versions"][0]["version"] for it in range(3)}
        log = self.file("actions.jsonl", "".join(line("many", f"k{it}", "remove", version=numbers[it]) for it in range(3)))
        refusing = self.refusing()
        words = ("apply", "--map", self.map, "--yes", log)
        status, said, notes = self.run_tool(*words, "--endpoint-url", refusing)
        told = [json.loads(it) for it in said.splitlines()]
        self.check("each line has the store's reason", (5, [("refused", "the store says 403")] * 3),
                   (status, [(it["how"], it["what"]) for it in told]))
        self.check("and the counts", "apply: done 0, there already 0, refused 3, left to the store 0", notes)
        self.check("nothing is removed", 3, len(self.store.s3.list_object_versions(Bucket="many")["Versions"]))
        status, said, notes = self.run_tool(*words, "--endpoint-url", self.store.url)
        self.check("a second run finishes", (0, "apply: done 3, there already 0, refused 0, left to the store 0", None),
                   (status, notes, self.store.s3.list_object_versions(Bucket="many").get("Versions")))
        self.check("a third one changes nothing", (0, "apply: done 0, there already 3, refused 0, left to the store 0"),
                   self.run_tool(*words, "--endpoint-url", self.store.url)[::2])

    def refusing(self):
        """The address of a store that refuses all."""
        door = http.server.ThreadingHTTPServer(("127.0.0.1", 0), Refusing)
        self.addCleanup(door.server_close)
        threading.Thread(target=door.serve_forever, daemon=True).start()
        self.addCleanup(door.shutdown)
        return f"http://127.0.0.1:{door.server_address[1]}"

    def test_follow(self):
        self.ask("PUT", "/buckets/many")
        self.ask("PUT", "/buckets/many/versioning", {"Status": "Enabled"})
        self.store.bucket("many", "Enabled")
        self.store.put("many", "a", 5, "STANDARD_IA")
        path = self.file("events", lines(*self.store.events))
        words = ("--journal", self.journal, "--map", self.map, "--ask-store")
        before = len(entries_of(self.server.folder))
        status, notes, _ = self.tool("follow", *words, "--endpoint-url", self.refusing(), path)
        self.check(f"asked for the class: {notes}", (2, "the store refuses to tell of bucket many: 403", before),
                   (status, notes[-1], len(entries_of(self.server.folder))))
        self.finishes("asked for the class", "follow", *words, "--endpoint-url", self.store.url, path)
        newest = self.ask("GET", "/buckets/many/objects/a")["versions"][0]
        self.check("in that class", ("STANDARD_IA", 5), (newest["class"], newest["size"]))
        queue = self.store.sqs.create_queue(QueueName="events")["QueueUrl"]
        self.store.sqs.send_message(QueueUrl=queue, MessageBody=lines(event(PUT, "many", "b", 6, "v-b")))
        words = ("--journal", self.journal, "--map", self.map)
        status, notes, _ = self.tool("follow", *words, "--queue", queue, "--endpoint-url", self.refusing())
        self.check(f"a queue that refuses: {notes}", (2, True),
                   (status, any(it.startswith("the queue refuses receive-message: ") for it in notes)))
        self.finishes("a queue", "follow", *words, "--queue", queue, "--endpoint-url", self.store.url)
        self.check("each once", [("many", "a", 5), ("many", "b", 6)], sorted(self.puts()))


    def test_a_queue_out_of_order(self):
        """Twenty messages lie between a version and the one below it, which comes last."""
        self.ask("PUT", "/buckets/many")
        self.ask("PUT", "/buckets/many/versioning", {"Status": "Enabled"})
        below, above = event(PUT, "many", "a", 1, "v1"), event(PUT, "many", "a", 2, "v2")
        queue = self.store.sqs.create_queue(QueueName="events")["QueueUrl"]
        for it in (above, *(event(PUT, "many", f"k{place}", place, f"w{place}") for place in range(20)), below):
            self.store.sqs.send_message(QueueUrl=queue, MessageBody=lines(it))
        words = ("--journal", self.journal, "--map", self.map, "--queue", queue, "--endpoint-url", self.store.url)
        self.check("all are done", (0, ["puts 22"]), self.tool("follow", *words)[:2])
        self.check("in the order of the sequencers", [1, 2], [size for _, key, size in self.puts() if key == "a"])
        about = self.store.sqs.get_queue_attributes(QueueUrl=queue, AttributeNames=["All"])["Attributes"]
        self.check("all messages are deleted", ("0", "0"), tuple(about[f"ApproximateNumberOfMessages{it}"] for it in ("", "NotVisible")))
        self.finishes("a queue out of order", "follow", *words)


if __name__ == "__main__":
    live.main()
