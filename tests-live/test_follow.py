#!/usr/bin/env -S python3 -B
"""Gives tools/follow events in each envelope, twice, out of order and damaged, loses replies and kills it, and compares the journal with
what the events say."""
import json
import os
import signal
import sqlite3
import subprocess
import time
import urllib.error
import urllib.request

import live
from a_store import ACCESS, Moto, event, lines, needs_moto
from free_port import free_port
from odd_server import LOSE_REPLY, LOSE_REQUEST, Odd, reply
from serve_client import LIMIT, entries_of, name_at, request

PUT, MARKER, REMOVE = "ObjectCreated:Put", "ObjectRemoved:DeleteMarkerCreated", "ObjectRemoved:Delete"
# After the S3 User Guide, "Mapping Amazon S3 event types to EventBridge event types" and "EventBridge event message structure".
BRIDGE = {"version": "0", "id": "17793124-05d4-b198-2fde-7ededc63b103", "detail-type": "Object Created", "source": "aws.s3", "account": "111122223333",
          "time": "2021-11-12T00:00:00Z", "region": "ca-central-1", "resources": ["arn:aws:s3:::many"],
          "detail": {"version": "0", "bucket": {"name": "many"}, "request-id": "N4N7GDK58NMKJ12R", "requester": "123456789012", "reason": "PutObject",
                     "object": {"key": "a+b", "size": 5, "etag": "b1946ac9", "version-id": "IYV3p45", "sequencer": "617f08299329d189"}}}
TEST_EVENT = {"Service": "Amazon S3", "Event": "s3:TestEvent", "Time": "2014-10-13T15:57:02.089Z", "Bucket": "many", "RequestId": "5582815E1AEA5ADF"}


class Follow(live.Case):
    def setUp(self):
        super().setUp()
        self.server, self.map = self.serve(), self.folder / "store.map"
        self.journal = self.folder / "served" / "office-data" / "journal"
        if not self.journal.exists():
            self.skipTest("this program keeps no journal")
        self.at = f"http://127.0.0.1:{self.server.port}"
        self.ask("PUT", "/buckets/many")
        self.ask("PUT", "/buckets/many/versioning", {"Status": "Enabled"})
        self.ask("PUT", "/buckets/plain")

    def ask(self, method, target, body=None):
        with self.server.client() as client:
            status, said = client.ask(request(method, target, "" if body is None else json.dumps(body)))
        return status, json.loads(said)

    def words(self, *words, at=None):
        return ("--server", at or self.at, "--journal", self.journal, "--map", self.map, *words)

    def follow(self, *words, at=None, **how):
        status, _, notes = self.run_tool("follow", *self.words(*words, at=at), **how)
        return status, notes

    def done(self):
        """What the journal has behind the making of the buckets: kind, bucket, key, and the size or the version."""
        found = []
        for entry in entries_of(self.server.folder):
            bucket, at = name_at(entry, 9)
            if entry[8] in (5, 6, 7):
                key, at = name_at(entry, at)
                more = int.from_bytes(entry[at:at + 8], "big") if entry[8] != 6 else None
                found.append(({5: "put", 6: "delete", 7: "remove"}[entry[8]], bucket, key, more))
        return found

    def dead(self):
        try:
            return [json.loads(it) for it in (self.folder / "store.map.dead").read_text("utf-8").splitlines()]
        except FileNotFoundError:
            return []

    def test_each_envelope(self):
        def sqs(text):
            return {"Messages": [{"MessageId": "m", "ReceiptHandle": "r", "Body": text}]}
        one = [{"Records": [event(PUT, "many", key, size, f"v-{key}")]} for size, key in enumerate("abcdefg")]
        minio = {"EventName": "s3:ObjectCreated:Put", "Key": "many/g g", "Records": [event("s3:ObjectCreated:Put", "many", "g g", 6, "v-g")]}
        minio["Records"][0]["s3"]["object"]["userMetadata"] = {"content-type": "x", "X-Amz-Storage-Class": "GLACIER"}
        sns = {"Type": "Notification", "MessageId": "m", "TopicArn": "t", "Message": json.dumps(one[3]), "Signature": "s"}
        removed = {**BRIDGE, "detail-type": "Object Deleted", "detail": {**BRIDGE["detail"], "reason": "DeleteObject", "deletion-type": "Delete Marker Created",
                   "object": {"key": "a+b", "version-id": "m1", "sequencer": "617f0837b476e463"}}}
        for name, found, wanted in (
                ("an event", one[0], ("put", "many", "a", 0)), ("a message of SQS", sqs(json.dumps(one[1])), ("put", "many", "b", 1)),
                ("a message in a file of lines", {"Body": json.dumps(one[2])}, ("put", "many", "c", 2)), ("SNS", sns, ("put", "many", "d", 3)),
                ("SNS by SQS", sqs(json.dumps({**sns, "Message": json.dumps(one[4])})), ("put", "many", "e", 4)),
                ("SQS to Lambda", {"Records": [{"eventSource": "aws:sqs", "body": json.dumps(one[5])}]}, ("put", "many", "f", 5)),
                ("MinIO", minio, ("put", "many", "g g", 6)), ("EventBridge", BRIDGE, ("put", "many", "a+b", 5)),
                ("EventBridge, a delete", removed, ("delete", "many", "a+b", None))):
            status, notes = self.follow(self.file("event.json", json.dumps(found, indent=2)))
            self.check(f"{name}: {notes}", (0, wanted), (status, self.done()[-1]))
        self.check("the class of MinIO", "GLACIER", self.ask("GET", "/buckets/many/objects/g%20g")[1]["versions"][0]["class"])
        status, notes = self.follow(self.file("event.json", json.dumps(sqs(json.dumps(TEST_EVENT)))))
        self.check("a test event", (0, True), (status, "other events 1" in notes))

    def test_order_and_twice(self):
        puts = [event(PUT, "plain", "k", size) for size in (1, 2, 3)]
        more = [event(PUT, "many", "k", 1, "v1"), event(MARKER, "many", "k", version="m1"), event(PUT, "many", "k", 2, "v2"), event(REMOVE, "many", "k", version="v1")]
        self.check("out of order in one file", 0, self.follow(self.file("one", lines(puts[1], more[2], puts[0], more[1], more[0], puts[1], more[3])))[0])
        wanted = [("put", "plain", "k", 1), ("put", "many", "k", 1), ("put", "plain", "k", 2), ("delete", "many", "k", None), ("put", "many", "k", 2), ("remove", "many", "k", 1)]
        self.check("in the order of sequencers", (sorted(wanted[::2]), sorted(wanted)), (sorted(self.done()[::2]), sorted(self.done())))
        self.check("of each key", [it for it in wanted if it[1] == "plain"], [it for it in self.done() if it[1] == "plain"])
        self.check("of each key, with versions", [it for it in wanted if it[1] == "many"], [it for it in self.done() if it[1] == "many"])
        count = len(self.done())
        status, notes = self.follow(self.file("two", lines(*puts[:2], *more)))
        self.check("again, in another file", (0, count), (status, len(self.done())))
        self.check("is counted; a removal again has its first reply", True, "sent twice or late 5" in notes and "removals 1" in notes)
        last = puts[2]["s3"]["object"]["sequencer"]
        for order, more in ((last, 1), (last + "00", 1), (last + "01", 2), (last + "1", 3), (last + "0F", 3)):  # as if filled with zeros at the right
            self.check(f"sequencers of different lengths: {order}", (0, count + more),
                       (self.follow(self.file("three", lines(event(PUT, "plain", "k", 9, order=order))))[0], len(self.done())))
        count += 2
        late = event(PUT, "many", "k", 7, "v0", order="0000000000000FFF")
        status, _ = self.follow(self.file("four", lines(late)))
        self.check("a version that comes too late", (5, count + 1, [late]), (status, len(self.done()), [it["event"] for it in self.dead()]))

    def test_dead_letters(self):
        good = event(PUT, "plain", "good", 1)
        bad = [event(PUT, "other", "k", 1), event(PUT, "plain", "k", 5497558138881), event(PUT, "plain", "v", 1, "v1"), event(PUT, "many", "n", 1),
               event(REMOVE, "many", "k", version="unknown"), event(PUT, "plain", "cold", 1), event(PUT, "Bad_Name", "k", 1), event(PUT, "plain", "k" * 1025, 1),
               event(PUT, "plain", "", 1)]
        bad[5]["s3"]["object"]["userMetadata"] = {"x-amz-storage-class": "INTELLIGENT_TIERING"}
        no_order = event(PUT, "plain", "o", 1)
        del no_order["s3"]["object"]["sequencer"]
        text = lines(bad[0]) + "no json\n" + '{"hello": 1}\n' + lines(*bad[1:], no_order, good)
        path = self.file("events", text)
        status, notes = self.follow(path)
        self.check("the others go on", (5, [("put", "plain", "good", 1)]), (status, self.done()))
        self.check("each has a reason", 12, len(self.dead()))
        unversioned, enabled = (f"{it}, and here the versioning of the bucket is {state}" for it, state in (
            ("the store keeps versions", "Unversioned"), ("the event names no version", "Enabled")))
        wanted = ["there is no bucket 'other' here", "this is not an event", "this is not an event of a bucket", "refused: 400 BadSize", unversioned, enabled,
                  "this version id is not in the map", "refused: 400 UnsupportedClass", "there is no bucket 'Bad_Name' here", "refused: 400 BadKey",
                  "refused: 404 NoRoute", "its sequencer is null, so nothing tells what came before it"]
        self.check("the reasons", sorted(wanted), sorted(it["why"] for it in self.dead()))
        self.check("a class that is not here", ["refused: 400 UnsupportedClass"], [it["why"] for it in self.dead() if it["event"] == bad[5]])
        self.check("the first are told, and where all are", True, "dead letters 12" in notes and "store.map.dead" in notes)
        self.check("the file again, nothing new", (0, 12), (self.follow(path)[0], len(self.dead())))
        self.ask("PUT", "/buckets/other")
        self.check("--retry", (5, 10), (self.follow("--retry", "--nearest", "STANDARD")[0], len(self.dead())))
        self.check("what is done now", [("put", "other", "k", 1), ("put", "plain", "cold", 1)], self.done()[1:])
        self.check("a bucket that is not followed", 5, self.follow("--bucket", "many", self.file("more", lines(event(PUT, "plain", "z", 1))))[0])

    def test_files(self):
        first, second = lines(event(PUT, "plain", "a", 1)), lines(event(PUT, "plain", "b", 2))
        path = self.file("grows", first + second[:40])
        status, notes = self.follow(path)
        self.check("a last line that is not whole", (0, 1, True), (status, len(self.done()), "is not whole" in notes))
        path.write_text(first + second)
        self.check("goes on there", (0, 2), (self.follow(path)[0], len(self.done())))
        self.check("nothing is left", (0, True), ((it := self.follow(path))[0], it[1] == "follow: no event"))
        whole = json.dumps({"Records": [event(PUT, "plain", "c", 3)]}, indent=2)
        self.check("a JSON text that is cut", (3, 2), (self.follow(self.file("cut", whole[:-9]))[0], len(self.done())))
        self.check("and whole again", (0, 3), (self.follow(self.file("cut", whole))[0], len(self.done())))
        self.check("standard input", (0, 4), (self.follow("-", input=lines(event(PUT, "plain", "d", 4)))[0], len(self.done())))
        self.check("standard input, cut", (3, 4), (self.follow("-", input=whole[:-9])[0], len(self.done())))
        self.check("no file", 3, self.follow("nowhere")[0])
        self.check("no events", 1, self.follow()[0])
        self.check("no map", 3, self.follow("--map", self.file("text", "this is no map, and long enough to be no empty file either" * 9), path)[0])
        self.check("the map of another office", 3, self.follow(path, at=f"http://127.0.0.1:{free_port()}")[0])

    def some(self, count, bucket="many"):
        return [event(PUT, bucket, f"k{place % 7}", place, f"v{place}" if bucket == "many" else None) for place in range(count)]

    def check_all(self, name, records):
        """Each put is in the journal once, in order, and the map has its number."""
        wanted = [(it["s3"]["bucket"]["name"], it["s3"]["object"]["key"], it["s3"]["object"]["size"]) for it in records]
        self.check(f"{name}: each once", sorted(wanted), sorted(it[1:] for it in self.done()))
        with sqlite3.connect(self.map) as link:
            rows = dict(link.execute("select id, number from versions where bucket = 'many'"))
        numbers = {}
        for place in range(7):
            for it in self.ask("GET", f"/buckets/many/objects/k{place}")[1].get("versions", []):
                numbers[f"v{it['size']}"] = it["version"]
        self.check(f"{name}: the numbers in the map", numbers, rows)

    def test_replies_and_requests_are_lost(self):
        records = self.some(40) + self.some(20, "plain")
        path = self.file("events", lines(*records))
        with Odd(self.server.port) as odd:
            at = f"http://127.0.0.1:{odd.port}"
            self.map = self.folder / "odd.map"
            for how, key in ((LOSE_REPLY, "k0"), (LOSE_REPLY, "k0"), (LOSE_REQUEST, "k1"), (LOSE_REPLY, "k2"), (reply(503, '{"error":"StoreFault","number":114}'), "k3")):
                odd.replies = {("PUT", f"/buckets/many/objects/{key}"): how, ("PUT", f"/buckets/plain/objects/{key}"): how}
                self.check(f"{how}: status", 2, self.follow(path, at=at)[0])
            odd.replies = {}
            self.check("the same words go on", 0, self.follow(path, at=at)[0])
        self.check_all("replies were lost", records)

    def test_killed(self):
        records = self.some(600)
        path = self.file("events", lines(*records))
        for place in range(6):
            tool = subprocess.Popen([live.TOOLS / "follow", *self.words(path)], cwd=self.folder, stderr=subprocess.DEVNULL)
            late = time.monotonic() + LIMIT
            while len(self.done()) < 70 * (place + 1) and tool.poll() is None and time.monotonic() < late:
                time.sleep(0.01)
            tool.send_signal(signal.SIGKILL)
            tool.wait()
        self.check("the same words go on", 0, self.follow(path)[0])
        self.check_all("killed", records)

    def test_an_older_journal(self):
        """A copy of the journal is brought back: what was done since is lost, and its numbers are given to others."""
        records = self.some(10)
        self.check("before the copy", 0, self.follow(self.file("first", lines(*records[:6])))[0])
        copy = self.journal.read_bytes()
        self.check("behind the copy", 0, self.follow(self.file("second", lines(*records[6:])))[0])
        self.server.stop()
        self.journal.write_bytes(copy)
        port = self.server.port
        self.server = self.serve()
        with sqlite3.connect(self.map) as link:
            link.execute("update about set value = replace(value, ?, ?) where name = 'office'", (f":{port}", f":{self.server.port}"))
        self.at = f"http://127.0.0.1:{self.server.port}"
        again = self.file("again", lines(*records[6:]))
        self.check("is refused", (3, 6), (self.follow(again)[0], len(self.done())))
        status, notes = self.follow("--restored", again)
        self.check(f"--restored: {notes}", (0, True), (status, "of 10 versions in the map 4 are not here" in notes))
        self.check_all("brought back", records)
        self.check("and goes on", (0, 10), (self.follow(again)[0], len(self.done())))

    def test_two_at_once(self):
        tool = subprocess.Popen([live.TOOLS / "follow", *self.words("-")], stdin=subprocess.PIPE, cwd=self.folder, stderr=subprocess.DEVNULL)
        self.addCleanup(tool.wait)
        self.addCleanup(tool.kill)
        late = time.monotonic() + LIMIT
        while not self.map.with_name("store.map.lock").exists() and time.monotonic() < late:
            time.sleep(0.01)
        tool.stdin.write(lines(*self.some(1)).encode())
        tool.stdin.flush()
        while not self.done() and time.monotonic() < late:
            time.sleep(0.01)
        self.check("standard input is done as it comes", 1, len(self.done()))
        status, notes = self.follow(self.file("more", lines(*self.some(3))))
        self.check("a second one ends", (2, True, 1), (status, "works with this map" in notes, len(self.done())))
        tool.stdin.close()
        self.check("the first one ends with its input", 0, tool.wait(LIMIT))
        self.check("and the second one goes on", (0, 3), (self.follow("more")[0], len(self.done())))

    def test_webhook(self):
        port = free_port()
        with Odd(self.server.port) as odd:
            self.map = self.folder / "hook.map"
            tool = subprocess.Popen([live.TOOLS / "follow", *self.words("--listen", str(port), at=f"http://127.0.0.1:{odd.port}")], cwd=self.folder, stderr=subprocess.DEVNULL)
            self.addCleanup(tool.wait)
            self.addCleanup(tool.kill)
            ask = urllib.request.build_opener(urllib.request.ProxyHandler({})).open

            def post(text):
                late = time.monotonic() + LIMIT
                while True:
                    try:
                        return ask(f"http://127.0.0.1:{port}/", text.encode(), LIMIT).status
                    except urllib.error.HTTPError as fault:
                        return fault.code
                    except OSError:
                        if time.monotonic() > late:
                            raise
                        time.sleep(0.05)
            records = self.some(4)
            self.check("an event", 200, post(lines(records[0])))
            odd.replies = {("PUT", "/buckets/many/objects/k1"): LOSE_REPLY}
            self.check("the reply is lost", 503, post(lines(records[1])))
            odd.replies = {}
            self.check("it is sent again", 200, post(lines(records[1])))
            self.check("and others", (200, 200), (post(lines(records[2])), post(lines(records[3]))))
            self.check("no JSON", 400, post("hello"))
            self.check("what is not an event is a dead letter", (200, True), (post('{"hello":1}'), (self.folder / "hook.map.dead").exists()))
        self.check_all("a webhook", records)

    @needs_moto
    def test_queue(self):
        os.environ.update(ACCESS)
        store = Moto()
        self.addCleanup(store.end)
        records, queue = self.some(25), store.sqs.create_queue(QueueName="events")["QueueUrl"]
        for it in records:
            store.sqs.send_message(QueueUrl=queue, MessageBody=json.dumps({"Records": [it]}))
        with Odd(self.server.port) as odd:
            odd.replies = {("PUT", "/buckets/many/objects/k3"): LOSE_REPLY}
            self.map = self.folder / "queue.map"
            words = ("--queue", queue, "--endpoint-url", store.url)
            self.check("a reply is lost", 2, self.follow(*words, at=f"http://127.0.0.1:{odd.port}")[0])
            odd.replies = {}
            about = store.sqs.get_queue_attributes(QueueUrl=queue, AttributeNames=["All"])["Attributes"]
            self.check("its messages are not deleted", True, int(about["ApproximateNumberOfMessages"]) + int(about["ApproximateNumberOfMessagesNotVisible"]) == 25)
            self.check("the others", 0, self.follow(*words, at=f"http://127.0.0.1:{odd.port}")[0])
        self.check("they were done, too, though the queue has them still", True, len(self.done()) == len({it[1:] for it in self.done()}) == 25)
        for client in ("boto3", "aws") if live.has("aws") else ("boto3",):
            status, notes = self.follow("--queue", f"{queue}-none", "--client", client, "--endpoint-url", store.url, at=f"http://127.0.0.1:{odd.port}")
            self.check(f"no such queue, by {client}: {notes}", (2, True), (status, "the queue refuses receive-message" in notes))
        store.bucket("many", "Enabled")
        made = store.s3.put_object(Bucket="many", Key="cold", Body=b"x", StorageClass="STANDARD_IA", Tagging="a=b")
        for client in ("boto3", "aws") if live.has("aws") else ("boto3",):
            self.map = self.folder / f"{client}.map"
            path = self.file("asked", lines(event(PUT, "many", "cold", 1, made["VersionId"])))
            status, notes = self.follow("--ask-store", "--client", client, "--endpoint-url", store.url, path)
            self.check(f"--ask-store by {client}: {notes}", 0, status)
            newest = self.ask("GET", "/buckets/many/objects/cold")[1]["versions"][0]
            self.check(f"the class and the tags that {client} told", ("STANDARD_IA", {"a": "b"}), (newest["class"], newest["tags"]))
        store.s3.put_object_tagging(Bucket="many", Key="cold", VersionId=made["VersionId"], Tagging={"TagSet": [{"Key": "c", "Value": "d"}]})
        path, count = self.file("tagged", lines(event("ObjectTagging:Put", "many", "cold", version=made["VersionId"]))), len(entries_of(self.server.folder))
        for turn, more in (("once", 1), ("again", 1)):
            path.touch()
            self.map.with_name("again").write_bytes(path.read_bytes())
            status, notes = self.follow("--ask-store", "--endpoint-url", store.url, path if turn == "once" else "again")
            newest = self.ask("GET", "/buckets/many/objects/cold")[1]["versions"][0]
            self.check(f"new tags, {turn}: {notes}", (0, {"c": "d"}, count + more), (status, newest["tags"], len(entries_of(self.server.folder))))


if __name__ == "__main__":
    live.main()
