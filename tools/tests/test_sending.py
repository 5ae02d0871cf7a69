"""What import-inventory and follow send: tokens, the place that was reached, and what a stop in the middle leaves."""
import collections
import json
import os
import pathlib
import re
import sys
import tempfile
import types
import unittest
import unittest.mock

sys.path.insert(0, str(pathlib.Path(__file__).resolve().parent.parent))
from office_tools import sending  # noqa: E402
from office_tools.asking import Stop  # noqa: E402
from office_tools.events import event_of  # noqa: E402
from office_tools.extras import Upload, send_uploads  # noqa: E402
from office_tools.following import Follow  # noqa: E402
from office_tools.idmap import IdMap  # noqa: E402
from office_tools.listings import CURRENT, MARKER, NONCURRENT, Row  # noqa: E402
from office_tools.tokens import KEPT, token_of  # noqa: E402


def row(key, size=1, kind=CURRENT, version=None, **more):
    return Row("logs", key.encode(), None if kind == MARKER else size, "STANDARD", kind, f"list:{key}", version, **more)


class Office:
    """A server that knows tokens: it puts each once, and ends the tool at a request if it is told to."""
    name = "http://127.0.0.1:1"

    def __init__(self):
        self.asked, self.done, self.kept, self.lose = [], [], {}, None

    def ask(self, method, target, body=None, token=None):
        self.asked.append((method, target, token))
        reply = self.reply(method, target, body, token)
        if self.lose is not None and len(self.done) == self.lose:
            self.lose = None
            raise Stop(2, "the reply is lost")
        return reply

    def reply(self, method, target, body, token):
        if method == "GET":
            return 200, {"versions": len(self.done), "versioning": "Enabled", "key": "big", "parts": []}
        if target.count("/") == 2:
            return 201, {"bucket": "logs"}
        if "refused" in target:
            return 400, {"error": "BadKey"}
        if token in self.kept:
            return self.kept[token]
        self.done.append((method, target, body))
        number = str(len(self.done))
        found = {"version": number, "marker": number, "upload": len(self.done)}
        self.kept[token] = (200 if method == "DELETE" or "/parts/" in target else 201, found)
        return self.kept[token]


class Work:
    """What sending asks of an import."""
    anew = nearest = None

    def __init__(self, rows, ids=None, versioned=()):
        self.rows, self.all, self.buckets, self.versioned, self.suspended = rows, len(rows), {"logs": None}, set(versioned), set()
        self.digest, self.ids, self.names, self.counts, self.there = "digest", ids, [], collections.Counter(), 0
        self.uploads, self.numbers = [], {}

    def count(self, it, taken):
        self.counts["markers" if it.kind == MARKER else "put"] += taken

    def leave(self, it, kind, why):
        self.counts[kind] += 1
        self.names.append(("logs", it.key.decode(), why))

    def keep(self, it, number):
        self.numbers[it.key] = number
        if self.ids:
            self.ids.keep(it.bucket, it.key.decode(), it.version, number, it.size)

    def taken_up(self, lines):
        self.there = sum(1 for _ in lines) and lines[-1]["put"]
        self.names += [tuple(it) for line in lines for it in line["refused"]]

    def tell(self, place):
        pass


class Tokens(unittest.TestCase):
    def test_form(self):
        found = token_of("row", "logs", 7, None, [["k", "é"]])
        self.assertTrue(re.fullmatch("[0-9a-f]{64}", found))
        self.assertEqual(found, token_of("row", "logs", 7, None, [["k", "é"]]))
        self.assertNotEqual(found, token_of("row", "logs", "7", None, [["k", "é"]]))

    def test_a_row_has_the_same_token_in_any_listing(self):
        rows = [row("a", version="v1"), row("b"), row("c", tags={"x": "1", "a": "2"})]
        tokens = dict((it.key, token) for it, token in sending.with_tokens(rows))
        self.assertEqual(3, len(set(tokens.values())))
        again = [row("new"), row("c", tags={"a": "2", "x": "1"}), row("a", version="v1", kind=NONCURRENT), row("b")]
        for it, token in sending.with_tokens(again):
            self.assertEqual(it.key == b"new", token != tokens.get(it.key))
        for other in (row("a", 2, version="v1"), row("a", version="v2"), row("a", version="v1", kind=MARKER), row("a")):
            self.assertNotIn(next(sending.with_tokens([other]))[1], tokens.values())

    def test_anew(self):
        rows = [row("a", version="v1"), row("b")]
        tokens = {token for word in (None, "2", "3") for _, token in sending.with_tokens(rows, 0, word)}
        self.assertEqual(6, len(tokens))
        self.assertEqual([*sending.with_tokens(rows)], [*sending.with_tokens(rows, 0, None)])

    def test_rows_that_say_the_same(self):
        rows = [row("a", kind=NONCURRENT), row("b"), row("a", kind=NONCURRENT), row("a"), row("a", kind=NONCURRENT)]
        tokens = [token for _, token in sending.with_tokens(rows)]
        self.assertEqual(5, len(set(tokens)))
        self.assertEqual(tokens[3:], [token for _, token in sending.with_tokens(rows, 3)])


class Send(unittest.TestCase):
    def setUp(self):
        self.folder = tempfile.TemporaryDirectory()
        self.addCleanup(self.folder.cleanup)
        self.state, self.office = os.path.join(self.folder.name, "state"), Office()
        self.slice = sending.SLICE
        sending.SLICE = 3
        self.addCleanup(setattr, sending, "SLICE", self.slice)

    def map(self, name="map"):
        return IdMap(os.path.join(self.folder.name, name))

    def send(self, work):
        sending.send(work, self.office, self.state)
        return work

    def lines(self):
        with open(self.state, encoding="utf-8") as file:
            return [json.loads(it) for it in file]

    def test_cut_off_at_each_reply(self):
        rows = [row(f"k{it}" if it != 4 else "refused") for it in range(8)]
        for lose in range(1, 8):
            self.office = Office()
            self.office.lose = lose
            with self.assertRaises(Stop):
                self.send(Work(rows))
            work = self.send(Work(rows))
            wanted = [it.key.decode() for it in rows if it.key != b"refused"]
            self.assertEqual(wanted, [target.rpartition("/")[2] for _, target, _ in self.office.done], lose)
            self.assertEqual(1, len([it for it in work.names if it[1] == "refused"]), "named once, also if an earlier try was told")
            os.remove(self.state)

    def test_goes_on_at_the_last_slice(self):
        rows = [row(f"k{it}") for it in range(8)]
        self.office.lose = 7
        with self.assertRaises(Stop):
            self.send(Work(rows))
        self.assertEqual([{"import": "digest", "server": Office.name}, 3, 6], [self.lines()[0], *(it["place"] for it in self.lines()[1:])])
        self.office.asked = []
        work = self.send(Work(rows))
        self.assertEqual(["k6", "k7"], [target.rpartition("/")[2] for method, target, _ in self.office.asked if target.count("/") > 2])
        self.assertEqual((6, {b"k6": "7", b"k7": "8"}), (work.there, work.numbers))
        with open(self.state, "a", encoding="utf-8") as file:
            file.write('{"place": 99')
        self.office.asked = []
        self.send(Work(rows))
        self.assertEqual([("PUT", "/buckets/logs", None)], self.office.asked, "all is there; half a line counts for nothing")

    def test_the_map(self):
        rows = [row(f"k{it}", version=f"v{it}") for it in range(8)]
        self.office.lose = 7
        with self.assertRaises(Stop):
            self.send(Work(rows, self.map()))
        self.assertEqual(6, self.map().place_of("digest"))
        self.send(Work(rows, self.map()))
        wanted = [(f"k{it}", f"v{it}", str(it + 1)) for it in range(8)]
        self.assertEqual(wanted, self.map().do("select key, id, number from versions order by key").fetchall())
        self.send(Work(rows, self.map("other")))
        self.assertEqual(wanted, self.map("other").do("select key, id, number from versions order by key").fetchall(), "a map that was lost")
        self.assertEqual(8, len(self.office.done))

    def test_what_might_be_put_twice(self):
        sending.SLICE, rows = self.slice, [row(f"k{it}") for it in range(sending.SAFE + 1)]
        self.office.done = [("PUT", "x", None)]
        with self.assertRaises(Stop) as found:
            self.send(Work(rows))
        self.assertEqual(6, found.exception.args[0])
        self.assertEqual((1, False), (len(self.office.done), os.path.exists(self.state)))
        self.send(Work(rows[:-1]))
        os.remove(self.state)
        self.office = Office()
        self.send(Work(rows))
        with self.assertRaises(Stop) as found:
            self.send(Work(rows, self.map()))
        self.assertEqual((6, len(rows)), (found.exception.args[0], len(self.office.done)), "the map lacks more numbers than are kept")
        self.assertLess(sending.SAFE + self.slice, KEPT + 1)

    def test_state_files_of_others(self):
        for text, status in (('{"import": "other", "server": "x"}\n', 1), ('{"import": "digest", "server": "x"}\n', 1), ("digest http://127.0.0.1:1\n", 1), ("[]\n", 1)):
            with open(self.state, "w", encoding="utf-8") as file:
                file.write(text)
            with self.assertRaises(Stop) as found:
                self.send(Work([row("a")]))
            self.assertEqual(status, found.exception.args[0])
        self.assertEqual([], self.office.done)

    def test_uploads(self):
        work = Work([])
        work.uploads = [Upload("logs", "big", "up1", "GLACIER", {1: 5, 2: 6}, "list")]
        self.office.lose = 1
        ids = self.map()
        with self.assertRaises(Stop):
            send_uploads(work, self.office, ids)
        self.office.lose = 3
        with self.assertRaises(Stop):
            send_uploads(work, self.office, ids)
        send_uploads(work, self.office, ids)
        self.assertEqual(["/buckets/logs/uploads/big", "/buckets/logs/parts/1/1", "/buckets/logs/parts/1/2"], [it[1] for it in self.office.done])
        self.assertEqual(("big", "up1"), ids.upload_of("logs", 1))


def event(key, size, version=None, name="ObjectCreated:Put", order="01"):
    about = {"key": key, "sequencer": order, **({"size": size} if size is not None else {}), **({"versionId": version} if version else {})}
    return event_of({"eventName": name, "s3": {"bucket": {"name": "logs"}, "object": about}})


class Followed(unittest.TestCase):
    def setUp(self):
        self.folder = tempfile.TemporaryDirectory()
        self.addCleanup(self.folder.cleanup)
        self.journal = os.path.join(self.folder.name, "journal")
        with open(self.journal, "wb") as file:
            file.write(b"\xa5METERJRN1\0")
        self.office, self.ids = Office(), IdMap(os.path.join(self.folder.name, "map"))
        change = unittest.mock.patch.dict(os.environ, {"OFFICE_STATE": self.folder.name})
        change.start()
        self.addCleanup(change.stop)

    def follow(self):
        given = types.SimpleNamespace(journal=self.journal, bucket=[], storage_class="STANDARD", nearest=None)
        found = Follow(given, self.office, self.ids)
        self.addCleanup(found.journal.close)
        return found

    def test_replies_are_lost(self):
        events = [event(f"k{it}", it, f"v{it}") for it in range(5)]
        for lose in (1, 3):
            self.office.lose = lose
            with self.assertRaises(Stop), unittest.mock.patch("sys.stderr"):
                work = self.follow()
                work.resume()
                work.run(events)
        with unittest.mock.patch("sys.stderr"):
            work = self.follow()
            work.resume()
            work.run(events)
        self.assertEqual([f"/buckets/logs/objects/k{it}" for it in range(5)], [it[1] for it in self.office.done], "each once, in order")
        self.assertEqual([(f"v{it}", str(it + 1)) for it in range(5)], self.ids.do("select id, number from versions order by id").fetchall())
        self.assertIsNone(self.ids.one("select event from dead"))

    def test_an_event_has_a_token_of_its_own(self):
        self.follow().run([event("a", 1, "v1"), event("b", 1, "v1"), event("a", None, "m1", "ObjectRemoved:DeleteMarkerCreated", "02")])
        tokens = [token for _, _, token in self.office.asked if token]
        self.assertEqual((3, 3), (len(tokens), len(set(tokens))))

    def test_what_an_older_version_left(self):
        self.ids.do("insert into intents values (0, 10, ?)", json.dumps({"event": event("a", 1, "v1").raw, "last": [5, "00"]}))
        with self.assertRaises(Stop) as found:
            self.follow().resume()
        self.assertEqual(3, found.exception.args[0])


if __name__ == "__main__":
    unittest.main()
