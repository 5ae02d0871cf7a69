"""What import-inventory puts in a second run with --nearest: rows that were refused for their class, each once, and none above or
below what others put since."""
import collections
import json
import os
import pathlib
import sys
import tempfile
import unittest

sys.path.insert(0, str(pathlib.Path(__file__).resolve().parent.parent))
from office_tools import again, sending  # noqa: E402
from office_tools.asking import Stop  # noqa: E402
from office_tools.entries import CLASSES  # noqa: E402
from office_tools.idmap import IdMap  # noqa: E402
from office_tools.listings import CURRENT, NONCURRENT, Row  # noqa: E402

FOREIGN = "INTELLIGENT_TIERING"


class Office:
    """A server that knows tokens, classes and the versions of each key; it ends the tool at a reply if it is told to."""
    name = "http://127.0.0.1:1"

    def __init__(self):
        self.stacks, self.kept, self.puts, self.lose, self.count = collections.defaultdict(list), {}, [], None, 0

    def ask(self, method, target, body=None, token=None):
        found = self.reply(method, target, body, token)
        if method == "PUT" and "/objects/" in target:
            self.count += 1
            if self.count == self.lose:
                raise Stop(2, "the reply is lost")
        return found

    def reply(self, method, target, body, token):
        key = target.rpartition("/objects/")[2]
        if method == "GET" and "/objects/" in target:
            found = [{"size": size, "version": number} for size, number in self.stacks[key][::-1]]
            return (200, {"versions": found}) if found else (404, {"error": "NoSuchKey"})
        if method == "GET":
            return 200, {"versions": 0, "versioning": "Enabled"}
        if "/objects/" not in target:
            return 201, {"bucket": "logs"}
        if body["class"] not in CLASSES:
            return 400, {"error": "UnsupportedClass"}
        if body["size"] > 5 << 40:
            return 400, {"error": "BadSize"}
        if token not in self.kept:
            self.puts.append((key, body["size"], body["class"]))
            self.stacks[key].append((body["size"], str(len(self.puts))))
            self.kept[token] = 201, {"version": str(len(self.puts))}
        return self.kept[token]


class Work:
    """What sending asks of an import; with a class for those that are not here, or without."""
    anew = None

    def __init__(self, rows, nearest=None, ids=None, versioned=()):
        self.mapped_rows = {place for place, it in enumerate(rows) if nearest and it.storage_class == FOREIGN}
        self.rows = [it._replace(storage_class=nearest) if place in self.mapped_rows else it for place, it in enumerate(rows)]
        self.all, self.buckets, self.versioned, self.suspended = len(rows), {"logs": None}, set(versioned), set()
        self.digest, self.ids, self.nearest = "digest", ids, nearest
        self.names, self.counts, self.again, self.there = [], collections.Counter(), 0, 0

    def count(self, _, taken):
        self.counts["put"] += taken

    def leave(self, it, kind, why):
        self.counts[kind] += 1
        self.names.append((*sending.name_of(it), why))

    def keep(self, it, number):
        if self.ids and it.version:
            self.ids.keep(it.bucket, it.key.decode(), it.version, number, it.size)

    def taken_up(self, lines):
        for line in lines:
            self.names += map(tuple, line["refused"])
            self.counts["refused"] += len(line["refused"])
            self.counts["put"] = line["put"]

    def tell(self, _):
        pass


def row(key, size, of="STANDARD", version=None, kind=CURRENT):
    return Row("logs", key.encode(), size, of, kind, f"list:{key}", version)


class Again(unittest.TestCase):
    def setUp(self):
        self.folder = tempfile.TemporaryDirectory()
        self.addCleanup(self.folder.cleanup)
        self.state, self.office = os.path.join(self.folder.name, "state"), Office()
        self.slice = sending.SLICE, again.SLICE
        sending.SLICE, again.SLICE = 3, 2
        self.addCleanup(lambda: (setattr(sending, "SLICE", self.slice[0]), setattr(again, "SLICE", self.slice[1])))

    def send(self, rows, nearest=None, ids=None, versioned=()):
        work = Work(rows, nearest, ids, versioned)
        sending.send(work, self.office, self.state, again.try_again)
        return work

    def lines(self):
        with open(self.state, encoding="utf-8") as file:
            return [json.loads(it) for it in file][1:]

    def test_rows_that_were_refused(self):
        rows = [row(f"k{it}", it, FOREIGN if it % 2 else "STANDARD") for it in range(8)]
        work = self.send(rows)
        self.assertEqual((4, 4), (work.counts["put"], work.counts["refused"]))
        work = self.send(rows, "GLACIER")
        self.assertEqual((8, 0, 4, []), (work.counts["put"], work.counts["refused"], work.again, work.names))
        self.assertEqual(sorted((f"k{it}", it, "GLACIER" if it % 2 else "STANDARD") for it in range(8)), sorted(self.office.puts))
        self.assertEqual(([], 8), ([it for line in self.lines() for it in line["refused"]], self.lines()[-1]["put"]))
        self.assertEqual((8, 0), ((work := self.send(rows, "GLACIER")).counts["put"], work.again))
        self.assertEqual(8, len(self.office.puts), "nothing is done twice")

    def test_cut_off_at_each_reply(self):
        rows = [row(f"k{it}", it, FOREIGN, f"v{it}") for it in range(8)]
        for lose in range(1, 9):
            self.office = Office()
            ids = IdMap(os.path.join(self.folder.name, f"map{lose}"))
            self.send(rows, ids=ids)
            self.office.count, self.office.lose = 0, lose
            with self.assertRaises(Stop):
                self.send(rows, "GLACIER", ids)
            work = self.send(rows, "GLACIER", ids)
            wanted = [(f"k{it}", it, "GLACIER") for it in range(8)]
            self.assertEqual((wanted, 8, 0), (self.office.puts, work.counts["put"], work.counts["refused"]), lose)
            rows_there = ids.do("select id, number from versions order by id").fetchall()
            self.assertEqual([(f"v{it}", str(it + 1)) for it in range(8)], rows_there, lose)
            os.remove(self.state)

    def test_a_stop_with_other_words(self):
        """The first run is stopped within a slice: an older version was refused and a newer one put. The second run has --nearest, and is refused."""
        rows = [row("a", 1, FOREIGN, "v1", NONCURRENT), row("a", 2, "STANDARD", "v2"), row("b", 3, FOREIGN, "v3"), row("c", 4, version="v4")]
        for lose in (2, 3, 4):
            self.office = Office()
            self.office.lose = lose
            with self.assertRaises(Stop):
                self.send(rows, versioned=["logs"])
            before = list(self.office.puts)
            with self.assertRaises(Stop) as found:
                self.send(rows, "GLACIER", versioned=["logs"])
            self.assertEqual((1, before), (found.exception.args[0], self.office.puts), lose)
            self.assertIn("was begun without --nearest and is not done", found.exception.args[1])
            self.send(rows, versioned=["logs"])
            work = self.send(rows, "GLACIER", versioned=["logs"])
            self.assertEqual({"a": [2], "b": [3], "c": [4]}, self.sizes(), lose)
            self.assertEqual((1, 1), (work.counts["refused"], work.again))
            with self.assertRaises(Stop, msg="a map that was lost is made anew by the first words"):
                self.send(rows, "GLACIER", IdMap(os.path.join(self.folder.name, f"lost{lose}")), ["logs"])
            os.remove(self.state)

    def sizes(self):
        """The sizes of the versions of each key that is there, oldest first."""
        return {key: [size for size, _ in it] for key, it in self.office.stacks.items() if it}

    def test_a_map_that_is_lost(self):
        rows = [row("a", 1, version="v1"), row("b", 2, FOREIGN, "v2")]
        self.send(rows, ids=IdMap(os.path.join(self.folder.name, "first")), versioned=["logs"])
        self.send(rows, "GLACIER", IdMap(os.path.join(self.folder.name, "first")), ["logs"])
        self.office.kept.clear()  # also the replies are not kept any more
        ids = IdMap(os.path.join(self.folder.name, "second"))
        ids.keep_place("digest", 2)
        with open(self.state, encoding="utf-8") as file:
            head, line = map(json.loads, file)
        line["put"], line["refused"] = 1, [["logs", "b", again.WHY]]
        with open(self.state, "w", encoding="utf-8") as file:
            file.write(json.dumps(head) + "\n" + json.dumps(line) + "\n")
        self.send(rows, "GLACIER", ids, ["logs"])
        self.assertEqual(2, len(self.office.puts), "what is there is not put again")
        self.assertEqual("2", ids.number_of("logs", "b", "v2"))

    def test_versions(self):
        rows = [row("old", 1, FOREIGN, "v1", NONCURRENT), row("old", 2, "STANDARD", "v2"), row("new", 3, "STANDARD", "v3", NONCURRENT),
                row("new", 4, FOREIGN, "v4"), row("all", 5, FOREIGN, "v5", NONCURRENT), row("all", 6, FOREIGN, "v6")]
        self.send(rows, versioned=["logs"])
        work = self.send(rows, "GLACIER", versioned=["logs"])
        self.assertEqual({"old": [2], "new": [3, 4], "all": [5, 6]}, self.sizes(), "none is put above a newer one")
        why = f"{again.WHY}, and {again.NEWER}"
        self.assertEqual(([("logs", "old", why)], 1), (work.names, work.counts["refused"]))
        self.assertEqual([["logs", "old", why]], [it for line in self.lines() for it in line["refused"]])
        self.assertEqual([("logs", "old", why)], self.send(rows, "GLACIER", versioned=["logs"]).names)

    def test_what_others_put_since(self):
        rows = [row("a", 1, FOREIGN), row("b", 2, FOREIGN)]
        self.send(rows)
        self.office.stacks["a"].append((77, "9"))
        work = self.send(rows, "GLACIER")
        self.assertEqual({"a": [77], "b": [2]}, self.sizes(), "is not replaced")
        self.assertEqual([("logs", "a", f"{again.WHY}, and {again.CHANGED}")], work.names)

    def test_refused_for_another_reason(self):
        rows = [row("big", (5 << 40) + 1, FOREIGN), row("b", 2, FOREIGN)]
        self.send(rows)
        work = self.send(rows, "GLACIER")
        self.assertEqual(([("logs", "big", "refused: BadSize")], 1, 1), (work.names, work.counts["refused"], work.counts["put"]))
        self.assertEqual([("logs", "big", "refused: BadSize")], self.send(rows, "GLACIER").names)


if __name__ == "__main__":
    unittest.main()
