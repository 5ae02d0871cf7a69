#!/usr/bin/env -S python3 -B
"""Compares what tools/journal-dump reads in a journal with what the program reads there, on a whole journal and on damaged ones."""
import contextlib
import io
import json
import subprocess
import sys
import urllib.parse

import live
from live import TOOLS

TOOL = TOOLS / "journal-dump"
BUCKET = b"zoo-zoo"
PUTS = [("a", 0, "STANDARD"), ("b/c d", 1, "STANDARD_IA"), ("f", 5497558138880, "DEEP_ARCHIVE"),
        ("\u00e9\u20ac\U0001d11e?#%", 131072, "ONEZONE_IA"), ("\"\\\x01\x7f", 6144, "GLACIER"), ("k" * 90, 77, "GLACIER_IR")]
WHERE = ("moment", "ms", "offset")
TARIFF = (b"[storage]\n" + b"".join(b"%s = 5\n" % it.encode() for it in live.CLASSES)
          + b"[transition]\n" + b"".join(b"%s = 7\n" % it.encode() for it in live.CLASSES[1:]))
sys.path.insert(0, str(TOOLS))
from office_tools.commands import journal_dump as tool  # noqa: E402


def request(method, target, body=b""):
    return b"%s %s HTTP/1.1\r\nHost: office\r\nContent-Length: %d\r\n\r\n%s" % (method, target, len(body), body)


def changed(data, place, byte):
    return data[:place] + bytes([byte]) + data[place + 1:]


def commands(lines):
    """What the entries did, without their moments and places."""
    return [{name: it[name] for name in it if name not in WHERE} for it in lines]


class JournalDump(live.Case):
    in_memory = True

    def setUp(self):
        super().setUp()
        self.office("init")
        self.journal = self.folder / "office-data" / "journal"

    def fill(self):
        """A journal with a bucket and some puts: its bytes, its lines by the tool, and what the program replied."""
        asked = [request(b"PUT", b"/buckets/" + BUCKET)]
        for key, size, name in PUTS:
            target = b"/buckets/" + BUCKET + b"/objects/" + urllib.parse.quote(key).encode()
            asked.append(request(b"PUT", target, json.dumps({"size": size, "class": name}).encode()))
        said = self.office("run", sent=b"".join(asked)).stdout
        self.assertEqual(len(asked), said.count(b"HTTP/1.1 201 "), "the program accepts each command")
        status, text, note = self.dump(self.journal)
        self.assertEqual((0, ""), (status, note), "the tool reads to the end")
        return self.journal.read_bytes(), [json.loads(line) for line in text.splitlines()], said.decode()

    def dump(self, *words):
        return self.run_tool("journal-dump", *words)

    def by_program(self):
        """What the program notes of the journal, where it opens it from the front and nothing is asked."""
        for name in ("check.0", "check.1"):
            (self.journal.parent / name).unlink(missing_ok=True)
        ended = self.office("run")
        return ended.returncode, ended.stderr.decode().strip()

    def by_tool(self):
        """The same of the tool, within this process."""
        try:
            with contextlib.redirect_stdout(io.StringIO()), open(self.journal, "rb") as file:
                tool.dump(tool.Journal(file), True)
            return 0, ""
        except tool.Stop as stop:
            return stop.args

    def compare(self, name, files):
        """Both read each of these files and say the same; of some they say that they are whole, of some that they are damaged."""
        told, others = set(), []
        for file in files:
            self.journal.write_bytes(file)
            program, own = self.by_program(), self.by_tool()
            told.add(program[0])
            if program != own:
                others.append((program, own))
        self.check(name, ([], {0, 5}), (others, told))

    def test_an_empty_journal(self):
        self.check("no line", (0, "", ""), self.dump(self.journal))

    def test_a_whole_journal(self):
        whole, lines, said = self.fill()
        bucket, end = BUCKET.decode(), len(whole) - 1
        wanted = [{"kind": "create-bucket", "bucket": bucket}]
        wanted += [{"kind": "put", "bucket": bucket, "key": key, "size": size, "class": name, "tags": {}} for key, size, name in PUTS]
        self.check("the entries are the commands that were accepted, in order", wanted, commands(lines))
        moments = [it.partition('"moment":"')[2][:24] for it in said.split("HTTP/1.1 ")[2:]]
        self.check("the moments are those of the replies", moments, [it["moment"] for it in lines[1:]])
        self.check("--check", (0, f"whole: entries {len(lines)}; last moment {lines[-1]['moment']}; end gate at "
                   f"{end}; bytes without meaning behind it: 0\n", ""), self.dump("--check", self.journal))

    def test_each_kind_of_entry(self):
        """A command of each kind that messages ask for, and what is read of its entry."""
        rules = {"Rules": [{"Expiration": {"Date": "2024-01-05T00:00:00.000Z"}, "Filter": {"Prefix": ""}, "ID": "r", "Status": "Enabled"}],
                 "TransitionDefaultMinimumObjectSize": "all_storage_classes_128K"}
        at, tags = "/buckets/zoo", {"a": "1", "k": ""}
        rows = [("PUT", at, None, "create-bucket", {}), ("PUT", f"{at}/versioning", {"Status": "Enabled"}, "set-versioning", {"status": "Enabled"}),
                ("PUT", f"{at}/objects/x", {"size": 1, "tags": tags}, "put", {"key": "x", "size": 1, "class": "STANDARD", "tags": tags}),
                ("PUT", f"{at}/tags/1/x", {"tags": {}}, "set-tags", {"key": "x", "version": 1, "tags": {}}),
                ("DELETE", f"{at}/objects/x", None, "delete", {"key": "x"}),
                ("DELETE", f"{at}/versions/1/x", None, "delete-version", {"key": "x", "version": 1}),
                ("PUT", f"{at}/versioning", {"Status": "Suspended"}, "set-versioning", {"status": "Suspended"}),
                ("POST", f"{at}/uploads/y", {"class": "GLACIER"}, "start-upload", {"key": "y", "class": "GLACIER", "tags": {}}),
                ("PUT", f"{at}/parts/1/7", {"size": 9}, "put-part", {"upload": 1, "part": 7, "size": 9}),
                ("POST", f"{at}/upload/1", None, "complete", {"upload": 1}),
                ("DELETE", f"{at}/versions/null/y", None, "delete-version", {"key": "y", "version": "null"}),
                ("POST", f"{at}/uploads/z", {}, "start-upload", {"key": "z", "class": "STANDARD", "tags": {}}),
                ("DELETE", f"{at}/upload/2", None, "abort", {"upload": 2}),
                ("PUT", f"{at}/objects/w", {"size": 3}, "put", {"key": "w", "size": 3, "class": "STANDARD", "tags": {}}),
                ("PUT", f"{at}/lifecycle", rules, "set-rules", {"rules": rules}), ("POST", f"{at}/act", None, "act", {}),
                ("DELETE", f"{at}/lifecycle", None, "drop-rules", {})]
        sent = b"".join(request(method.encode(), target.encode(), json.dumps(body).encode() if body is not None else b"")
                        for method, target, body, _, _ in rows)
        self.check("each is accepted", len(rows), self.office("run", sent=sent).stdout.count(b"HTTP/1.1 20"))
        status, text, note = self.dump(self.journal)
        self.check("each is read", (0, "", [{"kind": kind, "bucket": "zoo", **fields} for *_, kind, fields in rows]),
                   (status, note, commands(map(json.loads, text.splitlines()))))

    def test_bytes_behind_the_end_gate(self):
        # The program makes the file longer by blocks of 4,096 bytes: zeros lie behind the end gate.
        whole, _, _ = self.fill()
        end, zeros = len(whole) - 1, -len(whole) % 4096
        self.journal.write_bytes(whole + bytes(zeros))
        self.check("zeros: both read to the gate", ((0, ""), (0, "")), (self.by_program(), self.by_tool()))
        self.check("zeros: --check", f"bytes without meaning behind it: {zeros}\n", self.dump("--check", self.journal)[1].rpartition("; ")[2])
        self.compare("an open gate behind the end gate", [whole + bytes(20) + b"\xa5" + bytes(60), whole + b"\xa5" * 80, whole[:end] + b"\xa5" + bytes(zeros)])

    def test_damage_at_known_places(self):
        """The offset of the damage and the entries before it follow from docs/FORMATS.md."""
        whole, lines, _ = self.fill()
        gates = [it["offset"] for it in lines]
        second, last = gates[1], gates[-1]
        cases = [("the kind of the first entry", 10 + 5 + 8, 0x02, 10, 0), ("a moment past 2100", 10 + 5 + 2, 0xFF, 10, 0),
                 ("the class of a put", gates[2] - 2, 6, second, 1), ("the tags of a put", gates[2] - 1, 1, second, 1),
                 ("a size above 5 TiB", gates[2] - 10, 1, second, 1), ("a length that is too long", last + 1, 1, last, len(gates) - 1),
                 ("a length that is too short", last + 4, whole[last + 4] - 1, last, len(gates) - 1)]
        for name, place, byte, gate, before in cases:
            self.journal.write_bytes(changed(whole, place, byte))
            note = f"journal: damaged at {gate}"
            self.check(f"{name}: the program", (5, note), self.by_program())
            status, text, own = self.dump("--check", self.journal)
            self.check(f"{name}: the same by the tool, and {before} entries", (5, note, f"entries before it: {before}"),
                       (status, own, text.strip().rpartition("; ")[2]))
            status, text, own = self.dump(self.journal)
            self.check(f"{name}: the entries before it are printed", (5, before), (status, len(text.splitlines())))

    def test_damage_anywhere(self):
        """Each byte but those of the bucket's name, which the program alone can judge, changed in two ways; each cut; more at the end."""
        whole, _, _ = self.fill()
        end = len(whole) - 1
        names = [at + n for at in range(len(whole)) if whole.startswith(BUCKET, at) for n in range(len(BUCKET))]
        places = [place for place in range(len(whole)) if place not in names]
        self.compare("a byte turned", [changed(whole, place, whole[place] ^ 0xFF) for place in places])
        self.compare("a bit turned", [changed(whole, place, whole[place] ^ 1) for place in places])
        self.compare("a file cut", [whole[:count] for count in [*range(0, 60), *range(len(whole) - 60, len(whole) + 1)]])
        self.compare("an open gate at the end", [whole[:end] + b"\xa5", whole[:end] + b"\xa5" + bytes(40), whole + b"\xa5\xff"])
        huge = whole[:10] + b"\xa5\x00\x20\x00\x01" + bytes((1 << 21) + 2)
        self.compare("a frame of 2,097,153 bytes", [huge, whole])

    def test_damage_in_tokens_and_tariffs(self):
        """Each byte but those of the bucket's name changed in two ways, in entries with a token and with tiers."""
        tiers = b'from = "2024-03"\n' + TARIFF.replace(b"STANDARD = 5", b"STANDARD = [{ upto = 1, price = 7 }, { upto = 4294967295, price = 6 }, { price = 5 }]", 1)
        asked = [request(b"PUT", b"/buckets/" + BUCKET), request(b"PUT", b"/buckets/" + BUCKET + b"/objects/a", b'{"size":1}'), request(b"PUT", b"/tariff", tiers),
                 request(b"PUT", b"/tariff", TARIFF)]
        # No bit turned makes one token the other: two entries with one token are damage to the program alone.
        tokens = (b"a0", b"t7")
        sent = b"".join(it.replace(b"\r\n", b"\r\nOffice-Token: %s\r\n" % tokens[place], 1) if place < 2 else it for place, it in enumerate(asked))
        self.check("each is accepted", len(asked), self.office("run", sent=sent).stdout.count(b"HTTP/1.1 20"))
        whole = self.journal.read_bytes().rstrip(b"\0") + b"\0"
        names = [at + n for at in range(len(whole)) if whole.startswith(BUCKET, at) for n in range(len(BUCKET))]
        places = [place for place in range(len(whole)) if place not in names]
        self.journal.write_bytes(whole)
        lines = [json.loads(it) for it in self.dump(self.journal)[1].splitlines()]
        self.check("what is read", [("a0", None), ("t7", None), (None, "2024-03"), (None, "1970-01")], [(it.get("token"), it.get("from")) for it in lines])
        self.compare("a byte turned", [changed(whole, place, whole[place] ^ 0xFF) for place in places])
        self.compare("a bit turned", [changed(whole, place, whole[place] ^ 1) for place in places])
        self.compare("the bit of a token", [changed(whole, it["offset"] + 13, whole[it["offset"] + 13] ^ 0x80) for it in lines] + [whole])

    def test_what_the_office_does_not_accept(self):
        """At its place it is damage to the program, and an entry to the tool."""
        whole, lines, _ = self.fill()
        second = lines[1]["offset"]
        made = whole[10:second]
        self.journal.write_bytes(whole[:10] + made + made + b"\x00")
        self.check("a bucket made twice: the program", (5, f"journal: damaged at {second}"), self.by_program())
        self.check("a bucket made twice: two entries to the tool", 2, len(self.dump(self.journal)[1].splitlines()))

    def test_what_cannot_be_done(self):
        self.check("no such file", 3, self.dump(self.folder / "none")[0])
        self.check("a folder", 3, self.dump(self.folder)[0])
        self.check("no words", 1, self.dump()[0])
        self.fill()
        with open("/dev/full", "w", encoding="ascii") as full:
            done = self.ended([TOOL, self.journal], stdout=full, stderr=subprocess.DEVNULL, capture_output=False)
        self.check("an output that is full", 4, done.returncode)


if __name__ == "__main__":
    live.main()
