#!/usr/bin/env -S python3 -B
"""Changes bytes of journals and copies, and shows that tools/backup and tools/journal-digest find and mend them."""
import hashlib
import json
import time

import live
from spelled import DAY, NEW_YEAR, create, journal, put


def puts(first, count, day=2):
    return [put(day, "logs", f"key-{it}", it) for it in range(first, first + count)]


BEGUN = [create(1, "logs"), *puts(0, 20_000)]
MORE = [*BEGUN, *puts(20_000, 3)]


class JournalDigest(live.Case):
    def setUp(self):
        super().setUp()
        self.journal = self.file("journal", journal(*BEGUN))
        self.copies, self.digest = self.folder / "far" / "copies", self.folder / "far" / "copies" / "journal.digest"

    def backup(self, *words):
        """Each copy has a name of its own by the second."""
        time.sleep(1.05)
        return self.run_tool("backup", *words, self.journal, self.copies)

    def digest_tool(self, *words):
        return self.run_tool("journal-digest", *words)

    def flip(self, path, at):
        data = bytearray(path.read_bytes())
        data[at] ^= 1
        path.write_bytes(data)

    def names(self):
        return sorted(it.name for it in self.copies.iterdir())

    def test_the_sums(self):
        self.check("a copy", 0, self.backup()[0])
        lines = [json.loads(it) for it in self.digest.read_text("ascii").splitlines()]
        self.check("blocks of at most 16,384 entries", [16_384, 3_617], [it["entries"] for it in lines])
        data, before, start = self.journal.read_bytes(), "", 0
        for place, it in enumerate(lines):
            wanted = hashlib.sha256(data[it["start"]:it["to"]]).hexdigest()
            before = hashlib.sha256(f"{before} {it['start']} {it['to']} {it['entries']} {it['ms']} {wanted}".encode()).hexdigest()
            self.check(f"line {place + 1}", (start, wanted, before, NEW_YEAR + DAY), (it["start"], it["sha256"], it["chain"], it["ms"]))
            start = it["to"]
        self.check("up to the end gate", len(data) - 1, start)
        self.journal.write_bytes(journal(*MORE) + b"\0" * 4_000)
        self.check("a second copy", 0, self.backup()[0])
        longer = [json.loads(it) for it in self.digest.read_text("ascii").splitlines()]
        self.check("a block more", ([*lines], [3]), (longer[:2], [it["entries"] for it in longer[2:]]))
        status, said, _ = self.digest_tool("verify", self.digest, self.journal, *sorted(self.copies.glob("journal-*Z")))
        self.check("verify", (0, ["whole: 3 of 3 blocks, 20004 entries", "whole: 2 of 3 blocks, 20001 entries; it ends before block 3 does",
                                  "whole: 3 of 3 blocks, 20004 entries"]), (status, [it.partition(": ")[2] for it in said.splitlines()]))

    def test_a_bit_flips(self):
        for name, at in (("in the mark", 3), ("in a length", 100), ("in a size", 98), ("in the second block", -500)):
            self.journal.write_bytes(journal(*MORE))
            first = self.backup("--replaced")[1].strip()
            self.journal.write_bytes(journal(*MORE, *puts(30_000, 5)))
            good = self.journal.read_bytes()
            size = len(journal(*MORE)) if at < 0 else 0
            before = (self.names(), self.digest.read_bytes())
            self.flip(self.journal, size + at)
            block = 1 if at > 0 else 2
            status, said, note = self.backup("--keep", "1")
            self.check(f"a bit {name}: refused", (6, "", True), (status, said, f": block {block} of 2 (entries " in note
                                                                 and f"is not what it was; {first} has it whole; no copy is kept." in note))
            self.check(f"a bit {name}: nothing changed", before, (self.names(), self.digest.read_bytes()))
            status, said, _ = self.digest_tool("verify", self.digest, self.journal, first)
            self.check(f"a bit {name}: verify", (6, 2, True), (status, len(said.splitlines()), "is not what it was" in said.splitlines()[0]))
            mended = self.folder / "mended"
            status, said, note = self.digest_tool("mend", self.digest, mended, self.journal, first)
            self.check(f"a bit {name}: mend", (0, good, True), (status, mended.read_bytes(), said.endswith(f"comes from {first}\n{mended}\n")))
            self.check(f"a bit {name}: a file that is there", 4, self.digest_tool("mend", self.digest, mended, self.journal, first)[0])
            self.check(f"a bit {name}: the mended journal is copied", 0, self.run_tool("backup", mended, self.copies)[0])
            mended.unlink()

    def test_what_cannot_be_mended(self):
        first = self.backup()[1].strip()
        self.flip(self.journal, 98)
        self.flip(self.copies / first.rpartition("/")[2], 99)
        status, _, note = self.backup()
        self.check("rotten in both", (6, True), (status, "no copy here has it whole" in note))
        status, _, note = self.digest_tool("mend", self.digest, "mended", self.journal, first)
        self.check("mend", (6, True, False), (status, "is whole in none of these files" in note, (self.folder / "mended").exists()))
        self.journal.write_bytes(journal(*BEGUN)[:-1] + b"\xa5x")
        self.check("damaged behind the last block", 5, self.backup()[0])
        self.check("mend of it", 5, self.digest_tool("mend", self.digest, "mended", self.journal, first)[0])

    def test_the_sums_are_changed(self):
        self.backup()
        whole = self.digest.read_bytes()
        for name, data, line in (("a digit", whole.replace(b'"entries":16384', b'"entries":16385'), 1), ("a line is missing", whole.split(b"\n", 1)[1], 1),
                                 ("a line is cut", whole[:-20], 2), ("noise", b"\0\0", 1), ("a line twice", whole + whole.split(b"\n")[1], 3)):
            self.digest.write_bytes(data)
            self.check(name, (7, "", f"backup: {self.digest}: damaged at line {line}"), self.backup())
        self.digest.write_bytes(b"\xff\xfe")
        self.check("no UTF-8", 7, self.backup()[0])
        self.check("no copy was added", 1, len([*self.copies.glob("journal-*Z")]))
        self.digest.unlink()
        self.check("moved away, and the next copy begins a new one", (0, whole), (self.backup()[0], self.digest.read_bytes()))

    def test_copies_of_before_there_were_sums(self):
        self.backup()
        self.digest.unlink()
        self.journal.write_bytes(journal(create(1, "other")))
        status, _, note = self.backup()
        self.check("another journal", (6, True, 1), (status, "is not the front of" in note, len(self.names())))
        self.check("--replaced", 0, self.backup("--replaced")[0])
        self.check("a journal of before is another one now", 6, self.run_tool("backup", self.file("old", journal(*BEGUN)), self.copies)[0])

    def test_a_journal_that_is_shorter(self):
        self.backup()
        self.journal.write_bytes(journal(*BEGUN[:-1]))
        status, _, note = self.backup()
        self.check("an entry less", (6, True), (status, "block 2 of 2" in note and "is missing, the journal is shorter than it was" in note))

    def test_extend(self):
        self.check("extend makes it", 0, self.digest_tool("extend", "sums", self.journal)[0])
        self.journal.write_bytes(journal(*MORE))
        self.check("extend goes on", (0, "sums: 3 blocks, 20004 entries\n"), self.digest_tool("extend", "sums", self.journal)[:2])
        self.flip(self.journal, 99)
        before = (self.folder / "sums").read_bytes()
        self.check("extend of a changed front", (6, before), (self.digest_tool("extend", "sums", self.journal)[0], (self.folder / "sums").read_bytes()))
        for words in ([], ["verify"], ["verify", "sums"], ["other", "sums", "x"], ["extend", "sums", "a", "b"], ["mend", "sums", "a", "b"]):
            self.check(f"words that are none: {words}", (1, ""), self.digest_tool(*words)[:2])
        self.check("no sums", 3, self.digest_tool("verify", "none", self.journal)[0])
        self.check("no journal", 3, self.digest_tool("verify", "sums", "none")[0])
        self.check("another file", (5, "", "journal-digest: journal: foreign"), self.digest_tool("extend", "new", self.file("x", "none\n" * 9)))
        self.check("no folder", 4, self.digest_tool("extend", "none/x", self.file("y", journal(*BEGUN)))[0])
        self.check("help", 0, self.digest_tool("--help")[0])


if __name__ == "__main__":
    live.main()
