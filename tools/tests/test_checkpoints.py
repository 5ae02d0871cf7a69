"""Slots beside a journal: which one an opening takes, whether they are of the journal, and how they are copied. Bytes by hand."""
import contextlib
import io
import pathlib
import sys
import tempfile
import unittest
from unittest import mock

sys.path.insert(0, str(pathlib.Path(__file__).resolve().parent.parent))
from office_tools import checkpoints  # noqa: E402
from office_tools.asking import Stop  # noqa: E402
from office_tools.checkpoints import Comparison, Found, about, opening, paths_beside, read_slots, read_still, taken  # noqa: E402
from office_tools.commands import backup  # noqa: E402
from office_tools.journals import Journal  # noqa: E402
from office_tools.ranges import Damaged  # noqa: E402
from office_tools.slots import read_slot  # noqa: E402

LOGS = b"\0\4logs"
TARIFF = b"\x07\xb2\1" + b"\1\0\0\0\0\0\0\0\5" * 6 + b"\0\0\0\6" * 5
PRICES = b"\0\0\0\5" * 6 + b"\0\0\0\6" * 5
RULES = b'{"Rules":[],"TransitionDefaultMinimumObjectSize":"varies_by_storage_class"}'


def n(value, count=8):
    return value.to_bytes(count, "big")


def day(number):
    """A moment: midnight, so many days after 2024-01-01."""
    return n(1_704_067_200_000 + number * 86_400_000)


def frame(moment, rest):
    """A frame without the gate before it, and the next gate, open."""
    return n(8 + len(rest), 4) + moment + rest + b"\xa5"


def journal(*frames):
    return b"\xa5METERJRN1\xa5" + b"".join(frames)[:-1] + b"\0" if frames else b"\xa5METERJRN1\0"


# A journal in which each part follows from entries: two months go by, and the first is closed.
FRAMES = (
    frame(day(0), b"\x81\x02t1" + LOGS), frame(day(1), b"\x0e" + PRICES), frame(day(2), b"\2" + LOGS + b"\1"),
    frame(day(40), b"\3" + LOGS + n(len(RULES), 4) + RULES), frame(day(41), b"\x8f\x02t2\x07\xe8\1"), frame(day(42), b"\x09" + LOGS + b"\0\1a\0\0"))
END = 10 + sum(map(len, FRAMES))


def command(fields):
    return n(len(fields), 4) + fields


MADE = b"\x02t1" + day(0) + n(0, 9) + command(b"\1" + LOGS)
CLOSED = b"\x02t2" + day(41) + n(0, 9) + command(b"\x0f\x07\xe8\1")


def body(last=day(42), opened=b"\x07\xe8\2", tariffs=b"\1" + TARIFF, closed=n(1, 4) + b"\x07\xe8\1" + TARIFF, name=LOGS, versioning=1,
         since=day(40), rules=n(len(RULES), 4) + RULES, upload=2, kept=n(2, 4) + MADE + CLOSED):
    """The body of the state after FRAMES."""
    uploads = n(1, 4) + n(1) + b"\0\1a\0\0" + day(42) + day(42) + bytes(4) if upload == 2 else bytes(4)
    return last + opened + tariffs + closed + n(1, 4) + name + n(versioning, 1) + since + rules + n(1) + n(upload) + bytes(4) + uploads + bytes(4) + kept


def slot(position=END, data=None):
    data = body() if data is None else data
    return b"\xa7" + n(position) + n(len(data)) + data


def found(name, data):
    return Found(name, name, read_slot(data), data)


class Files(unittest.TestCase):
    def setUp(self):
        folder = tempfile.TemporaryDirectory()
        self.addCleanup(folder.cleanup)
        self.folder = pathlib.Path(folder.name)
        self.journal = self.folder / "journal"

    def put(self, data, *slots):
        self.journal.write_bytes(data)
        for name, it in zip(checkpoints.NAMES, slots):
            (self.folder / name).write_bytes(it)


class Choosing(unittest.TestCase):
    def test_the_slot_that_is_taken(self):
        low, high, closed, damaged = slot(END - 1), slot(END), b"\0" + slot(END + 9)[1:], slot(END + 9)[:-1]
        for one, other, wanted in ((low, high, 1), (high, low, 0), (high, high, 0), (closed, low, 1), (high, damaged, 0), (b"", low, 1),
                                   (b"", b"", None),
                                   (closed, damaged, None), (slot(9), low, 1)):
            slots = [found("check.0", one), found("check.1", other)]
            self.assertIs(slots[wanted] if wanted is not None else None, taken(slots))

    def test_names(self):
        for path, wanted in (("office-data/journal", ["office-data/check.0", "office-data/check.1"]), ("journal", ["check.0", "check.1"]),
                             ("b/journal-20240101T000000Z", ["b/check.0-20240101T000000Z", "b/check.1-20240101T000000Z"]),
                             ("b/mended", ["b/check.0", "b/check.1"])):
            self.assertEqual(wanted, paths_beside(path))


class Comparing(Files):
    def compare(self, data, *slots):
        """Why slots are of another journal, and those that were not reached."""
        self.put(data)
        comparison = Comparison([found(f"check.{place}", it) for place, it in enumerate(slots)])
        with open(self.journal, "rb") as file, contextlib.suppress(Damaged):
            for _ in comparison.entries(Journal(file)):
                pass
        return comparison.others, [it.name for it in comparison.waiting]

    def test_the_state_after_each_entry(self):
        whole = journal(*FRAMES)
        self.assertEqual("whole", read_slot(slot()).state, read_slot(slot()).fault)
        self.assertEqual(({}, []), self.compare(whole, slot()))
        self.assertEqual(({}, []), self.compare(whole + bytes(99), slot(), slot()))
        more = frame(day(50), b"\4" + LOGS)
        self.assertEqual(({}, []), self.compare(journal(*FRAMES, more), slot()))
        first = body(day(0), b"\x07\xe8\1", b"\0", bytes(4), LOGS, 0, day(0), bytes(4), 1, n(1, 4) + MADE)
        self.assertEqual(({}, []), self.compare(whole, slot(10 + len(FRAMES[0]), first), slot()))
        empty = b"\xff" * 8 + bytes(3 + 1 + 4 + 4 + 4)
        self.assertEqual(({}, []), self.compare(whole, slot(10, empty)))
        self.assertEqual(({}, []), self.compare(journal(), slot(10, empty)))

    def test_what_differs(self):
        whole, why = journal(*FRAMES), f"not what the entries before {END} say"
        other = n(1, 4) + b"\x07\xe8\1\x07\xb2\2" + TARIFF[3:]
        for what, data in (("last moment is", body(last=day(43))), ("tariffs are", body(tariffs=b"\0")), ("closed months are", body(closed=other)),
                           ("first open month is", body(opened=b"\x07\xe8\1", closed=bytes(4))), ("buckets are", body(name=b"\0\4logt")),
                           ("buckets are", body(versioning=2)), ("buckets are", body(since=day(41))), ("buckets are", body(rules=bytes(4))),
                           ("buckets are", body(upload=3)), ("kept replies are", body(kept=n(1, 4) + MADE)), ("kept replies are", body(kept=bytes(4)))):
            with self.subTest(what):
                self.assertEqual("whole", read_slot(slot(END, data)).state, read_slot(slot(END, data)).fault)
                self.assertEqual(({"check.0": f"its {what} {why}"}, []), self.compare(whole, slot(END, data)))

    def test_positions_that_are_no_gates(self):
        whole = journal(*FRAMES) + bytes(99)
        for position, why in ((11, "no gate"), (END - 1, "no gate"), (END + 1, "after the end gate"), (2 ** 64 - 1, "after the end gate")):
            self.assertEqual(({"check.0": f"its position {position} is {why} of the journal"}, []), self.compare(whole, slot(position)))

    def test_damage_before_the_position(self):
        whole = journal(*FRAMES)
        damaged = whole[:15] + b"\x37" + whole[16:]
        self.assertEqual(({}, ["check.0"]), self.compare(damaged, slot()))
        self.assertIsNone(about(found("check.0", slot()), {}, [found("check.0", slot())])["of_journal"])

    def test_openings(self):
        whole = journal(*FRAMES, frame(day(50), b"\4" + LOGS)) + bytes(20)
        self.put(whole)
        end = END + len(frame(day(50), b"\4" + LOGS))
        with open(self.journal, "rb") as file:
            def by(it):
                return opening(file, found("check.0", it))
            self.assertEqual({"opening": "check.0", "from": END, "entries": 1, "end": end}, by(slot()))
            self.assertEqual({"opening": "check.0", "from": end, "entries": 0, "end": end}, by(slot(end)))
            # A byte that is no open gate ends the journal, whatever it is of.
            self.assertEqual({"opening": "check.0", "from": END - 1, "entries": 0, "end": END - 1}, by(slot(END - 1)))
            for position in (len(whole), len(whole) + 1, 2 ** 64 - 1):
                self.assertEqual({"opening": "check.0", "from": position, "damaged": position}, by(slot(position)))
            # The entry after the slot may not be earlier than the slot.
            self.assertEqual({"opening": "check.0", "from": END, "damaged": END}, by(slot(END, body(last=day(51)))))

    def test_numbers_of_a_slot(self):
        it = about(found("check.1", slot()), {"check.1": "why"}, [])
        self.assertEqual({"slot": "check.1", "state": "whole", "position": END, "bytes": len(body()), "moment": "2024-02-12T00:00:00.000Z",
                          "ms": 1_707_696_000_000, "first_open": "2024-02", "tariffs": 1, "closed": 1, "buckets": 1, "keys": 0, "versions": 0, "uploads": 1,
                          "kept": 2, "of_journal": False, "why": "why"}, it)
        self.assertEqual({"slot": "check.1", "state": "closed"}, about(found("check.1", b"\0"), {}, []))
        self.assertEqual({"slot": "check.1", "state": "damaged", "position": 9, "damaged": 1, "why": "the position is 9, before the first gate of a journal"},
                         about(found("check.1", slot(9)), {}, []))


class Reading(Files):
    def readings(self, *them):
        """What is taken of a file that has these bytes at one reading after the other."""
        files = iter(them)
        with mock.patch.object(checkpoints, "open", lambda *_: io.BytesIO(next(files)), create=True):
            return read_still("check.0")

    def test_a_slot_that_is_being_written(self):
        old, new, closed = slot(END), slot(END, body(last=day(43))), b"\0" + slot(END)[1:]
        mixed = old[:30] + new[30:]
        self.assertEqual(old, self.readings(old, old))
        self.assertEqual(closed, self.readings(closed))
        self.assertEqual(closed, self.readings(mixed, closed))
        self.assertEqual(new, self.readings(mixed, new, new))
        self.assertEqual(b"", self.readings(b""))
        with self.assertRaises(Stop) as stopped:
            self.readings(*[old, new] * 30)
        self.assertEqual((3, "check.0: is written again and again"), stopped.exception.args)

    def test_no_file(self):
        self.put(journal())
        self.assertEqual(["missing", "missing"], [it.slot.state for it in read_slots(str(self.journal))])
        self.put(journal(), b"", slot())
        self.assertEqual(["empty", "whole"], [it.slot.state for it in read_slots(str(self.journal))])


class BackingUp(Files):
    def backup(self, at_copy=lambda: None):
        """Runs backup, with something that happens when the journal has been copied: its exit code, and the copied files."""
        def copied(*words):
            backup.copy_before(*words)
            at_copy()
        words = ["backup", str(self.journal), str(self.folder / "copies")]
        with mock.patch.object(backup, "copy_before", backup.copy, create=True), mock.patch.object(backup, "copy", copied), \
                mock.patch.object(sys, "argv", words), contextlib.redirect_stdout(io.StringIO()), contextlib.redirect_stderr(io.StringIO()):
            try:
                status = backup.main() or 0
            except Stop as stop:
                status = stop.args[0]
        return status, {it.name.partition("-")[0]: it.read_bytes() for it in (self.folder / "copies").iterdir() if it.name != "journal.digest"}

    def test_slots_come_before_the_journal(self):
        """What is saved after the journal was copied is not in the copy."""
        self.put(journal(*FRAMES), slot(), b"")
        more = frame(day(50), b"\4" + LOGS)

        def goes_on():
            self.put(journal(*FRAMES, more), slot(), slot(END + len(more), body(day(50), since=day(50), rules=bytes(4))))
        self.assertEqual((0, {"journal": journal(*FRAMES), "check.0": slot()}), self.backup(goes_on))
        self.assertEqual((0, ["check.0", "check.1", "journal"]), ((found := self.backup())[0], sorted(found[1])))

    def test_nothing_is_left_of_a_refused_copy(self):
        self.put(journal(*FRAMES), slot(END - 1), b"")
        self.assertEqual((8, {}), self.backup())
        self.put(b"\xa5METERJRN2\0", slot(), b"")
        self.assertEqual((5, {}), self.backup())


if __name__ == "__main__":
    unittest.main()
