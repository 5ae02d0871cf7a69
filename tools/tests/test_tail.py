"""What tools/tail.py keeps of entries with tokens and of tariffs."""
import os
import pathlib
import sys
import tempfile
import unittest

sys.path.insert(0, str(pathlib.Path(__file__).resolve().parent.parent))
from office_tools.asking import Stop  # noqa: E402
from office_tools.tail import Tail, in_force, sample_of  # noqa: E402

LOGS, RAW = bytes.fromhex("00046c6f6773"), bytes.fromhex("0003726177")
PLAIN = bytes(44)


def frame(ms, kind, fields):
    entry = ms.to_bytes(8, "big") + bytes([kind]) + fields
    return len(entry).to_bytes(4, "big") + entry + b"\xa5"


def month(text):
    year, number = map(int, text.split("-"))
    return year.to_bytes(2, "big") + bytes([number])


def tiered(first):
    """The fields of kind 10 from this month on, as far as they are looked at."""
    return month(first) + bytes(74)


class Read(unittest.TestCase):
    def read(self, *frames):
        """What is kept of a journal, and each entry as it is shown."""
        seen = []
        with tempfile.TemporaryFile() as file:
            file.write(b"\xa5METERJRN1\xa5" + b"".join(frames)[:-1] + b"\0")
            file.flush()
            tail = Tail("journal")
            tail.read(file, lambda gate, ms, kind, fields: seen.append((gate, ms, kind, fields)))
        return tail, seen

    def test_tokens(self):
        frames = [frame(5, 0x81, b"\x02t1" + LOGS), frame(6, 0x01, RAW), frame(7, 0x8F, b"\x40" + b"x" * 64 + month("1970-01"))]
        tail, seen = self.read(*frames)
        self.assertEqual((["logs", "raw"], 5, 7, "1970-01"), (tail.buckets, tail.first, tail.last, tail.closed))
        self.assertEqual([(10, 5, 1, LOGS), (10 + len(frames[0]), 6, 1, RAW), (10 + len(frames[0] + frames[1]), 7, 15, month("1970-01"))], seen)

    def test_a_token_that_is_longer_than_its_entry(self):
        for fields in (b"", b"\x03t1", b"\xff" + LOGS):
            with self.assertRaises(Stop) as found:
                self.read(frame(5, 0x81, fields))
            self.assertEqual((3, "journal: journal: damaged at 10"), found.exception.args)

    def test_tariffs(self):
        tail, _ = self.read(frame(5, 0x10, tiered("2024-01")), frame(6, 0x0F, month("2023-12")), frame(7, 0x0F, month("2024-01")),
                            frame(8, 0x0E, PLAIN), frame(9, 0x10, tiered("2024-03")), frame(9, 0x10, tiered("2024-01")),
                            frame(9, 0x8F, b"\x01t" + month("2024-02")), frame(9, 0x0F, month("2024-03")))
        self.assertEqual(["1970-01", "2024-01", "2024-03"], tail.tariffs)
        self.assertEqual({"2023-12": None, "2024-01": "2024-01", "2024-02": "2024-01", "2024-03": "2024-03"}, tail.closed_with)

    def test_a_state_is_taken_up_again(self):
        tail, _ = self.read(frame(5, 0x10, tiered("2024-01")), frame(7, 0x0F, month("2024-01")))
        with tempfile.TemporaryFile() as file:
            file.write(b"\xa5METERJRN1\xa5" + b"".join((frame(5, 0x10, tiered("2024-01")), frame(7, 0x0F, month("2024-01"))))[:-1] + b"\0")
            file.flush()
            again, old = Tail("journal"), Tail("journal")
            again.size = old.size = os.fstat(file.fileno()).st_size
            state = tail.state(sample_of(file, tail.gate))
            again.resume(state, file)
            old.resume({**state, "version": 1}, file)
        self.assertEqual((tail.gate, ["2024-01"], {"2024-01": "2024-01"}), (again.gate, again.tariffs, again.closed_with))
        self.assertEqual(10, old.gate, "what an older tool kept is not taken: it passed entries with tokens over")


class InForce(unittest.TestCase):
    def test_the_latest_that_has_begun(self):
        them = ["1970-01", "2024-01", "2024-03"]
        self.assertEqual(["1970-01", "1970-01", "2024-01", "2024-01", "2024-03", "2024-03"],
                         [in_force(it, them) for it in ("1970-01", "2023-12", "2024-01", "2024-02", "2024-03", "2099-12")])
        self.assertIsNone(in_force("2023-12", them[1:]))
        self.assertIsNone(in_force("2023-12", []))


if __name__ == "__main__":
    unittest.main()
