"""A copy of a journal for what must change nothing: where it goes, and that it is gone at the end."""
import os
import pathlib
import shutil
import sys
import tempfile
import unittest
import unittest.mock

sys.path.insert(0, str(pathlib.Path(__file__).resolve().parent.parent))
from office_tools import scratch  # noqa: E402
from office_tools.asking import Stop  # noqa: E402
from office_tools.scratch import MOST_IN_MEMORY, Scratch, place_for, program_of  # noqa: E402

JOURNAL = b"\xa5METERJRN1\0" + bytes(4085)


class Copies(unittest.TestCase):
    def setUp(self):
        self.folder = pathlib.Path(tempfile.mkdtemp())
        self.addCleanup(shutil.rmtree, self.folder)
        self.journal, self.place = self.folder / "journal", self.folder / "place"
        self.place.mkdir()
        self.journal.write_bytes(JOURNAL)
        patch = unittest.mock.patch.object(scratch, "place_for", lambda size: str(self.place))
        patch.start()
        self.addCleanup(patch.stop)

    def test_a_copy(self):
        with Scratch(str(self.journal)) as copy:
            made = pathlib.Path(copy.folder) / "office-data" / "journal"
            self.assertEqual((JOURNAL, self.place), (made.read_bytes(), made.parent.parent.parent))
            self.assertEqual(0o700, made.parent.stat().st_mode & 0o777)
            made.write_bytes(b"changed")
        self.assertEqual((JOURNAL, []), (self.journal.read_bytes(), os.listdir(self.place)))

    def test_it_is_gone_after_a_fault(self):
        for fault in (Stop(5, "refused"), KeyboardInterrupt()):
            with self.assertRaises(type(fault)), Scratch(str(self.journal)):
                raise fault
            self.assertEqual([], os.listdir(self.place))

    def test_what_cannot_be_copied(self):
        for name, text, status in (("none", None, 3), ("empty", b"", 3), ("other", b"hello, this is no journal", 3)):
            path = self.folder / name
            if text is not None:
                path.write_bytes(text)
            with self.subTest(name), self.assertRaises(Stop) as found, Scratch(str(path)):
                pass
            self.assertEqual((status, []), (found.exception.args[0], os.listdir(self.place)))

    def test_where_there_is_no_room(self):
        self.place.rmdir()
        with self.assertRaises(Stop) as found, Scratch(str(self.journal)):
            pass
        self.assertEqual((4, f"the copy of {self.journal}: No such file or directory"), found.exception.args)


class Places(unittest.TestCase):
    def place(self, size, free, environment):
        about = unittest.mock.Mock(f_bavail=free, f_frsize=1)
        patched = unittest.mock.patch.object
        with unittest.mock.patch.dict(os.environ, environment, clear=True), patched(os, "access", return_value=True), patched(os, "statvfs", return_value=about):
            return place_for(size)

    def test_memory_if_it_is_small_and_there_is_room(self):
        most = MOST_IN_MEMORY
        self.assertEqual("/dev/shm", self.place(most, 3 * most, {}))
        self.assertEqual([None] * 3, [self.place(most + 1, 9 * most, {}), self.place(most, 3 * most - 1, {}), self.place(1, 9 * most, {"TMPDIR": "/tmp"})])

    def test_a_program(self):
        self.assertEqual("/bin/sh", program_of("/bin/sh"))
        with self.assertRaises(Stop) as found:
            program_of("no-such-program")
        self.assertEqual((1, "no-such-program: no program"), found.exception.args)


if __name__ == "__main__":
    unittest.main()
