"""The limits of tools/systemd/office.service, beside the sums of docs/OPERATIONS.md, "Limit the memory"."""
import pathlib
import re
import unittest

ROOT = pathlib.Path(__file__).resolve().parent.parent.parent
UNIT = (ROOT / "tools" / "systemd" / "office.service").read_text("utf-8")
OPERATIONS = (ROOT / "docs" / "OPERATIONS.md").read_text("utf-8")
SECURITY = (ROOT / "docs" / "SECURITY.md").read_text("utf-8")
MIB = 1 << 20
UNITS = {"K": 1 << 10, "M": MIB, "G": 1 << 30}
# docs/PERFORMANCE.md, "Memory": bytes of a version without its key; MiB of usual kept replies.
A_VERSION, KEPT = 288, 5
# The C library (glibc 2.36 on 64 bits): a stack of `ulimit -s`, an arena, and what making an arena takes for a moment; MiB.
STACK, ARENA, PROGRAM = 8, 64, 4
VERSIONS, KEY = 200_000, 60


def setting(name):
    """The value of a setting of the unit, which it has once."""
    found = re.findall(rf"^{name}=(.*)$", UNIT, flags=re.MULTILINE)
    if len(found) != 1:
        raise AssertionError(f"{name} is there {len(found)} times")
    return found[0]


def size_of(text):
    """A size as systemd reads it, in bytes."""
    return int(text[:-1]) * UNITS[text[-1]] if text[-1] in UNITS else int(text)


def sum_for(workers):
    """MiB that so many workers and 200,000 versions take without any request."""
    records = -(-VERSIONS * (A_VERSION + KEY) // MIB)
    return PROGRAM + ARENA + workers * (STACK + ARENA) + records + KEPT


class Limits(unittest.TestCase):
    def test_the_unit(self):
        workers = int(re.search(r"--workers (\d+)", setting('Environment="OFFICE_OPTIONS'))[1])
        addresses, memory = size_of(setting("LimitAS")), size_of(setting("MemoryMax"))
        self.assertGreater(addresses, sum_for(workers) * MIB, "the records and the workers fit")
        self.assertGreaterEqual(memory - addresses, 100 * MIB, "what the program may take is never what the system kills for")

    def test_the_table(self):
        """Each row of the table of sums."""
        rows = re.findall(r"^\| (\d+)(?:, as in the unit)? \| (\d+) \| (\d+)M \| (\d+)M \| (\d+) \|$", OPERATIONS, flags=re.MULTILINE)
        self.assertEqual(["4", "8", "16", "32"], [row[0] for row in rows])
        for workers, total, addresses, memory, left in (map(int, row) for row in rows):
            self.assertEqual((sum_for(workers), addresses - total, True), (total, left, memory - addresses >= 100), workers)
        self.assertEqual((size_of(setting("LimitAS")), size_of(setting("MemoryMax"))), tuple(int(it) * MIB for it in rows[0][2:4]))
        self.assertIn(f"ulimit -v {size_of(setting('LimitAS')) // 1024};", OPERATIONS)


class GivesBack(unittest.TestCase):
    def test_one_setting(self):
        """The setting of the C library is that of both pages."""
        words = "GLIBC_TUNABLES=" + setting("Environment=GLIBC_TUNABLES")
        self.assertEqual("GLIBC_TUNABLES=glibc.malloc.tcache_count=0:glibc.malloc.mxfast=0:glibc.malloc.mmap_threshold=131072", words)
        for page in (OPERATIONS, SECURITY):
            self.assertEqual([words], re.findall(r"GLIBC_TUNABLES=[^\s`]+", page))


class Journal(unittest.TestCase):
    def test_what_the_server_says(self):
        """Starts, ends and notes go to the journal of systemd: the unit sends no output elsewhere, and counts a start once the program is there."""
        self.assertEqual([], re.findall(r"^Standard(?:Output|Error)=.*|^LogLevelMax=.*", UNIT, flags=re.MULTILINE))
        self.assertEqual("exec", setting("Type"))
        self.assertEqual("/usr/bin/office serve $OFFICE_OPTIONS", setting("ExecStart"))


if __name__ == "__main__":
    unittest.main()
