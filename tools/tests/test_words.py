"""What every tool shows of itself: its exit codes, and one name for the server's address with the older ones kept."""
import pathlib
import re
import subprocess
import sys
import unittest

TOOLS = pathlib.Path(__file__).resolve().parent.parent
# These read files, or ask the store, and no server.
NO_SERVER = {"apply", "backup", "journal-digest", "journal-dump", "merge-reports"}


def tools():
    return sorted(path.name for path in TOOLS.iterdir() if path.is_file() and b"from office_tools.commands." in path.read_bytes())


def help_of(name):
    done = subprocess.run([sys.executable, "-B", TOOLS / name, "--help"], capture_output=True, text=True, timeout=60, check=False)
    return done.returncode, done.stdout


class Words(unittest.TestCase):
    def test_each_tool(self):
        found = tools()
        self.assertEqual(15, len(found), found)
        for name in found:
            with self.subTest(name):
                status, text = help_of(name)
                self.assertEqual(0, status)
                self.assertRegex(text, r"(?m)^exit codes:\n +0  ", "its exit codes")
                names = [it for it in ("--server", "--to", "--from") if re.search(rf"(?m)^  .*{it} URL", text)]
                self.assertEqual([] if name in NO_SERVER else ["--server", "--to", "--from"], names)


if __name__ == "__main__":
    unittest.main()
