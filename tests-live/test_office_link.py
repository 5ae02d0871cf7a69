#!/usr/bin/env -S python3 -B
"""Starts the script `office` by symbolic links."""
import os
import shutil

import live


class OfficeLink(live.Case):
    def setUp(self):
        super().setUp()
        self.repository = self.folder / "repository"
        built = self.repository / "crates" / "office_cli" / "out"
        built.mkdir(parents=True)
        shutil.copy(live.ROOT / "office", self.repository / "office")
        self.file("repository/crates.txt", "")
        path = self.file("repository/crates/office_cli/out/office_cli", '#!/bin/sh\necho "program $*"\n')
        path.chmod(0o755)
        os.utime(path, (2_000_000_000, 2_000_000_000))  # newer than its sources

    def start(self, path):
        done = self.ended([path, "report", "2026-11"], text=True)
        return done.returncode, done.stdout, done.stderr

    def test_links(self):
        there = self.folder / "bin"
        there.mkdir()
        (there / "office").symlink_to(self.repository / "office")
        (there / "relative").symlink_to("../repository/office")
        (there / "twice").symlink_to("relative")
        for name in ("office", "relative", "twice"):
            self.check(name, (0, "program report 2026-11\n", ""), self.start(there / name))
        self.check("no link", (0, "program report 2026-11\n", ""), self.start(self.repository / "office"))
        os.environ["PATH"], before = f"{there}:{os.environ['PATH']}", os.environ["PATH"]
        try:
            self.check("by its name on the PATH", (0, "program report 2026-11\n", ""), self.start("office"))
        finally:
            os.environ["PATH"] = before


    def test_words_of_the_script(self):
        shutil.copytree(live.ROOT / "tools", self.repository / "tools")
        shutil.copy(live.ROOT / "CHANGELOG.md", self.repository / "CHANGELOG.md")
        done = self.ended([self.repository / "office", "--help"], text=True)
        said = [line.split()[1] for line in done.stdout.splitlines() if line.startswith("office ") and "meters" not in line]
        usage = self.ended([live.program()], text=True).stderr.removeprefix("usage: office ")
        self.check("--help has the program's commands", [it.split()[0] for it in usage.split("; ")] + ["--help", "--version"], said)
        newest = next(line.split()[1].rstrip(",") for line in (live.ROOT / "CHANGELOG.md").read_text("utf-8").splitlines() if line.startswith("## "))
        done = self.ended([self.repository / "office", "--version"], text=True)
        self.check("--version", (0, f"office {newest}\n"), (done.returncode, done.stdout))
        done = self.ended([self.repository / "office", "--help", "run"], text=True)
        self.check("other words are the program's", "program --help run\n", done.stdout)


if __name__ == "__main__":
    live.main()
