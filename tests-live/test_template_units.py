#!/usr/bin/env -S python3 -B
"""Runs the commands of docs/SCALING.md that make templates of the units, and has systemd-analyze read them: each path, user and file of
options is that of one office. It needs no program."""
import re

import live

PAGE = (live.ROOT / "docs" / "SCALING.md").read_text("utf-8")
UNITS = ("office.service", "office-init.service", "office-act.service", "office-act.timer", "office-backup.service", "office-backup.timer")


class Templates(live.Case):
    def setUp(self):
        super().setUp()
        block = next(it for it in re.findall(r"^```sh\n(.*?)^```", PAGE, flags=re.DOTALL | re.MULTILINE) if "/etc/systemd/system" in it)
        words = block.replace("/usr/lib/systemd/system", str(live.TOOLS / "systemd")).replace("/etc/systemd/system", str(self.folder))
        done = self.ended(["sh", "-ec", words], text=True)
        self.check("the commands of the page", (0, "", ""), (done.returncode, done.stdout, done.stderr))
        self.texts = {name: (self.folder / name.replace(".", "@.")).read_text("utf-8") for name in UNITS}

    def test_what_is_of_one_office(self):
        for name, text in self.texts.items():
            settings = [it for it in text.splitlines() if it and not it.startswith("#")]
            for it in settings:
                for path in re.findall(r"(?:/var/lib/|/var/backups/|/etc/|%S/)office[^ \"]*", it):
                    self.check(f"{name}: {it}", True, "/%i" in path)
            of_one = [it for it in settings if re.match("(State|Cache)Directory=|User=|EnvironmentFile=", it)]
            self.check(f"{name}: its folders, user and options", [], [it for it in of_one if "%i" not in it])
        self.check("the server", ["User=office-%i", "StateDirectory=office/%i", "WorkingDirectory=%S/office/%i", "EnvironmentFile=/etc/office/%i"],
                   [it for want in ("User", "StateDirectory", "WorkingDirectory", "EnvironmentFile") for it in self.texts["office.service"].splitlines()
                    if it.startswith(f"{want}=")])
        self.check("the sweep comes after its own server", True, "\nAfter=office@%i.service\n" in self.texts["office-act.service"])
        self.check("the copies are apart", True, "/var/lib/office/%i/office-data/journal /var/backups/office/%i\n" in self.texts["office-backup.service"])

    @live.needs("systemd-analyze")
    def test_systemd_reads_them(self):
        for name, text in self.texts.items():
            (self.folder / name.replace(".", "@.")).write_text(re.sub(r"^ExecStart=\S+", "ExecStart=/bin/true", text, flags=re.MULTILINE), "utf-8")
        paths = [self.folder / it.replace(".", "@.") for it in UNITS]
        done = self.ended(["systemd-analyze", "--man=no", "verify", *paths], text=True)
        self.check("systemd-analyze verify", (0, "", ""), (done.returncode, done.stdout, done.stderr))
        wrong = self.file("office-wrong@.service", self.texts["office.service"].replace("User=office-%i", "User=office/%i"))
        self.check("it can fail", 1, self.ended(["systemd-analyze", "--man=no", "verify", wrong]).returncode)


if __name__ == "__main__":
    live.main()
