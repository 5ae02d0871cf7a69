"""Posts the bills of a closed month with the program, over a copy of the journal, while a server works on the journal; for month-end."""
import os
import re
import shutil
import subprocess

from office_tools.asking import Stop
from office_tools.files import atomic_write
from office_tools.reports import Report
from office_tools.tail import Tail, open_journal, sample_of

SAID = re.compile(r"(bills|already posted) (0|[1-9][0-9]{0,9}) total (0|[1-9][0-9]{0,38})\n", re.ASCII)
PIECE = 1 << 20


class Office:
    """A folder of the program with a copy of the journal, in which the bills are kept."""

    def __init__(self, program: str, journal: str, folder: str):
        """Status 1 if there is no such program, or if this is the folder of the journal itself."""
        self.program, self.journal, self.folder = shutil.which(program), journal, folder
        if not self.program:
            raise Stop(1, f"{program}: no program")
        self.program = os.path.abspath(self.program)
        self.copy = os.path.join(folder, "office-data", "journal")
        if os.path.exists(self.copy) and os.path.samefile(self.copy, journal):
            raise Stop(1, f"{folder} is the folder of the server, which has the lock of its journal; name another one by --folder")

    def renew(self, month: str) -> None:
        """Copies the journal, unless the copy has the month's closing. Status 11 if the copy is of another journal."""
        with open_journal(self.journal) as file:
            if os.path.exists(self.copy):
                with open_journal(self.copy) as before:
                    tail = Tail(self.copy)
                    tail.read(before)
                    if (os.fstat(file.fileno()).st_size <= tail.gate
                            or sample_of(file, tail.gate) != sample_of(before, tail.gate)):
                        raise Stop(11, f"{self.copy} is not the front of {self.journal}, as a copy is: it is of another office, or the "
                                   "journal was replaced; name another --folder")
                if (tail.closed or "") >= month:
                    return
            try:
                os.makedirs(os.path.dirname(self.copy), mode=0o700, exist_ok=True)
            except OSError as fault:
                raise Stop(4, f"{os.path.dirname(self.copy)}: {fault.strerror}") from None
            file.seek(0)
            # From the front to the end: what is before the end never changes, so the copy has the first entries whole.
            atomic_write(self.copy, iter(lambda: file.read(PIECE), b""), 0o600)

    def post(self, month: str, report: Report) -> str:
        """Posts the bills of a month, and returns what the program said. Status 13 if other bills are there, else 11 if they are not posted."""
        try:
            done = subprocess.run([self.program, "bill", month], cwd=self.folder, stdin=subprocess.DEVNULL, capture_output=True, check=False)
        except OSError as fault:
            raise Stop(11, f"{self.program} is not started: {fault.strerror}") from None
        said, note = done.stdout.decode("utf-8", "replace"), done.stderr.decode("utf-8", "replace").strip()
        if done.returncode == 13:
            raise Stop(13, f"other bills of {month} are kept in {self.folder}/office-data/bills.db, and stay there")
        found = SAID.fullmatch(said)
        if done.returncode != 0 or not found:
            raise Stop(11, f"the bills of {month} are not posted: bill ended with exit code {done.returncode}{f': {note}' if note else ''}")
        wanted = (len({line.bucket for line in report.lines}), report.total)
        if (int(found[2]), int(found[3])) != wanted:
            raise Stop(11, f"the bills of {month} are not those of its report: {said.strip()}, and the report has {wanted[0]} buckets, total {wanted[1]}")
        return said.strip()
