"""A folder for the program with a copy of a journal, which goes at the end; for what is tried and must change nothing."""
import os
import shutil
import stat
import tempfile
import types
import typing

from office_tools.asking import Stop
from office_tools.tail import open_journal

PIECE = 1 << 20
MEMORY, MOST_IN_MEMORY = "/dev/shm", 64 << 20  # a folder in memory, and the largest journal that is copied into it


def program_of(name: str) -> str:
    """The path of a program. Status 1 if there is none of this name."""
    found = shutil.which(name)
    if not found:
        raise Stop(1, f"{name}: no program")
    return os.path.abspath(found)


def place_for(size: int) -> typing.Optional[str]:
    """Where a copy of this size goes: memory if it is small and there is room, else the folder of temporary files (TMPDIR)."""
    if size > MOST_IN_MEMORY or "TMPDIR" in os.environ or not os.access(MEMORY, os.W_OK):
        return None
    about = os.statvfs(MEMORY)
    # The program may write as much again: an action takes less room than the put of its object.
    return MEMORY if about.f_bavail * about.f_frsize >= 2 * size + MOST_IN_MEMORY else None


class Scratch:
    """A folder with `office-data/journal`, a copy of a journal that a server may go on writing."""

    def __init__(self, journal: str):
        self.journal, self.folder = journal, None

    def __enter__(self) -> "Scratch":
        """Copies the journal. Status 3 if it cannot be read, 4 if the copy cannot be written."""
        with open_journal(self.journal) as file:
            size = os.fstat(file.fileno()).st_size
            try:
                self.folder = tempfile.mkdtemp(prefix="office-", dir=place_for(size))
                os.mkdir(os.path.join(self.folder, "office-data"), stat.S_IRWXU)
                with open(os.path.join(self.folder, "office-data", "journal"), "wb") as copy:
                    # From the front to the end: what is before the end never changes, so the copy has the first entries whole.
                    while piece := file.read(PIECE):
                        copy.write(piece)
            except OSError as fault:
                self.__exit__(None, None, None)
                raise Stop(4, f"the copy of {self.journal}: {fault.strerror}") from None
        return self

    def __exit__(self, kind: typing.Optional[type], fault: typing.Optional[BaseException], trace: typing.Optional[types.TracebackType]) -> None:
        if self.folder:
            shutil.rmtree(self.folder, ignore_errors=True)
