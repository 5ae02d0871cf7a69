"""Reads a journal by docs/FORMATS.md, gate by gate, each entry whole; for journal-dump, journal-digest and backup."""
import os
import stat
import typing

from office_tools.asking import Stop
from office_tools.entries import Damaged, read_entry

OPEN, MARK, HEAD = b"\xa5", b"METERJRN1", 11
LONGEST_ENTRY, LONGEST_FILE = 268_435_456, 1 << 45


def open_file(path: str) -> typing.BinaryIO:
    """A file, opened for reading. Status 3 if it cannot be."""
    try:
        return open(path, "rb", buffering=1 << 20)
    except OSError as fault:
        raise Stop(3, f"{path}: {fault.strerror}") from None


class Journal:
    """A file read gate by gate: `gate` is the offset of the one that is looked at, `count` the entries before."""

    def __init__(self, file: typing.BinaryIO, place: typing.Optional[typing.Tuple[int, int, int]] = None):
        """From the front, or from a place: a gate, the number of entries before it, and the moment of the last of them."""
        self.file, self.last = file, None
        self.gate, self.count, self.ms = place or (HEAD - 1, 0, 0)
        about = os.fstat(file.fileno())
        if not stat.S_ISREG(about.st_mode):
            raise Stop(3, f"{file.name}: not a regular file")
        file.seek(self.gate if place else 0)
        if place:
            return
        size, head = about.st_size, self.read(HEAD - 1)
        is_open = head[:1] == OPEN
        if size < HEAD or (size == HEAD and not is_open):
            raise Stop(5, "journal: not made")
        if not is_open or head[1:] != MARK:
            raise Stop(5, "journal: foreign")

    def read(self, count: int) -> bytes:
        try:
            return self.file.read(count)
        except OSError as fault:
            raise Stop(3, f"{self.file.name}: {fault.strerror}") from None

    def entries(self) -> typing.Iterator[dict]:
        """The entries from this gate on. Damaged at `gate` if one is."""
        gate = self.read(1)
        while gate == OPEN:
            length = self.read(4)
            count = int.from_bytes(length, "big")
            if len(length) < 4:
                raise Damaged("the file ends within the length of the frame")
            if count > LONGEST_ENTRY:
                raise Damaged(f"the frame claims {count} bytes, more than any entry has")
            if self.gate + 6 + count > LONGEST_FILE:
                raise Damaged("the frame ends past 2^45 bytes")
            frame = self.read(count + 1)
            if len(frame) <= count:
                raise Damaged("the frame ends behind the end of the file")
            found = read_entry(frame[:-1], self.ms)
            self.ms, self.last = found["ms"], found["moment"]
            yield {"offset": self.gate, **found}
            self.count, self.gate, gate = self.count + 1, self.gate + 5 + count, frame[-1:]
        if not gate:
            raise Damaged("the file ends before the gate")
