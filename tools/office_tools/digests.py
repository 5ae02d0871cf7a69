"""Sums over the blocks of a journal, in a chain, kept beside its backups; for journal-digest and backup.

What lies before the end gate of a journal never changes. A block is the bytes from one gate up to another; the first block
begins at 0. Each line of the file has its block's bytes, number of entries and SHA-256, the moment of its last entry, and the
chain: the SHA-256 of the chain of the line before and of this line. So a line that is changed shows without the journal.
"""
import glob
import hashlib
import json
import os
import re
import typing

from office_tools.asking import Stop
from office_tools.entries import Damaged
from office_tools.files import atomic_write
from office_tools.journals import Journal

ENTRIES = 16_384  # of a block at most
PIECE = 1 << 20
NAME = re.compile(r"journal-[0-9]{8}T[0-9]{6}Z")


class Block(typing.NamedTuple):
    """A line of the file: bytes from `start` up to `to`, and what they are."""
    start: int
    to: int
    entries: int
    ms: int
    sha256: str
    chain: str


def chain_of(before, start, to, entries, ms, sha256):
    return hashlib.sha256(f"{before} {start} {to} {entries} {ms} {sha256}".encode()).hexdigest()


def linked(blocks, start, to, entries, ms, sha256):
    """A block after these, with its chain."""
    return Block(start, to, entries, ms, sha256, chain_of(blocks[-1].chain if blocks else "", start, to, entries, ms, sha256))


def read_blocks(path: str) -> typing.List[Block]:
    """The blocks of a file of sums. Status 7 if the file is damaged, 3 if it cannot be read."""
    try:
        with open(path, encoding="utf-8") as file:
            lines = file.read().splitlines()
    except OSError as fault:
        raise Stop(3, f"{path}: {fault.strerror}") from None
    except ValueError:
        raise Stop(7, f"{path}: damaged: not UTF-8") from None
    blocks = []
    for place, line in enumerate(lines, 1):
        try:
            found = Block(**json.loads(line))
            wanted = linked(blocks, *found[:5])
            if found != wanted or found.start != (blocks[-1].to if blocks else 0) or found.to <= found.start:
                raise ValueError
        except (TypeError, ValueError):
            raise Stop(7, f"{path}: damaged at line {place}") from None
        blocks.append(found)
    return blocks


def write_blocks(path: str, blocks: typing.List[Block]) -> None:
    atomic_write(path, (json.dumps(it._asdict(), separators=(",", ":")) + "\n" for it in blocks))


def sum_of(file: typing.BinaryIO, start: int, to: int) -> typing.Optional[str]:
    """The SHA-256 of these bytes of a file. Nothing if the file is shorter."""
    found, left = hashlib.sha256(), to - start
    try:
        file.seek(start)
        while left:
            piece = file.read(min(left, PIECE))
            if not piece:
                return None
            found.update(piece)
            left -= len(piece)
    except OSError as fault:
        raise Stop(3, f"{file.name}: {fault.strerror}") from None
    return found.hexdigest()


def first_wrong(file: typing.BinaryIO, blocks: typing.List[Block]) -> int:
    """The place of the first block that a file has otherwise or not whole. The number of the blocks if there is none."""
    for place, it in enumerate(blocks):
        if sum_of(file, it.start, it.to) != it.sha256:
            return place
    return len(blocks)


def about(blocks: typing.List[Block], place: int) -> str:
    """A block in words."""
    it, before = blocks[place], sum(one.entries for one in blocks[:place])
    return f"block {place + 1} of {len(blocks)} (entries {before + 1} to {before + it.entries}, bytes {it.start} to {it.to - 1})"


def extended(file: typing.BinaryIO, blocks: typing.List[Block]) -> typing.List[Block]:
    """These blocks and those of the entries after them. Damaged, and where, if an entry is; status 5 if the file is not a journal."""
    found = list(blocks)
    journal = Journal(file, (found[-1].to, sum(it.entries for it in found), found[-1].ms) if found else None)
    start, first, ms = (found[-1].to if found else 0), journal.count, journal.ms
    ends = []

    def end_block(to, count):
        ends.append((start, to, count - first, ms))
    try:
        for entry in journal.entries():
            if journal.count - first == ENTRIES:
                end_block(entry["offset"], journal.count)
                start, first = entry["offset"], journal.count
            ms = entry["ms"]
    except Damaged as fault:
        raise Stop(5, f"journal: damaged at {journal.gate}: {fault}") from None
    if journal.count > first:
        end_block(journal.gate, journal.count)
    for start, to, entries, ms in ends:
        found.append(linked(found, start, to, entries, ms, sum_of(file, start, to)))
    return found


def copies(folder: str) -> typing.List[str]:
    """The copies in a folder, oldest first."""
    return sorted(it for it in glob.glob(os.path.join(glob.escape(folder), "journal-*Z"))
                  if NAME.fullmatch(os.path.basename(it)) and os.path.isfile(it))
