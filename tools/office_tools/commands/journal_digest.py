"""Keeps SHA-256 sums over the blocks of a journal, and finds bytes that changed. backup does so at each copy."""
import os

from office_tools.asking import Stop, run, say, words_of
from office_tools.digests import PIECE, about, extended, first_wrong, read_blocks, sum_of, write_blocks
from office_tools.files import atomic_write
from office_tools.journals import open_file

EPILOG = """\
  verify DIGEST FILE...           compares journals or copies with the sums, as far as each of them goes
  extend DIGEST FILE              verifies a journal, and adds the sums of its new entries; makes DIGEST if it
                                  is missing
  mend DIGEST OUT JOURNAL COPY..  writes OUT, a journal without the changed bytes: each block comes from the
                                  first of these files that has it whole, and what is after the last block comes
                                  from JOURNAL

The format of a journal has no checksums. A bit that flips on a disk gives other numbers, and mostly no error.
What is before the end of a journal never changes, so each block can be compared with its sum of an earlier day.
backup keeps the file journal.digest beside its copies. A line of DIGEST has these fields:

  start, to  the block's first byte, and the byte after it
  entries    the number of entries
  ms         the moment of the last entry
  sha256     the SHA-256 of the block
  chain      the SHA-256 of the text "CHAIN START TO ENTRIES MS SHA256": the chain of the line before, and the
             fields of this one

The sums find changes after they were made. They do not protect against somebody who can write both files: keep
a copy of the last line elsewhere.

  journal-digest verify /backup/office/journal.digest office-data/journal /backup/office/journal-*Z
  journal-digest mend /backup/office/journal.digest mended office-data/journal /backup/office/journal-20261128T000512Z

exit codes:
  0  nothing changed; of extend and mend, the file is written
  1  usage error
  3  a file could not be read
  4  a file could not be written; it is as it was
  5  what is after the last block is damaged, or the file is not a journal
  6  a block changed; it is named
  7  DIGEST itself is damaged
"""
COUNTS = {"verify": "DIGEST FILE", "extend": "DIGEST FILE", "mend": "DIGEST OUT JOURNAL COPY"}


def size_of(file):
    return os.fstat(file.fileno()).st_size


def verify(digest, paths):
    """Says of each file whether it is what it was."""
    blocks, wrong = read_blocks(digest), 0
    for path in paths:
        with open_file(path) as file:
            # Each copy ended a block when it was made.
            there = [it for it in blocks if it.to < size_of(file)]
            place = first_wrong(file, there)
            if place < len(there):
                wrong += 1
                say(f"{path}: {about(blocks, place)} is not what it was\n")
            else:
                rest = "" if len(there) == len(blocks) else f"; it ends before block {len(there) + 1} does"
                say(f"{path}: whole: {len(there)} of {len(blocks)} blocks, {sum(it.entries for it in there)} entries{rest}\n")
    return 6 if wrong else 0


def extend(digest, path):
    """Adds the sums of new entries."""
    blocks = read_blocks(digest) if os.path.exists(digest) else []
    with open_file(path) as file:
        place = first_wrong(file, blocks)
        if place < len(blocks):
            raise Stop(6, f"{path}: {about(blocks, place)} is not what it was; nothing is written")
        longer = extended(file, blocks)
    write_blocks(digest, longer)
    say(f"{digest}: {len(longer)} blocks, {sum(it.entries for it in longer)} entries\n")


def pieces(file, start, to):
    """These bytes of a file, up to its end if `to` is nothing."""
    file.seek(start)
    while piece := file.read(PIECE if to is None else min(PIECE, to - file.tell())):
        yield piece


def mend(digest, out, paths):
    """Puts a journal together from the whole blocks of several files."""
    blocks, files = read_blocks(digest), [open_file(it) for it in paths]
    if os.path.exists(out):
        raise Stop(4, f"{out}: is there already")
    chosen = []
    for place, it in enumerate(blocks):
        whole = next((file for file in files if size_of(file) > it.to and sum_of(file, it.start, it.to) == it.sha256), None)
        if whole is None:
            raise Stop(6, f"{about(blocks, place)} is whole in none of these files")
        chosen.append((whole, it.start, it.to))
        if whole is not files[0]:
            say(f"{about(blocks, place)} comes from {whole.name}\n")
    if not blocks or size_of(files[0]) <= blocks[-1].to:
        raise Stop(5, f"{paths[0]}: ends before the last block does")
    extended(files[0], blocks)  # what is after the last block has to be whole
    chosen.append((files[0], blocks[-1].to, None))
    atomic_write(out, (piece for one in chosen for piece in pieces(*one)), 0o600)
    say(f"{out}\n")


def main():
    words = words_of("journal-digest", __doc__, EPILOG)
    words.add_argument("word", metavar="WORD", choices=COUNTS, help=", ".join(COUNTS))
    words.add_argument("digest", metavar="DIGEST", help="the file of sums, as journal.digest in the folder of the backups")
    words.add_argument("files", metavar="FILE", nargs="+", help="what the command takes")
    given = words.parse_args()
    if given.word == "verify":
        return verify(given.digest, given.files)
    if len(given.files) < (3 if given.word == "mend" else 1) or (given.word == "extend" and len(given.files) > 1):
        words.error(f"{given.word} takes {COUNTS[given.word]}")
    if given.word == "extend":
        return extend(given.digest, given.files[0])
    return mend(given.digest, given.files[0], given.files[1:])


def command() -> None:
    """Runs the tool with the words of the process, and ends with its exit code."""
    run("journal-digest", main, (4, "stopped; nothing was written"))
