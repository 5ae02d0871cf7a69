"""Copies a journal and its checkpoints beside the program, checks the copies, and names them by the moment."""
import argparse
import contextlib
import datetime
import glob
import os
import re
import shutil
import signal
import sys

from office_tools.asking import Stop, run, say, words_of
from office_tools.checkpoints import NAMES, paths_beside, read_slots
from office_tools.digests import about, copies, extended, first_wrong, read_blocks, write_blocks
from office_tools.files import sync_folder
from office_tools.journals import Journal, open_file
from office_tools.slots import HEAD

EPILOG = """\
Copies JOURNAL (office-data/journal) to FOLDER/journal-YYYYMMDDTHHMMSSZ. The copy gets this name after it is
written, synced and checked. The folder is made if it is missing. If FOLDER is on a disk of its own, give
--other-disk: the tool then refuses while that disk is not mounted. --keep N removes all but the N newest
copies.

A journal only grows, and its front never changes. backup keeps FOLDER/journal.digest, a chain of SHA-256 sums
over blocks of entries. For each copy it compares all earlier blocks, checks each new entry, and adds the new
blocks. If an earlier block changed, it keeps no copy and removes none (exit code 6). There are two causes:

  bytes on the disk changed      `journal-digest mend` puts the journal together again, from it and a copy
  the journal is another one     after a restore of an older copy, or in a new office: give --replaced once. It
                                 begins a new chain, and keeps the old one beside it

The checkpoints beside the journal, check.0 and check.1, are copied first, as check.0-YYYYMMDDTHHMMSSZ and
check.1-YYYYMMDDTHHMMSSZ. So no copied checkpoint is newer than its journal. One that is empty, closed or
damaged is left out, since the program passes over it too. One of another journal, perhaps left beside an older
copy, is refused (exit code 8): the program would begin with it. So is one whose bytes are not those of an
earlier copy with the same position.

To restore: stop the program, put a copy in the place of office-data/journal, and remove check.0 and check.1
beside it, or replace them by the copies with the same ending. Without them the program reads the whole journal.
Then start the program.

  backup --keep 14 office-data/journal /backup/office

exit codes:
  0  the copy is there; its name is printed
  1  usage error
  3  the journal cannot be read
  4  the copy cannot be written; nothing is left of it
  5  the journal is not made, foreign or damaged; no copy is kept, and none is removed
  6  the front of the journal changed; no copy is kept, and none is removed
  7  FOLDER/journal.digest is damaged: move it away, and the next copy begins a new one
  8  a checkpoint is of another journal, or its bytes changed; no copy is kept, and none is removed
"""


def positive(text):
    if not re.fullmatch("[1-9][0-9]*", text, re.ASCII):
        raise argparse.ArgumentTypeError(f"'{text}' is not a number from 1 on")
    return int(text)


def folder_of(given):
    """Makes the folder of the copies."""
    there = os.path.abspath(given.folder)
    while not os.path.exists(there):
        there = os.path.dirname(there)
    try:
        if given.other_disk and os.stat(there).st_dev == os.stat(given.journal).st_dev:
            raise Stop(4, f"{given.folder}: on the file system of the journal; is its disk mounted?")
        os.makedirs(given.folder, exist_ok=True)
        if not os.access(given.folder, os.W_OK):
            raise Stop(4, f"{given.folder}: cannot be written to")
    except OSError as fault:
        raise Stop(4, f"{given.folder}: {fault.strerror}") from None


def copy(journal, part):
    """Copies from the front to the end, and syncs."""
    with open_file(journal) as file:
        try:
            with open(part, "xb") as there:
                shutil.copyfileobj(file, there, 1 << 20)
                there.flush()
                os.fsync(there.fileno())
        except OSError as fault:
            raise Stop(4, f"{part}: {fault.strerror}") from None


def same_front(path, part, journal):
    """Compares with the newest copy, if there are no sums yet."""
    with open_file(path) as file, open_file(part) as new:
        try:
            blocks = extended(file, [])
        except Stop:
            raise Stop(6, f"{path}: this copy is not whole; move it away, or give --replaced") from None
        if (place := first_wrong(new, blocks)) < len(blocks):
            raise Stop(6, f"{path} is not the front of {journal}: {about(blocks, place)} is another one; no copy is kept. "
                       "--replaced, if the journal was replaced")


def blocks_of(given, part, digest, before):
    """The sums of the copy, after a comparison with those of earlier copies."""
    blocks = read_blocks(digest) if os.path.exists(digest) and not given.replaced else []
    with open_file(part) as file:
        place = first_wrong(file, blocks)
        if place < len(blocks):
            whole = [it for it in reversed(before) if has_whole(it, blocks[:place + 1])]
            told = f"{whole[0]} has it whole" if whole else "no copy here has it whole"
            how = "is not what it was" if os.fstat(file.fileno()).st_size > blocks[place].to else "is missing, the journal is shorter than it was"
            raise Stop(6, f"{given.journal}: {about(blocks, place)} {how}; {told}; no copy is kept. journal-digest mend "
                       "restores it; --replaced, if the journal was replaced")
        if not blocks and before and not given.replaced:
            same_front(before[-1], part, given.journal)
        return extended(file, blocks)


def note(text):
    print(f"backup: {text}", file=sys.stderr)


def copy_slots(journal, ending, made):
    """Writes the checkpoints that decode to files with this ending, and adds their names to `made`. The program needs none of them."""
    try:
        slots = read_slots(journal)
    except Stop as stop:
        note(f"{stop.args[1]}; no checkpoint is copied")
        return []
    for it in slots:
        if it.slot.state == "damaged":
            note(f"{it.path}: damaged at {it.slot.fault[0]}: {it.slot.fault[1]}; not copied")
    whole = [it for it in slots if it.slot.state == "whole"]
    for it in whole:
        part = os.path.join(os.path.dirname(ending), f"{it.name}{os.path.basename(ending)}")
        made.append(part)
        with open(part, "xb") as there:
            there.write(it.data[:HEAD + it.slot.size])
            there.flush()
            os.fsync(there.fileno())
    return whole


def moment_before(file, blocks, position):
    """Whether a gate of a journal is at this place, and the moment of the entry before it."""
    before = [it for it in blocks if it.to <= position]
    journal = Journal(file, (before[-1].to, 0, before[-1].ms) if before else None)
    last = before[-1].ms if before else None
    for entry in journal.entries():
        if entry["offset"] >= position:
            return entry["offset"] == position, last
        last = entry["ms"]
    return journal.gate == position, last


def check_slots(whole, part, blocks):
    """Refuses a checkpoint that is not of the copied journal."""
    for it in whole:
        with open_file(part) as file:
            is_gate, last = moment_before(file, blocks, it.slot.position)
        if not is_gate or last != it.slot.snapshot.last:
            raise Stop(8, f"{it.path}: of another journal: {'its last moment is another one' if is_gate else 'no entry ends'} at its position "
                       f"{it.slot.position}; no copy is kept. journal-dump --check --slots says more")


def same_bytes(whole, folder):
    """Refuses a checkpoint whose bytes are not those of an earlier copy of it: a journal has one checkpoint for a position."""
    for path in sorted(glob.glob(os.path.join(glob.escape(folder), "check.[01]-*Z")), reverse=True):
        with open_file(path) as file:
            data = file.read()
        for it in whole:
            if data[:HEAD] == it.data[:HEAD] and data != it.data[:len(data)]:
                at = next(place for place, (one, other) in enumerate(zip(data, it.data)) if one != other)
                raise Stop(8, f"{it.path}: byte {at} is not what it is in {path}, of the same position {it.slot.position}: one of them changed; "
                           "no copy is kept")


def remove_copy(path):
    """Removes a copy, its checkpoints first."""
    for it in [*paths_beside(path), path]:
        with contextlib.suppress(FileNotFoundError):
            os.remove(it)


def strays(folder):
    """Checkpoints of copies that are not there: of a run that was stopped."""
    for path in glob.glob(os.path.join(glob.escape(folder), "check.[01]-*Z")):
        if not os.path.exists(os.path.join(folder, f"journal{os.path.basename(path)[len(NAMES[0]):]}")):
            yield path


def has_whole(path, blocks):
    with open_file(path) as file:
        return first_wrong(file, blocks) == len(blocks)


def main():
    words = words_of("backup", __doc__, EPILOG)
    words.add_argument("--keep", metavar="N", type=positive, help="remove all but the N newest copies")
    words.add_argument("--other-disk", action="store_true", help="refuse a folder on the file system of the journal")
    words.add_argument("--replaced", action="store_true", help="the journal is another one than before: begin new sums")
    words.add_argument("journal", metavar="JOURNAL", help="office-data/journal")
    words.add_argument("folder", metavar="FOLDER", help="where the copies are")
    given = words.parse_args()
    if not given.journal or not given.folder:
        words.error("JOURNAL or FOLDER is empty")
    if not os.path.isfile(given.journal):
        raise Stop(3, f"{given.journal}: no regular file")
    open_file(given.journal).close()
    folder_of(given)
    for it in (signal.SIGTERM, signal.SIGHUP):
        signal.signal(it, lambda *_: sys.exit(4))
    now = f"{datetime.datetime.now(datetime.timezone.utc):%Y%m%dT%H%M%SZ}"
    new, digest = (os.path.join(given.folder, it) for it in (f"journal-{now}", "journal.digest"))
    part, before, made = os.path.join(given.folder, f"journal.part.{os.getpid()}"), copies(given.folder), []
    try:
        whole = copy_slots(given.journal, os.path.join(given.folder, f".part.{os.getpid()}"), made)
        copy(given.journal, part)
        blocks = blocks_of(given, part, digest, before)
        check_slots(whole, part, blocks)
        if not given.replaced:
            same_bytes(whole, given.folder)
        if given.replaced and os.path.exists(digest):
            os.rename(digest, f"{digest}-until-{now}")
        write_blocks(digest, blocks)
        for it, there in zip(whole, list(made)):
            made.append(os.path.join(given.folder, f"{it.name}-{now}"))
            os.rename(there, made[-1])
        os.rename(part, new)  # from here on the copy counts
        made.clear()
        sync_folder(new)
    except OSError as fault:
        raise Stop(4, f"{new}: {fault.strerror}") from None
    finally:
        for it in [*made, part]:
            if os.path.exists(it):
                os.remove(it)
    for it in copies(given.folder)[:-given.keep] if given.keep else []:
        remove_copy(it)
    for it in strays(given.folder) if given.keep else []:
        os.remove(it)
    say(f"{new}\n")


def command() -> None:
    """Runs the tool with the words of the process, and ends with its exit code."""
    run("backup", main, (4, "stopped; nothing is left of the copy"))
