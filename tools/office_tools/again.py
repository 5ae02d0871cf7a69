"""Puts rows that an earlier try of an import could not, for a class that --nearest maps now; for import-inventory.

A version cannot be put below a newer one, and an object that others put since must not be replaced. So a row is put only if the program
holds of its key what the import put, and no more.
"""
import contextlib
import itertools
import typing

from office_tools.asking import Office, Stop, reason
from office_tools.sending import SLICE, Progress, make_buckets, name_of, put, target_of, with_tokens

WHY = "refused: UnsupportedClass"
NEWER, CHANGED = "a newer version of this key was put before it", "the key has other versions by now"


def refused_rows(work: typing.Any, progress: Progress) -> dict:
    """The rows that were refused for their class and have another one now: the slice of each, by its place."""
    found, begin = {}, 0
    for number, line in enumerate(progress.lines):
        names = [tuple(it[:2]) for it in line["refused"] if it[2].startswith(WHY)]
        for place in range(begin, line["place"]) if names else ():
            if place in work.mapped_rows and name_of(work.rows[place]) in names:
                found[place] = number
        begin = line["place"]
    return found


def held(office, row):
    """The versions of a row's key here, oldest first: the size of each, nothing for a delete marker, and its number."""
    status, found = office.ask("GET", target_of(row))
    if status in (400, 404):
        return []
    if status != 200 or not isinstance(found.get("versions"), list):
        raise Stop(2, f"{row.where}: {reason(status, found)}")
    return [(it.get("size"), it.get("version")) for it in found["versions"]][::-1]


def why_not(rows, them, refused, here):
    """Why the refused rows of a key cannot be put; nothing if they can. `them` are the places of all rows of the key."""
    there = [place for place in them if place not in refused]
    if there and there[-1] > min(place for place in them if place in refused):
        return NEWER
    # More than the import put: the last try was stopped among these rows.
    is_same = len(there) <= len(here) <= len(them) and [size for size, _ in here] == [rows[place].size for place in them][:len(here)]
    return None if is_same else CHANGED


def settle(work, progress, place, number, why):
    """Notes what came of a row: it is put, or the reason why it still is not."""
    line, name = progress.lines[number], name_of(work.rows[place])
    entry = next(it for it in line["refused"] if tuple(it[:2]) == name and it[2].startswith(WHY))
    work.names.remove(tuple(entry))
    if why:
        entry[2] = why
        work.names.append(tuple(entry))
        return
    line["refused"].remove(entry)
    for it in progress.lines[number:]:
        it["put"] += 1
    work.counts["refused"] -= 1
    work.counts["put"] += 1
    work.again += 1


def put_again(work, office, row, token):
    """Puts a row. The reason if it is refused again."""
    version = put(office, work, row, token)
    if version is None:
        work.counts["refused"] -= 1
        return work.names.pop()[2]
    work.keep(row, version)
    return None


def put_key(work, office, progress, them, refused, tokens):
    """Puts the refused rows of a key that are not there yet. `them` are the places of all rows of the key."""
    here = held(office, work.rows[them[0]])
    why = why_not(work.rows, them, refused, here)
    for nth, place in enumerate(them):
        if place not in refused:
            continue
        if why:
            told = f"{WHY}, and {why}"
        elif nth < len(here):  # the last try was stopped behind it
            told = work.keep(work.rows[place], here[nth][1])
        else:
            told = put_again(work, office, work.rows[place], tokens[place])
        settle(work, progress, place, refused[place], told)


def try_again(work: typing.Any, office: Office, progress: Progress) -> None:
    """Puts each of these rows once over any number of tries: by its token, by what is there, and by the state."""
    refused = refused_rows(work, progress)
    if not refused:
        return
    make_buckets(work, office, [work.rows[place] for place in refused])
    keys, end = {}, progress.place()
    for place, row in enumerate(work.rows[:end]):
        keys.setdefault((row.bucket, row.key), []).append(place)
    tokens = {place: token for place, (_, token) in enumerate(with_tokens(work.rows, 0, work.anew)) if place in refused}
    left = iter([them for them in keys.values() if not refused.keys().isdisjoint(them)])
    while group := list(itertools.islice(left, SLICE)):
        with work.ids.change() if work.ids else contextlib.nullcontext():
            for them in group:
                put_key(work, office, progress, them, refused, tokens)
        progress.begin(end)
