"""Compares listings of an object store with what a running server of the program holds, and says what differs."""
import argparse
import collections
import contextlib
import csv
import io
import json
import re
import sys
import time

from office_tools.asking import Office, add_server, run, say, words_of
from office_tools.comparing import CLASS, KINDS, MISSING, SIZE, SURPLUS, compare_bucket
from office_tools.entries import CLASSES
from office_tools.files import atomic_write
from office_tools.idmap import IdMap, add_map
from office_tools.listings import CURRENT, rows_of
from office_tools.tail import FIRST_GATE, Tail, open_journal

EPILOG = """\
A FILE is a listing, also compressed (.gz). If it does not name its bucket, write BUCKET=FILE. Several files of
one bucket count as one listing. It comes from one of these:

  S3 Inventory                       CSV, or Parquet if the Python library pyarrow is there
  aws s3api list-object-versions     JSON, also of list-objects-v2
  mc ls --recursive --json           lines of JSON, with --versions or without
  rclone lsjson -R                   JSON

  missing      the store has a version that the office lacks
  surplus      the office has a version that the store lacks
  other_size   the same version has another size
  other_class  the same version has another class; with --nearest, classes that the office does not have count
               as that one

A listing with version ids is compared version by version, delete markers too: by --map, the file of
import-inventory and follow, or by order and size without it. A listing of objects only, or --current, is
compared with the current versions. The program has no list of keys: with --journal the tool finds the keys that
only the office has. Without it they are counted, not named.

Each key is asked for by itself. If a bucket changes meanwhile, a note says so: compare again. --names FILE gets
each difference (CSV: bucket, key, both versions, what, store, office). Standard output gets a table and the
first ones, or with --json one JSON object with all of them.

  compare --server http://127.0.0.1:8080 --journal office-data/journal --map photos.map photos=photos.json
  compare --server http://127.0.0.1:8080 --journal office-data/journal --nearest STANDARD --json inventory.csv.gz

exit codes:
  0  nothing differs
  1  usage error
  2  the server gave no reply or an unknown one
  3  a listing, the journal or the map cannot be read, or is not whole; nothing was compared
  4  standard output or a file could not be written
  5  something differs
"""
SHOWN = 10


def rows_by_bucket(given):
    """The rows of all listings by bucket; a bucket without rows is there too."""
    found = collections.defaultdict(list)
    for word in given.files:
        named = re.fullmatch("([a-z0-9][a-z0-9.-]{1,61}[a-z0-9])=(.+)", word)
        about = argparse.Namespace(files=[named[2] if named else word], bucket=named[1] if named else None, schema=given.schema, keys=given.keys)
        for row in rows_of(about):
            found[row.bucket] += [row] if row.key is not None else []
    return found


def keys_in_journal(path, buckets):
    """The keys that something was put under, by bucket: those of puts, deletes and begun uploads."""
    found = {name: set() for name in buckets}
    if not path:
        return found
    ends = {name.encode(): name for name in buckets}

    def seen(_, __, kind, fields):
        if kind in (0x05, 0x06, 0x09):
            end = 2 + int.from_bytes(fields[:2], "big")
            if (name := ends.get(fields[2:end])) is not None:
                found[name].add(fields[end + 2:end + 2 + int.from_bytes(fields[end:end + 2], "big")].decode("utf-8", "replace"))
    with contextlib.closing(open_journal(path)) as file:
        tail = Tail(path)
        tail.gate = FIRST_GATE
        tail.read(file, seen)
    return found


def names_file(path, found):
    text = io.StringIO()
    lines = csv.writer(text, lineterminator="\n")
    lines.writerow(("bucket", "key", "store_version", "office_version", "what", "store", "office"))
    lines.writerows(found)
    atomic_write(path, text.getvalue().encode("utf-8", "surrogateescape"))


def table_of(lines):
    """The lines as a table to read."""
    heads = ("bucket", "same", *KINDS)
    rows = [heads, *([str(it[head]) for head in heads] for it in lines)]
    widths = [max(len(row[place]) for row in rows) for place in range(len(heads))]
    return "".join("  ".join([row[0].ljust(widths[0]), *(it.rjust(width) for it, width in zip(row[1:], widths[1:]))]) + "\n" for row in rows)


def progress():
    """Says every two seconds at a terminal how many keys were asked for."""
    state = [0, time.monotonic()]

    def tell():
        state[0] += 1
        if sys.stderr.isatty() and time.monotonic() > state[1] + 2:
            state[1] = time.monotonic()
            print(f"compare: {state[0]} keys", file=sys.stderr, flush=True)
    return tell


def show(given, buckets, found):
    """Prints what was found."""
    lines = [it.line() for it in buckets]
    total = {"bucket": "total", **{name: sum(it[name] for it in lines) for name in ("same", *KINDS)}}
    if given.names:
        names_file(given.names, found)
    if given.json:
        say(json.dumps({"buckets": lines, "total": {name: it for name, it in total.items() if name != "bucket"},
                        "differences": [it._asdict() for it in found]}) + "\n")
        return total
    say(table_of([*lines, total]))
    for it in found[:SHOWN] if not given.names else []:
        print(f"compare: {it.bucket}/{it.key!r}: {in_words(it)}", file=sys.stderr)
    if len(found) > SHOWN and not given.names:
        print(f"compare: and {len(found) - SHOWN} more; --names FILE has all", file=sys.stderr)
    return total


def in_words(it):
    """One difference, to read."""
    version = f"version {it.store_version or it.office_version}: " if it.store_version or it.office_version else ""
    return version + {MISSING: f"not here, there {it.store}", SURPLUS: f"here alone, {it.office}", SIZE: f"{it.store} bytes there, {it.office} here",
                      CLASS: f"{it.store} there, {it.office} here"}[it.kind]


def main():
    words = words_of("compare", __doc__, EPILOG)
    add_server(words)
    words.add_argument("--journal", metavar="FILE", help="the journal of the server, to find keys that the listing does not have")
    add_map(words, False)
    words.add_argument("--current", action="store_true", help="compare only the current objects")
    words.add_argument("--nearest", metavar="CLASS", choices=CLASSES, help="classes that the office does not have count as this one")
    words.add_argument("--schema", metavar="TEXT", help="the columns of CSV without a first line that names them")
    words.add_argument("--keys", choices=("url", "plain"), help="how keys are spelled: CSV url, JSON plain if not given")
    words.add_argument("--names", metavar="FILE", help="write each difference to this file")
    words.add_argument("--json", action="store_true", help="print JSON instead of a table")
    words.add_argument("files", metavar="[BUCKET=]FILE", nargs="+", help="a listing")
    given = words.parse_args()
    listed, office, tell = rows_by_bucket(given), Office(given.server), progress()
    ids = IdMap(given.map, office.name, create=False) if given.map else None
    keys, found, buckets = keys_in_journal(given.journal, listed), [], []
    for name, rows in sorted(listed.items()):
        current = given.current or bool(rows) and all(row.version is None and row.kind == CURRENT for row in rows)
        nearest = (lambda it: it if it in CLASSES or not given.nearest else given.nearest)
        bucket, has_changed = compare_bucket(office, name, rows, keys[name], (current, nearest, ids, found, tell))
        buckets.append(bucket)
        if has_changed:
            print(f"compare: bucket {name} changed meanwhile; compare again", file=sys.stderr)
        if bucket.unnamed:
            print(f"compare: bucket {name} has {bucket.unnamed} versions under keys that the listing does not have; --journal names them", file=sys.stderr)
    total = show(given, buckets, found)
    return 5 if any(total[kind] for kind in KINDS) else 0


def command() -> None:
    """Runs the tool with the words of the process, and ends with its exit code."""
    run("compare", main)
