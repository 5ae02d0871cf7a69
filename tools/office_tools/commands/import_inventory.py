"""Puts the objects or versions of a listing of a store into a running server of the program (--server), or writes the requests as
input for `office run` (--out)."""
import collections
import csv
import hashlib
import io
import json
import sys
import time
import urllib.parse

from office_tools.again import try_again
from office_tools.asking import Office, Stop, add_server, run, words_of
from office_tools.entries import CLASSES
from office_tools.extras import send_uploads, tags_for, tags_of, uploads_of
from office_tools.files import atomic_write
from office_tools.idmap import IdMap, add_map
from office_tools.listings import CURRENT, LEFT_OUT, MARKER, SECOND, in_order, rows_of
from office_tools.sending import body_of, bucket_target, method_of, name_of, send, target_of, with_tokens
from office_tools.tokens import FIELD, KEPT

EPILOG = """\
Ages begin at the import: the program uses its own clock, whatever LastModified says. Meters, minimum durations
and the time since which a version is noncurrent begin then. Version numbers are new, also that of a null
version. --map keeps which id of the store has which number.

A FILE is a listing, also compressed (.gz). It comes from one of these:

  S3 Inventory                               CSV, or Parquet if the Python library pyarrow is there
  aws s3api list-object-versions             JSON
  mc ls --recursive --versions --json        lines of JSON
  rclone lsjson -R                           JSON

  --tags FILE     lines of JSON of get-object-tagging, each with its key; without VersionId they are of the
                  current version: {"Key":"a","VersionId":"v1","TagSet":[{"Key":"k","Value":"v"}]}
  --uploads FILE  what list-multipart-uploads printed: unfinished uploads
  --parts FILE    lines of JSON of list-parts, each with its UploadId
  --nearest CLASS puts objects of a class that the office does not have into this one; the last line counts
                  them. Without it they are refused. Once the import is done, give the same command again with
                  --nearest: they are put then, unless their key has newer or other versions by now

A bucket has versions if a row is not current, is a delete marker, or has a version id other than null. Such a
bucket is made Enabled, and its versions are put oldest first by LastModified; a delete marker is a delete.
--suspended names a bucket that is suspended at the end. Other buckets get their objects in the order of the
files. --current puts only current objects, and leaves the versioning as it is. What is left out is counted, and
listed in the file of --names.

The first line of a CSV names the columns, or --schema does: the field fileSchema of the inventory's
manifest.json. It needs Bucket (or --bucket), Key and Size, and LastModifiedDate if a key has several versions.
It may have VersionId, StorageClass, IsLatest and IsDeleteMarker. Keys in CSV are URL-encoded, as S3 writes
them.

Each row, upload and part has a token of its own (Office-Token). If it is sent again, the program gives its
first reply and puts nothing twice. The program keeps the last 10,000 such replies. If the server or the tool
stops in the middle, give the same command again: it continues from the place that the file of --state notes
every 1,000 rows. Others may use these buckets meanwhile, with fewer than 9,000 tokens. A listing of more than
9,000 rows into a bucket with versions needs that file; without it nothing is sent. What the program refuses
(400) is listed with what is left out, and the import goes on. The requests of --out have tokens too: a file of
up to 10,000 rows may be given to `office run` twice. A note says so if it has more.

  import-inventory --schema 'Bucket, Key, Size, StorageClass' --server http://127.0.0.1:8080 part-1.csv.gz part-2.csv.gz
  aws s3api list-object-versions --bucket photos >photos.json
  import-inventory --server http://127.0.0.1:8080 --bucket photos --map photos.map --nearest STANDARD photos.json
  import-inventory --bucket photos --out photos.http photos.json && office run <photos.http

exit codes:
  0  done
  1  usage error
  2  the server gave no reply, or one that ends the import; the same command continues
  3  a file cannot be read, or is not what it should be; nothing was sent
  4  a file could not be written
  5  done, but the program refused some versions
  6  rows might be put twice: a bucket has versions, or the map lacks numbers, and nothing says how far the import was
"""


class Import:
    """What is sent, and what is counted and named on the way."""

    def __init__(self, given):
        self.names, self.suspended = [], set(given.suspended)
        self.counts = dict.fromkeys(("put", "markers", "refused", "uploads", "parts", *LEFT_OUT), 0)
        self.buckets, self.anew, digest = {}, given.anew, hashlib.sha256((given.anew or "").encode())
        self.nearest, self.mapped, self.ids, self.there, self.again = given.nearest, collections.Counter(), None, 0, 0
        self.tags, self.uploads = tags_of(given), uploads_of(given)
        kept = list(self.read(given))
        if self.tags:
            bucket, key, version = min(self.tags, key=str)
            raise Stop(3, f"--tags: no listing has bucket {bucket}, key {key.decode()!r}, version {version or '(the current one)'}")
        for it in self.uploads:
            self.buckets.setdefault(it.bucket, None)
        if unknown := self.suspended - set(self.buckets):
            raise Stop(1, f"--suspended {min(unknown)}: no file has this bucket")
        self.versioned = self.suspended | {row.bucket for row in kept if not given.current and row.is_of_a_version()}
        self.rows = [row for row in kept if row.bucket not in self.versioned]
        self.rows += in_order([row for row in kept if row.bucket in self.versioned])
        for row in self.rows:
            digest.update(repr(row[:4]).encode())
            if row.tags:
                digest.update(repr(sorted(row.tags.items())).encode())
        # An import that goes on with --nearest is the same import.
        self.all, self.digest, self.mapped_rows = len(self.rows), digest.hexdigest(), set()
        if self.nearest:
            self.map_classes()
        self.begun = self.told = time.monotonic()

    def read(self, given):
        """The rows that are to be put, in the order of the files; what is left out is named."""
        seen = set()
        for row in rows_of(given):
            self.buckets.setdefault(row.bucket, None)
            if row.key is None:
                continue
            by_key = given.current or (row.version is None and row.kind == CURRENT)
            same = (row.bucket, row.key) if by_key else (row.bucket, row.key, row.version or row.where)
            if given.current and row.kind != CURRENT:
                self.leave(row, row.kind)
            elif same in seen:
                self.leave(row, SECOND)
            else:
                seen.add(same)
                yield row if row.kind == MARKER else row._replace(tags=tags_for(self.tags, row))

    def map_classes(self):
        """Puts rows of a class that the office does not have into the nearest one."""
        for place, row in enumerate(self.rows):
            if row.kind != MARKER and row.storage_class not in (None, *CLASSES):
                self.mapped[row.storage_class] += 1
                self.mapped_rows.add(place)
                self.rows[place] = row._replace(storage_class=self.nearest)

    def taken_up(self, lines):
        """Counts and names what an earlier try of the same import put and was refused."""
        for line in lines:
            self.names += map(tuple, line["refused"])
            self.counts["refused"] += len(line["refused"])
            self.counts["put"], self.counts["markers"] = line["put"], line["markers"]
        self.there = self.counts["put"] + self.counts["markers"]

    def keep(self, row, number):
        """Notes the number of a version of the store."""
        if self.ids and row.version:
            self.ids.keep(row.bucket, row.key.decode(), row.version, number, row.size, row.etag)

    def refuse(self, upload, found):
        """Names an upload, or a part of one, that the program refused."""
        self.counts["refused"] += 1
        self.names.append((upload.bucket, urllib.parse.quote(upload.key, safe="/"), f"refused: {found.get('error')}"))

    def leave(self, row, kind, why=None):
        self.counts[kind] += 1
        self.names.append((*name_of(row), why or kind))

    def count(self, row, taken):
        self.counts["markers" if row.kind == MARKER else "put"] += taken

    def tell(self, place):
        """Says every two seconds how far the import is."""
        if time.monotonic() > self.told + 2:
            self.told = time.monotonic()
            rate = place / (self.told - self.begun)
            print(f"import-inventory: {place} of {self.all}, {rate:.0f} a second", file=sys.stderr, flush=True)


def requests(work):
    """The input for `office run`, a message after the other."""
    def request(method, target, body=None, token=None):
        text, field = "" if body is None else json.dumps(body, separators=(",", ":")), f"{FIELD}: {token}\r\n" if token else ""
        return f"{method} {target} HTTP/1.1\r\nHost: office\r\n{field}Content-Length: {len(text)}\r\n\r\n{text}".encode()
    for bucket in work.buckets:
        yield request("PUT", bucket_target(bucket))
        if bucket in work.versioned:
            yield request("PUT", f"{bucket_target(bucket)}/versioning", {"Status": "Enabled"})
    for row, token in with_tokens(work.rows, 0, work.anew):
        yield request(method_of(row), target_of(row), body_of(row), token)
        work.count(row, 1)
    for bucket in sorted(work.suspended):
        yield request("PUT", f"{bucket_target(bucket)}/versioning", {"Status": "Suspended"})


def write_requests(work, out):
    """Writes the input for `office run`, whole or not at all."""
    if out != "-":
        return atomic_write(out, requests(work))
    try:
        sys.stdout.buffer.writelines(requests(work))
        sys.stdout.buffer.flush()
    except OSError as fault:
        raise Stop(4, f"{out}: {fault.strerror}") from None


def finish(work, names):
    """Names what was left out or refused, and says what was done."""
    if names:
        text = io.StringIO()
        csv.writer(text, lineterminator="\n").writerows(work.names)
        atomic_write(names, text.getvalue())
    for bucket, key, why in work.names[:5] if not names else []:
        print(f"import-inventory: left out: {urllib.parse.quote(bucket)}/{key}: {why}", file=sys.stderr)
    counts, left = work.counts, ", ".join(f"{kind} {work.counts[kind]}" for kind in LEFT_OUT)
    told = f"put {counts['put']}, delete markers put {counts['markers']}, refused {counts['refused']}; left out: {left}"
    if work.there:
        told += f"; of these {work.there} by an earlier try"
    if work.again:
        told += f"; {work.again} refused before and put now"
    if work.uploads:
        told += f"; uploads {counts['uploads']}, parts {counts['parts']}"
    told += "".join(f"; {name} put as {work.nearest}: {count}" for name, count in sorted(work.mapped.items()))
    new = "; version numbers are new" if work.versioned else ""
    print(f"import-inventory: buckets {len(work.buckets)}, {told}; ages begin at the import, not at LastModified{new}",
          file=sys.stderr)


def main():
    words = words_of("import-inventory", __doc__, EPILOG)
    where = words.add_mutually_exclusive_group(required=True)
    add_server(where, required=False)
    where.add_argument("--out", metavar="FILE", help="the requests, for the input of `office run`; - is standard output")
    words.add_argument("--schema", metavar="TEXT", help="the columns of CSV without a first line that names them")
    words.add_argument("--bucket", metavar="NAME", help="the bucket, if the files do not name it")
    words.add_argument("--keys", choices=("url", "plain"), help="how keys are spelled: CSV url, JSON plain if not given")
    words.add_argument("--current", action="store_true", help="put only the current objects, without versioning")
    words.add_argument("--suspended", metavar="NAME", action="append", default=[],
                       help="a bucket that is suspended at the end; may be given again")
    words.add_argument("--names", metavar="FILE", help="list in this file what is left out or refused (bucket, key, why)")
    words.add_argument("--state", metavar="FILE", help="how far an import is; the first file and .import if not given")
    add_map(words, False, "keep the store's version ids and their numbers in this SQLite file; for --server")
    words.add_argument("--nearest", metavar="CLASS", choices=CLASSES, help="put objects of a class that the office does not have into this one")
    words.add_argument("--anew", metavar="WORD", help="put rows again that were put before and removed since: their tokens have this word")
    words.add_argument("--tags", metavar="FILE", action="append", default=[], help="tags, lines of get-object-tagging with a Key each")
    words.add_argument("--uploads", metavar="FILE", action="append", default=[],
                       help="unfinished uploads, of list-multipart-uploads; needs --map")
    words.add_argument("--parts", metavar="FILE", action="append", default=[],
                       help="their parts, lines of list-parts with an UploadId each")
    words.add_argument("files", metavar="FILE", nargs="+", help="a listing, also .gz")
    given = words.parse_args()
    if (given.map or given.uploads) and not given.server:
        words.error("--map and --uploads need --server: the numbers are in its replies")
    if given.parts and not given.uploads or given.uploads and not given.map:
        words.error("--parts needs --uploads, and that --map")
    work = Import(given)
    if given.out:
        write_requests(work, given.out)
        if work.all > KEPT:
            print(f"import-inventory: give {given.out} to `office run` once: the program knows the last {KEPT} of its {work.all} rows alone again",
                  file=sys.stderr)
    else:
        office = Office(given.server)
        work.ids = IdMap(given.map, office.name) if given.map else None
        if work.ids:
            work.ids.alone()
        send(work, office, given.state or f"{given.files[0]}.import", try_again)
        if work.uploads:
            send_uploads(work, office, work.ids)
    finish(work, given.names)
    return 5 if work.counts["refused"] else 0


def command() -> None:
    """Runs the tool with the words of the process, and ends with its exit code."""
    run("import-inventory", main)
