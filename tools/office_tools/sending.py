"""Sends the versions of a listing to a running server, each once over any number of tries, for import-inventory.

Each version is sent with a token of its own, so one that is sent again gets its first reply and is not put twice. The program keeps
the last 10,000 such replies, so the place that was reached is noted after each slice of rows, and the next try begins there.
"""
import contextlib
import itertools
import json
import os
import typing
import urllib.parse

from office_tools.asking import Office, Stop, reason
from office_tools.files import atomic_write
from office_tools.listings import CURRENT, MARKER, Row
from office_tools.tokens import KEPT, token_of

SLICE = 1_000  # rows between two notes of the place
SAFE = KEPT - SLICE  # this many rows may be sent again, for certain


def target_of(row: Row) -> str:
    """Where a row's object is put. The key's bytes but for letters, digits and `-._~/` are percent-encoded."""
    return f"{bucket_target(row.bucket)}/objects/{urllib.parse.quote(row.key, safe='/')}"


def name_of(row: Row) -> typing.Tuple[str, str]:
    """How a row is named among those that are left out."""
    return row.bucket, urllib.parse.quote(row.key, safe="/")


def bucket_target(bucket: str) -> str:
    return f"/buckets/{urllib.parse.quote(bucket, safe='')}"


def method_of(row: Row) -> str:
    """A delete marker is what a delete puts in an Enabled bucket."""
    return "DELETE" if row.kind == MARKER else "PUT"


def body_of(row: Row) -> typing.Optional[dict]:
    if row.kind == MARKER:
        return None
    named = {} if row.storage_class is None else {"class": row.storage_class}
    return {"size": row.size, **named, **({"tags": row.tags} if row.tags else {})}


def with_tokens(rows: typing.Iterable[Row], place: int = 0, anew: typing.Optional[str] = None) -> typing.Iterator[typing.Tuple[Row, str]]:
    """The rows from a place on, each with its token: the same for the same row in any listing, and others for rows that say the same.

    With another word `anew` a row has another token, and is put again.
    """
    seen = {}
    for number, row in enumerate(rows):
        nth, kind = 1, row.kind == MARKER
        # A version id, or else the key of a current object, occurs once in an import.
        if not row.version and (row.kind, row.version) != (CURRENT, None):
            kind, about = row.kind, row._replace(where="", tags=None)
            seen[about] = nth = seen.get(about, 0) + 1
        if number >= place:
            yield row, token_of("row", *([anew] if anew else []), row.bucket, row.key.hex(), kind, row.size, row.storage_class,
                                sorted((row.tags or {}).items()), row.version, row.moment.isoformat() if row.moment else None, nth)


class Progress:
    """The file that says how far an import is: a line that says of which, and a line for each slice that was sent.

    A line tells the rows that were sent so far, those put and those that the program refused. `nearest` is the class with which the import was
    begun, for classes that are not here; nothing if it had none.
    """

    def __init__(self, path, digest, where, nearest):
        self.path, self.head, self.nearest = path, {"import": digest, "server": where}, nearest
        self.lines = self.read()
        self.is_begun = bool(self.lines)
        if self.nearest:
            self.head["nearest"] = self.nearest

    def read(self):
        """The lines of the slices; a last line that is cut short counts for nothing."""
        try:
            with open(self.path, encoding="utf-8") as file:
                found = [json.loads(it) for it in file.read().splitlines(True) if it.endswith("\n")]
            if not found or not all(isinstance(it, dict) for it in found):
                raise ValueError
        except FileNotFoundError:
            return []
        except OSError:
            raise Stop(1, f"{self.path} cannot be read; give another --state") from None
        except ValueError:
            raise Stop(1, f"{self.path} is not a state of this version of import-inventory; give another --state") from None
        head = found[0]
        if head.get("import") != self.head["import"]:
            raise Stop(1, f"{self.path} is of another import; give another --state")
        if head.get("server") != self.head["server"]:
            raise Stop(1, f"{self.path} says that the import was begun at {head.get('server')}; if the same office is at {self.head['server']} "
                       "now, write that address there, else give another --state")
        self.nearest = head.get("nearest")
        return found[1:] or [{"place": 0, "put": 0, "markers": 0, "refused": []}]

    def place(self):
        """How many rows were sent."""
        return self.lines[-1]["place"] if self.lines else 0

    def up_to(self, place):
        """The lines of the slices that end at a place or before it."""
        return [it for it in self.lines if it["place"] <= place]

    def begin(self, place):
        """Says that the import is begun, before a row is sent, or that it goes on at a place; the file is whole or absent."""
        self.lines = self.up_to(place)
        atomic_write(self.path, "".join(json.dumps(it) + "\n" for it in (self.head, *self.lines)))

    def note(self, **line):
        """Notes a slice, synced."""
        self.lines.append(line)
        try:
            with open(self.path, "a", encoding="utf-8") as file:
                file.write(json.dumps(line) + "\n")
                file.flush()
                os.fsync(file.fileno())
        except OSError as fault:
            raise Stop(4, f"{self.path}: {fault.strerror}") from None


def present(office, bucket):
    """How many versions a bucket has, and its versioning; 0 if it is not made, or if its name is invalid."""
    status, found = office.ask("GET", bucket_target(bucket))
    if status in (400, 404):
        return 0, None
    if status != 200 or not isinstance(found.get("versions"), int):
        raise Stop(2, f"bucket {bucket}: {reason(status, found)}")
    return found["versions"], found.get("versioning")


def put(office: Office, work: typing.Any, row: Row, token: str) -> typing.Optional[str]:
    """Asks for one version. Its number, or nothing where the program refuses the row for its text."""
    status, found = office.ask(method_of(row), target_of(row), body_of(row), token)
    if status == 400:
        work.leave(row, "refused", f"refused: {found.get('error')}")
    elif status != (200 if row.kind == MARKER else 201):
        raise Stop(2, f"{row.where}: {reason(status, found)}")
    return None if status == 400 else found.get("marker" if row.kind == MARKER else "version") or "null"


def set_versioning(office, bucket, wanted):
    """Sets the versioning of a bucket, if it is another; a bucket with an invalid name has none."""
    if present(office, bucket)[1] not in (None, wanted):
        status, found = office.ask("PUT", f"{bucket_target(bucket)}/versioning", {"Status": wanted})
        if status != 200:
            raise Stop(2, f"bucket {bucket}: versioning {wanted}: {reason(status, found)}")


def first_row(work, office, progress):
    """The row at which the import begins. Status 6 where rows might be put a second time."""
    if not progress.is_begun and work.all > SAFE:
        for bucket in work.buckets:
            if there := present(office, bucket)[0]:
                raise Stop(6, f"bucket {bucket} has {there} versions already, and no file {progress.path} says how many of the {work.all} of this "
                           f"import they are; the program knows the last {KEPT} alone again. Nothing was sent")
    place = progress.place()
    mapped = work.ids.place_of(work.digest) if work.ids else place
    if place - mapped > SAFE:
        raise Stop(6, f"{work.ids.path} lacks the numbers of {place - mapped} versions that were put before, and the program tells the last {KEPT} "
                   "alone again. Nothing was sent")
    return min(place, mapped)


def make_buckets(work: typing.Any, office: Office, rows: typing.Iterable[Row]) -> None:
    """Makes the buckets, and sets the versioning of those into which rows are put."""
    filled = {row.bucket for row in rows}
    for bucket in work.buckets:
        status, found = office.ask("PUT", bucket_target(bucket))
        if status not in (201, 400) and found.get("error") != "BucketExists":
            raise Stop(2, f"bucket {bucket}: {reason(status, found)}")
        if bucket in work.versioned & filled:
            set_versioning(office, bucket, "Enabled")


def send_slice(work, office, pairs, place):
    """Puts the next rows, and notes their numbers in the map."""
    with work.ids.change() if work.ids else contextlib.nullcontext():
        for place, (row, token) in enumerate(pairs, place + 1):
            number = put(office, work, row, token)
            work.count(row, number is not None)
            if number is not None:
                work.keep(row, number)
            work.tell(place)
        if work.ids:
            work.ids.keep_place(work.digest, place)
    return place


def send(work: typing.Any, office: Office, state: str, again: typing.Optional[typing.Callable] = None) -> None:
    """Puts what was not put yet, slice by slice, from the place that was noted last. `again` tries what an earlier try could not put."""
    progress = Progress(state, work.digest, office.name, work.nearest)
    place = first_row(work, office, progress)
    if progress.nearest != work.nearest and place < work.all:
        # A version that was refused and one above it that was put may be among the rows that are sent again.
        begun = f"with --nearest {progress.nearest}" if progress.nearest else "without --nearest"
        raise Stop(1, f"{state}: this import was begun {begun} and is not done; first give the same words again, then these")
    work.taken_up(progress.up_to(place))
    make_buckets(work, office, work.rows[place:])
    progress.begin(place)
    pairs = with_tokens(work.rows, place, work.anew)
    while them := list(itertools.islice(pairs, SLICE)):
        names = len(work.names)
        place = send_slice(work, office, them, place)
        progress.note(place=place, put=work.counts["put"], markers=work.counts["markers"], refused=[list(it) for it in work.names[names:]])
    if again:
        again(work, office, progress)
    for bucket in sorted(work.suspended):
        set_versioning(office, bucket, "Suspended")
