"""Reads a checkpoint slot by docs/FORMATS.md, "Checkpoints", and writes a body again from what was read.

A slot decodes if its gate is open, its position is at least 10, its body ends within the file, and the body is the one spelling of a
state that an office can have.
"""
import collections
import datetime
import typing

from office_tools.configurations import due_before, read_configuration
from office_tools.entries import KINDS, WITHOUT_TOKEN, Fields
from office_tools.ranges import CLASSES, END_OF_TIME, EPOCH, LARGEST_SIZE, Damaged
from office_tools.spelling import VERSIONINGS, text_of_rules, written

OPEN, HEAD, FIRST_GATE, NO_MOMENT = b"\xa7", 17, 10, (1 << 64) - 1
# Limits of what an office holds, and of what its meters count.
LIMITS = {"buckets": 1_000, "uploads": 20_000, "parts": 500_000, "bytes of names": 1 << 29, "bytes of rules": 1 << 26, "tariffs": 100}
MOST_VERSIONS, MOST_KEPT, NUMBERS, SUMS = 400_000, 10_000, 1 << 62, 1 << 120
PUT, DELETE, DELETE_VERSION, START, COMPLETE, ABORT = 0x05, 0x06, 0x07, 0x09, 0x0B, 0x0C


class Version(typing.NamedTuple):
    """A version: its number, 0 for the null version, and of an object what a delete marker does not have."""
    number: int
    created: int
    ceased: int
    size: typing.Optional[int] = None
    storage_class: typing.Optional[str] = None
    entered: typing.Optional[int] = None
    tags: typing.Optional[dict] = None

    @property
    def is_marker(self):
        return self.size is None


class Stack(typing.NamedTuple):
    """A key and its versions, newest first."""
    key: str
    changed: int
    versions: list


class Upload(typing.NamedTuple):
    """An upload that is not finished; a part is its number, its size and when it was put."""
    number: int
    key: str
    storage_class: str
    tags: dict
    started: int
    changed: int
    parts: list


class Bucket(typing.NamedTuple):
    """A bucket; of a month of its sums there are for each class byte-milliseconds of ended stays, early quantity and moves."""
    name: str
    versioning: str
    rules_since: int
    rules: typing.Optional[dict]
    next_version: int
    next_upload: int
    stacks: list = []
    uploads: list = []
    months: list = []


class Kept(typing.NamedTuple):
    """A kept reply: its command is a kind and its fields, as in an entry without a token."""
    token: str
    moment: int
    is_marker: bool
    told: int
    kind: int
    command: dict


class Snapshot(typing.NamedTuple):
    """What a body spells. Months are texts, as 2024-01."""
    last: typing.Optional[int]
    first_open: typing.Optional[str]
    tariffs: list
    closed: list
    buckets: list
    kept: list


class Slot(typing.NamedTuple):
    """What a file holds: `state` is empty, closed, damaged or whole. A damaged one has the offset of the fault, and why."""
    state: str
    position: typing.Optional[int] = None
    size: int = 0
    snapshot: typing.Optional[Snapshot] = None
    fault: typing.Optional[typing.Tuple[int, str]] = None


class Misspelled(Exception):
    """The offset of a fault in a body, and why it is one."""


# ---- months

def number_of(month: str) -> int:
    """A month as a number, counted from 1970-01."""
    return (int(month[:4]) - 1970) * 12 + int(month[5:]) - 1


def month_at(number: int) -> str:
    """The month of such a number."""
    return f"{1970 + number // 12}-{number % 12 + 1:02}"


def start_of(number: int) -> int:
    """The first millisecond of a month by its number."""
    return (datetime.datetime(1970 + number // 12, number % 12 + 1, 1) - EPOCH) // datetime.timedelta(milliseconds=1)


# ---- the body

class Body(Fields):
    """The bytes of a body. `begin` is where the field or the item begins that is looked at."""
    whole = "body"

    def __init__(self, data):
        super().__init__(data)
        self.begin, self.last, self.used, self.heads = 0, None, collections.Counter(), []

    # ---- fields and lists

    def field(self, reader, *about):
        self.begin = self.at
        return reader(self, *about)

    def number_in(self, count, what):
        return self.field(Fields.number, count, what)

    def items(self, what, reader, order=None):
        """A list with its count before it; if it has an order, this strictly rises."""
        found, before = [], None
        for _ in range(self.number_in(4, f"number of {what}")):
            start = self.at
            found.append(reader())
            if order and before is not None and order(found[-1]) <= before:
                self.refuse(start, f"the {what} are not in their order")
            before = order(found[-1]) if order else None
        return found

    def refuse(self, start, why):
        self.begin = start
        raise Damaged(why)

    def moment(self, what, least=0, most=None):
        """A moment from one up to another, that of the last command if none is given."""
        found = self.field(Fields.below, 8, what, END_OF_TIME)
        if not least <= found <= (self.last if most is None else most):
            raise Damaged(f"the {what} is {found}, which is {'before' if found < least else 'after'} what it may be")
        return found

    def flag(self, what):
        return bool(self.field(Fields.below, 1, what, 2))

    def use(self, what, count):
        """Counts what an office has at most so many of."""
        self.used[what] += count
        if self.used[what] > LIMITS[what]:
            raise Damaged(f"there are more than {LIMITS[what]} {what}")

    def names(self, key, tags):
        self.use("bytes of names", len(key.encode()) + sum(len(it.encode()) for pair in tags.items() for it in pair))

    # ---- parts 1 and 2

    def tariff(self):
        return {"from": self.field(Fields.month), "storage": [self.field(Fields.tiers) for _ in CLASSES],
                "transition": [self.field(Fields.price) for _ in CLASSES[1:]]}

    def tariffs(self):
        found, before = [], ""
        for _ in range(self.number_in(1, "number of tariffs")):
            start = self.at
            found.append(self.tariff())
            if found[-1]["from"] <= before:
                self.refuse(start, "the tariffs are not in the order of their first months")
            before = found[-1]["from"]
            self.use("tariffs", 1)
        return found

    def front(self):
        """The last moment, the first month that is not closed, the tariffs, and the closed months."""
        last = self.number_in(8, "last moment")
        self.last = None if last == NO_MOMENT else last
        if self.last is not None and last >= END_OF_TIME:
            raise Damaged(f"the last moment is {last}")
        start, first_open = self.at, self.open_month()
        if (first_open is None) != (self.last is None):
            self.refuse(start, "there is a first open month and no last moment, or the other way round")
        tariffs = self.tariffs()
        start = self.at
        closed = self.items("closed months", lambda: (self.field(Fields.month), self.tariff()))
        if self.last is None and (tariffs or closed):
            self.refuse(start, "there are tariffs or closed months, and no command was accepted")
        self.check_closed(start, closed, first_open)
        return first_open, tariffs, closed

    def open_month(self):
        if self.data[self.at:self.at + 3] != bytes(3):
            return self.field(Fields.month)
        self.at += 3
        return None

    def check_closed(self, start, closed, first_open):
        """The closed months follow each other up to the first open one, and the last of them is over."""
        if closed and [it for it, _ in closed] != [month_at(number_of(first_open) + it) for it in range(-len(closed), 0)]:
            self.refuse(start, "the closed months are not those before the first open month")
        if closed and start_of(number_of(first_open)) > self.last:
            self.refuse(start, "the last closed month is not over at the last moment")

    # ---- part 3

    def head(self):
        start, name = self.at, self.field(Fields.bucket)
        self.heads.append(start)
        if self.last is None:
            self.refuse(start, "there is a bucket, and no command was accepted")
        versioning = VERSIONINGS[self.field(Fields.below, 1, "versioning", 3)]
        since, rules = self.moment("moment of the rules"), self.rules_or_none()
        self.use("buckets", 1)
        return Bucket(name, versioning, since, rules, self.next_number("version"), self.next_number("upload"))

    def rules_or_none(self):
        start = self.at
        if not (size := self.number_in(4, "configuration")):
            return None
        self.use("bytes of rules", size)
        self.at = start
        return self.field(Fields.rules)

    def next_number(self, what):
        found = self.number_in(8, f"number of the next {what}")
        if not 1 <= found < NUMBERS:
            raise Damaged(f"the number of the next {what} is {found}")
        return found

    # ---- parts 4 and 5

    def stacks(self, bucket):
        return self.items("keys", lambda: self.stack(bucket), lambda it: it.key.encode())

    def stack(self, bucket):
        start, key = self.at, self.field(Fields.key)
        changed = self.moment("moment of the last change")
        self.names(key, {})
        versions = self.items("versions", lambda: self.version(bucket, changed))
        if not versions or len({it.number for it in versions}) < len(versions):
            self.refuse(start, f"the key {key!r} has {'two versions with one number' if versions else 'no version'}")
        if bucket.versioning == "Unversioned" and (len(versions) > 1 or versions[0].number or versions[0].is_marker):
            self.refuse(start, f"the key {key!r} has more than a null object in an Unversioned bucket")
        self.used["versions"] += len(versions) + (not versions[0].is_marker)
        if self.used["versions"] > MOST_VERSIONS:
            self.refuse(start, f"there are more than {MOST_VERSIONS} versions, with a marker to come for each current object")
        return Stack(key, changed, versions)

    def version(self, bucket, changed):
        """A version of a stack that changed last at this moment."""
        number = self.number_in(8, "version")
        if number >= bucket.next_version:
            raise Damaged(f"the version is {number}, and the next one is {bucket.next_version}")
        is_marker = self.flag("mark of a delete marker")
        created, ceased = self.moment("moment of creation", 0, changed), self.moment("moment at which it ceased", 0, changed)
        if is_marker:
            return Version(number, created, ceased)
        found = Version(number, created, ceased, self.field(Fields.size), self.field(Fields.storage_class),
                        self.moment("moment of entering the class", created, changed), self.field(Fields.tags))
        self.names("", found.tags)
        return found

    def uploads(self, bucket):
        return self.items("uploads", lambda: self.upload(bucket), lambda it: it.number)

    def upload(self, bucket):
        number = self.number_in(8, "upload")
        if number >= bucket.next_upload:
            raise Damaged(f"the upload is {number}, and the next one is {bucket.next_upload}")
        key, storage_class, tags = self.field(Fields.key), self.field(Fields.storage_class), self.field(Fields.tags)
        self.use("uploads", 1)
        self.names(key, tags)
        start, started = self.at, self.moment("moment of the start")
        changed = self.moment("moment of the last change", started)
        parts = self.items("parts", lambda: self.part(changed), lambda it: it[0])
        if sum(size for _, size, _ in parts) > LARGEST_SIZE:
            self.refuse(start, f"the parts have more than {LARGEST_SIZE} bytes")
        return Upload(number, key, storage_class, tags, started, changed, parts)

    def part(self, changed):
        number = self.number_in(4, "part")
        if not 1 <= number <= 10_000:
            raise Damaged(f"the part is {number}")
        size = self.number_in(8, "size of the part")
        if size > 5 << 30:
            raise Damaged(f"the size of the part is {size}")
        self.use("parts", 1)
        return number, size, self.moment("moment of the part", 0, changed)

    # ---- part 6

    def months(self):
        return self.items("months of sums", self.month_of_sums, lambda it: it[0])

    def month_of_sums(self):
        start, month = self.at, self.field(Fields.month)
        classes = [(self.sum("number of byte-milliseconds"), self.sum("early quantity"), self.moves()) for _ in CLASSES]
        begun = start_of(number_of(month))
        if not any(map(any, classes)):
            self.refuse(start, f"all sums of {month} are 0")
        if begun > self.last or (begun == self.last and any(ended for ended, _, _ in classes)):
            self.refuse(start, f"the sums of {month} are of a time after the last moment")
        return month, classes

    def sum(self, what):
        found = self.number_in(16, what)
        if found >= SUMS:
            raise Damaged(f"the {what} is 2^120 or more")
        return found

    def moves(self):
        found = self.number_in(8, "number of moves")
        if found >= NUMBERS:
            raise Damaged("the number of moves is 2^62 or more")
        return found

    # ---- part 7

    def kept_reply(self):
        start, token = self.at, self.field(Fields.token)
        if self.last is None:
            self.refuse(start, "there is a kept reply, and no command was accepted")
        moment = self.field(Fields.below, 8, "moment of the kept reply", END_OF_TIME)
        place, is_marker, told = self.at, self.flag("mark of a told marker"), self.number_in(8, "number told")
        size = self.number_in(4, "command")
        command = Command(self.field(Fields.take, size, "command"))
        try:
            kind, fields = command.read()
        except Damaged as fault:
            self.refuse(self.at - size + command.begin, str(fault))
        if not tells(kind, fields, is_marker, told):
            self.refuse(place, f"the reply to {fields['kind']} does not tell this")
        return Kept(token, moment, is_marker, told, kind, fields)

    def kept_replies(self):
        start, found = self.at, self.items("kept replies", self.kept_reply)
        if len(found) > MOST_KEPT or len({it.token for it in found}) < len(found):
            self.refuse(start, f"there are more than {MOST_KEPT} kept replies, or two with one token")
        return found

    def snapshot(self):
        first_open, tariffs, closed = self.front()
        buckets = self.items("buckets", self.head, lambda it: it.name)
        buckets = [it._replace(stacks=self.stacks(it)) for it in buckets]
        buckets = [it._replace(uploads=self.uploads(it)) for it in buckets]
        buckets = [it._replace(months=self.months()) for it in buckets]
        found = Snapshot(self.last, first_open, tariffs, closed, buckets, self.kept_replies())
        if self.at < len(self.data):
            self.refuse(self.at, "bytes follow the last part of the body")
        if closed:
            self.check_due(buckets, start_of(number_of(first_open)))
        return found

    def check_due(self, buckets, end):
        """No action takes effect before the end of the last closed month."""
        for start, it in zip(self.heads, buckets):
            key = it.rules and due_before(it, read_configuration(text_of_rules(it.rules).encode()), end)
            if key:
                self.refuse(start, f"an action on the key {key!r} of {it.name} is due before the end of the last closed month")


class Command(Fields):
    """The command of a kept reply: the bytes of an entry without its moment and its token."""
    whole = "command"
    begin = 0

    def read(self):
        kind = self.number(1, "kind")
        if kind not in KINDS or kind in WITHOUT_TOKEN:
            raise Damaged(f"the kind {kind:02x} is none of a command with a token")
        name, *readers = KINDS[kind]
        found = {"kind": name}
        for field, reader in readers:
            self.begin = self.at
            found[field] = reader(self)
        self.begin = self.at
        if self.at < len(self.data):
            raise Damaged("bytes follow the last field of the command")
        return kind, found


def tells(kind, command, is_marker, told):
    """Whether the reply to a command may tell of this number, and of a delete marker."""
    if is_marker or kind in (PUT, START, COMPLETE):
        return not is_marker or kind == DELETE
    if kind == DELETE_VERSION:
        return told == (0 if command["version"] == "null" else command["version"])
    return told == (command["upload"] if kind == ABORT else 0)


def read_body(data: bytes) -> Snapshot:
    """What a body spells. Misspelled if it spells nothing."""
    body = Body(data)
    try:
        found = body.snapshot()
    except Damaged as fault:
        raise Misspelled(body.begin, str(fault)) from None
    again = written(found)
    if again != data:
        place = next((at for at, (one, other) in enumerate(zip(again, data)) if one != other), min(len(again), len(data)))
        raise Misspelled(place, "the body is not the one spelling of what it spells")
    return found


def read_slot(data: bytes) -> Slot:
    """What the bytes of a slot file hold."""
    if data[:1] != OPEN:
        return Slot("closed" if data else "empty")
    if len(data) < HEAD:
        return Slot("damaged", fault=(len(data), "the file ends within the head of the slot"))
    position, size = (int.from_bytes(data[at:at + 8], "big") for at in (1, 9))
    if position < FIRST_GATE:
        return Slot("damaged", position, size, fault=(1, f"the position is {position}, before the first gate of a journal"))
    if size > len(data) - HEAD:
        return Slot("damaged", position, size, fault=(9, f"the body claims {size} bytes, and the file has {len(data) - HEAD}"))
    try:
        return Slot("whole", position, size, read_body(data[HEAD:HEAD + size]))
    except Misspelled as fault:
        at, why = fault.args
        return Slot("damaged", position, size, fault=(HEAD + at, why))
