"""Writes the checkpoint slot of the plain models, after docs/FORMATS.md alone; for test_checkpoints.py and
test_backup_slots.py. It knows nothing of tools/office_tools, which reads slots.

A `State` is the models at a moment: the last moment, the buckets of plain_office.py, `Months` of plain_months.py, `Kept` of
plain_tokens.py.
"""
import typing

from histories import number, tags_field, text_field
from model_words import configuration
from plain_months import Months, month_at, month_field, next_month, tariff_field
from plain_office import CLASSES, window
from plain_tokens import Kept

SLOTS = ("check.0", "check.1")  # the files, beside the journal
OPEN, VERSIONINGS = b"\xa7", ("Unversioned", "Enabled", "Suspended")


class State(typing.NamedTuple):
    last: typing.Optional[int]
    buckets: dict
    months: Months
    kept: Kept


def counted(parts, size=4):
    """A list with its count before it."""
    parts = list(parts)
    return number(len(parts), size) + b"".join(parts)


def version_number(name):
    return number(0 if name == "null" else int(name))


def class_field(name):
    return number(CLASSES.index(name), 1)


def front(state):
    """What is one for the office: parts 1 and 2."""
    first_open = state.months.first
    for _ in state.months.closed:
        first_open = next_month(first_open)
    last = b"\xff" * 8 if state.last is None else number(state.last)
    return (last + (month_field(first_open) if first_open else bytes(3))
            + counted((tariff_field(it) for _, it in sorted(state.months.tariffs.items())), 1)
            + counted(month_field(month) + tariff_field(it) for month, it in sorted(state.months.closed.items())))


def head(name, bucket):
    rules = b"" if bucket.rules is None else configuration(bucket.rules, bucket.mode).encode()
    return (text_field(name) + number(VERSIONINGS.index(bucket.versioning), 1) + number(bucket.rules_since) + number(len(rules), 4) + rules
            + number(bucket.next_version) + number(bucket.next_upload))


def version(it):
    is_marker = it["kind"] == "marker"
    found = version_number(it["version"]) + number(is_marker, 1) + number(it["created"]) + number(it["ceased"])
    return found if is_marker else found + number(it["size"]) + class_field(it["class"]) + number(it["entered"]) + tags_field(it["tags"])


def stacks(bucket):
    return counted(text_field(key) + number(it["changed"]) + counted(map(version, it["versions"]))
                   for key, it in sorted(bucket.stacks.items(), key=lambda it: it[0].encode()))


def put_at(bucket, upload, part):
    """When a part was put: since then it has its stay, which is open."""
    at, = (begun for whose, _, begun, to in bucket.stays if whose == (upload, part) and to is None)
    return at


def uploads(bucket):
    return counted(
        number(upload) + text_field(it["key"]) + class_field(it["class"]) + tags_field(it["tags"]) + number(it["started"]) + number(it["changed"])
        + counted(number(part, 4) + number(size) + number(put_at(bucket, upload, part)) for part, size in sorted(it["parts"].items()))
        for upload, it in sorted(bucket.uploads.items()))


def sums_of(bucket, month):
    """Of each class the byte-milliseconds of ended stays, the early quantity and the moves of a month."""
    start, end = window(month)
    for name in CLASSES:
        yield (sum(size * max(0, min(to, end) - max(begun, start)) for _, lines, begun, to in bucket.stays if to is not None
                   for line, size in lines if line == name),
               sum(amount for owner, amount, at in bucket.early if owner == name and start <= at < end),
               sum(1 for target, at in bucket.moves if target == name and start <= at < end))


def sums(bucket):
    """The months in which some number is not 0."""
    moments = [it for _, _, begun, to in bucket.stays if to is not None for it in (begun, to)]
    moments += [at for _, _, at in bucket.early] + [at for _, at in bucket.moves]
    found, month = [], month_at(min(moments, default=0))
    while moments and month <= month_at(max(moments)):
        classes = list(sums_of(bucket, month))
        if any(map(any, classes)):
            found.append(month_field(month) + b"".join(number(ended, 16) + number(early, 16) + number(moves) for ended, early, moves in classes))
        month = next_month(month)
    return counted(found)


def told(reply):
    """The version, marker or upload that a reply tells of, and 0 if it tells of none."""
    for name in ("version", "marker", "removed"):
        if name in reply:
            return version_number(reply[name])
    return number(reply.get("upload", reply.get("aborted", 0)))


def kept_reply(token, kind, fields, reply, moment):
    command = number(kind, 1) + fields
    return (number(len(token), 1) + token.encode() + number(moment) + number("marker" in reply, 1) + told(reply)
            + number(len(command), 4) + command)


def body_of(state):
    """The body: the seven parts, of which 3 to 6 go through the buckets in byte order of their names."""
    named = sorted(state.buckets.items())
    lists = b"".join(spell(bucket) for spell in (stacks, uploads, sums) for _, bucket in named)
    return front(state) + counted(head(name, it) for name, it in named) + lists + counted(kept_reply(token, *it) for token, it in state.kept.replies.items())


def slot_of(position, state):
    """An open slot with this position."""
    body = body_of(state)
    return OPEN + number(position) + number(len(body)) + body
