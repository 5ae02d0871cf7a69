"""Compares the versions of a listing with those that the program holds, key by key; for compare."""
import difflib
import typing

from office_tools.asking import Office, Stop, reason
from office_tools.listings import CURRENT, MARKER, Row, in_order
from office_tools.sending import bucket_target
from office_tools.sweeping import target_of

MISSING, SURPLUS, SIZE, CLASS = "missing", "surplus", "other_size", "other_class"
KINDS = (MISSING, SURPLUS, SIZE, CLASS)


class One(typing.NamedTuple):
    """A version on one of the two sides; `size` and `storage_class` are nothing for a delete marker."""
    name: typing.Optional[str]
    size: typing.Optional[int]
    storage_class: typing.Optional[str]


class Difference(typing.NamedTuple):
    """`store` and `office` are the size or class there, or what only that side has."""
    bucket: str
    key: str
    store_version: typing.Optional[str]
    office_version: typing.Optional[str]
    kind: str
    store: typing.Any
    office: typing.Any


class Bucket:
    """What was found of one bucket."""

    def __init__(self, name):
        self.name, self.same, self.counts, self.unnamed = name, 0, dict.fromkeys(KINDS, 0), 0

    def line(self):
        return {"bucket": self.name, "same": self.same, **self.counts}


def shown(it):
    return "delete marker" if it.size is None else f"{it.size} bytes in {it.storage_class}"


def pairs_of(store, office, number_of):
    """Which version of the store is which one here; nothing on a side where there is none. Both oldest first.

    By the map where it knows a version, and the others by their order, as well as kinds and sizes tell it.
    """
    by_name = {it.name: it for it in office}
    known = {it: by_name.pop(number, None) for it in store if (number := number_of(it)) is not None}
    yield from known.items()
    left, right = [it for it in store if it not in known], [it for it in office if it.name in by_name]
    sizes = [[it.size for it in side] for side in (left, right)]
    for word, a, b, c, d in difflib.SequenceMatcher(None, *sizes, autojunk=False).get_opcodes():
        both = min(b - a, d - c) if word != "insert" and word != "delete" else 0
        for place in range(both):
            one, other = left[a + place], right[c + place]
            if (one.size is None) == (other.size is None):
                yield one, other
            else:
                yield from ((one, None), (None, other))
        yield from ((it, None) for it in left[a + both:b])
        yield from ((None, it) for it in right[c + both:d])


def compare_key(bucket, key, store, office, number_of, found):
    """Compares the versions of one key, and adds to what was found."""
    def differ(kind, one, other, told):
        bucket.counts[kind] += 1
        found.append(Difference(bucket.name, key, one and one.name, other and other.name, kind, *told))
    for one, other in pairs_of(store, office, number_of):
        if other is None:
            differ(MISSING, one, other, (shown(one), None))
        elif one is None:
            differ(SURPLUS, one, other, (None, shown(other)))
        elif one.size != other.size:
            differ(SIZE, one, other, (one.size, other.size))
        elif one.storage_class != other.storage_class:
            differ(CLASS, one, other, (one.storage_class, other.storage_class))
        else:
            bucket.same += 1


def stack_of(office, bucket, key, current):
    """The versions of a key here, oldest first."""
    status, found = office.ask("GET", target_of(bucket, "objects", key))
    if status in (400, 404):
        return []
    if status != 200 or not isinstance(found.get("versions"), list):
        raise Stop(2, f"bucket {bucket}: {reason(status, found)}")
    stack = [One(it.get("version"), it.get("size"), it.get("class")) for it in found["versions"]]
    if current:
        stack = [it for it in stack[:1] if it.size is not None]
    return stack[::-1]


def held(office, bucket):
    """How many versions a bucket has here, and its versioning; nothing if there is none."""
    status, found = office.ask("GET", bucket_target(bucket))
    if status in (400, 404):
        return None, None
    if status != 200 or not isinstance(found.get("versions"), int):
        raise Stop(2, f"bucket {bucket}: {reason(status, found)}")
    return found["versions"], found.get("versioning")


def rows_by_key(rows, current):
    """The rows of one bucket by their keys, oldest first."""
    keys, seen = {}, set()
    for row in rows if current else in_order(rows):
        same = (row.key, row.version)
        if same in seen and (current or row.version):
            raise Stop(3, f"{row.where}: this version stands twice in the listing")
        seen.add(same)
        keys.setdefault(row.key.decode("utf-8", "surrogateescape"), []).append(row)
    return keys


def compare_bucket(office: Office, name: str, rows: typing.List[Row], more_keys: typing.Iterable[str], settings: tuple) -> typing.Tuple[Bucket, bool]:
    """Compares one bucket. `more_keys` are keys that the program may hold besides those of the listing."""
    current, nearest, ids, found, tell = settings
    bucket, before = Bucket(name), held(office, name)
    rows = [row for row in rows if not current or row.kind == CURRENT]
    keys, asked = rows_by_key(rows, current), 0

    def as_one(row):
        if row.kind == MARKER:
            return One(row.version, None, None)
        return One(row.version, row.size, nearest(row.storage_class or "STANDARD"))
    for key in sorted({*keys, *more_keys}):
        if before[0] is None or any(0xDC80 <= ord(it) <= 0xDCFF for it in key):
            stack = []
        else:
            stack = stack_of(office, name, key, current)
        asked += len(stack)
        compare_key(bucket, key, [as_one(row) for row in keys.get(key, [])], stack,
                    lambda it, key=key: ids.number_of(name, key, it.name) if ids and it.name else None, found)
        tell()
    after = held(office, name)
    # Without the journal nobody knows the keys that only the office has, but the program says how many versions it has.
    if not current or after[1] == "Unversioned":
        bucket.unnamed = max(0, (after[0] or 0) - asked)
        bucket.counts[SURPLUS] += bucket.unnamed
    return bucket, before != after
