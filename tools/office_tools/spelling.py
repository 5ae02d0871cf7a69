"""Writes the body of a checkpoint slot from what slots.py read in it: each value has one spelling (docs/FORMATS.md, "Checkpoints")."""
import json
import typing

from office_tools.ranges import CLASSES

VERSIONINGS = ("Unversioned", "Enabled", "Suspended")


def number(value: int, count: int) -> bytes:
    return value.to_bytes(count, "big")


def counted(items: typing.Iterable, spell: typing.Callable[..., bytes], count: int = 4) -> bytes:
    """A list with its count before it."""
    parts = [spell(it) for it in items]
    return number(len(parts), count) + b"".join(parts)


def text(value: str, count: int = 2) -> bytes:
    """A text with its length in bytes before it."""
    return number(len(value.encode()), count) + value.encode()


def text_of_rules(rules: dict) -> str:
    return json.dumps(rules, ensure_ascii=False, separators=(",", ":"))


def month(value: typing.Optional[str]) -> bytes:
    """A month, zeros for none."""
    return bytes(3) if value is None else number(int(value[:4]), 2) + number(int(value[5:]), 1)


def tags(value: dict) -> bytes:
    return counted(value.items(), lambda it: text(it[0]) + text(it[1]), 1)


def storage_class(value: str) -> bytes:
    return number(CLASSES.index(value), 1)


def tiers(value) -> bytes:
    """What a class costs: one price, or a list of tiers."""
    return counted([{"price": value}] if isinstance(value, int) else value,
                   lambda it: number(it.get("upto", 0), 4) + number(it["price"], 4), 1)


def tariff(value: dict) -> bytes:
    return month(value["from"]) + b"".join(map(tiers, value["storage"])) + b"".join(number(it, 4) for it in value["transition"])


def version_number(value) -> bytes:
    return number(0 if value == "null" else value, 8)


# The fields of commands with a token, by the names that the entries' reader gives them.
FIELDS = {"bucket": text, "key": text, "month": month, "class": storage_class, "tags": tags, "version": version_number,
          "status": lambda it: number(VERSIONINGS.index(it), 1), "size": lambda it: number(it, 8), "upload": lambda it: number(it, 8),
          "part": lambda it: number(it, 4)}


def command(kind: int, value: dict) -> bytes:
    """A command as in an entry, without moment and token."""
    return number(kind, 1) + b"".join(FIELDS[name](it) for name, it in value.items() if name != "kind")


def head(it) -> bytes:
    return (text(it.name) + number(VERSIONINGS.index(it.versioning), 1) + number(it.rules_since, 8)
            + (bytes(4) if it.rules is None else text(text_of_rules(it.rules), 4)) + number(it.next_version, 8) + number(it.next_upload, 8))


def version(it) -> bytes:
    first = number(it.number, 8) + number(it.is_marker, 1) + number(it.created, 8) + number(it.ceased, 8)
    return first if it.is_marker else first + number(it.size, 8) + storage_class(it.storage_class) + number(it.entered, 8) + tags(it.tags)


def stack(it) -> bytes:
    return text(it.key) + number(it.changed, 8) + counted(it.versions, version)


def part(it) -> bytes:
    return number(it[0], 4) + number(it[1], 8) + number(it[2], 8)


def upload(it) -> bytes:
    return (number(it.number, 8) + text(it.key) + storage_class(it.storage_class) + tags(it.tags) + number(it.started, 8)
            + number(it.changed, 8) + counted(it.parts, part))


def month_of_sums(it) -> bytes:
    return month(it[0]) + b"".join(number(ended, 16) + number(early, 16) + number(moves, 8) for ended, early, moves in it[1])


def kept(it) -> bytes:
    spelled = command(it.kind, it.command)
    return (text(it.token, 1) + number(it.moment, 8) + number(it.is_marker, 1) + number(it.told, 8) + number(len(spelled), 4) + spelled)


def written(it: typing.Any) -> bytes:
    """The body of a snapshot."""
    front = (number((1 << 64) - 1 if it.last is None else it.last, 8) + month(it.first_open) + counted(it.tariffs, tariff, 1)
             + counted(it.closed, lambda one: month(one[0]) + tariff(one[1])))
    lists = [counted(list_of, spell) for spell, lists_of in ((stack, [one.stacks for one in it.buckets]), (upload, [one.uploads for one in it.buckets]),
                                                             (month_of_sums, [one.months for one in it.buckets])) for list_of in lists_of]
    return front + counted(it.buckets, head) + b"".join(lists) + counted(it.kept, kept)
