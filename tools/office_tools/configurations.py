"""Reads a lifecycle configuration as the program prints it (docs/LIFECYCLE.md), and says from when on what it asks for is due.

A configuration has one text: what is read here is printed again and compared, so readers need not look at fields that are not there.
"""
import datetime
import json
import typing

from office_tools.ranges import CLASSES, END_OF_TIME, EPOCH, LARGEST_SIZE, Damaged

MODE, MODES = "TransitionDefaultMinimumObjectSize", ("all_storage_classes_128K", "varies_by_storage_class")
DAY, LEAST_MOVED = 86_400_000, 131_072
MOST_RULES, MOST_DAYS = 1_000, 2_147_483_647
INFREQUENT, ARCHIVES = ("STANDARD_IA", "ONEZONE_IA"), ("GLACIER", "DEEP_ARCHIVE")


class Filter(typing.NamedTuple):
    """What a rule is about: a prefix, tags, and bounds of the size."""
    prefix: str
    tags: list
    greater: typing.Optional[int]
    less: typing.Optional[int]


class Expiration(typing.NamedTuple):
    """When objects expire, and whether delete markers that are alone do."""
    days: typing.Optional[int]
    date: typing.Optional[int]
    lone_marker: bool


class Rule(typing.NamedTuple):
    """A rule. A move is days or a date, and a class; one of noncurrent versions days, how many newer ones stay, and a class."""
    name: str
    enabled: bool
    filter: Filter
    expiration: typing.Optional[Expiration]
    moves: list
    noncurrent: typing.Optional[typing.Tuple[int, typing.Optional[int]]]
    noncurrent_moves: list
    abort: typing.Optional[int]


class Configuration(typing.NamedTuple):
    """The rules in their order, and the size from which on transitions move objects."""
    rules: list
    mode: str


# ---- reading

def date_of(text):
    """A date of a rule in ms; what is printed otherwise is found by printing again."""
    return None if text is None else (datetime.datetime.strptime(text, "%Y-%m-%dT00:00:00.000Z") - EPOCH) // datetime.timedelta(milliseconds=1)


def filter_of(found):
    them = found.get("And", found)
    tags = [found["Tag"]] if "Tag" in found else them.get("Tags", [])
    return Filter(them.get("Prefix", ""), [(it["Key"], it["Value"]) for it in tags], them.get("ObjectSizeGreaterThan"), them.get("ObjectSizeLessThan"))


def rule_of(found):
    expires, gone = found.get("Expiration"), found.get("NoncurrentVersionExpiration")
    abort = found.get("AbortIncompleteMultipartUpload")
    return Rule(
        found["ID"], found["Status"] == "Enabled", filter_of(found["Filter"]),
        None if expires is None else Expiration(expires.get("Days"), date_of(expires.get("Date")), "ExpiredObjectDeleteMarker" in expires),
        [(it.get("Days"), date_of(it.get("Date")), it["StorageClass"]) for it in found.get("Transitions", [])],
        None if gone is None else (gone["NoncurrentDays"], gone.get("NewerNoncurrentVersions")),
        [(it["NoncurrentDays"], it.get("NewerNoncurrentVersions"), it["StorageClass"]) for it in found.get("NoncurrentVersionTransitions", [])],
        None if abort is None else abort["DaysAfterInitiation"])


# ---- printing

def given(**fields):
    """The fields that have a value."""
    return {name: value for name, value in fields.items() if value not in (None, [])}


def moment(ms):
    return None if ms is None else (EPOCH + datetime.timedelta(milliseconds=ms)).isoformat(timespec="milliseconds") + "Z"


def filter_shown(it):
    tags = [{"Key": key, "Value": value} for key, value in it.tags]
    bounds = given(ObjectSizeGreaterThan=it.greater, ObjectSizeLessThan=it.less)
    if bool(it.prefix) + len(tags) + len(bounds) > 1:
        return {"And": {**given(Prefix=it.prefix or None, Tags=tags), **bounds}}
    return {"Tag": tags[0]} if tags else bounds or {"Prefix": it.prefix}


def rule_shown(it):
    expires, gone = it.expiration, it.noncurrent
    return given(
        ID=it.name, Status="Enabled" if it.enabled else "Disabled", Filter=filter_shown(it.filter),
        Expiration=expires and given(Days=expires.days, Date=moment(expires.date), ExpiredObjectDeleteMarker=True if expires.lone_marker else None),
        Transitions=[given(Days=days, Date=moment(date), StorageClass=target) for days, date, target in it.moves],
        NoncurrentVersionExpiration=gone and given(NoncurrentDays=gone[0], NewerNoncurrentVersions=gone[1]),
        NoncurrentVersionTransitions=[given(NoncurrentDays=days, NewerNoncurrentVersions=newer, StorageClass=target)
                                      for days, newer, target in it.noncurrent_moves],
        AbortIncompleteMultipartUpload=None if it.abort is None else {"DaysAfterInitiation": it.abort})


def text_of(it: Configuration) -> str:
    """The one text of a configuration: compact, the fields of each object in byte order."""
    return json.dumps({"Rules": [rule_shown(rule) for rule in it.rules], MODE: it.mode}, sort_keys=True, ensure_ascii=False, separators=(",", ":"))


# ---- what a configuration keeps

def is_whole(value, most=MOST_DAYS, least=0):
    return isinstance(value, int) and not isinstance(value, bool) and least <= value <= most


def is_text(value, most, least=0):
    return isinstance(value, str) and least <= len(value) <= most


def are_tags(tags):
    return len(tags) <= 10 and all(is_text(key, 128, 1) and is_text(value, 256) for key, value in tags) and len(dict(tags)) == len(tags)


def is_date(value):
    return is_whole(value, END_OF_TIME - 1) and value % DAY == 0


def are_in_order(moves):
    """Whether of each two moves the one to the colder class is strictly later; a move is days or a date, and a class."""
    ranked = sorted((CLASSES.index(target), when) for when, target in moves)
    return all(one[0] < other[0] and one[1] < other[1] for one, other in zip(ranked, ranked[1:]))


def is_narrow(it):
    return bool(it.tags) or it.greater is not None or it.less is not None


def filter_flaw(it):
    if not isinstance(it.prefix, str) or len(it.prefix.encode()) > 1_024 or not are_tags(it.tags):
        return "its filter has a prefix or tags that may not be"
    bounds = [bound for bound in (it.greater, it.less) if bound is not None]
    if not all(is_whole(bound, LARGEST_SIZE) for bound in bounds) or (len(bounds) == 2 and it.greater >= it.less):
        return "its filter has bounds that may not be"
    return None


def moves_flaw(it):
    """What is wrong with the transitions of a rule."""
    noncurrent = [(days, target) for days, _, target in it.noncurrent_moves]
    if any((days is None) == (date is None) for days, date, _ in it.moves) or not all(is_date(date) for _, date, _ in it.moves if date is not None):
        return "a transition has not either days or a date"
    by_days = [(days, target) for days, _, target in it.moves if days is not None]
    if not all(is_whole(days) for days, _ in by_days + noncurrent):
        return "a transition has days that may not be"
    if not all(newer is None or is_whole(newer, 100, 1) for _, newer, _ in it.noncurrent_moves):
        return "a transition keeps a number of newer versions that may not be"
    if not all(target in CLASSES[1:] for target in [move[2] for move in it.moves + it.noncurrent_moves]):
        return "a transition has a class that may not be"
    if any(days < 30 and target in INFREQUENT for days, target in by_days + noncurrent):
        return "a transition to STANDARD_IA or ONEZONE_IA has fewer than 30 days"
    if by_days and len(by_days) < len(it.moves):
        return "its transitions have days and dates"
    if not are_in_order([(date if days is None else days, target) for days, date, target in it.moves]) or not are_in_order(noncurrent):
        return "its transitions are not in the order of the classes"
    return None


def removal_flaw(it):
    """What is wrong with the removals of a rule whose transitions are right."""
    expires, gone = it.expiration, it.noncurrent
    if expires and (not (expires.days is None or is_whole(expires.days, MOST_DAYS, 1)) or not (expires.date is None or is_date(expires.date))):
        return "its expiration has days or a date that may not be"
    if gone and (not is_whole(gone[0], MOST_DAYS, 1) or not (gone[1] is None or is_whole(gone[1], 100, 1))):
        return "its noncurrent expiration has numbers that may not be"
    if it.abort is not None and (not is_whole(it.abort, MOST_DAYS, 1) or is_narrow(it.filter)):
        return "it aborts uploads after days that may not be, or with a tag or a bound"
    if (expires and expires.days is not None and any(days is not None and days >= expires.days for days, _, _ in it.moves)) or (
            gone and any(days >= gone[0] for days, _, _ in it.noncurrent_moves)):
        return "it expires no later than a transition is due"
    if expires and expires.lone_marker and (expires.days is not None or expires.date is not None or is_narrow(it.filter)):
        return "it removes lone markers, with days, a date, a tag or a bound"
    if expires and (expires.days is None) == (expires.date is None) and not (expires.lone_marker and expires.days is None):
        return "its expiration has both days and a date, or nothing"
    return None


def flaw_of(it, earlier):
    """What a rule breaks. Nothing if it is right."""
    if not is_text(it.name, 255, 1) or it.name in earlier:
        return "its id is empty, too long or that of an earlier rule"
    if not (it.expiration or it.moves or it.noncurrent or it.noncurrent_moves or it.abort is not None):
        return "it has no action"
    return filter_flaw(it.filter) or moves_flaw(it) or removal_flaw(it)


def read_configuration(text: bytes) -> Configuration:
    """The configuration with this text. Damaged if it is not the one text of a configuration."""
    try:
        found = json.loads(text)
    except (ValueError, RecursionError):
        raise Damaged("the configuration is no JSON text") from None
    try:
        made = Configuration([rule_of(it) for it in found["Rules"]], found[MODE])
        is_same = text_of(made).encode() == text
    except (AttributeError, KeyError, OverflowError, TypeError, ValueError, RecursionError):
        is_same = False
    if not is_same:
        raise Damaged("the configuration is not written as it is printed")
    if len(made.rules) > MOST_RULES or made.mode not in MODES:
        raise Damaged("the configuration has too many rules, or another mode")
    earlier = set()
    for place, it in enumerate(made.rules, 1):
        if why := flaw_of(it, earlier):
            raise Damaged(f"rule {place} of the configuration: {why}")
        earlier.add(it.name)
    return made


# ---- what is due

def due(at, days):
    """The midnight that is not before so many days after a moment."""
    return -(-(at + days * DAY) // DAY) * DAY


def may_move(it, source, size, target, mode):
    """Whether an object may move to a class by a rule."""
    if CLASSES.index(target) <= CLASSES.index(source) or (source, target) == ("ONEZONE_IA", "GLACIER_IR"):
        return False
    return (it.filter.greater is not None or it.filter.less is not None or size >= LEAST_MOVED
            or (mode == MODES[1] and target in ARCHIVES))


def matches(it, key, version):
    """Whether the filter of a rule matches a version of a key."""
    if not key.startswith(it.prefix):
        return False
    if version.is_marker:
        return not is_narrow(it)
    return (all(version.tags.get(name) == value for name, value in it.tags) and (it.greater is None or version.size > it.greater)
            and (it.less is None or version.size < it.less))


def asked(rule, mode, stack, newer, older):
    """When what a rule asks of a version is due, with so many versions of the key above and below it."""
    it = stack.versions[newer]
    if newer:
        if rule.noncurrent and newer - 1 >= (rule.noncurrent[1] or 0):
            yield due(it.ceased, rule.noncurrent[0])
        for days, least, target in () if it.is_marker else rule.noncurrent_moves:
            if newer - 1 >= (least or 0) and may_move(rule, it.storage_class, it.size, target, mode):
                yield due(it.ceased, days)
        return
    if rule.expiration and (not it.is_marker or not older):
        if rule.expiration.days is not None:
            yield due(it.created, rule.expiration.days)
        if rule.expiration.date is not None:
            yield rule.expiration.date
        if rule.expiration.lone_marker and it.is_marker:
            yield due(stack.changed, 0)
    for days, date, target in () if it.is_marker else rule.moves:
        if may_move(rule, it.storage_class, it.size, target, mode):
            yield date if days is None else due(it.created, days)


def due_before(bucket: typing.Any, configuration: Configuration, end: int) -> typing.Optional[str]:
    """A key of a bucket of slots.py with an action that takes effect before a moment. Nothing if there is none."""
    if bucket.rules_since >= end:
        return None
    rules = [it for it in configuration.rules if it.enabled]
    for stack in bucket.stacks:
        # An action takes effect no earlier than the last change.
        for place, version in enumerate(stack.versions if stack.changed < end else ()):
            if any(at < end for rule in rules if matches(rule.filter, stack.key, version)
                   for at in asked(rule, configuration.mode, stack, place, len(stack.versions) - place - 1)):
                return stack.key
    for upload in bucket.uploads:
        if upload.changed < end and any(it.abort is not None and upload.key.startswith(it.filter.prefix) and due(upload.started, it.abort) < end
                                        for it in rules):
            return upload.key
    return None
