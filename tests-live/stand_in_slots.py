"""The checkpoints of stand_in.py: opens from a slot, which tools/office_tools reads, and saves one, which plain_slots.py writes."""
import pathlib
import sys

sys.path.insert(0, str(pathlib.Path(__file__).resolve().parent.parent / "tools"))
from office_tools.checkpoints import paths_beside, read_slots, taken  # noqa: E402
from office_tools.entries import CLASSES, Damaged  # noqa: E402
from office_tools.journals import Journal as Reader  # noqa: E402
from office_tools.slots import start_of, number_of  # noqa: E402
from plain_months import plain  # noqa: E402
from plain_office import Bucket, lines_of, text_of  # noqa: E402
from plain_slots import State, slot_of  # noqa: E402
from stand_in_rules import rules_of  # noqa: E402


class DamagedTail(Exception):
    """The offset of the damage."""


def tariff_in(it):
    """A tariff as entries and slots have it."""
    tiers = [[(None, value)] if isinstance(value, int) else [(one.get("upto"), one["price"]) for one in value] for value in it["storage"]]
    return {**plain([], it["transition"], it["from"]), "storage": dict(zip(CLASSES, tiers))}


def version_name(number):
    return str(number or "null")


def version_in(it):
    found = {"version": version_name(it.number), "created": it.created, "ceased": it.ceased, "kind": "marker" if it.is_marker else "object"}
    return found if it.is_marker else {**found, "size": it.size, "class": it.storage_class, "entered": it.entered, "tags": it.tags}


def open_stay(bucket, key, it):
    lines = [("STANDARD", len(key.encode()))] if it.is_marker else lines_of(it.storage_class, it.size)
    bucket.stays.append([(key, version_name(it.number)), lines, it.created if it.is_marker else it.entered, None])


def bucket_in(found):
    """A bucket of the models. A month's ended stays become one of a millisecond."""
    it = Bucket(found.rules_since)
    it.versioning, it.next_version, it.next_upload = found.versioning, found.next_version, found.next_upload
    if found.rules is not None:
        it.rules, it.mode = (rules_of(found.rules)[name] for name in ("rules", "mode"))
    for stack in found.stacks:
        it.stacks[stack.key] = {"changed": stack.changed, "versions": list(map(version_in, stack.versions))}
        for version in stack.versions:
            open_stay(it, stack.key, version)
    for upload in found.uploads:
        it.uploads[upload.number] = {"key": upload.key, "class": upload.storage_class, "tags": upload.tags, "started": upload.started,
                                     "changed": upload.changed, "parts": {number: size for number, size, _ in upload.parts}}
        billed = "STANDARD" if upload.storage_class in ("GLACIER", "DEEP_ARCHIVE") else upload.storage_class
        it.stays += [[(upload.number, number), [(billed, size)], put, None] for number, size, put in upload.parts]
    for month, classes in found.months:
        at = start_of(number_of(month))
        for name, (ended, early, moves) in zip(CLASSES, classes):
            it.stays.append([month, [(name, ended)], at, at + 1])
            it.early.append((name, early, at))
            it.moves += [(name, at)] * moves
    return it


def reply_to(kept):
    """The reply of a kept command, as it follows from what is kept."""
    kind, it, number = kept.command["kind"], kept.command, version_name(kept.told)
    return {"create-bucket": lambda: {"bucket": it["bucket"]}, "set-versioning": lambda: {"versioning": it["status"]}, "drop-rules": lambda: {"rules": 0},
            "put": lambda: {"moment": text_of(kept.moment), "version": number}, "complete": lambda: {"moment": text_of(kept.moment), "version": number},
            "delete": lambda: {"marker": number} if kept.is_marker else {"removed": "null"}, "delete-version": lambda: {"removed": number},
            "set-tags": lambda: {"tags": len(it["tags"])}, "start-upload": lambda: {"upload": kept.told}, "put-part": lambda: {"part": it["part"]},
            "abort": lambda: {"aborted": kept.told}, "close": lambda: {"closed": it["month"]}}[kind]()


def restore(office, found, fields_of):
    """Makes an office that was begun anew that of a snapshot. `fields_of` gives the fields of a kept command as bytes."""
    office.last, office.buckets = found.last or 0, {it.name: bucket_in(it) for it in found.buckets}
    office.months.tariffs = {it["from"]: tariff_in(it) for it in found.tariffs}
    office.months.closed = {month: tariff_in(it) for month, it in found.closed}
    office.months.first = found.closed[0][0] if found.closed else found.first_open
    for it in found.kept:
        office.kept.keep(it.token, it.kind, fields_of(it), reply_to(it), it.moment)


def opened(path, office, fields_of):
    """Restores the office from the slot that an opening takes. Returns the entries after its position and the end gate; nothing if no slot decodes."""
    slot = taken(read_slots(path))
    if slot is None:
        return None
    position, found = slot.slot.position, slot.slot.snapshot
    restore(office, found, fields_of)
    if position >= pathlib.Path(path).stat().st_size:
        raise DamagedTail(position)
    with open(path, "rb") as file:
        journal = Reader(file, (position, 0, found.last or 0))
        try:
            return list(journal.entries()), journal.gate
        except Damaged:
            raise DamagedTail(journal.gate) from None


def save(path, office, position):
    """Saves the state at a position in the slot that is not loaded."""
    slots = read_slots(path)
    loaded = taken(slots)
    place = 1 if loaded is not None and loaded is slots[0] else 0
    with open(paths_beside(path)[place], "a+b"):
        pass
    with open(paths_beside(path)[place], "r+b") as file:
        data = slot_of(position, State(office.last or None, office.buckets, office.months, office.kept))
        file.write(b"\0" + data[1:])
        file.flush()
        file.seek(0)
        file.write(data[:1])
