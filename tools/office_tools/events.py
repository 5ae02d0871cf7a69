"""Reads event notifications of S3 and of stores with its events, as SQS, SNS, EventBridge and MinIO send them; for follow."""
import hashlib
import json
import re
import typing
import urllib.parse

PUT, MARKER, REMOVE, LIFECYCLE, TAGS, OTHER = "puts", "delete markers", "removals", "lifecycle events", "tag events", "other events"
# By the front of a name, without "s3:". What a store does by its own lifecycle rules the program does by its rules.
NAMES = (("ObjectCreated:", PUT), ("ObjectRemoved:DeleteMarkerCreated", MARKER), ("ObjectRemoved:Delete", REMOVE),
         ("Lifecycle", LIFECYCLE), ("ObjectTagging:", TAGS), ("", OTHER))
BRIDGE = {"Object Created": "ObjectCreated:", "Object Tags Added": "ObjectTagging:Put", "Object Tags Deleted": "ObjectTagging:Delete",
          "Object Storage Class Changed": "LifecycleTransition"}


class Event(typing.NamedTuple):
    """What one event says. `version` is nothing in a bucket without versions; `raw` is the event as it was sent."""
    bucket: str
    key: str
    what: str
    size: typing.Optional[int]
    storage_class: typing.Optional[str]
    version: typing.Optional[str]
    sequencer: str
    raw: dict
    etag: typing.Optional[str] = None


class Bad(Exception):
    """Why something is not an event."""


def text_of(raw: typing.Any) -> str:
    """An event as one line, the same for the same event."""
    return json.dumps(raw, sort_keys=True, separators=(",", ":"))


def name_of(raw: typing.Any) -> str:
    """A short name for an event that is the same for each copy of it."""
    return hashlib.sha256(text_of(raw).encode()).hexdigest()[:32]


def inner(text, what):
    """The JSON text within an envelope."""
    try:
        return json.loads(text)
    except (TypeError, ValueError, RecursionError):
        raise Bad(f"its {what} is no JSON") from None


def records_of(found: typing.Any) -> typing.Iterator[dict]:
    """The single events in what a queue, a topic, a bus or a webhook sent, without their envelopes."""
    if isinstance(found, list):
        for it in found:
            yield from records_of(it)
        return
    if not isinstance(found, dict):
        raise Bad("this is not an event")
    if found.get("Type") == "SubscriptionConfirmation":
        raise Bad("this is not an event: the topic asks to confirm the subscription, at its SubscribeURL")
    for name in ("Records", "Messages"):
        if isinstance(found.get(name), list):
            yield from records_of(found[name])
            return
    for name in ("Body", "body", "Message"):
        if isinstance(found.get(name), str) and "s3" not in found:
            yield from records_of(inner(found[name], name))
            return
    if isinstance(found.get("Sns"), dict):
        yield from records_of(found["Sns"])
    elif ("s3" in found and "eventName" in found) or "detail-type" in found or found.get("Event") == "s3:TestEvent":
        yield found
    else:
        raise Bad("this is not an event of a bucket")


def parts_of(raw):
    """The name, bucket and object of an event, with the key as it is."""
    if "detail-type" not in raw:
        about, name = raw["s3"], re.sub("^s3:", "", raw["eventName"])
        key = urllib.parse.unquote_plus(about["object"]["key"], errors="strict")
        return name, about["bucket"]["name"], {**about["object"], "key": key}, about
    kind, detail = raw["detail-type"], raw["detail"]
    name = BRIDGE.get(kind, kind)
    if kind == "Object Deleted":
        by = "LifecycleExpiration:" if "lifecycle" in str(detail.get("reason", "")).lower() else "ObjectRemoved:"
        name = by + ("DeleteMarkerCreated" if "Marker" in str(detail.get("deletion-type", "")) else "Delete")
    about = detail["object"]
    return name, detail["bucket"]["name"], {**about, "versionId": about.get("version-id")}, detail


def class_in(about):
    """The class that an event names. Those of S3 name none for a new object; MinIO sends the header of the put."""
    fields = about["object"].get("userMetadata")
    found = {str(name).lower(): it for name, it in fields.items()} if isinstance(fields, dict) else {}
    return found.get("x-amz-storage-class")


def event_of(raw: dict) -> Event:
    """What a single event says."""
    if raw.get("Event") == "s3:TestEvent":
        return Event(str(raw.get("Bucket")), "", OTHER, None, None, None, "", raw)
    try:
        name, bucket, about, outer = parts_of(raw)
        what = next(kind for front, kind in NAMES if name.startswith(front))
        version, size, sequencer = about.get("versionId"), about.get("size"), about.get("sequencer")
        texts = (bucket, about["key"], version or "", sequencer or "")
        if not all(isinstance(it, str) for it in texts) or not bucket:
            raise ValueError
        about["key"].encode()
    except UnicodeError:
        raise Bad("its key is not UTF-8") from None
    except (AttributeError, KeyError, TypeError, ValueError):
        raise Bad("this is not an event of a bucket: it lacks a name, a bucket or a key") from None
    if what == PUT and not (isinstance(size, int) and not isinstance(size, bool) and size >= 0):
        raise Bad(f"its size is {json.dumps(size)}")
    if what in (PUT, MARKER, REMOVE) and not re.fullmatch("[0-9A-Fa-f]+", sequencer or ""):
        raise Bad(f"its sequencer is {json.dumps(sequencer)}, so nothing tells what came before it")
    etag = str(about.get("eTag") or about.get("etag") or "") or None
    return Event(bucket, about["key"], what, size, class_in(outer), version or None, order_of(sequencer or ""), raw, etag)


def order_of(sequencer):
    """A sequencer so that texts compare as S3 says: the shorter one is filled with zeros at its right."""
    return sequencer.upper().rstrip("0")


def by_sequencer(events: typing.List[Event]) -> typing.List[Event]:
    """Events with those of each key in the order of their sequencers, and else as they came."""
    places = {}
    for place, it in enumerate(events):
        places.setdefault((it.bucket, it.key), []).append(place)
    found = list(events)
    for them in places.values():
        for place, it in zip(them, sorted((events[place] for place in them), key=lambda it: it.sequencer)):
            found[place] = it
    return found
