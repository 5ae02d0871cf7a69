"""Reads lifecycle configurations as other programs print them, and says what this program does not have, for lifecycle."""
import ast
import bisect
import datetime
import json
import json.scanner
import re
import sys
import typing

from office_tools.asking import Stop
from office_tools.terraform import configuration_of, resources_of

CLASSES = ("STANDARD_IA", "ONEZONE_IA", "GLACIER_IR", "GLACIER", "DEEP_ARCHIVE")
ACTIONS = ("Expiration", "Transitions", "NoncurrentVersionExpiration", "NoncurrentVersionTransitions", "AbortIncompleteMultipartUpload")
MODE, DEFAULT_MODE = "TransitionDefaultMinimumObjectSize", "all_storage_classes_128K"
# What a request or a reply has around a configuration: boto3, the AWS command line, and its --cli-input-json.
ENVELOPE = ("ResponseMetadata", "Bucket", "ExpectedBucketOwner", "ChecksumAlgorithm", "ContentMD5")
# A moment as boto3 shows it where its reply is printed and not written as JSON; tzlocal() is the zone of this machine.
SHOWN = re.compile(r"datetime\.datetime\((\d+), (\d+), (\d+), (\d+), (\d+), tzinfo=[\w.]*(utc|tzlocal)(?:\(\))?\)")


class Text(str):
    """A text in a JSON file, which knows its line."""
    line = None


class Lines(json.JSONDecoder):
    """Reads JSON whose texts know their lines."""

    def __init__(self, text):
        super().__init__()
        ends = [place for place, it in enumerate(text) if it == "\n"]

        def placed(read, end, strict):
            found, after = json.decoder.scanstring(read, end, strict)
            found = Text(found)
            found.line = bisect.bisect_left(ends, end) + 1
            return found, after
        self.parse_string = placed
        self.scan_once = json.scanner.py_make_scanner(self)


def text_of(path):
    try:
        if path == "-":
            return sys.stdin.buffer.read().decode("utf-8-sig")
        with open(path, "rb") as file:
            return file.read().decode("utf-8-sig")
    except UnicodeDecodeError as fault:
        raise Stop(3, f"{path}: not UTF-8 at byte {fault.start}") from None
    except OSError as fault:
        raise Stop(3, f"{path}: {fault.strerror}") from None


def moment_shown(found):
    """A moment that Python shows, as a text in UTC."""
    *parts, zone = found.groups()
    moment = datetime.datetime(*map(int, parts), tzinfo=datetime.timezone.utc if zone == "utc" else None)
    return repr(moment.astimezone(datetime.timezone.utc).isoformat())


def value_of(path, text):
    """What a text says: JSON, or a reply of boto3 as Python prints it."""
    try:
        return Lines(text).decode(text)
    except (ValueError, RecursionError) as fault:
        why = fault
    if text.lstrip()[:2] in ("{'", "['", "[{"):
        try:
            return ast.literal_eval(SHOWN.sub(moment_shown, text).strip())
        except (ValueError, OverflowError, SyntaxError, RecursionError, MemoryError):
            pass
    raise Stop(3, f"{path}: not JSON: {why}")


def rules_of_terraform(path, found, bucket, address):
    """The document in a state or a plan of Terraform."""
    resources = resources_of(found)
    if address:
        chosen = [it for it in resources if it["address"] == address]
    else:
        chosen = resources if len(resources) == 1 else [it for it in resources if it["values"].get("bucket") == bucket]
    if len(chosen) != 1:
        known = ", ".join(it["address"] for it in resources) or "none"
        raise Stop(3, f"{path}: which lifecycle configuration? Name it with --resource; there are: {known}")
    return configuration_of(chosen[0]["values"])


def rules_in(path, found, bucket, address):
    """The document in what a file says, without its envelope."""
    if isinstance(found, dict) and "format_version" in found:
        try:
            return rules_of_terraform(path, found, bucket, address)
        except (AttributeError, KeyError, TypeError, ValueError):
            raise Stop(3, f"{path}: this is neither a state nor a plan as `terraform show -json` prints them") from None
    if isinstance(found, list):
        found = {"Rules": found}
    if isinstance(found, dict):
        found = {name: value for name, value in found.items() if name not in ENVELOPE}
        inner = found.pop("LifecycleConfiguration", None)
        if isinstance(inner, dict):
            found = {**found, **inner}
        if "Rules" not in found and any(it in found for it in ("ID", "Status", "Filter")):
            found = {"Rules": [found]}
    if not isinstance(found, dict) or not isinstance(found.get("Rules"), list) or not all(isinstance(it, dict) for it in found["Rules"]):
        raise Stop(3, f"{path}: this is not a lifecycle configuration: it has no list of Rules")
    return found


def document_of(path: str, bucket: str, address: typing.Optional[str] = None) -> dict:
    """The configuration of a file, as it is sent."""
    return with_dates(rules_in(path, value_of(path, text_of(path)), bucket, address))


def with_dates(found):
    """The same, with the dates of a zone in UTC, and with a T before their times."""
    if isinstance(found, list):
        return [with_dates(it) for it in found]
    if isinstance(found, dict):
        return {name: in_utc(it) if name == "Date" and isinstance(it, str) else with_dates(it) for name, it in found.items()}
    return found


def in_utc(text):
    """A date of another zone, or with a blank before its time, as the same moment in UTC; all else unchanged."""
    try:
        moment = datetime.datetime.fromisoformat(text)
        other = moment.tzinfo is not None and (moment.utcoffset() or " " in text)
        return moment.astimezone(datetime.timezone.utc).isoformat() if other else text
    except (ValueError, OverflowError):
        return text


def line_of(text):
    return f"line {text.line}: " if isinstance(text, Text) else ""


def missing(found: typing.Any, place: str = "") -> typing.Iterator[str]:
    """What this program does not have, each with its place, and its line where it has one."""
    if isinstance(found, list):
        for number, it in enumerate(found):
            yield from missing(it, f"{place}[{number}]")
    for name, it in found.items() if isinstance(found, dict) else ():
        at = f"{place}.{name}".lstrip(".")
        if (why := why_missing(name, it)) is not None:
            yield f"{line_of(it)}{at}: {it!r}: {why}"
        elif name in ("Transition", "NoncurrentVersionTransition"):
            yield f"{at}: of the older XML API; write the list {name}s"
        else:
            yield from missing(it, at)


def why_missing(name, it):
    """Why the program does not have what a field says; nothing if it has."""
    if name == "StorageClass" and isinstance(it, str) and it not in CLASSES:
        return {"INTELLIGENT_TIERING": "objects move in it by reads, which are not seen here",
                "STANDARD": "nothing moves to it"}.get(it, f"the classes to move to are {', '.join(CLASSES)}")
    if name == "Date" and isinstance(it, str) and re.match(r"(2[1-9]|[3-9]\d)\d\d-", it):
        return "the last day is 2099-12-31"
    return None


def without_missing(document: dict) -> dict:
    """The configuration without what the program does not have: such transitions and expirations, and then rules without an action."""
    rules = []
    for rule in document["Rules"]:
        kept = dict(rule)
        for name in ("Transition", "NoncurrentVersionTransition"):
            kept.pop(name, None)
        for name in ("Transitions", "NoncurrentVersionTransitions"):
            if isinstance(kept.get(name), list):
                kept[name] = [it for it in kept[name] if not list(missing(it))]
                if not kept[name]:
                    del kept[name]
        if list(missing(kept.get("Expiration") or {})):
            del kept["Expiration"]
        if any(name in kept for name in ACTIONS) or not list(missing(rule)):
            rules.append(kept)
    return {**document, "Rules": rules}


def date_of(text):
    """A date as the program prints it; anything else unchanged."""
    try:
        day = datetime.datetime.fromisoformat(re.sub(r"(Z|[+-]00:?00)$", "", text)[:19])
        return day.isoformat(timespec="milliseconds") + "Z"
    except (TypeError, ValueError):
        return text


def filter_of(rule):
    """The filter of a rule as the program prints it: one condition, or an And of more."""
    found = rule.get("Filter", {"Prefix": rule.get("Prefix", "")})
    if not isinstance(found, dict) or not isinstance(found.get("And", {}), dict):
        return found
    found = dict(found.get("And", found))
    tags = found.pop("Tags", [])
    if not isinstance(tags, list) or not all(isinstance(it, dict) for it in tags):
        return rule["Filter"]
    tags = sorted(tags, key=lambda it: str(it.get("Key")))
    if not found.get("Prefix"):
        found.pop("Prefix", None)
    if len(found) + len(tags) > 1:
        return {"And": {**found, **({"Tags": tags} if tags else {})}}
    return {"Tag": tags[0]} if tags else found or {"Prefix": ""}


def as_printed(document: dict) -> typing.List[str]:
    """A configuration about as the program prints it, for a comparison; lines of JSON."""
    rules = []
    for place, rule in enumerate(document["Rules"], 1):
        rule = {**rule, "Filter": filter_of(rule), "ID": rule.get("ID") or f"rule-{place}"}
        rule.pop("Prefix", None)
        if isinstance(rule.get("Expiration"), dict) and rule["Expiration"].get("ExpiredObjectDeleteMarker") is False:
            rule["Expiration"] = {name: it for name, it in rule["Expiration"].items() if it is not False}
        rules.append({name: it for name, it in rule.items() if it not in ({}, [])})

    def dated(found):
        if isinstance(found, list):
            return [dated(it) for it in found]
        if isinstance(found, dict):
            return {name: date_of(it) if name == "Date" else dated(it) for name, it in found.items()}
        return found
    whole = {**document, "Rules": dated(rules), MODE: document.get(MODE) or DEFAULT_MODE}
    return json.dumps(whole, indent=2, sort_keys=True, ensure_ascii=False).splitlines()
