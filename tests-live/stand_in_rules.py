"""Reads a rule of a configuration into the plain model, for stand_in.py; only what the cases ask for is checked."""
import datetime
import re

from plain_office import CLASSES, Refused


def refuse(error, number, **more):
    raise Refused(error, number, more)


def moment_of(text):
    """A date of a rule; refused where it is past 2099."""
    if not re.fullmatch(r"\d{4}-\d\d-\d\d(T00:00:00(\.0+)?(Z|[+-]00:00))?", text) or text[:4] > "2099":
        refuse("NotADate", 2)
    day = datetime.date.fromisoformat(text[:10])
    return (day - datetime.date(1970, 1, 1)).days * 86_400_000


def moved(target):
    if target not in CLASSES:
        refuse("UnsupportedClass", 43, name=target)
    return target


FIELDS = {"ID", "Status", "Prefix", "Filter", "Expiration", "Transitions", "NoncurrentVersionExpiration",
          "NoncurrentVersionTransitions", "AbortIncompleteMultipartUpload"}


def rule_of(place, found):
    """A rule of a document as the model has it."""
    for name in sorted(set(found) - FIELDS):
        refuse("UnknownField", 41, name=name)
    if found.get("Status") not in ("Enabled", "Disabled"):
        refuse("WrongShape", 42, field="Status")
    which = found.get("Filter", {"Prefix": found.get("Prefix", "")})
    which = {**which, **which.get("And", {})}
    if "Tags" in which and "And" not in found.get("Filter", {}):
        refuse("UnknownField", 41, name="Tags")
    rule = {"id": found.get("ID") or f"rule-{place}", "enabled": found["Status"] == "Enabled", "prefix": which.get("Prefix", ""),
            "tags": [(it["Key"], it["Value"]) for it in [*which.get("Tags", []), *([which["Tag"]] if "Tag" in which else [])]],
            "greater": which.get("ObjectSizeGreaterThan"), "less": which.get("ObjectSizeLessThan")}
    ends = {name: value for name, value in found.get("Expiration", {}).items() if value is not False}
    rule.update({"days": ends["Days"]} if "Days" in ends else {}, **({"date": moment_of(ends["Date"])} if "Date" in ends else {}))
    if ends.get("ExpiredObjectDeleteMarker"):
        rule["lone_marker"] = True
    if "Transitions" in found:
        rule["moves"] = [(it["Days"], moved(it["StorageClass"])) for it in found["Transitions"] if "Days" in it]
        rule["date_moves"] = [(moment_of(it["Date"]), moved(it["StorageClass"])) for it in found["Transitions"] if "Date" in it]
    if "NoncurrentVersionExpiration" in found:
        gone = found["NoncurrentVersionExpiration"]
        rule["noncurrent"] = (gone["NoncurrentDays"], gone.get("NewerNoncurrentVersions"))
    if "NoncurrentVersionTransitions" in found:
        rule["noncurrent_moves"] = [(it["NoncurrentDays"], it.get("NewerNoncurrentVersions"), moved(it["StorageClass"]))
                                    for it in found["NoncurrentVersionTransitions"]]
    if "AbortIncompleteMultipartUpload" in found:
        rule["abort"] = found["AbortIncompleteMultipartUpload"]["DaysAfterInitiation"]
    if len(rule) == 6:
        refuse("NoAction", 23, rule=place)
    return rule


def rules_of(body):
    """The rules of a document, and the sizes that are moved."""
    for name in sorted(set(body) - {"Rules", "TransitionDefaultMinimumObjectSize"}):
        refuse("UnknownField", 41, name=name)
    if not isinstance(body.get("Rules"), list):
        refuse("WrongShape", 42, field="Rules")
    rules = [rule_of(place, it) for place, it in enumerate(body["Rules"], 1)]
    for place, rule in enumerate(rules):
        if rule["id"] in [it["id"] for it in rules[:place]]:
            refuse("DoubleId", 22, rule=place + 1)
    return {"rules": rules, "mode": body.get("TransitionDefaultMinimumObjectSize", "all_storage_classes_128K")}
