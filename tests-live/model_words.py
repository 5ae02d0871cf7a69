"""What the program says of the plain model: a configuration, and the versions of a key; by docs/FORMATS.md."""
import json

from plain_office import text_of


def text(value):
    return json.dumps(value, sort_keys=True, separators=(",", ":"), ensure_ascii=False)


def configuration(rules, mode):
    """The document of some rules."""
    def one(rule):
        found = {"ID": rule["id"], "Status": "Enabled" if rule["enabled"] else "Disabled"}
        conditions = {}
        if rule["prefix"]:
            conditions["Prefix"] = rule["prefix"]
        tags = [{"Key": key, "Value": value} for key, value in rule["tags"]]
        if rule.get("greater") is not None:
            conditions["ObjectSizeGreaterThan"] = rule["greater"]
        if rule.get("less") is not None:
            conditions["ObjectSizeLessThan"] = rule["less"]
        if len(conditions) + len(tags) > 1:
            found["Filter"] = {"And": {**conditions, **({"Tags": tags} if tags else {})}}
        else:
            found["Filter"] = {"Tag": tags[0]} if tags else conditions or {"Prefix": ""}
        expires = {"Days": rule.get("days"), "Date": text_of(rule["date"]) if "date" in rule else None,
                   "ExpiredObjectDeleteMarker": rule.get("lone_marker")}
        expires = {name: value for name, value in expires.items() if value is not None}
        if expires:
            found["Expiration"] = expires
        moves = [{"Days": days, "StorageClass": target} for days, target in rule.get("moves", [])]
        moves += [{"Date": text_of(date), "StorageClass": target} for date, target in rule.get("date_moves", [])]
        if moves:
            found["Transitions"] = moves

        def newer(count):
            return {} if count is None else {"NewerNoncurrentVersions": count}
        if "noncurrent" in rule:
            found["NoncurrentVersionExpiration"] = {"NoncurrentDays": rule["noncurrent"][0], **newer(rule["noncurrent"][1])}
        if "noncurrent_moves" in rule:
            found["NoncurrentVersionTransitions"] = [
                {"NoncurrentDays": days, "StorageClass": target, **newer(least)} for days, least, target in rule["noncurrent_moves"]]
        if "abort" in rule:
            found["AbortIncompleteMultipartUpload"] = {"DaysAfterInitiation": rule["abort"]}
        return found
    return text({"Rules": [one(rule) for rule in rules], "TransitionDefaultMinimumObjectSize": mode})


def stack_of(bucket, key):
    """What the program says of a key's versions."""
    if key not in bucket.stacks:
        return {"error": "NoSuchKey", "number": 50}
    versions = []
    for place, it in enumerate(bucket.stacks[key]["versions"]):
        shown = {name: it[name] for name in ("kind", "version", "size", "class", "tags") if name in it}
        shown["created"] = text_of(it["created"])
        if it["kind"] == "object":
            shown["entered"] = text_of(it["entered"])
        if place:
            shown["noncurrent_since"] = text_of(it["ceased"])
        versions.append(shown)
    return {"changed": text_of(bucket.stacks[key]["changed"]), "key": key, "versions": versions}
