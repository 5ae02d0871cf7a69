"""The lifecycle configurations in what `terraform show -json` prints, with the names of the API, for lifecycle."""
import typing

TYPE = "aws_s3_bucket_lifecycle_configuration"
NAMES = {
    "id": "ID", "status": "Status", "days": "Days", "date": "Date", "storage_class": "StorageClass",
    "noncurrent_days": "NoncurrentDays", "newer_noncurrent_versions": "NewerNoncurrentVersions",
    "days_after_initiation": "DaysAfterInitiation", "expired_object_delete_marker": "ExpiredObjectDeleteMarker",
    "prefix": "Prefix", "object_size_greater_than": "ObjectSizeGreaterThan", "object_size_less_than": "ObjectSizeLessThan",
}
BLOCKS = {"expiration": "Expiration", "noncurrent_version_expiration": "NoncurrentVersionExpiration",
          "abort_incomplete_multipart_upload": "AbortIncompleteMultipartUpload"}
LISTS = {"transition": "Transitions", "noncurrent_version_transition": "NoncurrentVersionTransitions"}


def resources_of(found: typing.Any) -> typing.List[dict]:
    """The lifecycle configurations of a state or a plan, each with its address and values."""
    state = found.get("planned_values") or found.get("values") or {}
    modules, resources = [state.get("root_module") or {}], []
    while modules:
        module = modules.pop(0)
        modules += module.get("child_modules") or []
        resources += [it for it in module.get("resources") or [] if it.get("type") == TYPE and it.get("mode", "managed") == "managed"]
    return resources


def first(block):
    """The one block of its kind, which is in a list; nothing if it is missing."""
    return (block[0] if block else None) if isinstance(block, list) else block


def number(value):
    """A number, which some versions of the provider write as a text."""
    return int(value) if isinstance(value, str) and value.isascii() and value.isdigit() else value


def fields_of(block, unset=()):
    """The fields of a block; null and an empty text say that a field is not set, and of those named `unset` 0 does too."""
    found = {}
    for name, value in block.items():
        # A name that the API does not have stays, so that the program names it.
        value = value if name in ("id", "prefix", "storage_class") else number(value)
        if value is None or value == "" or value is False or value == [] or (name in unset and value == 0):
            continue
        found[NAMES.get(name, name)] = value
    return found


def tag_of(tag):
    return {"Key": tag.get("key", ""), "Value": tag.get("value", "")}


def filter_of(rule):
    """The filter of a rule; one that has nothing matches everything."""
    block = first(rule.get("filter")) or {}
    both, tag = first(block.get("and")), first(block.get("tag"))
    if both:
        fields = fields_of({name: it for name, it in both.items() if name != "tags"},
                           ("object_size_greater_than", "object_size_less_than"))
        tags = [{"Key": key, "Value": value} for key, value in sorted((both.get("tags") or {}).items())]
        return {"And": {**fields, **({"Tags": tags} if tags else {})}}
    if tag:
        return {"Tag": tag_of(tag)}
    rest = fields_of({name: it for name, it in block.items() if name not in ("and", "tag")})
    return rest or {"Prefix": rule.get("prefix") or ""}


def transition_of(block):
    """A transition by days or by a date: where a date is set the provider writes 0 days beside it."""
    return fields_of(block, ("days", "newer_noncurrent_versions") if block.get("date") else ("newer_noncurrent_versions",))


def rule_of(rule):
    """A rule with the names of the API."""
    found = {**fields_of({name: rule.get(name) for name in ("id", "status")}), "Filter": filter_of(rule)}
    for name, called in BLOCKS.items():
        block = first(rule.get(name))
        fields = fields_of(block, ("days", "newer_noncurrent_versions")) if block else {}
        if fields:
            found[called] = fields
    for name, called in LISTS.items():
        moves = [transition_of(it) for it in rule.get(name) or []]
        if moves:
            found[called] = moves
    # What is neither stays as it is, so that it is named and not lost.
    known = ("id", "status", "prefix", "filter", *BLOCKS, *LISTS)
    return {**found, **{name: it for name, it in rule.items() if name not in known and it not in (None, "", [], {})}}


def configuration_of(values: dict) -> dict:
    """The configuration of a resource."""
    mode = values.get("transition_default_minimum_object_size")
    return {"Rules": [rule_of(it) for it in values.get("rule") or []],
            **({"TransitionDefaultMinimumObjectSize": mode} if mode else {})}
