"""Tags and unfinished uploads as the aws command prints them; for import-inventory."""
import argparse
import json
import typing

from office_tools.asking import Office, Stop, number_in, reason
from office_tools.idmap import IdMap
from office_tools.listings import Row, field_of, size_of, text_of
from office_tools.sending import bucket_target
from office_tools.sweeping import target_of
from office_tools.tokens import token_of


class Upload(typing.NamedTuple):
    """An unfinished upload: its id at the store, and the size of each part by its number."""
    bucket: str
    key: str
    name: str
    storage_class: typing.Optional[str]
    parts: dict
    where: str


def objects_in(path):
    """The JSON objects of a file, one text or one a line, each with its place."""
    text = text_of(path)
    try:
        found = json.loads(text)
        return [(it, path) for it in (found if isinstance(found, list) else [found])]
    except (ValueError, RecursionError):
        pass
    found = []
    for number, line in enumerate(text.splitlines(), 1):
        try:
            found.append((json.loads(line), f"{path}:{number}"))
        except (ValueError, RecursionError) as fault:
            raise Stop(3, f"{path}:{number}: not JSON: {fault}") from None
    return found


def bucket_in(found, given, where):
    bucket = found.get("Bucket") or given.bucket
    if not isinstance(bucket, str) or (given.bucket and bucket != given.bucket):
        raise Stop(3, f"{where}: " + (f"the bucket is {bucket!r}" if bucket else "which bucket? Give --bucket NAME"))
    return bucket


def tags_of(given: argparse.Namespace) -> dict:
    """The tags of versions: by bucket, key and version id, and without the id those of the current version."""
    tags = {}
    for path in given.tags:
        for found, where in objects_in(path):
            key, version = field_of(found, "Key", where), found.get("VersionId")
            pairs = [(field_of(it, "Key", where), field_of(it, "Value", where)) for it in field_of(found, "TagSet", where, list)]
            tags[bucket_in(found, given, where), key.encode(), version] = dict(pairs)
    return tags


def tags_for(tags: dict, row: Row) -> dict:
    """The tags of a row of a listing."""
    by_id = tags.pop((row.bucket, row.key, row.version), None) if row.version else None
    return by_id if by_id is not None else tags.pop((row.bucket, row.key, None), {}) if row.latest else {}


def uploads_of(given: argparse.Namespace) -> typing.List[Upload]:
    """The uploads of all files, in the order in which they were begun, with their parts."""
    parts, found = {}, []
    for path in given.parts:
        for it, where in objects_in(path):
            them = parts.setdefault(field_of(it, "UploadId", where), {})
            for part in it.get("Parts") or []:
                them[field_of(part, "PartNumber", where, int)] = size_of(part.get("Size"), where)
    for path in given.uploads:
        for it, where in objects_in(path):
            if not isinstance(it, dict) or it.get("IsTruncated") or not isinstance(it.get("Uploads", []), list):
                raise Stop(3, f"{where}: this is not a whole list of uploads")
            for one in it.get("Uploads", []):
                name = field_of(one, "UploadId", where)
                found.append((str(one.get("Initiated", "")), Upload(bucket_in(it, given, where), field_of(one, "Key", where), name,
                                                                   one.get("StorageClass"), parts.pop(name, {}), where)))
    if parts:
        raise Stop(3, f"there are parts of an upload that no list has: {min(parts)}")
    return [it for _, it in sorted(found, key=lambda it: it[0])]


def send_uploads(work: typing.Any, office: Office, ids: IdMap) -> None:
    """Starts the uploads and puts their parts, each once over any number of tries: by its token, and by the map."""
    for it in work.uploads:
        number = ids.one("select number from uploads where bucket = ? and id = ?", it.bucket, it.name)
        if number is None:
            body = {"class": it.storage_class} if it.storage_class else {}
            status, found = office.ask("POST", target_of(it.bucket, "uploads", it.key), body, token_of("upload", *it[:4]))
            if status in (400, 404):
                work.refuse(it, found)
                continue
            if status != 201:
                raise Stop(2, f"{it.where}: {reason(status, found)}")
            number = number_in(found, "upload")
            ids.keep_upload(it.bucket, it.name, it.key, number)
        work.counts["uploads"] += 1
        send_parts(work, office, it, number)


def send_parts(work, office, upload, number):
    """Puts the parts that are not there yet."""
    status, found = office.ask("GET", f"{bucket_target(upload.bucket)}/upload/{number}")
    if status == 404:
        return  # it was begun by an earlier try, and aborted since
    if status != 200 or found.get("key") != upload.key:
        raise Stop(6, f"{upload.where}: upload {number} of bucket {upload.bucket} is another one: {reason(status, found)}")
    known = {it.get("part"): it.get("size") for it in found.get("parts") or []}
    for part, size in sorted(upload.parts.items()):
        if known.get(part) != size:
            status, found = office.ask("PUT", f"{bucket_target(upload.bucket)}/parts/{number}/{part}", {"size": size},
                                       token_of("part", *upload[:3], number, part, size))
            if status in (400, 409):
                work.refuse(upload, found)
            elif status != 200:
                raise Stop(2, f"{upload.where}: part {part}: {reason(status, found)}")
        work.counts["parts"] += 1
