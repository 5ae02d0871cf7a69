"""Reads listings of object stores: S3 Inventories in CSV or Parquet, and what `aws s3api list-object-versions`, `mc ls --json` and
`rclone lsjson` print; for import-inventory and compare."""
import argparse
import csv
import datetime
import gzip
import io
import json
import typing
import urllib.parse
import zlib

from office_tools.asking import Stop

CURRENT, NONCURRENT, MARKER, SECOND = "objects", "noncurrent versions", "delete markers", "second rows of a key"
LEFT_OUT = (NONCURRENT, MARKER, SECOND)
FIRST = datetime.datetime(1, 1, 1, tzinfo=datetime.timezone.utc)
PARTS = ("Versions", "Contents", "DeleteMarkers")
OTHER_FORMATS = {b"ORC": "ORC", b"PK": "a zip archive"}


class Row(typing.NamedTuple):
    """A line of a listing; one without a key only names a bucket."""
    bucket: str
    key: typing.Optional[bytes]
    size: typing.Optional[int]
    storage_class: typing.Optional[str]
    kind: str
    where: str
    version: typing.Optional[str] = None
    moment: typing.Optional[datetime.datetime] = None
    latest: bool = True
    tags: typing.Optional[dict] = None
    etag: typing.Optional[str] = None

    def is_of_a_version(self) -> bool:
        """Whether its bucket has versions: it is not current, or has an id other than null."""
        return self.kind != CURRENT or self.version not in (None, "", "null")


def text_of(path: str) -> str:
    """What a file has, unpacked where it is packed."""
    try:
        with open(path, "rb") as file:
            data = file.read()
        if data[:2] == b"\x1f\x8b":
            data = gzip.decompress(data)
    except OSError as fault:
        raise Stop(3, f"{path}: {fault.strerror or fault}") from None
    except (EOFError, zlib.error):
        raise Stop(3, f"{path}: the compressed file is cut short or damaged") from None
    for front, name in OTHER_FORMATS.items():
        if data.startswith(front):
            raise Stop(3, f"{path}: this is {name}; ask for the inventory in CSV")
    if data.startswith(b"PAR1"):
        return text_of_parquet(path)
    try:
        return data.decode("utf-8-sig")
    except UnicodeDecodeError as fault:
        raise Stop(3, f"{path}: not UTF-8 at byte {fault.start}") from None


def text_of_parquet(path):
    """An inventory in Parquet as CSV with a first line, by the library pyarrow if it is here. Keys are not URL-encoded there."""
    try:
        import pyarrow.parquet
    except ImportError:
        raise Stop(3, f"{path}: this is Parquet, which needs the Python library pyarrow; or ask for the inventory in CSV") from None
    try:
        text, table = io.StringIO(), pyarrow.parquet.read_table(path)
    except (OSError, ValueError) as fault:
        raise Stop(3, f"{path}: no Parquet: {fault}") from None
    names = [name.replace("_", "") for name in table.column_names]
    lines = csv.writer(text)
    lines.writerow(names)
    for row in zip(*(column.to_pylist() for column in table.columns)):
        fields = ("" if it is None else str(it) for it in row)
        lines.writerow([urllib.parse.quote(it, safe="/") if name == "key" else it for name, it in zip(names, fields)])
    return text.getvalue()


def bytes_of_key(key, spelled):
    # In a key that is URL-encoded a plus stands for a space, and a plus itself is %2B.
    return urllib.parse.unquote_to_bytes(key.replace("+", " ")) if spelled == "url" else key.encode()


def is_true(text):
    return text.strip().lower() == "true"


def moment_of(text, where):
    """The moment of LastModified; nothing if there is none."""
    if not text:
        return None
    try:
        found = datetime.datetime.fromisoformat(text.strip().replace("Z", "+00:00"))
    except (AttributeError, ValueError):
        raise Stop(3, f"{where}: the moment is {text!r}") from None
    return found if found.tzinfo else found.replace(tzinfo=datetime.timezone.utc)


def read_csv(path, text, given):
    """The rows of an inventory in CSV."""
    lines = csv.reader(io.StringIO(text, newline=""), strict=True)
    try:
        names = next(csv.reader([given.schema]), []) if given.schema else next(lines, [])
        names = [name.strip().lower() for name in names]
        missing = [it for it in ("key", "size") if it not in names]
        if missing or not (given.bucket or "bucket" in names):
            what = ", ".join([*missing, *(["bucket"] if not given.bucket and "bucket" not in names else [])])
            how = "--schema does not name" if given.schema else "the first line does not name (give --schema?)"
            raise Stop(3, f"{path}: {how} the columns {what}")
        for values in lines:
            where = f"{path}:{lines.line_num}"
            if not values:
                continue
            if len(values) != len(names):
                raise Stop(3, f"{where}: {len(values)} fields in place of {len(names)}")
            field = dict(zip(names, values))
            latest = field.get("islatest", "").strip().lower() != "false"
            kind = MARKER if is_true(field.get("isdeletemarker", "")) else CURRENT if latest else NONCURRENT
            size = field["size"].strip()
            if kind != MARKER and not (size.isascii() and size.isdigit() and len(size) < 40):
                raise Stop(3, f"{where}: the size is {size[:40]!r}")
            bucket = field.get("bucket") or given.bucket
            if not bucket or (given.bucket and bucket != given.bucket):
                raise Stop(3, f"{where}: the bucket is {bucket!r}, and --bucket is {given.bucket!r}")
            key = bytes_of_key(field["key"], given.keys or "url")
            named = field.get("storageclass", "").strip() or None
            yield Row(bucket, key, *((None, None) if kind == MARKER else (int(size), named)), kind, where,
                      field.get("versionid", "").strip() or None, moment_of(field.get("lastmodifieddate"), where), latest,
                      etag=field.get("etag") or None)
    except csv.Error as fault:
        raise Stop(3, f"{path}:{lines.line_num}: no CSV: {fault}") from None


def read_json(path, text, given):
    """The rows of a listing of versions, or of objects."""
    try:
        found = json.loads(text)
    except (ValueError, RecursionError) as fault:
        raise Stop(3, f"{path}: not JSON: {fault}") from None
    if not any(it in found for it in ("Versions", "DeleteMarkers", "Contents", "RequestCharged")):
        raise Stop(3, f"{path}: this is not a listing of versions: it has neither Versions nor DeleteMarkers")
    if found.get("IsTruncated") or found.get("NextToken") or found.get("CommonPrefixes"):
        raise Stop(3, f"{path}: the listing is not whole; list again without --no-paginate, --max-items and --delimiter")
    bucket = found.get("Name") or given.bucket
    if not isinstance(bucket, (str, type(None))) or not all(isinstance(found.get(it) or [], list) for it in PARTS):
        raise Stop(3, f"{path}: this is not a listing of versions: its Name is not a text, or one of {', '.join(PARTS)} is not a list")
    if not bucket or (given.bucket and bucket != given.bucket):
        raise Stop(3, f"{path}: " + (f"the listing is of '{bucket}'" if bucket else "which bucket? Give --bucket NAME"))
    yield Row(bucket, None, None, None, CURRENT, path)
    for part in PARTS:
        for place, it in enumerate(found.get(part) or [], 1):
            where = f"{path}: {part} {place}"
            if not isinstance(it, dict) or not isinstance(it.get("Key"), str):
                raise Stop(3, f"{where}: without a Key")
            if not all(isinstance(it.get(name) or "", str) for name in ("VersionId", "StorageClass", "ETag")):
                raise Stop(3, f"{where}: its VersionId, StorageClass or ETag is not a text")
            latest = it.get("IsLatest") is not False
            kind = MARKER if part == "DeleteMarkers" else CURRENT if latest else NONCURRENT
            size = it.get("Size")
            if kind != MARKER and not (isinstance(size, int) and not isinstance(size, bool) and size >= 0):
                raise Stop(3, f"{where}: the size is {json.dumps(size)}")
            try:
                key = bytes_of_key(it["Key"], given.keys or "plain")
            except UnicodeEncodeError:
                raise Stop(3, f"{where}: the key is not a text") from None
            yield Row(bucket, key, *((None, None) if kind == MARKER else (size, it.get("StorageClass"))), kind, where,
                      it.get("VersionId"), moment_of(it.get("LastModified"), where), latest, etag=it.get("ETag"))


def size_of(found: typing.Any, where: str) -> int:
    if not (isinstance(found, int) and not isinstance(found, bool) and found >= 0):
        raise Stop(3, f"{where}: the size is {json.dumps(found)}")
    return found


def field_of(found: typing.Any, name: str, where: str, kind: type = str) -> typing.Any:
    """A field that has to be there, and of this kind."""
    if not isinstance(found, dict) or not isinstance(found.get(name), kind):
        raise Stop(3, f"{where}: without a field {name}")
    return found[name]


def read_mc(path, text, given):
    """The rows of what `mc ls --recursive --json`, with --versions or without, prints of a bucket."""
    if not given.bucket:
        raise Stop(3, f"{path}: which bucket? mc does not name it; give --bucket NAME")
    yield Row(given.bucket, None, None, None, CURRENT, path)
    newest = set()
    for number, line in enumerate(text.splitlines(), 1):
        where = f"{path}:{number}"
        try:
            found = json.loads(line)
        except (ValueError, RecursionError) as fault:
            raise Stop(3, f"{where}: not JSON: {fault}") from None
        if not isinstance(found, dict) or found.get("status") != "success":
            raise Stop(3, f"{where}: mc could not list all: {json.dumps(found)[:120]}")
        if found.get("type") == "folder":
            raise Stop(3, f"{where}: the listing has folders and not what is in them; list again with --recursive")
        key = bytes_of_key(field_of(found, "key", where), given.keys or "plain")
        latest = key not in newest  # the newest version of a key comes first
        newest.add(key)
        kind = MARKER if found.get("isDeleteMarker") else CURRENT if latest else NONCURRENT
        told = (None, None) if kind == MARKER else (size_of(found.get("size"), where), found.get("storageClass") or None)
        yield Row(given.bucket, key, *told, kind, where, found.get("versionId") or None, moment_of(found.get("lastModified"), where), latest,
                  etag=str(found.get("etag") or "") or None)


def read_rclone(path, text, given):
    """The rows of what `rclone lsjson -R` prints of a bucket: only current objects."""
    if not given.bucket:
        raise Stop(3, f"{path}: which bucket? rclone does not name it; give --bucket NAME")
    try:
        found = json.loads(text)
    except (ValueError, RecursionError) as fault:
        raise Stop(3, f"{path}: not JSON: {fault}") from None
    yield Row(given.bucket, None, None, None, CURRENT, path)
    for place, it in enumerate(found, 1):
        where = f"{path}: entry {place}"
        key = bytes_of_key(field_of(it, "Path", where), given.keys or "plain")
        if not it.get("IsDir"):
            yield Row(given.bucket, key, size_of(it.get("Size"), where), it.get("Tier") or None, CURRENT, where, None,
                      moment_of(it.get("ModTime"), where))


def reader_of(text):
    """How a file is read, by its front."""
    front = text.lstrip()[:1]
    if front == "[":
        return read_rclone
    if front == "{":
        try:
            first = json.loads(text.lstrip().partition("\n")[0])
        except (ValueError, RecursionError):
            return read_json
        return read_mc if "key" in first and "status" in first else read_json
    return read_csv


def rows_of(given: argparse.Namespace) -> typing.Iterator[Row]:
    """The rows of all files, in their order."""
    for path in given.files:
        text = text_of(path)
        yield from reader_of(text)(path, text, given)


def in_order(rows: typing.Iterable[Row]) -> typing.List[Row]:
    """Versions, oldest first by their moments. The current version of a key is its last one; of others of one moment a marker
    stands behind an object, and else the earlier row is the newer one, as S3 lists them."""
    keys, found = {}, []
    for row in rows:
        keys.setdefault((row.bucket, row.key), []).append(row)
    for them in keys.values():
        for row in them if len(them) > 1 else ():
            if row.moment is None:
                raise Stop(3, f"{row.where}: this key has several versions, and no LastModified tells which is the older one")
        told = sum(row.latest for row in them) == 1
        moment = FIRST
        for row in sorted(reversed(them), key=lambda it: (told and it.latest, it.moment or FIRST, it.kind == MARKER)):
            moment = max(moment, row.moment or FIRST)
            found.append((moment, row))
    return [row for _, row in sorted(found, key=lambda it: it[0])]
