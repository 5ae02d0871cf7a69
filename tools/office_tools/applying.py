"""Does at an object store what the lines of act-all --log say, each line once; for apply.

A line is compared with the store before it is done, and refused if a client put something there since. A put in the moment between
the look and a delete marker comes below that marker: hidden, and not lost. A removal names a version, or the ETag that was seen.
"""
import collections
import json
import typing

from office_tools.asking import Stop
from office_tools.idmap import IdMap
from office_tools.store import Refused, Store, moment_of

GONE = ("404", "NoSuchKey", "NoSuchVersion", "NoSuchUpload", "NoSuchBucket")
FIELDS = ("bucket", "key", "version", "upload", "kind", "class", "marker", "since", "rule")
DONE, ALREADY, REFUSED, LEFT = "done", "there already", "refused", "left to the store"


class No(Exception):
    """Why a line is not done."""


def lines_of(path: str) -> typing.Tuple[list, bool]:
    """The lines of a file of actions, each with its name in the map. A last line that is not whole is left for the next run."""
    try:
        with open(path, encoding="utf-8") as file:
            text = file.read()
    except (OSError, ValueError) as fault:
        raise Stop(3, f"{path}: {getattr(fault, 'strerror', None) or 'not UTF-8'}") from None
    found = []
    for number, line in enumerate(text.splitlines(True), 1):
        if not line.endswith("\n"):
            return found, True
        try:
            it = json.loads(line)
            if not isinstance(it, dict) or set(it) != set(FIELDS) or not all(isinstance(it[name], str) for name in ("bucket", "kind")):
                raise ValueError
        except (ValueError, RecursionError):
            raise Stop(3, f"{path}:{number}: this is not a line of act-all --log; nothing was done") from None
        found.append((line.rstrip("\n"), it))
    return found, False


class Apply:
    """One run over the lines."""

    def __init__(self, store: Store, ids: IdMap, is_dry: bool):
        self.store, self.ids, self.is_dry, self.counts = store, ids, is_dry, collections.Counter()

    def do(self, name: str, it: dict) -> typing.Tuple[str, str]:
        """Does a line, if it was not done. Returns how it ended and in words what was done."""
        with self.ids.change():
            if (how := self.ids.one("select how from applied where action = ?", name)) is not None:
                return ALREADY, how
            try:
                how, words = self.by_kind(it)
            except No as why:
                return REFUSED, str(why)
            except Refused as why:
                return REFUSED, f"the store says {why}"
            if not self.is_dry and how in (DONE, ALREADY):
                self.ids.do("insert into applied values (?, ?)", name, words)
        return how, words

    def by_kind(self, it):
        kinds = {"remove": self.remove, "marker": self.marker, "abort": self.abort}
        if it["kind"] == "transition":
            return LEFT, f"to {it['class']}"
        if it["kind"] not in kinds:
            raise No(f"its kind is {it['kind']!r}")
        return kinds[it["kind"]](it)

    def call(self, operation, **fields):
        """Changes the store, unless the run is dry. Returns its reply."""
        return {} if self.is_dry else self.store.call("s3api", operation, **fields)

    def head(self, it, version=None):
        """What the store has under a key or a version; nothing if it has none, and a delete marker as an empty reply."""
        one = {"Bucket": it["bucket"], "Key": it["key"], **({"VersionId": version} if version else {})}
        try:
            return self.store.call("s3api", "head-object", **one)
        except Refused as why:
            if version and str(why) in ("405", "MethodNotAllowed"):
                return {}
            if str(why) in GONE:
                return None
            raise

    def remove(self, it):
        """Removes a version for good."""
        known = self.ids.version_of(it["bucket"], it["key"], it["version"])
        if it["version"] == "null" and (known is None or known[0] == "null"):
            return self.remove_null(it, known)
        if known is None:
            raise No(f"the map has no id for version {it['version']}, or two")
        version, size, _ = known
        found = self.head(it, version)
        if found is None:
            return ALREADY, f"version {version} is gone"
        if (size is None) != (not found) or (found and found.get("ContentLength") != size):
            raise No(f"version {version} at the store has {found.get('ContentLength', 'no')} bytes, and in the map {size}")
        self.call("delete-object", Bucket=it["bucket"], Key=it["key"], VersionId=version)
        return DONE, f"removed version {version}"

    def remove_null(self, it, known):
        """Removes the one object of a key without versions, unless a client put another one since."""
        found = self.head(it)
        if found is None:
            return ALREADY, "the object is gone"
        if found.get("VersionId") not in (None, "null"):
            raise No(f"the newest version at the store is {found['VersionId']}, and not the null version")
        if moment_of(found["LastModified"]) > moment_of(it["since"]):
            raise No(f"the object was put at {moment_of(found['LastModified']).isoformat()}, after the action stands")
        etag = (found.get("ETag") or "").strip('"')
        if known and (known[1] != found.get("ContentLength") or known[2] not in (None, etag)):
            raise No(f"another object is there: {found.get('ContentLength')} bytes, ETag {etag}; in the map {known[1]}, {known[2]}")
        # With a version id S3 removes the null version of a bucket with versions; without one it would put a delete marker there.
        self.call("delete-object", Bucket=it["bucket"], Key=it["key"], **({"VersionId": "null"} if found.get("VersionId") else {}),
                  **({"IfMatch": found["ETag"]} if etag else {}))
        return DONE, "removed the object"

    def versions(self, it):
        """The versions and delete markers of a key at the store."""
        found = self.store.call("s3api", "list-object-versions", Bucket=it["bucket"], Prefix=it["key"], MaxKeys=1000)
        return [(one, kind) for kind in ("Versions", "DeleteMarkers") for one in found.get(kind) or [] if one["Key"] == it["key"]]

    def marker(self, it):
        """Puts a delete marker above the version that expired, unless another one is above it."""
        them = self.versions(it)
        latest = next(((one, kind) for one, kind in them if one["IsLatest"]), None)
        if latest and latest[1] == "DeleteMarkers":
            self.keep(it, latest[0]["VersionId"])
            return ALREADY, f"its newest version is the delete marker {latest[0]['VersionId']}"
        known = self.ids.version_of(it["bucket"], it["key"], it["version"])
        wanted = known[0] if known else "null" if it["version"] == "null" else None
        if wanted is None:
            raise No(f"the map has no id for version {it['version']}")
        if latest is None or latest[0]["VersionId"] != wanted:
            raise No(f"the newest version at the store is {latest[0]['VersionId'] if latest else 'none'}, and not {wanted}")
        made = self.call("delete-object", Bucket=it["bucket"], Key=it["key"])
        if not self.is_dry:
            self.keep(it, made.get("VersionId"))
        return DONE, f"put a delete marker {made.get('VersionId', '')}".rstrip()

    def keep(self, it, version):
        """Notes the number of a delete marker, so that follow does not put it again when the store reports it."""
        if not self.is_dry and version and it["marker"]:
            self.ids.keep(it["bucket"], it["key"], version, it["marker"])

    def abort(self, it):
        """Aborts an unfinished upload."""
        known = self.ids.upload_of(it["bucket"], it["upload"])
        if known is None:
            raise No(f"the map has no id for upload {it['upload']}")
        key, name = known
        try:
            self.call("abort-multipart-upload", Bucket=it["bucket"], Key=key, UploadId=name)
        except Refused as why:
            if str(why) in GONE:
                return ALREADY, f"upload {name} is gone"
            raise
        return DONE, f"aborted upload {name}"
