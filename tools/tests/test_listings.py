"""Listings of objects as S3 Inventory writes them (CSV) and as `aws s3api list-object-versions` prints them (JSON)."""
import gzip
import json
import pathlib
import sys
import tempfile
import types
import unittest
import unittest.mock

sys.path.insert(0, str(pathlib.Path(__file__).resolve().parent.parent))
from office_tools import listings  # noqa: E402
from office_tools.asking import Stop  # noqa: E402
from office_tools.listings import CURRENT, MARKER, NONCURRENT, in_order, rows_of  # noqa: E402

# The field fileSchema of a manifest.json, as the S3 User Guide prints it ("Amazon S3 Inventory manifest").
SCHEMA = "Bucket, Key, VersionId, IsLatest, IsDeleteMarker, Size, LastModifiedDate, ETag, StorageClass"
INVENTORY = ('"photos","a+b%2Bc","v2","true","false","5","2024-01-03T00:00:00.000Z","x","GLACIER"\n'
             '"photos","a+b%2Bc","v1","false","false","4","2024-01-01T00:00:00.000Z","x","STANDARD"\n'
             '"photos","gone","m","true","true","","2024-01-02T00:00:00.000Z","",""\n')
# After the example of the AWS CLI Command Reference, list-object-versions.
LISTING = {
    "DeleteMarkers": [{"Owner": {"ID": "7009"}, "IsLatest": True, "VersionId": "B2VsEK5s", "Key": "index.html",
                       "LastModified": "2015-11-10T00:57:03.000Z"}],
    "Versions": [
        {"LastModified": "2015-11-10T00:20:11.000Z", "VersionId": "Rb_l2T8U", "ETag": '"06225"', "StorageClass": "STANDARD",
         "Key": "index.html", "Owner": {"ID": "7009"}, "IsLatest": False, "Size": 38},
        {"LastModified": "2015-11-09T23:26:41.000Z", "VersionId": "rasWWGpg", "ETag": '"06225"', "StorageClass": "STANDARD",
         "Key": "index.html", "Owner": {"ID": "7009"}, "IsLatest": False, "Size": 38},
        {"LastModified": "2015-11-09T22:50:50.000Z", "VersionId": "null", "ETag": '"d1f45"', "StorageClass": "STANDARD",
         "Key": "index.html", "Owner": {"ID": "7009"}, "IsLatest": False, "Size": 533823}]}


class Listing(unittest.TestCase):
    def setUp(self):
        self.folder = tempfile.TemporaryDirectory()
        self.addCleanup(self.folder.cleanup)

    def rows(self, data, **given):
        path = pathlib.Path(self.folder.name, "listing")
        path.write_bytes(data if isinstance(data, bytes) else data.encode())
        return list(rows_of(types.SimpleNamespace(**{"files": [str(path)], "schema": None, "bucket": None, "keys": None, **given})))

    def stopped(self, data, **given):
        """Why a listing is not read, without the name of its file."""
        with self.assertRaises(Stop) as found:
            self.rows(data, **given)
        status, why = found.exception.args
        self.assertEqual(3, status)
        return why.removeprefix(f"{self.folder.name}/listing")


class Csv(Listing):
    def test_an_inventory(self):
        rows = self.rows(INVENTORY, schema=SCHEMA)
        self.assertEqual([("photos", b"a b+c", 5, "GLACIER", CURRENT, "v2"), ("photos", b"a b+c", 4, "STANDARD", NONCURRENT, "v1"),
                          ("photos", b"gone", None, None, MARKER, "m")],
                         [(it.bucket, it.key, it.size, it.storage_class, it.kind, it.version) for it in rows])
        self.assertEqual(["2024-01-03T00:00:00+00:00", "2024-01-01T00:00:00+00:00", "2024-01-02T00:00:00+00:00"],
                         [it.moment.isoformat() for it in rows])

    def test_packed_and_with_a_first_line(self):
        names = SCHEMA.replace(" ", "") + "\n"
        self.assertEqual([it.key for it in self.rows(INVENTORY, schema=SCHEMA)], [it.key for it in self.rows(gzip.compress((names + INVENTORY).encode()))])

    def test_columns_in_another_order(self):
        row, = self.rows("5,logs,a\n", schema="size, BUCKET, Key")
        self.assertEqual(("logs", b"a", 5, None, CURRENT), (row.bucket, row.key, row.size, row.storage_class, row.kind))

    def test_keys_as_they_stand(self):
        self.assertEqual(b"a+b%2Bc", self.rows("logs,a+b%2Bc,5\n", schema="Bucket, Key, Size", keys="plain")[0].key)
        self.assertEqual(b"\xff", self.rows("logs,%FF,5\n", schema="Bucket, Key, Size")[0].key)

    def test_columns_that_are_missing(self):
        self.assertEqual(": --schema does not name the columns size, bucket", self.stopped("a\n", schema="Key"))
        self.assertEqual(": the first line does not name (give --schema?) the columns key, size, bucket", self.stopped("logs,a,5\n"))
        self.assertEqual(": the first line does not name (give --schema?) the columns key, size", self.stopped("logs,a,5\n", bucket="logs"))

    def test_rows_that_are_none(self):
        for text, why in (("logs,a\n", ":1: 2 fields in place of 3"), ("logs,a,5,6\n", ":1: 4 fields in place of 3"),
                          ("logs,a,\n", ":1: the size is ''"), ("logs,a,5k\n", ":1: the size is '5k'"), ("logs,a,-5\n", ":1: the size is '-5'"),
                          ("logs,a,\u0665\n", ":1: the size is '\u0665'"), (",a,5\n", ":1: the bucket is None, and --bucket is None"),
                          ('logs,"a,5\n', ":1: no CSV: unexpected end of data"), ("logs,a,5\nlogs,b,x\n", ":2: the size is 'x'")):
            with self.subTest(text):
                self.assertEqual(why, self.stopped(text, schema="Bucket, Key, Size"))
        self.assertEqual(":1: the bucket is 'logs', and --bucket is 'rest'", self.stopped("logs,a,5\n", schema="Bucket, Key, Size", bucket="rest"))
        self.assertEqual(":1: the moment is 'today'", self.stopped("logs,a,5,today\n", schema="Bucket, Key, Size, LastModifiedDate"))

    def test_parquet_without_its_reader(self):
        with unittest.mock.patch.dict(sys.modules, {"pyarrow": None}):
            self.assertEqual(": this is Parquet, which needs the Python library pyarrow; or ask for the inventory in CSV", self.stopped(b"PAR1.."))

    def test_files_of_other_kinds(self):
        for data, why in ((b"ORC..", ": this is ORC; ask for the inventory in CSV"),
                          (b"PK..", ": this is a zip archive; ask for the inventory in CSV"), (b"logs,\xff,5\n", ": not UTF-8 at byte 5"),
                          (gzip.compress(b"logs,a,5\n" * 99)[:30], ": the compressed file is cut short or damaged")):
            with self.subTest(why):
                self.assertEqual(why, self.stopped(data, schema="Bucket, Key, Size"))


# After the documents of mc (`mc ls --json`) and rclone (`rclone lsjson`).
MC = """{"status":"success","type":"file","lastModified":"2024-01-03T00:00:00Z","size":5,"key":"a/b c","etag":"x","versionId":"v2","versionOrdinal":2,"storageClass":"STANDARD"}
{"status":"success","type":"file","lastModified":"2024-01-01T00:00:00Z","size":4,"key":"a/b c","etag":"x","versionId":"v1","versionOrdinal":1,"storageClass":"STANDARD"}
{"status":"success","type":"file","lastModified":"2024-01-02T00:00:00Z","size":0,"key":"gone","etag":"","versionId":"m","versionOrdinal":1,"isDeleteMarker":true}
"""
RCLONE = [{"Path": "a", "Name": "a", "Size": -1, "MimeType": "inode/directory", "ModTime": "2024-01-01T00:00:00.000000000Z", "IsDir": True},
          {"Path": "a/b+c", "Name": "b+c", "Size": 6, "MimeType": "text/plain", "ModTime": "2024-01-01T00:00:00Z", "IsDir": False, "Tier": "GLACIER"}]


class Others(Listing):
    def test_mc(self):
        bucket, *rows = self.rows(MC, bucket="photos")
        self.assertEqual(("photos", None), (bucket.bucket, bucket.key))
        self.assertEqual([(b"a/b c", 5, CURRENT, "v2", True), (b"a/b c", 4, NONCURRENT, "v1", False), (b"gone", None, MARKER, "m", True)],
                         [(it.key, it.size, it.kind, it.version, it.latest) for it in rows])

    def test_rclone(self):
        _, row = self.rows(json.dumps(RCLONE), bucket="photos")
        self.assertEqual((b"a/b+c", 6, "GLACIER", CURRENT, None), (row.key, row.size, row.storage_class, row.kind, row.version))

    def test_what_is_not_whole(self):
        self.assertEqual(True, self.stopped(MC[:-40], bucket="photos").startswith(":3: not JSON"))
        self.assertEqual(True, self.stopped(MC + '{"status":"error","error":{"message":"timeout"}}\n', bucket="photos").startswith(":4: mc could not list all"))
        self.assertEqual(True, self.stopped('{"status":"success","type":"folder","key":"a/","size":0}\n', bucket="photos").startswith(":1: the listing has folders"))
        self.assertEqual(True, self.stopped(json.dumps(RCLONE)[:-9], bucket="photos").startswith(": not JSON"))
        for text in (MC, json.dumps(RCLONE)):
            self.assertEqual(True, self.stopped(text).startswith(": which bucket?"))


class Json(Listing):
    def listed(self, listing, **given):
        return self.rows(json.dumps(listing), **{"bucket": "my-bucket", **given})

    def test_the_example_of_the_command_line(self):
        bucket, *rows = self.listed(LISTING)
        self.assertEqual(("my-bucket", None), (bucket.bucket, bucket.key))
        self.assertEqual([(38, NONCURRENT, "Rb_l2T8U"), (38, NONCURRENT, "rasWWGpg"), (533823, NONCURRENT, "null"), (None, MARKER, "B2VsEK5s")],
                         [(it.size, it.kind, it.version) for it in rows])
        self.assertEqual(["null", "rasWWGpg", "Rb_l2T8U", "B2VsEK5s"], [it.version for it in in_order(rows)])

    def test_a_listing_of_objects(self):
        """list-objects-v2 has Contents, and says nothing of versions."""
        _, row = self.listed({"Contents": [{"Key": "a+b", "Size": 5, "StorageClass": "GLACIER"}]})
        self.assertEqual((b"a+b", 5, "GLACIER", CURRENT, None), (row.key, row.size, row.storage_class, row.kind, row.version))
        self.assertFalse(row.is_of_a_version())

    def test_an_empty_bucket(self):
        """The command line prints no Versions of a bucket that has none."""
        self.assertEqual([("my-bucket", None)], [(it.bucket, it.key) for it in self.listed({"RequestCharged": None, "Prefix": ""})])

    def test_listings_that_are_not_whole(self):
        why = ": the listing is not whole; list again without --no-paginate, --max-items and --delimiter"
        for more in ({"IsTruncated": True}, {"NextToken": "x"}, {"CommonPrefixes": [{"Prefix": "a/"}]}):
            with self.subTest(more):
                self.assertEqual(why, self.stopped(json.dumps({**LISTING, **more}), bucket="my-bucket"))

    def test_which_bucket(self):
        self.assertEqual(": which bucket? Give --bucket NAME", self.stopped(json.dumps(LISTING)))
        self.assertEqual("named", self.listed({**LISTING, "Name": "named"}, bucket=None)[0].bucket)
        self.assertEqual(": the listing is of 'named'", self.stopped(json.dumps({**LISTING, "Name": "named"}), bucket="other"))

    def test_versions_of_others(self):
        for row, why in (({"Size": 1}, ": Versions 1: without a Key"), ({"Key": 5, "Size": 1}, ": Versions 1: without a Key"),
                         (5, ": Versions 1: without a Key"), ({"Key": "a"}, ": Versions 1: the size is null"),
                         ({"Key": "a", "Size": -1}, ": Versions 1: the size is -1"), ({"Key": "a", "Size": True}, ": Versions 1: the size is true"),
                         ({"Key": "a", "Size": "5"}, ': Versions 1: the size is "5"'), ({"Key": "\ud800", "Size": 1}, ": Versions 1: the key is not a text"),
                         ({"Key": "a", "Size": 1, "VersionId": 5}, ": Versions 1: its VersionId, StorageClass or ETag is not a text"),
                         ({"Key": "a", "Size": 1, "LastModified": 5}, ": Versions 1: the moment is 5")):
            with self.subTest(why):
                self.assertEqual(why, self.stopped(json.dumps({"Versions": [row]}), bucket="logs"))
        self.assertTrue(self.stopped('{"Versions": [').startswith(": not JSON: "))
        self.assertEqual(": this is not a listing of versions: it has neither Versions nor DeleteMarkers", self.stopped('{"Buckets": []}'))


class InOrder(unittest.TestCase):
    def row(self, name, day, latest=False, kind=NONCURRENT, key=b"a"):
        moment = listings.moment_of(f"2024-01-{day:02}T00:00:00Z", "here") if day else None
        return listings.Row("logs", key, 1, None, kind, f"row {name}", name, moment, latest)

    def names(self, *rows):
        return [it.version for it in in_order(rows)]

    def test_the_oldest_first(self):
        self.assertEqual(["1", "2", "3"], self.names(self.row("3", 3, True), self.row("1", 1), self.row("2", 2)))

    def test_the_current_one_is_the_last(self):
        """A version whose upload began before the one below it has the earlier moment."""
        self.assertEqual(["old", "now"], self.names(self.row("now", 1, True), self.row("old", 2)))

    def test_versions_of_one_moment(self):
        """S3 lists the newest first; a marker comes after an object."""
        self.assertEqual(["1", "2"], self.names(self.row("2", 1), self.row("1", 1)))
        self.assertEqual(["object", "marker"], self.names(self.row("marker", 1, kind=MARKER), self.row("object", 1)))
        self.assertEqual(["object", "marker"], self.names(self.row("object", 1), self.row("marker", 1, kind=MARKER)))

    def test_no_moment(self):
        self.assertEqual(["1"], self.names(self.row("1", None)))
        with self.assertRaises(Stop) as found:
            self.names(self.row("1", None), self.row("2", 1))
        self.assertEqual((3, "row 1: this key has several versions, and no LastModified tells which is the older one"), found.exception.args)


class MomentOf(unittest.TestCase):
    def test_moments(self):
        for text, wanted in (("2024-01-01T00:00:00.000Z", "2024-01-01T00:00:00+00:00"), ("2024-01-01T01:00:00+01:00", "2024-01-01T01:00:00+01:00"),
                             ("2024-01-01T00:00:00", "2024-01-01T00:00:00+00:00")):
            self.assertEqual(wanted, listings.moment_of(text, "here").isoformat())
        for text in ("", None):
            self.assertIsNone(listings.moment_of(text, "here"))


if __name__ == "__main__":
    unittest.main()
