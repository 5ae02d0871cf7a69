"""The entries of a journal, spelled by hand after docs/FORMATS.md, "Entries"."""
import pathlib
import sys
import unittest

sys.path.insert(0, str(pathlib.Path(__file__).resolve().parent.parent))
from office_tools.entries import Damaged, read_entry  # noqa: E402

# 2024-01-01 00:00 UTC, as in the three entries that docs/FORMATS.md prints.
MOMENT = bytes.fromhex("0000018cc251f400")
AT = {"moment": "2024-01-01T00:00:00.000Z", "ms": 1_704_067_200_000}
LOGS, A = bytes.fromhex("00046c6f6773"), bytes.fromhex("000161")
MAKE = bytes.fromhex("0000018cc251f4000100046c6f6773")
PUT = bytes.fromhex("0000018cc251f4000500046c6f677300016100000000000003e80000")
PUT_WITH_TAGS = bytes.fromhex("0000018cc251f4000500046c6f677300016100000000000003e80402"
                              "00046b65657000026e6f00046b696e640003726177")
# A bucket made with the token t1, and a tariff from 2024-01 in which STANDARD has two tiers and the other classes one.
MAKE_ONCE = bytes.fromhex("0000018cc251f400" "81" "027431" "00046c6f6773")
TIERED = bytes.fromhex("0000018cc251f400" "10" "07e8" "01" "02" "00000001" "000059d8" "00000000" "00004e20"
                       "01" "00000000" "00000001" "01" "00000000" "00000002" "01" "00000000" "00000003" "01" "00000000" "00000004"
                       "01" "00000000" "00000005" "00000006" "00000007" "00000008" "00000009" "0000000a")
LARGEST = 5_497_558_138_880
CONFIGURATION = b'{"Rules":[],"TransitionDefaultMinimumObjectSize":"all_storage_classes_128K"}'


def entry(kind, fields=b""):
    return MOMENT + bytes([kind]) + fields


def put(size=5, rank=0, tags=b"\0"):
    return entry(5, LOGS + A + size.to_bytes(8, "big") + bytes([rank]) + tags)


def pair(key, value):
    return b"".join(len(it).to_bytes(2, "big") + it for it in (key, value))


def tiers(*tiers):
    """The tiers of a class: of each its end, 0 for none, and its price."""
    return bytes([len(tiers)]) + b"".join(it.to_bytes(4, "big") for tier in tiers for it in tier)


def tariff(month, *classes, transition=(6, 7, 8, 9, 10)):
    """An entry of kind 10."""
    year, number = map(int, month.split("-"))
    return entry(0x10, year.to_bytes(2, "big") + bytes([number]) + b"".join(classes) + b"".join(it.to_bytes(4, "big") for it in transition))


class ReadEntry(unittest.TestCase):
    def read(self, data, before=0):
        return read_entry(data, before)

    def damaged(self, why, data, before=0):
        with self.assertRaises(Damaged) as found:
            read_entry(data, before)
        self.assertEqual(why, str(found.exception))

    def test_the_entries_of_the_formats(self):
        put_fields = {"kind": "put", "bucket": "logs", "key": "a", "size": 1_000}
        self.assertEqual({**AT, "kind": "create-bucket", "bucket": "logs"}, self.read(MAKE))
        self.assertEqual({**AT, **put_fields, "class": "STANDARD", "tags": {}}, self.read(PUT))
        self.assertEqual({**AT, **put_fields, "class": "GLACIER", "tags": {"keep": "no", "kind": "raw"}}, self.read(PUT_WITH_TAGS))

    def test_each_kind(self):
        number = (7).to_bytes(8, "big")
        for kind, fields, wanted in (
                (1, LOGS, {"kind": "create-bucket", "bucket": "logs"}),
                (2, LOGS + b"\1", {"kind": "set-versioning", "bucket": "logs", "status": "Enabled"}),
                (2, LOGS + b"\2", {"kind": "set-versioning", "bucket": "logs", "status": "Suspended"}),
                (3, LOGS + len(CONFIGURATION).to_bytes(4, "big") + CONFIGURATION, {"kind": "set-rules", "bucket": "logs", "rules": {
                    "Rules": [], "TransitionDefaultMinimumObjectSize": "all_storage_classes_128K"}}),
                (4, LOGS, {"kind": "drop-rules", "bucket": "logs"}),
                (6, LOGS + A, {"kind": "delete", "bucket": "logs", "key": "a"}),
                (7, LOGS + A + number, {"kind": "delete-version", "bucket": "logs", "key": "a", "version": 7}),
                (7, LOGS + A + bytes(8), {"kind": "delete-version", "bucket": "logs", "key": "a", "version": "null"}),
                (8, LOGS + A + number + b"\1" + pair(b"k", b""), {"kind": "set-tags", "bucket": "logs", "key": "a", "version": 7, "tags": {"k": ""}}),
                (9, LOGS + A + b"\5\0", {"kind": "start-upload", "bucket": "logs", "key": "a", "class": "DEEP_ARCHIVE", "tags": {}}),
                (10, LOGS + number + (9).to_bytes(4, "big") + (2 ** 64 - 1).to_bytes(8, "big"),
                 {"kind": "put-part", "bucket": "logs", "upload": 7, "part": 9, "size": 2 ** 64 - 1}),
                (11, LOGS + number, {"kind": "complete", "bucket": "logs", "upload": 7}),
                (12, LOGS + number, {"kind": "abort", "bucket": "logs", "upload": 7}),
                (13, LOGS, {"kind": "act", "bucket": "logs"}),
                (14, b"".join(it.to_bytes(4, "big") for it in range(11)),
                 {"kind": "set-tariff", "from": "1970-01", "storage": [0, 1, 2, 3, 4, 5], "transition": [6, 7, 8, 9, 10]}),
                (15, b"\x07\xe8\2", {"kind": "close", "month": "2024-02"})):
            with self.subTest(wanted["kind"]):
                self.assertEqual({**AT, **wanted}, self.read(entry(kind, fields)))
            if kind not in (3, 13, 14):
                with self.subTest(f"{wanted['kind']} with a token"):
                    self.assertEqual({**AT, **wanted, "token": "t1"}, self.read(entry(kind + 0x80, b"\x02t1" + fields)))

    def test_kinds_that_are_none(self):
        for kind in (0, 17, 127, 128, 0x83, 0x8D, 0x8E, 0x90, 0x91, 255):
            self.damaged(f"the kind {kind:02x} is unknown", entry(kind, LOGS))

    def test_tokens(self):
        self.assertEqual({**AT, "kind": "create-bucket", "token": "t1", "bucket": "logs"}, self.read(MAKE_ONCE))
        for token in ("!", "~", "a" * 64):
            self.assertEqual(token, self.read(entry(0x81, bytes([len(token)]) + token.encode() + LOGS))["token"])
        for token in (b"", b" ", b"a b", b"\x7f", b"\xff", b"a" * 65):
            self.damaged("the token has another length than 1 to 64, or another byte than 21 to 7E", entry(0x81, bytes([len(token)]) + token + LOGS))
        self.damaged("the entry ends within its token", entry(0x81, b"\x08t1"))
        self.damaged("the entry ends within its token", entry(0x81))

    def test_tariffs_in_tiers(self):
        self.assertEqual(94, len(TIERED))
        self.assertEqual({**AT, "kind": "set-tariff", "from": "2024-01", "storage": [[{"price": 23_000, "upto": 1}, {"price": 20_000}], 1, 2, 3, 4, 5],
                          "transition": [6, 7, 8, 9, 10]}, self.read(TIERED))
        one = [tiers((0, 7))] * 5
        most = [(it, 1_048_576) for it in (1, 2, 3, 4, 5, 6, 2 ** 32 - 1)]
        self.assertEqual([*({"price": 1_048_576, "upto": it} for it, _ in most), {"price": 0}],
                         self.read(tariff("1970-01", tiers(*most, (0, 0)), *one))["storage"][0])
        for why, found in (("the number of tiers is 0", tiers()), ("the number of tiers is 9", tiers(*((it, 1) for it in range(1, 9)), (0, 1))),
                           ("the end of tier 1 of 2 is 0", tiers((0, 1), (0, 1))), ("the end of tier 2 of 3 is 5", tiers((5, 1), (5, 1), (0, 1))),
                           ("the end of tier 2 of 3 is 4", tiers((5, 1), (4, 1), (0, 1))), ("the end of tier 1 of 1 is 1", tiers((1, 1))),
                           ("the price is 1048577", tiers((1, 1_048_577), (0, 1)))):
            self.damaged(why, tariff("2024-01", found, *one))
        self.damaged("the price is 1048577", tariff("2024-01", *one, tiers((0, 7)), transition=(0, 0, 0, 0, 1_048_577)))
        for month in ("1969-12", "2100-01", "2024-00", "2024-13"):
            self.damaged(f"the month is {month.replace('-0', '-')}", tariff(month, *one, tiers((0, 7))))

    def test_a_tariff_has_one_spelling(self):
        one = [tiers((0, 7))] * 6
        self.damaged("the kind is 10, and 0e spells this tariff", tariff("1970-01", *one))
        self.assertEqual(("1970-02", [7] * 6), tuple(self.read(tariff("1970-02", *one))[name] for name in ("from", "storage")))
        self.assertEqual("1970-01", self.read(tariff("1970-01", *one[:5], tiers((1, 7), (0, 7))))["from"])

    def test_a_byte_too_few_and_too_many(self):
        for data in (MAKE, MAKE_ONCE, PUT, PUT_WITH_TAGS, TIERED):
            for count in range(len(data)):
                with self.subTest(count), self.assertRaises(Damaged):
                    read_entry(data[:count], 0)
            self.damaged("bytes follow the last field of the entry", data + b"\0")

    def test_moments(self):
        last = 4_102_444_800_000 - 1
        self.assertEqual("2099-12-31T23:59:59.999Z", self.read(last.to_bytes(8, "big") + MAKE[8:])["moment"])
        self.damaged(f"the moment is {last + 1}", (last + 1).to_bytes(8, "big") + MAKE[8:])
        self.assertEqual("1970-01-01T00:00:00.000Z", self.read(bytes(8) + MAKE[8:])["moment"])
        self.assertEqual(AT["ms"], self.read(MAKE, AT["ms"])["ms"])
        self.damaged("the moment is before that of the entry before it", MAKE, AT["ms"] + 1)

    def test_names_of_buckets(self):
        for name in (b"abc", b"a.b", b"0-9", b"a" * 63):
            self.assertEqual(name.decode(), self.read(entry(1, len(name).to_bytes(2, "big") + name))["bucket"])
        for name in (b"", b"ab", b"a" * 64, b"Abc", b"-ab", b"ab.", b"a_b", b"a/b", b"ab\n"):
            with self.subTest(name):
                self.damaged("the name is none of a bucket", entry(1, len(name).to_bytes(2, "big") + name))

    def test_keys(self):
        for key in ("\u00e9/\U0001d11e", "k" * 1024, " "):
            data = key.encode()
            self.assertEqual(key, self.read(entry(6, LOGS + len(data).to_bytes(2, "big") + data))["key"])
        self.damaged("the key has 0 bytes", entry(6, LOGS + b"\0\0"))
        self.damaged("the key has 1025 bytes", entry(6, LOGS + b"\4\1" + b"k" * 1025))
        self.damaged("the key is not UTF-8", entry(6, LOGS + b"\0\1\xff"))
        self.damaged("the key is not UTF-8", entry(6, LOGS + b"\0\3\xed\xa0\x80"))

    def test_sizes_and_classes(self):
        self.assertEqual(LARGEST, self.read(put(LARGEST))["size"])
        self.damaged(f"the size is {LARGEST + 1}", put(LARGEST + 1))
        self.assertEqual(["STANDARD", "STANDARD_IA", "ONEZONE_IA", "GLACIER_IR", "GLACIER", "DEEP_ARCHIVE"],
                         [self.read(put(rank=rank))["class"] for rank in range(6)])
        self.damaged("the class is 6", put(rank=6))

    def test_tags(self):
        ten = b"".join(pair(b"%d" % it, b"v") for it in range(10))
        self.assertEqual(10, len(self.read(put(tags=b"\x0a" + ten))["tags"]))
        self.damaged("the number of tags is 11", put(tags=b"\x0b" + ten + pair(b"x", b"v")))
        longest = pair(("\u00e9" * 128).encode(), ("\u00e9" * 256).encode())
        self.assertEqual({"\u00e9" * 128: "\u00e9" * 256}, self.read(put(tags=b"\1" + longest))["tags"])
        self.damaged("the tag's key has 129 characters", put(tags=b"\1" + pair(b"k" * 129, b"")))
        self.damaged("the tag's key has 0 characters", put(tags=b"\1" + pair(b"", b"")))
        self.damaged("the tag's value has 257 characters", put(tags=b"\1" + pair(b"k", b"v" * 257)))
        self.damaged("the tag's value is not UTF-8", put(tags=b"\1" + pair(b"k", b"\xff")))
        for second in (b"a", b"b"):
            self.damaged("the tags are not in the order of their keys", put(tags=b"\2" + pair(b"b", b"") + pair(second, b"")))

    def test_configurations(self):
        def ruled(text):
            return entry(3, LOGS + len(text).to_bytes(4, "big") + text)
        self.damaged("the configuration is no JSON text", ruled(b"{"))
        self.damaged("the configuration is not written as it is printed", ruled(b'{"Rules": []}'))
        self.damaged("the configuration is not written as it is printed", ruled(b'{"a":1,"a":1}'))

    def test_the_other_fields(self):
        self.damaged("the status is 3", entry(2, LOGS + b"\3"))
        self.damaged("the price is 1048577", entry(14, (1_048_577).to_bytes(4, "big") * 11))
        self.assertEqual([1_048_576] * 6, self.read(entry(14, (1_048_576).to_bytes(4, "big") * 11))["storage"])
        for year, month in ((1969, 12), (2100, 1), (2024, 0), (2024, 13)):
            self.damaged(f"the month is {year}-{month}", entry(15, year.to_bytes(2, "big") + bytes([month])))


if __name__ == "__main__":
    unittest.main()
