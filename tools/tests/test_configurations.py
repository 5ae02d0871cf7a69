"""Configurations as the program prints them (docs/FORMATS.md, docs/LIFECYCLE.md): their one text, their conditions, and what is due."""
import json
import pathlib
import sys
import unittest

sys.path.insert(0, str(pathlib.Path(__file__).resolve().parent.parent))
from office_tools.configurations import Rule, due_before, read_configuration  # noqa: E402
from office_tools.ranges import Damaged  # noqa: E402
from office_tools.slots import Bucket, Stack, Upload, Version  # noqa: E402

# As docs/LIFECYCLE.md prints a configuration: compact, names in byte order, two conditions under And.
PRINTED = (b'{"Rules":[{"Expiration":{"Days":365},"Filter":{"And":{"Prefix":"logs/","Tags":[{"Key":"kind","Value":"raw"},{"Key":"keep","Value":"no"}]}},'
           b'"ID":"logs","Status":"Enabled","Transitions":[{"Days":30,"StorageClass":"STANDARD_IA"},{"Days":90,"StorageClass":"GLACIER"}]},'
           b'{"AbortIncompleteMultipartUpload":{"DaysAfterInitiation":7},"Filter":{"Prefix":""},"ID":"rest",'
           b'"NoncurrentVersionExpiration":{"NewerNoncurrentVersions":3,"NoncurrentDays":30},"Status":"Enabled"}],'
           b'"TransitionDefaultMinimumObjectSize":"all_storage_classes_128K"}')
ALL = "all_storage_classes_128K"
DAY = 86_400_000
NOT_PRINTED = "the configuration is not written as it is printed"


def text(*rules, mode=ALL):
    return json.dumps({"Rules": list(rules), "TransitionDefaultMinimumObjectSize": mode}, sort_keys=True, ensure_ascii=False, separators=(",", ":")).encode()


def rule(**more):
    return {"ID": "r", "Status": "Enabled", "Filter": {"Prefix": ""}, **({} if more else {"Expiration": {"Days": 1}}), **more}


def moves(*them):
    return [{"Days" if isinstance(when, int) else "Date": when, "StorageClass": target} for when, target in them]


def gone(days, newer=None):
    return {"NoncurrentDays": days, **({} if newer is None else {"NewerNoncurrentVersions": newer})}


class Reading(unittest.TestCase):
    def refused(self, why, data):
        with self.assertRaises(Damaged) as found:
            read_configuration(data)
        self.assertEqual(why, str(found.exception))

    def test_what_is_printed(self):
        found = read_configuration(PRINTED)
        self.assertEqual(ALL, found.mode)
        first, second = found.rules
        self.assertEqual(("logs", True, ("logs/", [("kind", "raw"), ("keep", "no")], None, None), (365, None, False),
                          [(30, None, "STANDARD_IA"), (90, None, "GLACIER")], None, [], None), tuple(first))
        self.assertEqual(Rule("rest", True, ("", [], None, None), None, [], (30, 3), [], 7), second)
        self.assertEqual([], read_configuration(text()).rules)

    def test_filters(self):
        tag = {"Key": "k", "Value": ""}
        for shown, wanted in (({"Prefix": ""}, ("", [], None, None)), ({"Prefix": "a"}, ("a", [], None, None)), ({"Tag": tag}, ("", [("k", "")], None, None)),
                              ({"ObjectSizeGreaterThan": 0}, ("", [], 0, None)), ({"ObjectSizeLessThan": 5}, ("", [], None, 5)),
                              ({"And": {"ObjectSizeGreaterThan": 1, "ObjectSizeLessThan": 2}}, ("", [], 1, 2)),
                              ({"And": {"Prefix": "a", "Tags": [tag]}}, ("a", [("k", "")], None, None)),
                              ({"And": {"ObjectSizeLessThan": 5, "Prefix": "a", "Tags": [{"Key": "z", "Value": "1"}, tag]}},
                               ("a", [("z", "1"), ("k", "")], None, 5))):
            with self.subTest(shown):
                self.assertEqual(wanted, read_configuration(text(rule(Filter=shown, Expiration={"Days": 1}))).rules[0].filter)
        for other in ({}, {"And": {"Prefix": "a"}}, {"And": {"Tags": [tag]}}, {"Prefix": "a", "Tag": tag}, {"Tags": [tag]}, {"And": {}},
                      {"And": {"Prefix": "", "Tags": [tag, tag]}},
                      [], 5, {"Tag": []}, {"And": {"Prefix": "a", "Tags": []}}):
            with self.subTest(other):
                self.refused(NOT_PRINTED, text(rule(Filter=other, Expiration={"Days": 1})))

    def test_other_spellings(self):
        for data in (PRINTED.replace(b":", b": "), PRINTED.replace(b'"Days":30', b'"Days":30.0').replace(b"30.0", b"3e1"), PRINTED[:-1] + b',"Other":1}',
                     PRINTED.replace(b'"ID":"logs",', b""), PRINTED.replace(b"Enabled", b"enabled"), b'{"a":1,"a":1}', b"[]", b"5", b'""', b"null",
                     b'{"Rules":5,"TransitionDefaultMinimumObjectSize":"all_storage_classes_128K"}', PRINTED.replace(b'"rest"', b'"\\u0072est"'),
                     PRINTED.replace(b'"rest"', b'"\\ud800"'), PRINTED.replace(b"GLACIER", b"\\u0047LACIER")):
            with self.subTest(data[:60]):
                self.refused(NOT_PRINTED, data)
        for data in (b"", b"{", PRINTED[:-1], PRINTED + b"x", b"\xff", b"[" * 100_000):
            self.refused("the configuration is no JSON text", data)
        self.assertEqual("\u00e9\"\\\n\x01\x7f", read_configuration(text(rule(ID="\u00e9\"\\\n\x01\x7f", Expiration={"Days": 1}))).rules[0].name)

    def test_dates(self):
        def dated(date):
            return text(rule(Expiration={"Date": date}))
        self.assertEqual(1_893_456_000_000, read_configuration(dated("2030-01-01T00:00:00.000Z")).rules[0].expiration.date)
        self.assertEqual(0, read_configuration(dated("1970-01-01T00:00:00.000Z")).rules[0].expiration.date)
        for date in ("2030-01-01", "2030-01-01T00:00:00Z", "2030-1-01T00:00:00.000Z", "2030-02-30T00:00:00.000Z", "2030-01-01T01:00:00.000Z", 5, None):
            self.refused(NOT_PRINTED, dated(date))
        for date in ("1969-12-31T00:00:00.000Z", "2100-01-01T00:00:00.000Z"):
            self.refused("rule 1 of the configuration: its expiration has days or a date that may not be", dated(date))

    def test_conditions(self):
        """Of each condition fields of a rule that break it, and the nearest ones that do not."""
        late, later = "2030-01-01T00:00:00.000Z", "2030-01-02T00:00:00.000Z"
        tags = [{"Key": f"{it}", "Value": ""} for it in range(11)]

        def name(text):
            return {"ID": text, "Expiration": {"Days": 1}}

        def shown(**found):
            return {"Filter": found, "Expiration": {"Days": 1}}

        def ends(**found):
            return {"Expiration": found}

        def noncurrent(days, newer=None):
            return {"NoncurrentVersionExpiration": gone(days, newer)}

        def noncurrent_move(days, target="GLACIER", newer=None):
            return {"NoncurrentVersionTransitions": [{**gone(days, newer), "StorageClass": target}]}

        def abort(days, **found):
            return {"AbortIncompleteMultipartUpload": {"DaysAfterInitiation": days}, "Filter": found or {"Prefix": "a"}}

        def moved(*them):
            return {"Transitions": moves(*them)}
        for why, *pairs in (
                ("its id is empty, too long or that of an earlier rule", (name(""), name("x")), (name("x" * 256), name("\u00e9" * 255))),
                ("it has no action", ({"Status": "Enabled"}, {})),
                ("its filter has a prefix or tags that may not be", (shown(Prefix="x" * 1025), shown(Prefix="x" * 1024)),
                 (shown(And={"Tags": tags}), shown(And={"Tags": tags[:10]})), (shown(And={"Tags": [tags[0], {**tags[0], "Value": "v"}]}), {}),
                 (shown(Tag={"Key": "", "Value": ""}), {}), (shown(Prefix=None), {})),
                ("its filter has bounds that may not be", (shown(ObjectSizeLessThan=(5 << 40) + 1), shown(ObjectSizeLessThan=5 << 40)),
                 (shown(And={"ObjectSizeGreaterThan": 5, "ObjectSizeLessThan": 5}), {}), (shown(ObjectSizeLessThan=True), {})),
                ("its expiration has days or a date that may not be", (ends(Days=0), ends(Days=2_147_483_647)), (ends(Days=2_147_483_648), ends(Days=1))),
                ("its noncurrent expiration has numbers that may not be", (noncurrent(0), noncurrent(1)), (noncurrent(1, 0), noncurrent(1, 1)),
                 (noncurrent(1, 101), noncurrent(1, 100))),
                ("it aborts uploads after days that may not be, or with a tag or a bound", (abort(0), abort(1)), (abort(1, Tag=tags[0]), {})),
                ("a transition has days that may not be", (moved((2_147_483_648, "GLACIER")), moved((0, "GLACIER")))),
                ("a transition keeps a number of newer versions that may not be",
                 (noncurrent_move(1, "GLACIER", 101), noncurrent_move(1, "GLACIER", 100))),
                ("a transition has a class that may not be", (moved((40, "STANDARD")), moved((30, "STANDARD_IA"))),
                 (moved((40, "COLD")), moved((late, "STANDARD_IA")))),
                ("a transition to STANDARD_IA or ONEZONE_IA has fewer than 30 days", (moved((29, "ONEZONE_IA")), moved((29, "GLACIER_IR"))),
                 (noncurrent_move(29, "STANDARD_IA"), noncurrent_move(30, "STANDARD_IA"))),
                ("its transitions have days and dates", (moved((30, "STANDARD_IA"), (late, "GLACIER")), moved((late, "STANDARD_IA"), (later, "GLACIER")))),
                ("its transitions are not in the order of the classes",
                 (moved((40, "GLACIER"), (40, "DEEP_ARCHIVE")), moved((41, "DEEP_ARCHIVE"), (40, "GLACIER"))), (moved((40, "GLACIER"), (41, "GLACIER")), {})),
                ("it expires no later than a transition is due",
                 ({**ends(Days=40), **moved((40, "GLACIER"))}, {**ends(Days=41), **moved((40, "GLACIER"))}),
                 ({**noncurrent(5), **noncurrent_move(5)}, {**noncurrent(6), **noncurrent_move(5)})),
                ("it removes lone markers, with days, a date, a tag or a bound",
                 ({**shown(ObjectSizeLessThan=9), **ends(ExpiredObjectDeleteMarker=True)}, ends(ExpiredObjectDeleteMarker=True)),
                 (ends(Days=1, ExpiredObjectDeleteMarker=True), {})),
                ("its expiration has both days and a date, or nothing", (ends(), {}), (ends(Days=1, Date=late), ends(Date=late)))):
            for wrong, right in pairs:
                with self.subTest(why):
                    self.refused(f"rule 1 of the configuration: {why}", text(rule(**wrong)))
                    self.assertEqual(1, len(read_configuration(text(rule(**right))).rules))

    def test_several_rules(self):
        many = [rule(ID=f"r{it}", Expiration={"Days": 1}) for it in range(1001)]
        self.assertEqual(1000, len(read_configuration(text(*many[:1000])).rules))
        self.refused("the configuration has too many rules, or another mode", text(*many))
        self.refused("the configuration has too many rules, or another mode", text(mode="some"))
        self.assertEqual("varies_by_storage_class", read_configuration(text(mode="varies_by_storage_class")).mode)
        self.refused("rule 2 of the configuration: its id is empty, too long or that of an earlier rule", text(rule(), rule()))


class Due(unittest.TestCase):
    """Moments are days after 1970-01-01; what is due at a midnight takes effect before the next one."""

    def first(self, stacks=(), uploads=(), since=0, versioning="Enabled", mode=ALL, **action):
        """The first midnight at which something is due, of the days 0 to 99."""
        configuration = read_configuration(text(rule(**action), mode=mode))
        bucket = Bucket("logs", versioning, since * DAY, {}, 100, 100, list(stacks), list(uploads))
        return next((day for day in range(100) if due_before(bucket, configuration, day * DAY + 1)), None)

    def object(self, created, ceased=None, size=200_000, storage_class="STANDARD", number=1, tags=None):
        created = int(created * DAY)
        return Version(number, created, created if ceased is None else int(ceased * DAY), size, storage_class, created, tags or {})

    def marker(self, created, number=9):
        return Version(number, int(created * DAY), int(created * DAY))

    def stack(self, *versions, key="a/b", changed=0):
        return Stack(key, int(changed * DAY), list(versions))

    def test_current_objects(self):
        days, stack = {"Expiration": {"Days": 3}}, self.stack(self.object(2.5), changed=2.5)
        self.assertEqual(6, self.first([stack], **days))  # 5.5 days, and up to midnight
        self.assertEqual(5, self.first([self.stack(self.object(2), changed=2)], **days))
        self.assertEqual(8, self.first([self.stack(self.object(2), changed=8)], **days))
        self.assertEqual(9, self.first([self.stack(self.object(2), changed=2)], since=9, **days))
        self.assertIsNone(self.first([self.stack(self.object(2), changed=2)], Status="Disabled", **days))
        self.assertEqual(7, self.first([stack], Expiration={"Date": "1970-01-08T00:00:00.000Z"}))
        self.assertIsNone(self.first([stack], Expiration={"ExpiredObjectDeleteMarker": True}))
        self.assertIsNone(self.first([stack], NoncurrentVersionExpiration=gone(1)))

    def test_filters(self):
        days, stack = {"Expiration": {"Days": 3}}, [self.stack(self.object(2, tags={"k": "v"}), changed=2)]
        for shown, wanted in (({"Prefix": "a/"}, 5), ({"Prefix": "b"}, None), ({"Tag": {"Key": "k", "Value": "v"}}, 5),
                              ({"Tag": {"Key": "k", "Value": "w"}}, None), ({"ObjectSizeGreaterThan": 200_000}, None),
                              ({"ObjectSizeGreaterThan": 199_999}, 5), ({"ObjectSizeLessThan": 200_000}, None)):
            self.assertEqual(wanted, self.first(stack, Filter=shown, **days))
        alone = [self.stack(self.marker(2), changed=2)]
        self.assertEqual(5, self.first(alone, Filter={"Prefix": "a/"}, **days))
        self.assertIsNone(self.first(alone, Filter={"ObjectSizeLessThan": 5}, **days))

    def test_delete_markers(self):
        alone, lone = self.stack(self.marker(2), changed=2.5), {"Expiration": {"ExpiredObjectDeleteMarker": True}}
        self.assertEqual(3, self.first([alone], **lone))
        self.assertEqual(5, self.first([alone], Expiration={"Days": 3}))
        covering = self.stack(self.marker(2), self.object(1, 2), changed=2)
        self.assertIsNone(self.first([covering], **lone))
        self.assertIsNone(self.first([covering], Expiration={"Days": 3}))

    def test_noncurrent_versions(self):
        stack = self.stack(self.object(4, number=3), self.marker(3, 2)._replace(ceased=4 * DAY), self.object(1, 3, number=1), changed=4)
        self.assertEqual(5, self.first([stack], NoncurrentVersionExpiration=gone(2)))
        self.assertEqual(5, self.first([stack], NoncurrentVersionExpiration=gone(2, 1)))
        self.assertIsNone(self.first([stack], NoncurrentVersionExpiration=gone(2, 2)))
        self.assertEqual(7, self.first([stack], NoncurrentVersionTransitions=[{**gone(4), "StorageClass": "GLACIER"}]))
        self.assertEqual(4, self.first([stack], NoncurrentVersionTransitions=[{**gone(1), "StorageClass": "GLACIER"}]))  # no earlier than the last change

    def test_transitions(self):
        def first(target, mode=ALL, shown=None, **of):
            return self.first([self.stack(self.object(2, **of), changed=2)], mode=mode, Filter=shown or {"Prefix": ""}, Transitions=moves((40, target)))
        self.assertEqual(42, first("GLACIER"))
        self.assertIsNone(first("GLACIER", size=131_071))
        self.assertEqual(42, first("GLACIER", size=131_072))
        self.assertEqual(42, first("GLACIER", size=5, mode="varies_by_storage_class"))
        self.assertIsNone(first("GLACIER_IR", size=5, mode="varies_by_storage_class"))
        self.assertEqual(42, first("GLACIER_IR", size=5, shown={"ObjectSizeLessThan": 9}))
        for source, target, wanted in (("GLACIER", "GLACIER", None), ("GLACIER", "GLACIER_IR", None), ("ONEZONE_IA", "GLACIER_IR", None),
                                       ("ONEZONE_IA", "GLACIER", 42), ("STANDARD_IA", "ONEZONE_IA", 42)):
            self.assertEqual(wanted, first(target, storage_class=source))

    def test_uploads(self):
        abort = {"AbortIncompleteMultipartUpload": {"DaysAfterInitiation": 7}}
        upload = Upload(1, "a/b", "STANDARD", {}, int(2.5 * DAY), 3 * DAY, [])
        self.assertEqual(10, self.first(uploads=[upload], **abort))
        self.assertEqual(12, self.first(uploads=[upload._replace(changed=12 * DAY)], **abort))
        self.assertIsNone(self.first(uploads=[upload], Filter={"Prefix": "b"}, **abort))
        self.assertIsNone(self.first(uploads=[upload], Expiration={"Days": 1}))


if __name__ == "__main__":
    unittest.main()
