"""Lifecycle configurations as other programs print them: the AWS command line, boto3, Terraform."""
import json
import pathlib
import sys
import tempfile
import unittest

sys.path.insert(0, str(pathlib.Path(__file__).resolve().parent.parent))
from office_tools.asking import Stop  # noqa: E402
from office_tools.documents import as_printed, document_of, missing  # noqa: E402

RULE = {"ID": "r", "Status": "Enabled", "Filter": {"Prefix": ""}, "Expiration": {"Days": 9}}
RULES = {"Rules": [RULE]}
EXAMPLE = pathlib.Path(__file__).resolve().parent.parent.parent / "examples" / "lifecycle.json"


class Documents(unittest.TestCase):
    def setUp(self):
        folder = tempfile.TemporaryDirectory()
        self.addCleanup(folder.cleanup)
        self.path = pathlib.Path(folder.name, "rules")

    def read(self, text, bucket="logs", address=None):
        self.path.write_bytes(text if isinstance(text, bytes) else text.encode())
        return document_of(str(self.path), bucket, address)

    def stopped(self, text, **how):
        with self.assertRaises(Stop) as found:
            self.read(text, **how)
        status, why = found.exception.args
        self.assertEqual(3, status)
        return why.removeprefix(f"{self.path}: ")


class Shapes(Documents):
    def test_around_a_configuration(self):
        """What requests and replies have around it: --cli-input-json, put_bucket_lifecycle_configuration, a reply of boto3."""
        for found in (RULES, [RULE], RULE, {"Bucket": "logs", "LifecycleConfiguration": RULES},
                      {"ResponseMetadata": {"HTTPStatusCode": 200}, **RULES}, {"Bucket": "logs", "ExpectedBucketOwner": "1", "LifecycleConfiguration": RULES}):
            with self.subTest(list(found)[:1]):
                self.assertEqual(RULES, self.read(json.dumps(found)))

    def test_a_mark_of_the_byte_order(self):
        self.assertEqual(RULES, self.read(b"\xef\xbb\xbf" + json.dumps(RULES).encode()))

    def test_the_mode_stays(self):
        mode = {"TransitionDefaultMinimumObjectSize": "varies_by_storage_class"}
        self.assertEqual({**RULES, **mode}, self.read(json.dumps({"LifecycleConfiguration": RULES, **mode})))

    def test_what_is_no_configuration(self):
        why = "this is not a lifecycle configuration: it has no list of Rules"
        for text in ('{"Buckets": []}', '["a"]', "5", "null", '{"Rules": {}}', '{"Rules": [5]}', "{}"):
            with self.subTest(text):
                self.assertEqual(why, self.stopped(text))
        for text in ("", "a,b\n", '{"Rules": [', "[" * 100_000, "{'Rules': [__import__('os')]}"):
            with self.subTest(text[:20]):
                self.assertTrue(self.stopped(text).startswith("not JSON: "))
        self.assertEqual("not UTF-8 at byte 1", self.stopped(b"{\xff"))

    def test_no_file(self):
        with self.assertRaises(Stop) as found:
            document_of(str(self.path), "logs")
        self.assertEqual((3, f"{self.path}: No such file or directory"), found.exception.args)


class Boto3(Documents):
    """A reply as `print(client.get_bucket_lifecycle_configuration(..))` shows it."""

    def date(self, shown):
        rule = {**RULE, "Expiration": {"Date": "@"}}
        return self.read(repr({"ResponseMetadata": {"RetryAttempts": 0}, "Rules": [rule]}).replace("'@'", shown))["Rules"][0]["Expiration"]["Date"]

    def test_dates(self):
        for shown in ("datetime.datetime(2030, 1, 1, 0, 0, tzinfo=tzutc())", "datetime.datetime(2030, 1, 1, 0, 0, tzinfo=datetime.timezone.utc)",
                      "'2030-01-01 00:00:00+00:00'", "'2030-01-01T05:30:00+05:30'", "'2029-12-31T19:00:00-05:00'"):
            with self.subTest(shown):
                self.assertEqual("2030-01-01T00:00:00+00:00", self.date(shown))

    def test_dates_that_stay_as_they_are(self):
        for text in ("2030-01-01T00:00:00Z", "2030-01-01", "tomorrow"):
            self.assertEqual(text, self.date(f"'{text}'"))

    def test_nothing_is_run(self):
        self.assertTrue(self.stopped("{'Rules': [print('x')]}").startswith("not JSON: "))


class Terraform(Documents):
    def state(self, *buckets):
        resources = [{"address": f"{it}_rules", "type": "aws_s3_bucket_lifecycle_configuration",
                      "values": {"bucket": it, "rule": [{"id": it, "status": "Enabled", "expiration": [{"days": 9}]}]}} for it in buckets]
        return json.dumps({"format_version": "1.0", "values": {"root_module": {"resources": resources}}})

    def test_the_one_of_the_bucket(self):
        for text, how in ((self.state("other"), {}), (self.state("rest", "logs"), {}), (self.state("rest", "logs"), {"address": "logs_rules"})):
            self.assertEqual(1, len(self.read(text, **how)["Rules"]))
        self.assertEqual("logs", self.read(self.state("rest", "logs"))["Rules"][0]["ID"])

    def test_which_one(self):
        why = "which lifecycle configuration? Name it with --resource; there are: "
        self.assertEqual(why + "a_rules, b_rules", self.stopped(self.state("a", "b")))
        self.assertEqual(why + "logs_rules", self.stopped(self.state("logs"), address="other"))
        self.assertEqual(why + "none", self.stopped(self.state()))

    def test_states_of_others(self):
        why = "this is neither a state nor a plan as `terraform show -json` prints them"
        for values in ("5", '{"root_module":{"resources":[5]}}', '{"root_module":5}'):
            with self.subTest(values):
                self.assertEqual(why, self.stopped('{"format_version":"1.0","values":%s}' % values))


class Missing(Documents):
    def test_what_the_program_does_not_have(self):
        found = self.read('{\n"Rules": [\n{"Transitions": [{"Days": 1, "StorageClass": "INTELLIGENT_TIERING"},\n{"Days": 2, "StorageClass": "COLD"}],\n'
                          '"Expiration": {"Date": "2100-01-01T00:00:00Z"}}, {"Transition": {"Days": 1}},\n{"Transitions": [{"StorageClass": "STANDARD"}]}]}')
        self.assertEqual([
            "line 3: Rules[0].Transitions[0].StorageClass: 'INTELLIGENT_TIERING': objects move in it by reads, which are not seen here",
            "line 4: Rules[0].Transitions[1].StorageClass: 'COLD': the classes to move to are STANDARD_IA, ONEZONE_IA, GLACIER_IR, GLACIER, DEEP_ARCHIVE",
            "line 5: Rules[0].Expiration.Date: '2100-01-01T00:00:00Z': the last day is 2099-12-31",
            "Rules[1].Transition: of the older XML API; write the list Transitions",
            "line 6: Rules[2].Transitions[0].StorageClass: 'STANDARD': nothing moves to it"], list(missing(found)))

    def test_what_it_has(self):
        self.assertEqual([], list(missing(self.read(EXAMPLE.read_text("utf-8")))))
        for name in ("STANDARD_IA", "ONEZONE_IA", "GLACIER_IR", "GLACIER", "DEEP_ARCHIVE"):
            self.assertEqual([], list(missing({"Rules": [{"Transitions": [{"StorageClass": name, "Date": "2099-12-31T00:00:00Z"}]}]})))


class AsPrinted(unittest.TestCase):
    """About as docs/FORMATS.md says that a configuration is printed: each id and filter, dates in UTC with milliseconds."""

    def rule(self, **more):
        rule, = json.loads("\n".join(as_printed({"Rules": [{"Status": "Enabled", "Expiration": {"Days": 9}, **more}]})))["Rules"]
        return rule

    def test_ids(self):
        self.assertEqual(("rule-1", "mine"), (self.rule()["ID"], self.rule(ID="mine")["ID"]))

    def test_filters(self):
        tag, other = {"Key": "k", "Value": "v"}, {"Key": "a", "Value": ""}
        for more, wanted in (({}, {"Prefix": ""}), ({"Prefix": "a"}, {"Prefix": "a"}), ({"Filter": {}}, {"Prefix": ""}), ({"Filter": {"Tag": tag}}, {"Tag": tag}),
                             ({"Filter": {"And": {"Prefix": "a"}}}, {"Prefix": "a"}), ({"Filter": {"And": {"Tags": [tag]}}}, {"Tag": tag}),
                             ({"Filter": {"And": {"Prefix": "", "Tags": [tag, other]}}}, {"And": {"Tags": [other, tag]}}),
                             ({"Filter": {"And": {"Prefix": "a", "ObjectSizeLessThan": 5}}}, {"And": {"Prefix": "a", "ObjectSizeLessThan": 5}})):
            with self.subTest(more):
                self.assertEqual(wanted, self.rule(**more)["Filter"])

    def test_dates(self):
        for text in ("2030-01-01", "2030-01-01T00:00:00Z", "2030-01-01T00:00:00+00:00", "2030-01-01T00:00:00.000Z"):
            self.assertEqual({"Date": "2030-01-01T00:00:00.000Z"}, self.rule(Expiration={"Date": text})["Expiration"])
        self.assertEqual({"Date": "tomorrow"}, self.rule(Expiration={"Date": "tomorrow"})["Expiration"])

    def test_the_mode(self):
        name = "TransitionDefaultMinimumObjectSize"
        self.assertEqual("all_storage_classes_128K", json.loads("".join(as_printed({"Rules": []})))[name])
        self.assertEqual("varies_by_storage_class", json.loads("".join(as_printed({"Rules": [], name: "varies_by_storage_class"})))[name])


if __name__ == "__main__":
    unittest.main()
