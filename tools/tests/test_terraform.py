"""Lifecycle configurations of Terraform, as `terraform show -json` prints a state or a plan: the names of the provider's
arguments (aws_s3_bucket_lifecycle_configuration) become those of the S3 API."""
import pathlib
import sys
import unittest

sys.path.insert(0, str(pathlib.Path(__file__).resolve().parent.parent))
from office_tools.terraform import TYPE, configuration_of, resources_of, rule_of  # noqa: E402

RULE = {"id": "r", "status": "Enabled"}


class Rules(unittest.TestCase):
    def rule(self, **more):
        """A rule with these blocks, without its id and status."""
        found = rule_of({**RULE, **more})
        self.assertEqual(("r", "Enabled"), (found.pop("ID"), found.pop("Status")))
        return found

    def test_filters(self):
        for block, wanted in (
                ([], {"Prefix": ""}), ([{}], {"Prefix": ""}), ([{"prefix": "logs/"}], {"Prefix": "logs/"}),
                ([{"prefix": None, "tag": [{"key": "k", "value": "v"}]}], {"Tag": {"Key": "k", "Value": "v"}}),
                ([{"object_size_greater_than": "500"}], {"ObjectSizeGreaterThan": 500}),
                ([{"object_size_less_than": 0, "prefix": ""}], {"ObjectSizeLessThan": 0}),
                ([{"and": [{"prefix": "a/", "object_size_greater_than": 500, "object_size_less_than": 64_000, "tags": {"b": "2", "a": "1"}}]}],
                 {"And": {"Prefix": "a/", "ObjectSizeGreaterThan": 500, "ObjectSizeLessThan": 64_000,
                          "Tags": [{"Key": "a", "Value": "1"}, {"Key": "b", "Value": "2"}]}}),
                ([{"and": [{"prefix": "a/", "object_size_greater_than": 0, "object_size_less_than": 0, "tags": {"k": "v"}}]}],
                 {"And": {"Prefix": "a/", "Tags": [{"Key": "k", "Value": "v"}]}})):
            with self.subTest(block):
                self.assertEqual({"Filter": wanted}, self.rule(filter=block))

    def test_a_prefix_of_the_rule(self):
        """The older form, without a filter."""
        self.assertEqual({"Filter": {"Prefix": "old/"}}, self.rule(prefix="old/"))

    def test_expirations(self):
        for block, wanted in (({"days": 90, "date": "", "expired_object_delete_marker": False}, {"Days": 90}),
                              ({"days": 0, "date": "2030-01-01T00:00:00Z", "expired_object_delete_marker": False}, {"Date": "2030-01-01T00:00:00Z"}),
                              ({"days": 0, "date": None, "expired_object_delete_marker": True}, {"ExpiredObjectDeleteMarker": True})):
            with self.subTest(block):
                self.assertEqual(wanted, self.rule(expiration=[block])["Expiration"])

    def test_what_is_not_current(self):
        found = self.rule(noncurrent_version_expiration=[{"newer_noncurrent_versions": "3", "noncurrent_days": 30}],
                          noncurrent_version_transition=[{"newer_noncurrent_versions": None, "noncurrent_days": 30, "storage_class": "STANDARD_IA"},
                                                         {"newer_noncurrent_versions": 2, "noncurrent_days": 60, "storage_class": "GLACIER"}])
        self.assertEqual({"NoncurrentDays": 30, "NewerNoncurrentVersions": 3}, found["NoncurrentVersionExpiration"])
        self.assertEqual([{"NoncurrentDays": 30, "StorageClass": "STANDARD_IA"},
                          {"NoncurrentDays": 60, "NewerNoncurrentVersions": 2, "StorageClass": "GLACIER"}], found["NoncurrentVersionTransitions"])

    def test_transitions(self):
        """If a date is set, the provider writes 0 days beside it; 0 days without a date are the day of the creation."""
        self.assertEqual([{"Days": 0, "StorageClass": "GLACIER"}, {"Date": "2030-01-01T00:00:00Z", "StorageClass": "DEEP_ARCHIVE"}],
                         self.rule(transition=[{"days": 0, "date": "", "storage_class": "GLACIER"},
                                               {"days": 0, "date": "2030-01-01T00:00:00Z", "storage_class": "DEEP_ARCHIVE"}])["Transitions"])

    def test_uploads(self):
        self.assertEqual({"DaysAfterInitiation": 7}, self.rule(abort_incomplete_multipart_upload=[{"days_after_initiation": 7}])
                         ["AbortIncompleteMultipartUpload"])

    def test_what_is_not_known_stays(self):
        self.assertEqual({"Filter": {"Prefix": ""}, "new_block": [{"days": 1}]}, self.rule(new_block=[{"days": 1}], other=[], another=None))
        self.assertEqual({"Days": 1, "new": 5}, self.rule(expiration=[{"days": 1, "new": 5}])["Expiration"])


class Configurations(unittest.TestCase):
    def test_a_resource(self):
        self.assertEqual({"Rules": [{"ID": "r", "Status": "Enabled", "Filter": {"Prefix": ""}}]}, configuration_of({"bucket": "b", "rule": [RULE]}))
        self.assertEqual("varies_by_storage_class", configuration_of(
            {"rule": [], "transition_default_minimum_object_size": "varies_by_storage_class"})["TransitionDefaultMinimumObjectSize"])

    def test_resources_of_all_modules(self):
        def resource(address, **more):
            return {"address": address, "mode": "managed", "type": TYPE, "values": {}, **more}
        state = {"format_version": "1.0", "values": {"root_module": {
            "resources": [resource("a"), resource("bucket", type="aws_s3_bucket"), resource("read", mode="data")],
            "child_modules": [{"address": "module.m", "resources": [resource("module.m.b")],
                               "child_modules": [{"resources": [resource("module.m.module.n.c")]}]}]}}}
        self.assertEqual(["a", "module.m.b", "module.m.module.n.c"], [it["address"] for it in resources_of(state)])

    def test_a_plan(self):
        """What is planned, in place of what is there."""
        plan = {"format_version": "1.2", "planned_values": {"root_module": {"resources": [{"address": "a", "type": TYPE, "values": {}}]}}, "values": {}}
        self.assertEqual(["a"], [it["address"] for it in resources_of(plan)])

    def test_an_empty_state(self):
        self.assertEqual([], resources_of({"format_version": "1.0"}))


if __name__ == "__main__":
    unittest.main()
