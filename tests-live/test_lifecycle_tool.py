#!/usr/bin/env -S python3 -B
"""Reads and sets lifecycle configurations of a server with tools/lifecycle, from documents as other programs print them."""
import json
import os
import pty

import listing_server
import live
from live import TOOLS
from serve_client import request

EXAMPLE = live.ROOT / "examples" / "lifecycle.json"
RULE = {"ID": "logs", "Status": "Enabled", "Filter": {"Prefix": "logs/"}, "Expiration": {"Days": 9}}
# A state with one configuration in a module, as version 4 of the provider writes it: "" and 0 where a field is not set.
OLD = {"address": "module.a.aws_s3_bucket_lifecycle_configuration.old", "mode": "managed",
       "type": "aws_s3_bucket_lifecycle_configuration", "values": {"bucket": "old", "expected_bucket_owner": "", "id": "old", "rule": [{
           "id": "r", "status": "Enabled", "prefix": "", "abort_incomplete_multipart_upload": [], "noncurrent_version_transition": [],
           "expiration": [{"date": "", "days": 400, "expired_object_delete_marker": False}],
           "filter": [{"and": [{"prefix": "a/", "object_size_greater_than": 0, "object_size_less_than": 5000, "tags": {"k": "v"}}],
                       "object_size_greater_than": "", "object_size_less_than": "", "prefix": "", "tag": []}],
           "noncurrent_version_expiration": [{"newer_noncurrent_versions": "3", "noncurrent_days": 30}],
           "transition": [{"date": "", "days": 0, "storage_class": "GLACIER"}]}]}}
# One of the root, as version 6 writes it: null.
NEW = {"address": "aws_s3_bucket_lifecycle_configuration.new", "mode": "managed",
       "type": "aws_s3_bucket_lifecycle_configuration", "values": {
           "bucket": "new", "transition_default_minimum_object_size": "varies_by_storage_class", "rule": [{
               "id": "d", "status": "Disabled", "prefix": None, "filter": [{"and": [], "prefix": None, "tag": [{"key": "k", "value": "v"}],
                                                                           "object_size_greater_than": None, "object_size_less_than": None}],
               "expiration": [], "noncurrent_version_expiration": [], "abort_incomplete_multipart_upload": [],
               "noncurrent_version_transition": [], "transition": [
                   {"date": "2030-01-01T00:00:00Z", "days": None, "storage_class": "DEEP_ARCHIVE"}]}]}}
STATE = {"format_version": "1.0", "values": {"root_module": {
    "resources": [NEW, {"address": "aws_s3_bucket.b", "type": "aws_s3_bucket", "values": {}}], "child_modules": [{"resources": [OLD]}]}}}
REPLY = ("{'ResponseMetadata': {'HTTPStatusCode': 200, 'RetryAttempts': 0}, 'Rules': [{'Expiration': {'Date': datetime.datetime(2030, 1, 1, "
         "0, 0, tzinfo=tzutc())}, 'ID': 'd', 'Filter': {'Prefix': ''}, 'Status': 'Enabled'}]}")
MOMENT = "datetime.datetime(2030, 1, 1, 0, 0, tzinfo=tzutc())"


class Lifecycle(live.Case):
    def setUp(self):
        super().setUp()
        self.server = self.serve()
        self.client = self.server.client()
        self.addCleanup(self.client.socket.close)
        for bucket in ("logs", "old", "new"):
            self.client.ask(request("PUT", f"/buckets/{bucket}"))

    def run_it(self, bucket, *words, **how):
        return self.run_tool("lifecycle", "--to", f"http://127.0.0.1:{self.server.port}", "--bucket", bucket, *words, **how)

    def rules(self, bucket):
        status, said = self.client.ask(request("GET", f"/buckets/{bucket}/lifecycle"))
        return json.loads(said)["Rules"] if status == 200 else status

    def ids(self, bucket):
        return [it["ID"] for it in self.rules(bucket)]

    def json(self, name, found):
        self.file(name, found if isinstance(found, str) else json.dumps(found))
        return name

    def test_get_and_set(self):
        self.check("get where there is none, status", 5, self.run_it("logs", "get")[0])
        self.check("a bucket that is not made", (5, "", "lifecycle: refused: there is no bucket of this name (404 NoSuchBucket, number 81)"),
                   self.run_it("none", "get"))
        status, _, notes = self.run_it("logs", "set", EXAMPLE)
        self.check("set without yes, status", (7, True, 404), (status, "+++ logs as it will be" in notes, self.rules("logs")))
        self.check("set, status", 0, self.run_it("logs", "--yes", "set", EXAMPLE)[0])
        self.check("set, the rules", ["cool down", "old versions", "lone markers"], self.ids("logs"))
        status, said, _ = self.run_it("logs", "get")
        self.check("get gives what was set", (0, json.loads(EXAMPLE.read_text("utf-8"))), (status, json.loads(said)))
        self.check("the same again", (0, "", "lifecycle: nothing changes, and nothing was sent"), self.run_it("logs", "set", "-", input=said))

    def test_single_rules(self):
        self.run_it("logs", "--yes", "set", EXAMPLE)
        self.check("add, status", 0, self.run_it("logs", "add", "--yes", self.json("rule.json", RULE))[0])
        self.check("add, the rules", ["cool down", "old versions", "lone markers", "logs"], self.ids("logs"))
        edit = self.json("edit.json", {**RULE, "ID": "", "Expiration": {"Days": 8}})
        self.check("edit, status", 0, self.run_it("logs", "edit", "logs", edit, "--yes")[0])
        edit = self.json("edit.json", {"Status": "Enabled", "Prefix": "l", "Expiration": {"Days": 7}})
        status, _, notes = self.run_it("logs", "edit", "logs", edit, "--yes")
        shown = [line for line in notes.splitlines() if line[:1] in "+-" and line[:3] not in ("+++", "---")]
        self.check("edit, what it shows", (0, ['-        "Days": 8', '+        "Days": 7', '-        "Prefix": "logs/"', '+        "Prefix": "l"']),
                   (status, [line.rstrip(",") for line in shown]))
        self.check("edit, the rule", {"Days": 7}, self.rules("logs")[3]["Expiration"])
        self.check("remove, status", 0, self.run_it("logs", "remove", "lone markers", "--yes")[0])
        self.check("remove, the rules", ["cool down", "old versions", "logs"], self.ids("logs"))
        self.check("a rule that is not there", (5, "lifecycle: there is no rule 'x'; there are: 'cool down', 'old versions', 'logs'"),
                   self.run_it("logs", "remove", "x", "--yes")[::2])
        status, _, notes = self.run_it("logs", "add", "--yes", "rule.json")
        self.check("add a second rule of an id", (5, "lifecycle: refused: rule 'logs', the 4. of 4: an earlier rule has the same id (400 "
                                                  "DoubleId, number 22)"), (status, notes.splitlines()[-1]))
        for name in ("cool down", "old versions", "logs"):
            self.run_it("logs", "remove", name, "--yes")
        self.check("with the last rule the configuration goes", 404, self.rules("logs"))

    def test_terraform(self):
        self.check("the configuration of the bucket", 0, self.run_it("old", "--yes", "set", self.json("state.json", STATE))[0])
        self.check("older values", [{
            "ID": "r", "Status": "Enabled", "Expiration": {"Days": 400}, "Transitions": [{"Days": 0, "StorageClass": "GLACIER"}],
            "Filter": {"And": {"ObjectSizeLessThan": 5000, "Prefix": "a/", "Tags": [{"Key": "k", "Value": "v"}]}},
            "NoncurrentVersionExpiration": {"NewerNoncurrentVersions": 3, "NoncurrentDays": 30}}], self.rules("old"))
        self.check("which one", 3, self.run_it("logs", "--yes", "set", "state.json")[0])
        self.check("by its address", 0, self.run_it("new", "--yes", "--resource", NEW["address"], "set", "state.json")[0])
        self.check("newer values", [{
            "ID": "d", "Status": "Disabled", "Filter": {"Tag": {"Key": "k", "Value": "v"}},
            "Transitions": [{"Date": "2030-01-01T00:00:00.000Z", "StorageClass": "DEEP_ARCHIVE"}]}], self.rules("new"))

    def test_replies_of_boto3(self):
        for name, text in (("as Python prints it", REPLY), ("in another zone", REPLY.replace(MOMENT, "'2030-01-01T05:30:00+05:30'")),
                           ("as JSON", REPLY.replace(MOMENT, "'2030-01-01 00:00:00+00:00'").replace("'", '"'))):
            self.run_it("logs", "remove", "d", "--yes")
            self.check(f"{name}, status", 0, self.run_it("logs", "--yes", "set", self.json("reply", text))[0])
            self.check(f"{name}, the date", "2030-01-01T00:00:00.000Z", self.rules("logs")[0]["Expiration"]["Date"])

    def test_what_the_program_does_not_have(self):
        wrong = {"Rules": [{**RULE, "Transitions": [{"Days": 1, "StorageClass": "INTELLIGENT_TIERING"}, {"Days": 2, "StorageClass": "COLD"}]},
                           {**RULE, "ID": "b", "Expiration": {"Date": "2100-01-01T00:00:00Z"}}]}
        status, _, notes = self.run_it("logs", "--yes", "set", self.json("wrong.json", wrong))
        self.check("status", 6, status)
        self.check("each with its place", [
            "lifecycle: line 1: Rules[0].Transitions[0].StorageClass: 'INTELLIGENT_TIERING': objects move in it by reads, which are not seen here",
            "lifecycle: line 1: Rules[0].Transitions[1].StorageClass: 'COLD': the classes to move to are STANDARD_IA, ONEZONE_IA, GLACIER_IR, "
            "GLACIER, DEEP_ARCHIVE", "lifecycle: line 1: Rules[1].Expiration.Date: '2100-01-01T00:00:00Z': the last day is 2099-12-31"],
                   notes.splitlines()[:3])
        text = json.dumps(wrong, indent=1)
        notes = self.run_it("logs", "--yes", "set", self.json("lines.json", text))[2].splitlines()
        self.check("each with its line", [[place + 1 for place, it in enumerate(text.splitlines()) if value in it]
                                          for value in ("INTELLIGENT", "COLD", "2100")], [[int(it.split()[2][:-1])] for it in notes[:3]])
        self.check("nothing was sent", 404, self.rules("logs"))

    def test_the_rest_is_sent(self):
        wrong = {"Rules": [{**RULE, "Transitions": [{"Days": 1, "StorageClass": "INTELLIGENT_TIERING"}, {"Days": 2, "StorageClass": "GLACIER"}]},
                           {**RULE, "ID": "b", "Expiration": {"Date": "2100-01-01T00:00:00Z"}},
                           {**RULE, "ID": "c", "Expiration": {"Date": "2100-01-01T00:00:00Z"}, "AbortIncompleteMultipartUpload": {"DaysAfterInitiation": 3}},
                           {"ID": "d", "Status": "Enabled", "Filter": {"Prefix": ""}, "Transition": {"Days": 3, "StorageClass": "GLACIER"}}]}
        status, _, notes = self.run_it("logs", "--yes", "--leave-out", "set", self.json("wrong.json", wrong))
        self.check(f"status: {notes}", 0, status)
        self.check("what is left out is named", (4, True), (sum(it.startswith("lifecycle: line 1: Rules[") or "Rules[3].Transition:" in it for it in notes.splitlines()),
                                                            "lifecycle: left out: these 4, and 2 rules without another action" in notes))
        self.check("the rest", [("logs", {"Days": 9}, [{"Days": 2, "StorageClass": "GLACIER"}], None), ("c", None, None, {"DaysAfterInitiation": 3})],
                   [(it["ID"], it.get("Expiration"), it.get("Transitions"), it.get("AbortIncompleteMultipartUpload")) for it in self.rules("logs")])
        self.check("nothing is left", 6, self.run_it("old", "--yes", "--leave-out", "set", self.json("none.json", {"Rules": wrong["Rules"][1:2]}))[0])
        self.check("and nothing was sent", 404, self.rules("old"))

    def test_refusals(self):
        refused = (({"ID": "a", "Status": "Enabled"}, "rule 'a', the 1. of 1: it has no action (400 NoAction, number 23)"),
                   ({**RULE, "Expire": {}}, "in rule 'logs': there is no field 'Expire' (400 UnknownField, number 41)"),
                   ({**RULE, "Status": "On"}, "the field 'Status' is missing, or of another kind or range (400 WrongShape, number 42)"))
        for rule, why in refused:
            status, _, notes = self.run_it("logs", "--yes", "set", self.json("refused.json", rule))
            self.check(why, (5, f"lifecycle: refused: {why}"), (status, notes.splitlines()[-1]))

    def test_what_cannot_be_done(self):
        for name, text in (("no JSON", '{"Rules": ['), ("JSON of something else", '{"Buckets": []}'), ("a list of texts", '["a"]'),
                           ("a state without a configuration", '{"format_version": "1.0"}')):
            self.check(f"{name}, status", 3, self.run_it("logs", "--yes", "set", self.json("bad", text))[0])
        self.check("no file, status", 3, self.run_it("logs", "--yes", "set", "no-such-file")[0])
        for words in (["set"], ["get", "x"], ["edit", "x"], ["put", "x"], []):
            self.check(f"words that are none, status: {' '.join(words)}", 1, self.run_it("logs", *words)[0])
        self.server.process.kill()
        self.server.process.wait()
        self.check("a server that was killed, status", 2, self.run_it("logs", "get")[0])
        self.check("help, status", 0, self.run_tool("lifecycle", "--help")[0])

    @live.needs("aws")
    def test_what_aws_prints(self):
        other = listing_server.serve()
        self.addCleanup(other.server_close)
        self.addCleanup(other.shutdown)
        shown = self.ended(["aws", "--no-sign-request", "--endpoint-url", f"http://127.0.0.1:{other.server_port}", "s3api",
                            "get-bucket-lifecycle-configuration", "--bucket", "photos"], text=True,
                           env={**os.environ, "AWS_DEFAULT_REGION": "us-east-1", "NO_PROXY": "*"})
        self.check("status", 0, self.run_it("logs", "set", "-", "--yes", input=shown.stdout)[0])
        self.check("the rules", ["cold", "end"], self.ids("logs"))

    def test_the_question_at_a_terminal(self):
        rules = [{**RULE, "ID": name} for name in ("cold", "end")]
        self.run_it("logs", "--yes", "set", self.json("two.json", rules))
        for answer, status, wanted in ((b"n\n", 7, ["cold", "end"]), (b"y\n", 0, ["cold"])):
            mine, theirs = pty.openpty()
            os.write(mine, answer)
            done = self.ended([TOOLS / "lifecycle", "--to", f"http://127.0.0.1:{self.server.port}", "--bucket", "logs", "remove", "end"],
                              stdin=theirs)
            self.check(f"answered {answer!r}, status and rules", (status, wanted), (done.returncode, self.ids("logs")))
            os.close(mine)
            os.close(theirs)


if __name__ == "__main__":
    live.main()
