"""Asks an object store by boto3 or the aws command, whichever is there; for follow and apply. No other tool needs one of them."""
import argparse
import datetime
import email.utils
import json
import re
import shutil
import subprocess
import typing

from office_tools.asking import Stop


class Refused(Exception):
    """The code with which the store refused, as NoSuchKey."""


class Store:
    """One store. The words of `call` are those of the aws command: a service and an operation."""

    def __init__(self, client: typing.Optional[str], endpoint: typing.Optional[str]):
        self.endpoint, self.clients, self.client = endpoint, {}, client
        if client != "aws":
            try:
                import boto3
                import botocore.exceptions
                self.boto, self.faults, self.client = boto3, botocore.exceptions, "boto3"
                return
            except ImportError:
                if client == "boto3":
                    raise Stop(2, "boto3 is not here") from None
        if not shutil.which("aws"):
            raise Stop(2, "neither boto3 nor the aws command is here" if not client else "the aws command is not here")
        self.client = "aws"

    def call(self, service: str, operation: str, **fields: typing.Any) -> dict:
        """The reply as the aws command prints it. Refused with the store's code; status 2 if there is no reply."""
        return (self.by_boto if self.client == "boto3" else self.by_aws)(service, operation, fields)

    def by_boto(self, service, operation, fields):
        name = {"s3api": "s3"}.get(service, service)
        try:
            if name not in self.clients:
                self.clients[name] = self.boto.client(name, endpoint_url=self.endpoint)
            return getattr(self.clients[name], operation.replace("-", "_"))(**fields)
        except self.faults.ClientError as fault:
            raise Refused(str(fault.response.get("Error", {}).get("Code"))) from None
        except self.faults.BotoCoreError as fault:
            raise Stop(2, f"the store gave no reply to {operation}: {fault}") from None

    def by_aws(self, service, operation, fields):
        words = ["aws", "--output", "json", *(["--endpoint-url", self.endpoint] if self.endpoint else []), service, operation,
                 "--cli-input-json", json.dumps(fields)]
        done = subprocess.run(words, stdin=subprocess.DEVNULL, capture_output=True, text=True, check=False)
        if done.returncode:
            code = re.search(r"An error occurred \(([\w.]+)\)", done.stderr)
            if code:
                raise Refused(code[1])
            raise Stop(2, f"the store gave no reply to {operation}: {done.stderr.strip().splitlines()[-1:]}")
        try:
            return json.loads(done.stdout) if done.stdout.strip() else {}
        except ValueError:
            raise Stop(2, f"aws {operation} printed no JSON") from None

    def about(self, bucket: str, key: str, version: typing.Optional[str]) -> tuple:
        """The class and the tags of an object now; nothing if it is gone."""
        one = {"Bucket": bucket, "Key": key, **({"VersionId": version} if version else {})}
        try:
            named = self.call("s3api", "head-object", **one).get("StorageClass") or "STANDARD"
            tags = self.call("s3api", "get-object-tagging", **one).get("TagSet") or []
        except Refused as why:
            if str(why) in ("404", "405", "NoSuchKey", "NoSuchVersion", "MethodNotAllowed"):
                return None, None
            raise Stop(2, f"the store refuses to tell of bucket {bucket}: {why}") from None
        return named, {it["Key"]: it["Value"] for it in tags}


def moment_of(found: typing.Union[str, datetime.datetime]) -> datetime.datetime:
    """A moment of the store, in UTC: of boto3, of the aws command, or of a field of HTTP, which that prints as it is."""
    if isinstance(found, str):
        is_of_http = not found[:4].isdigit()
        found = email.utils.parsedate_to_datetime(found) if is_of_http else datetime.datetime.fromisoformat(found.replace("Z", "+00:00"))
    return found.astimezone(datetime.timezone.utc)


def add_store(words: argparse.ArgumentParser) -> None:
    """The words that name the store."""
    words.add_argument("--endpoint-url", metavar="URL",
                       help="the store, as http://127.0.0.1:9000; that of the aws configuration if not given")
    words.add_argument("--client", choices=("boto3", "aws"), help="ask the store by this; boto3, or else aws, if not given")


def store_of(given: argparse.Namespace) -> Store:
    return Store(given.client, given.endpoint_url)
