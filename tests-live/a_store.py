"""An object store for the cases of the tools that work beside one: moto on loopback, and its events as S3 spells them."""
import importlib.util
import itertools
import json
import os
import subprocess
import sys
import time
import unittest
import urllib.error
import urllib.parse
import urllib.request

from free_port import HOST, free_port
from serve_client import LIMIT

needs_moto = unittest.skipUnless(importlib.util.find_spec("moto") and importlib.util.find_spec("flask") and importlib.util.find_spec("boto3"), "no moto")
# What boto3 and the aws command ask for; moto takes any credentials. Nothing is read from the folders of who runs the tests.
ACCESS = {"AWS_ACCESS_KEY_ID": "test", "AWS_SECRET_ACCESS_KEY": "test", "AWS_DEFAULT_REGION": "us-east-1", "AWS_EC2_METADATA_DISABLED": "true",
          "AWS_CONFIG_FILE": os.devnull, "AWS_SHARED_CREDENTIALS_FILE": os.devnull, "NO_PROXY": "*", "no_proxy": "*"}
sequence = itertools.count(0x1000)


def sequencer():
    """One that is later than all before."""
    return f"{next(sequence):016X}"


def event(name, bucket, key, size=None, version=None, order=None, etag=None):
    """A record of an event by the S3 User Guide, "Event message structure"."""
    about = {"key": urllib.parse.quote_plus(key), "sequencer": order or sequencer(), **({"versionId": version} if version else {}),
             **({"size": size, "eTag": etag or "d41d8cd98f00b204e9800998ecf8427e"} if size is not None else {})}
    return {"eventVersion": "2.1", "eventSource": "aws:s3", "awsRegion": "us-east-1", "eventTime": "2026-11-01T00:00:00.000Z", "eventName": name,
            "userIdentity": {"principalId": "AWS:TEST"}, "requestParameters": {"sourceIPAddress": "127.0.0.1"},
            "responseElements": {"x-amz-request-id": "C3D13FE58DE4C810"},
            "s3": {"s3SchemaVersion": "1.0", "configurationId": "test", "object": about,
                   "bucket": {"name": bucket, "ownerIdentity": {"principalId": "A3NL1KOZZKExample"}, "arn": f"arn:aws:s3:::{bucket}"}}}


def lines(*records):
    """A message of the queue a line, as MinIO and a subscriber of a queue write them."""
    return "".join(json.dumps({"Records": [it]}) + "\n" for it in records)


class Moto:
    """A server of moto with a client. Each change gives the event that S3 would send."""

    def __init__(self):
        import boto3
        self.port, self.events = free_port(), []
        self.url = f"http://{HOST}:{self.port}"
        self.process = subprocess.Popen([sys.executable, "-m", "moto.server", "-H", HOST, "-p", str(self.port)], stdin=subprocess.DEVNULL,
                                        stdout=subprocess.DEVNULL, stderr=subprocess.DEVNULL, env={**os.environ, **ACCESS})
        late = time.monotonic() + LIMIT
        while True:
            try:
                urllib.request.build_opener(urllib.request.ProxyHandler({})).open(self.url, timeout=LIMIT).close()
                break
            except urllib.error.HTTPError:
                break
            except OSError:
                if time.monotonic() > late or self.process.poll() is not None:
                    raise TimeoutError("moto does not answer") from None
                time.sleep(0.1)
        session = boto3.session.Session(aws_access_key_id="test", aws_secret_access_key="test", region_name="us-east-1")
        self.s3 = session.client("s3", endpoint_url=self.url)
        self.sqs = session.client("sqs", endpoint_url=self.url)

    def end(self):
        self.process.kill()
        self.process.wait()

    def bucket(self, name, versioning=None):
        self.s3.create_bucket(Bucket=name)
        if versioning:
            self.s3.put_bucket_versioning(Bucket=name, VersioningConfiguration={"Status": versioning})

    def put(self, bucket, key, size, storage_class="STANDARD"):
        made = self.s3.put_object(Bucket=bucket, Key=key, Body=b"x" * size, StorageClass=storage_class)
        self.events.append(event("ObjectCreated:Put", bucket, key, size, made.get("VersionId"), etag=made["ETag"].strip('"')))
        return made.get("VersionId")

    def delete(self, bucket, key):
        made = self.s3.delete_object(Bucket=bucket, Key=key)
        self.events.append(event("ObjectRemoved:DeleteMarkerCreated" if made.get("DeleteMarker") else "ObjectRemoved:Delete", bucket, key,
                                 version=made.get("VersionId")))
        return made.get("VersionId")

    def remove(self, bucket, key, version):
        self.s3.delete_object(Bucket=bucket, Key=key, VersionId=version)
        self.events.append(event("ObjectRemoved:Delete", bucket, key, version=version))

    def listing(self, bucket):
        """As `aws s3api list-object-versions` prints it."""
        found = self.s3.list_object_versions(Bucket=bucket)
        kept = {name: found[name] for name in ("Versions", "DeleteMarkers") if name in found}
        return json.dumps({**kept, "RequestCharged": None}, default=lambda it: it.isoformat())
