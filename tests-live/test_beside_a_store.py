#!/usr/bin/env -S python3 -B
"""An office beside a store of three buckets, from the import to the bill: import, events, sweep, apply, and nothing differs; then
month-end, bill, page and metrics. The store is moto on loopback.

OFFICE_SCREENSHOTS=FOLDER keeps what a browser shows of the page there, as PNG, to be looked at.
"""
import datetime
import json
import os
import pathlib
import re
import shutil

import live
from a_store import ACCESS, Moto, event, lines, needs_moto
from serve_client import entries_of
from spelled import CLASSES, GIB, create, journal, put

EXPIRE = {"ID": "gone", "Status": "Enabled", "Filter": {"Prefix": "tmp/"}, "Expiration": {"Date": "2024-01-05T00:00:00Z"}}
COLD = {"ID": "cold", "Status": "Enabled", "Filter": {"And": {"Prefix": "raw/", "ObjectSizeGreaterThan": 1}},
        "Transitions": [{"Date": "2024-01-05T00:00:00Z", "StorageClass": "GLACIER"}]}
TARIFF = ("[storage]\n" + "\n".join(f"{it} = {price}" for it, price in zip(CLASSES, (23_000, 12_500, 10_000, 4_000, 3_600, 990)))
          + "\n[transition]\n" + "\n".join(f"{it} = 30000" for it in CLASSES[1:]) + "\n")
BUCKETS = ("photos", "logs", "media")
BROWSERS = ("chromium", "chromium-browser", "google-chrome")


@needs_moto
class BesideAStore(live.Case):
    def setUp(self):
        super().setUp()
        os.environ.update(ACCESS)
        self.store = Moto()
        self.addCleanup(self.store.end)
        self.journal = self.new_folder("served") / "office-data" / "journal"
        # A month that is over: a GiB through January 2024.
        self.journal.write_bytes(journal(create(1, "seed"), put(1, "seed", "a", GIB)))
        self.server = self.serve()
        self.at, self.map, self.log = f"http://127.0.0.1:{self.server.port}", self.folder / "store.map", self.folder / "actions.jsonl"

    def tool(self, name, *words, status=0):
        """What a tool printed, and its notes; its status has to be this one."""
        found, said, notes = self.run_tool(name, *words)
        self.check(f"{name} {' '.join(map(str, words[-2:]))}: status; {notes[-300:]}", status, found)
        return said, notes

    def beside(self, name, *words, **how):
        return self.tool(name, "--server", self.at, "--journal", self.journal, *words, **how)

    def fill(self):
        """Versions, delete markers, an object without versions, and an unfinished upload."""
        store = self.store
        for name, versioning in zip(BUCKETS, ("Enabled", None, "Enabled")):
            store.bucket(name, versioning)
        for key, size in (("a", 10), ("a", 20), ("tmp/1", 30), ("tmp/é 2", 31), ("gone", 5)):
            store.put("photos", key, size)
        store.delete("photos", "gone")
        store.put("logs", "x", 100)
        store.put("logs", "tmp/y", 101, "STANDARD_IA")
        store.put("logs", "raw/z", 102)
        store.put("media", "film", 1000, "GLACIER")
        begun = store.s3.create_multipart_upload(Bucket="media", Key="big")
        store.s3.upload_part(Bucket="media", Key="big", UploadId=begun["UploadId"], PartNumber=1, Body=b"x" * 4096)
        parts = store.s3.list_parts(Bucket="media", Key="big", UploadId=begun["UploadId"])
        self.file("uploads", json.dumps({"Uploads": store.s3.list_multipart_uploads(Bucket="media")["Uploads"]}, default=str))
        self.file("parts", json.dumps({"UploadId": begun["UploadId"], "Parts": parts["Parts"]}, default=str))
        store.events.clear()

    def listings(self):
        return [f"{name}={self.file(f'{name}.json', self.store.listing(name))}" for name in BUCKETS]

    def import_all(self):
        for name in BUCKETS:
            more = ("--uploads", "uploads", "--parts", "parts") if name == "media" else ()
            self.tool("import-inventory", "--server", self.at, "--bucket", name, "--map", self.map, *more, self.folder / f"{name}.json")

    def compare(self, what, status=0):
        """The sums over all buckets."""
        said, _ = self.beside("compare", "--map", self.map, "--json", *self.listings(), status=status)
        found = json.loads(said)["total"] if said else {}
        self.check(f"{what}: what differs", status == 0, not sum(found.get(name, 1) for name in ("missing", "surplus", "other_size", "other_class")))
        return found

    def ages(self):
        """The store does its part: transitions are its own."""
        self.store.s3.copy_object(Bucket="logs", Key="raw/z", CopySource="logs/raw/z", StorageClass="GLACIER", MetadataDirective="COPY")

    def test_from_the_import_to_the_bill(self):
        self.fill()
        self.listings()
        self.import_all()
        entries = len(entries_of(self.server.folder))
        self.import_all()
        self.check("the import again puts nothing", entries, len(entries_of(self.server.folder)))
        self.check("after the import", {"same": 10, "missing": 0, "surplus": 0, "other_size": 0, "other_class": 0}, self.compare("imported"))

        first = self.store.put("photos", "new+key %", 7)
        self.store.put("photos", "new+key %", 8)
        self.store.remove("photos", "new+key %", first)
        self.store.delete("photos", "a")
        self.store.put("logs", "x", 111)
        self.store.put("logs", "y", 112)
        self.store.delete("logs", "y")
        self.compare("events are not followed yet", 5)
        events = self.file("events.jsonl", lines(*self.store.events))
        self.beside("follow", "--map", self.map, events)
        self.compare("events are followed")

        for name, rules in (("photos", [EXPIRE]), ("logs", [EXPIRE, COLD])):
            self.tool("lifecycle", "--server", self.at, "--bucket", name, "--yes", "set", self.file(f"{name}.rules", json.dumps({"Rules": rules})))
        self.beside("act-all", "--log", self.log)
        kinds = sorted(json.loads(it)["kind"] for it in self.log.read_text("utf-8").splitlines())
        self.check("what the sweep did", ["marker", "marker", "remove", "transition"], kinds)
        self.compare("swept, and not applied", 5)
        applying = ("--map", self.map, "--endpoint-url", self.store.url)
        said, notes = self.tool("apply", *applying, self.log)
        self.check("dry by default", ["left to the store", "would be done", "would be done", "would be done"],
                   sorted(json.loads(it)["how"] for it in said.splitlines()))
        self.check("and says so", True, "would be done 3" in notes and "nothing was changed" in notes)
        self.compare("still not applied", 5)
        self.tool("apply", *applying, "--yes", self.log)
        self.ages()
        self.compare("applied")

        # The store tells of what apply did: of the markers by their new ids, and of the removal.
        made = [it for it in self.store.s3.list_object_versions(Bucket="photos")["DeleteMarkers"] if it["Key"].startswith("tmp/")]
        self.file("more.jsonl", lines(*(event("ObjectRemoved:DeleteMarkerCreated", "photos", it["Key"], version=it["VersionId"]) for it in made),
                                      event("ObjectRemoved:Delete", "logs", "tmp/y")))
        _, notes = self.beside("follow", "--map", self.map, "more.jsonl")
        self.check("they are known", (2, True, True), (len(made), "gone already 1" in notes, "sent twice or late 2" in notes))
        self.compare("and done once")

        entries = len(entries_of(self.server.folder))
        self.beside("follow", "--map", self.map, events, "more.jsonl")
        self.file("again.jsonl", lines(*self.store.events))
        self.beside("follow", "--map", self.map, "again.jsonl")
        _, notes = self.tool("apply", *applying, "--yes", self.log)
        self.check("all that once more changes nothing", (entries, True), (len(entries_of(self.server.folder)), "done 0, there already 3, refused 0" in notes))
        self.compare("once more")
        self.bill_of_the_month()

    def bill_of_the_month(self):
        tariff = self.file("tariff.toml", TARIFF)
        self.ended(["curl", "-s", "-f", "-H", "Expect:", "-X", "PUT", "--noproxy", "*", "--data-binary", f"@{tariff}", f"{self.at}/tariff"])
        self.beside("month-end", "--folder", self.folder, "2024-01")
        said, _ = self.beside("bill", "--unit", "EUR=1000000", "2024-01")
        self.check("the bill: a GiB at 0.023", ["total", "0.023000", "EUR"], next((it.split() for it in said.splitlines() if it.startswith("total")), None))
        self.check("of a month that is closed", True, "State: closed." in said)
        self.beside("usage-page", "--unit", "EUR=1000000", "--out", "page.html", "2024-01")
        self.check("the page", "0.023000", re.search(r'id="total">.*?([0-9.]+)<', (self.folder / "page.html").read_text("utf-8"))[1])
        self.beside("usage-page", "--unit", "EUR=1000000", "--out", "now.html", f"{datetime.datetime.now(datetime.timezone.utc):%Y-%m}")
        for name in ("page", "now"):
            self.picture(name)
        self.beside("metrics", "--log", self.log, "--out", "metrics.prom")
        found = dict(re.findall(r"^(office_[^ ]+) (.+)$", (self.folder / "metrics.prom").read_text("utf-8"), flags=re.MULTILINE))
        # photos: two objects a, two under tmp/, gone and new+key, and a delete marker above each of these keys but the last one.
        wanted = {"office_up": "1", 'office_bucket_versions{bucket="photos"}': "10", 'office_bucket_versions{bucket="media"}': "1",
                  "office_overdue_buckets": "0", "office_closed_until_timestamp_seconds": "1706745600.000"}
        self.check("metrics", wanted, {name: found.get(name) for name in wanted})
        self.check("the time of the sweep", True, float(found["office_last_sweep_timestamp_seconds"]) > 1.7e9)

    def picture(self, name):
        """A screenshot of a page, if a browser is here."""
        browser = next(filter(shutil.which, BROWSERS), None)
        if not browser:
            return
        png = self.folder / f"{name}.png"
        self.ended([browser, "--headless", "--no-sandbox", "--disable-gpu", f"--user-data-dir={self.folder / 'profile'}", "--window-size=1100,1400",
                    f"--screenshot={png}", (self.folder / f"{name}.html").as_uri()])
        self.check(f"a screenshot of {name}", b"\x89PNG", png.read_bytes()[:4] if png.exists() else None)
        if keep := os.environ.get("OFFICE_SCREENSHOTS"):
            pathlib.Path(keep).mkdir(parents=True, exist_ok=True)
            shutil.copy(png, keep)


if __name__ == "__main__":
    live.main()
