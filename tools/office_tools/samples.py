"""The samples of a reading of the office, in the text format of Prometheus, for metrics."""
import datetime
import math
import time
import typing
import urllib.parse

from office_tools.asking import Office, Stop, meters_in, number_in, reason, text_in
from office_tools.months import ms_of
from office_tools.reports import NoReport, read_report
from office_tools.tail import Tail

HELP = {
    "office_up": "Whether the server of the office gave replies.",
    "office_scrape_duration_seconds": "How long the replies took.",
    "office_journal_size_bytes": "Size of the file of the journal, which holds at most 1073741824.",
    "office_bucket_up": "Whether the bucket could be read.",
    "office_bucket_versions": "Object versions in the bucket.",
    "office_bucket_rules": "Lifecycle rules of the bucket.",
    "office_bucket_uploads": "Multipart uploads of the bucket that are not completed.",
    "office_bucket_billed_bytes": "Bytes that are billed now, by storage class: what the meter grows by in a millisecond.",
    "office_bucket_overdue_since_timestamp_seconds": "Since when the first lifecycle action of the bucket is due that is not done.",
    "office_overdue_since_timestamp_seconds": "The earliest of these moments over all buckets.",
    "office_overdue_buckets": "Buckets with a lifecycle action that is due and not done.",
    "office_month_storage_byte_seconds": "Bytes stored times seconds, in a month (UTC) and storage class.",
    "office_month_early_deletion_byte_seconds": "Bytes times missing seconds of objects that left their class too early.",
    "office_month_transitions": "Moves of objects into the storage class, in a month (UTC).",
    "office_month_charge": "Charge of the month so far, in units of the prices.",
    "office_bucket_month_charge": "Charge of the month so far of a bucket, in units of the prices.",
    "office_closed_until_timestamp_seconds": "End of the last month that is closed.",
    "office_limit": "Limits of the office; the program refuses what is above them.",
    "office_used": "What is used of a limit.",
    "office_last_command_timestamp_seconds": "Moment of the last entry of the journal.",
    "office_last_sweep_timestamp_seconds": "When the last run of act-all or month-end ended that wrote to the file of --log.",
    "office_last_backup_timestamp_seconds": "When the newest copy in the folder of --backups was made.",
    "office_build_info": "The version of these tools.",
}
LIMITS = {"Buckets": 1_000, "Versions": 200_000, "Uploads": 20_000, "Parts": 500_000, "Names": 536_870_912, "Rules": 67_108_864,
          "Tariffs": 100, "Journal": 1_073_741_824}
LEAST_WAIT = 0.05  # seconds between two readings of a meter
PATIENCE = 1.0  # seconds in which buckets that change are read again; then the bytes are a mean of the time between two readings


def label(text):
    return '"' + text.replace("\\", "\\\\").replace('"', '\\"').replace("\n", "\\n") + '"'


def seconds(ms: int) -> str:
    """Milliseconds as seconds, or byte-milliseconds as byte-seconds, without rounding."""
    digits = str(ms).rjust(4, "0")
    return f"{digits[:-3]}.{digits[-3:]}"


def months():
    """This month and the one before."""
    first = datetime.datetime.now(datetime.timezone.utc).replace(day=1)
    return [(first - datetime.timedelta(days=1)).strftime("%Y-%m"), first.strftime("%Y-%m")]


def target_of(name):
    return f"/buckets/{urllib.parse.quote(name, safe='')}"


class Meter:
    """A reading of a bucket's byte-milliseconds by class, which was made between two moments of this machine (in seconds)."""

    def __init__(self, office, target):
        self.begun = time.monotonic()
        self.status, self.found = office.ask("GET", target)
        self.ended = time.monotonic()
        self.classes = meters_in(self.found) if self.status == 200 else []
        self.stored = tuple(it[1] for it in self.classes)


def rates(one, two):
    """Bytes by class that fit two readings: the meters grew by bytes times a whole number of milliseconds."""
    grown = [later - before for before, later in zip(one.stored, two.stored)]
    low, high = (two.begun - one.ended) * 1000, (two.ended - one.begun) * 1000
    return {tuple(it // ms for it in grown) for ms in range(max(1, math.floor(low)), math.ceil(high) + 1)
            if all(it >= 0 and it % ms == 0 for it in grown)}


def billed_now(office, target, one, until):
    """The bytes by class that are billed now, and whether the meter moved. Changes in between are waited out, a few times."""
    found, guess = None, None
    for _ in range(5):
        time.sleep(max(0.0, LEAST_WAIT - (time.monotonic() - one.ended)))
        two = Meter(office, target)
        if two.status != 200 or len(two.stored) != len(one.stored):
            return None
        fit = rates(one, two)
        found = fit if found is None or not fit & found else fit & found
        middle = max(1, round((two.begun + two.ended - one.begun - one.ended) * 500))
        guess = tuple(max(0, later - before) // middle for before, later in zip(one.stored, two.stored))
        if len(found) == 1:
            return found.pop(), two.stored != one.stored
        if time.monotonic() > until:
            break
        one = one if fit else two
    return guess, True


class Reading:
    """The samples of one reading, by name."""

    def __init__(self):
        self.samples = {name: [] for name in HELP}
        self.refused, self.first, self.used, self.overdue = [], {}, dict.fromkeys(("Versions", "Uploads", "Rules"), 0), []

    def add(self, name: str, value: typing.Any, **labels: str) -> None:
        told = ",".join(f"{key.rstrip('_')}={label(text)}" for key, text in labels.items())
        self.samples[name].append(f"{name}{{{told}}} {value}" if told else f"{name} {value}")

    def bucket(self, office: Office, name: str) -> None:
        """What one bucket says."""
        target, (before, this) = target_of(name), months()
        (status, about), (due_status, due) = (office.ask("GET", f"{target}{it}") for it in ("", "/due"))
        meters = [Meter(office, f"{target}/meters/{month}") for month in (before, this)]
        for status, found in ((status, about), (due_status, due), *((it.status, it.found) for it in meters)):
            if status != 200:
                self.refused.append(f"bucket {name}: {reason(status, found)}")
                return self.add("office_bucket_up", 0, bucket=name)
        self.add("office_bucket_up", 1, bucket=name)
        for field in ("versions", "rules", "uploads"):
            self.add(f"office_bucket_{field}", number_in(about, field), bucket=name)
        self.used["Versions"] += about["versions"]
        self.used["Uploads"] += about["uploads"]
        if about["rules"]:
            self.used["Rules"] += len(office.exchange("GET", f"{target}/lifecycle")[2])
        if text_in(due, "action") != "none":
            self.overdue.append(ms_of(text_in(due, "moment")))
            self.add("office_bucket_overdue_since_timestamp_seconds", seconds(self.overdue[-1]), bucket=name)
        for it in meters:
            for storage_class, stored, early, moves in it.classes:
                labels = {"bucket": name, "class_": storage_class, "month": text_in(it.found, "month")}
                self.add("office_month_storage_byte_seconds", seconds(stored), **labels)
                self.add("office_month_early_deletion_byte_seconds", seconds(early), **labels)
                self.add("office_month_transitions", moves, **labels)
        self.first[name] = meters[1]

    def now(self, office: Office) -> None:
        """What all buckets store now, from a second reading of their meters, and what the month costs."""
        until = time.monotonic() + PATIENCE
        found = {name: billed_now(office, f"{target_of(name)}/meters/{one.found['month']}", one, until) for name, one in self.first.items()}
        # If no meter moves, the clock of the office does not: it was ahead once. Then nothing can be said of now.
        if any(it and it[1] for it in found.values()):
            for name, it in found.items():
                for (storage_class, *_), count in zip(self.first[name].classes, it[0] if it else ()):
                    self.add("office_bucket_billed_bytes", count, bucket=name, class_=storage_class)
        self.add("office_overdue_buckets", len(self.overdue))
        if self.overdue:
            self.add("office_overdue_since_timestamp_seconds", seconds(min(self.overdue)))
        self.charges(office, months()[1])

    def charges(self, office: Office, month: str) -> None:
        """What the month costs so far; nothing without prices, or where a proxy does not let the question through."""
        try:
            status, text = office.ask_csv(f"/months/{month}/report")
            report = read_report(text) if status == 200 else None
        except (Stop, NoReport):
            return
        if report:
            self.add("office_month_charge", report.total, month=month)
            sums = {}
            for line in report.lines:
                sums[line.bucket] = sums.get(line.bucket, 0) + line.charge
            for name, charge in sums.items():
                self.add("office_bucket_month_charge", charge, bucket=name, month=month)

    def limits(self, tail: typing.Optional[Tail]) -> None:
        """The limits, and what is used of them as far as it is known. The journal has the number of all buckets."""
        for what, limit in LIMITS.items():
            self.add("office_limit", limit, what=what)
        known = {**self.used, "Buckets": len(tail.buckets), "Tariffs": len(tail.tariffs), "Journal": tail.gate + 1} if tail else {}
        for what in LIMITS:
            if what in known and not self.refused:
                self.add("office_used", known[what], what=what)

    def text(self) -> str:
        lines = []
        for name, about in HELP.items():
            if self.samples[name]:
                lines += [f"# HELP {name} {about}", f"# TYPE {name} gauge", *self.samples[name]]
        return "\n".join(lines) + "\n"
