"""What the program forecasts of a bucket and a configuration: its two tables, and a run of it; for lifecycle."""
import csv
import io
import json
import re
import subprocess
import typing

from office_tools.asking import Stop
from office_tools.documents import CLASSES as TARGETS
from office_tools.entries import CLASSES
from office_tools.months import MONTH
from office_tools.refusals import refused
from office_tools.reports import KINDS as LINES
from office_tools.reports import NUMBER
from office_tools.sweeping import KINDS

ACTION_HEAD = ["since", "action", "key", "item", "class", "rule"]
LINE_HEAD = ["month", "line", "class", "quantity", "charge"]
MOMENT = re.compile(r"\d{4}-\d\d-\d\dT\d\d:\d\d:\d\d\.\d{3}Z", re.ASCII)
ITEM = re.compile(r"v:(null|[1-9][0-9]{0,19})|u:[1-9][0-9]{0,19}", re.ASCII)
REFUSED = re.compile(r"forecast: refused ([1-9][0-9]{0,2})", re.ASCII)


class NoForecast(Exception):
    """What of a text is not as the program forecasts."""


class Action(typing.NamedTuple):
    """An action that would be done; `storage_class` is where a transition goes, else empty."""
    since: str
    kind: str
    key: str
    item: str
    storage_class: str
    rule: str


class Line(typing.NamedTuple):
    """What the bucket would use in a month and a class; no charge if the month has no tariff."""
    month: str
    kind: str
    storage_class: str
    quantity: int
    charge: typing.Optional[int]


class Forecast(typing.NamedTuple):
    """Both tables, each in the order of the program."""
    actions: typing.List[Action]
    lines: typing.List[Line]


def action_of(row, place):
    """A row of the first table."""
    if len(row) != 6 or not MOMENT.fullmatch(row[0]) or row[1] not in KINDS or not row[2] or not ITEM.fullmatch(row[3]):
        raise NoForecast(f"row {place} is not an action")
    if (row[3][0] == "u") != (row[1] == "abort") or (row[4] in TARGETS if row[1] == "transition" else not row[4]) is False:
        raise NoForecast(f"row {place}: {row[1]} of {row[3]} with the class '{row[4]}'")
    return Action(*row)


def line_of(row, place):
    """A row of the second table."""
    if len(row) != 5 or not MONTH.fullmatch(row[0]) or row[1] not in LINES or row[2] not in CLASSES:
        raise NoForecast(f"row {place} is not a line of a month")
    if not NUMBER.fullmatch(row[3]) or row[3] == "0" or row[4] and not NUMBER.fullmatch(row[4]):
        raise NoForecast(f"row {place}: the quantity is '{row[3][:40]}', the charge '{row[4][:40]}'")
    return Line(*row[:3], int(row[3]), int(row[4]) if row[4] else None)


def read_forecast(text: str) -> Forecast:
    """The forecast whose two tables this text has, whole."""
    try:
        rows = list(csv.reader(io.StringIO(text, newline=""), strict=True))
    except csv.Error as fault:
        raise NoForecast(f"it is not CSV: {fault}") from None
    if rows[:1] != [ACTION_HEAD]:
        raise NoForecast(f"row 1 is not '{','.join(ACTION_HEAD)}'")
    if rows.count([]) != 1 or not text.endswith("\n"):
        raise NoForecast("there are not two tables with one empty line between them: it is cut short, or something follows")
    middle = rows.index([])
    if rows[middle + 1:middle + 2] != [LINE_HEAD]:
        raise NoForecast(f"row {middle + 2} is not '{','.join(LINE_HEAD)}'")
    actions = [action_of(row, place) for place, row in enumerate(rows[1:middle], 2)]
    for one, two, place in zip(actions, actions[1:], range(3, middle + 1)):
        if two.since < one.since:
            raise NoForecast(f"row {place} is of a moment before that of the row above")
    return Forecast(actions, [line_of(row, place) for place, row in enumerate(rows[middle + 2:], middle + 3)])


def forecast(program: str, folder: str, bucket: str, until: str, document: dict) -> Forecast:
    """What a configuration would do to a bucket until the beginning of a day, by the program over the journal in a folder.

    Status 5 if the program refuses the configuration, the bucket or the day, 9 if it does not know how to forecast, else 2 if it fails.
    """
    sent = json.dumps(document, ensure_ascii=False, separators=(",", ":")).encode()
    try:
        done = subprocess.run([program, "forecast", bucket, until], cwd=folder, input=sent, capture_output=True, check=False)
    except OSError as fault:
        raise Stop(2, f"{program} is not started: {fault.strerror}") from None
    note = done.stderr.decode("utf-8", "replace").strip()
    if done.returncode == 14 and (found := REFUSED.fullmatch(note)):
        raise Stop(5, f"the forecast is refused: {refused(int(found[1]))}")
    if done.returncode == 1:
        raise Stop(9, f"{program} knows no forecast: it ended with exit code 1")
    if done.returncode != 0:
        raise Stop(2, f"no forecast: {program} ended with exit code {done.returncode}{f': {note}' if note else ''}")
    try:
        return read_forecast(done.stdout.decode())
    except UnicodeDecodeError:
        raise Stop(2, "the forecast is not one of the program: not UTF-8") from None
    except NoForecast as fault:
        raise Stop(2, f"the forecast is not one of the program: {fault}") from None
