"""What a proposed configuration would do to a bucket, beside the one that is there: two forecasts, and text about them; for lifecycle."""
import argparse
import datetime
import re
import textwrap
import time
import typing
import urllib.parse

from office_tools.asking import Stop, reason
from office_tools.entries import CLASSES
from office_tools.forecasting import Action, Forecast, forecast
from office_tools.months import moment
from office_tools.reports import KINDS as LINES
from office_tools.running import Running
from office_tools.scratch import Scratch, program_of
from office_tools.statement import Unit
from office_tools.sweeping import KINDS
from office_tools.tail import read_tail

NOTHING = {"Rules": []}  # a configuration that does nothing
DAY_MS, GIB = 86_400_000, 2 ** 30
AT_ONCE = "at once"  # in the place of a day: what is due or overdue when the configuration is set
LAST_DAY = "2099-12-31"
Stored = typing.Optional[typing.Dict[str, int]]


class Side(typing.NamedTuple):
    """The forecast of a configuration, and the bytes that are billed by class on its last day, if they are known."""
    forecast: Forecast
    stored: Stored


class Preview(typing.NamedTuple):
    """Both sides up to the beginning of a day, and the bytes that are billed now."""
    bucket: str
    journal: str
    as_of: str
    until: str
    stored: Stored
    present: Side
    proposed: Side


# ---- days

def day_of(text: str) -> datetime.date:
    """A day, as 2027-01-31."""
    if not re.fullmatch(r"\d{4}-\d\d-\d\d", text, re.ASCII):
        raise ValueError(text)
    return datetime.date.fromisoformat(text)


def until_of(text: str) -> str:
    """The day among the words of a tool up to which is forecast."""
    try:
        if day_of(text).isoformat() <= LAST_DAY:
            return text
    except ValueError:
        pass
    raise argparse.ArgumentTypeError(f"'{text}' is not a day as 2027-01-31, up to {LAST_DAY}")


def a_year_on(today: datetime.date) -> str:
    """The first day after this month and the next twelve."""
    year, month = divmod(today.year * 12 + today.month + 12, 12)
    return min(f"{year:04}-{month + 1:02}-01", LAST_DAY)


def day_before(text: str) -> str:
    return (day_of(text) - datetime.timedelta(days=1)).isoformat()


def day_after(text: str) -> str:
    return (day_of(text) + datetime.timedelta(days=1)).isoformat()


# ---- what is made of the tables

def by_day(actions: typing.List[Action]) -> typing.Dict[str, typing.Dict[str, int]]:
    """How many actions of each kind there are on each day. Each is due at a midnight; what is due at once is not."""
    found = {}
    for it in actions:
        day = it.since[:10] if it.since.endswith("T00:00:00.000Z") else AT_ONCE
        found.setdefault(day, dict.fromkeys(KINDS, 0))[it.kind] += 1
    return found


def stored_between(one: Forecast, two: Forecast, day: str) -> typing.Dict[str, int]:
    """The bytes that are billed by class on a day: what the quantity of its month grows by, over the milliseconds of a day.

    `one` ends with the beginning of the day, `two` with its end. Both have the same actions before; an action that is due at once may
    be some milliseconds later in one of them, so this is rounded.
    """
    found = {}
    for sign, lines in ((1, two.lines), (-1, one.lines)):
        for it in lines:
            if it.month == day[:7] and it.kind == "storage":
                found[it.storage_class] = found.get(it.storage_class, 0) + sign * it.quantity
    return {name: round(found[name] / DAY_MS) for name in CLASSES if name in found}


def charges(found: Forecast) -> typing.Dict[str, typing.Dict[str, typing.Optional[int]]]:
    """By month what it comes to by the kind of line; nothing in the place of a charge if the month has no tariff."""
    months = {}
    for it in found.lines:
        month = months.setdefault(it.month, dict.fromkeys(LINES, 0))
        month[it.kind] = None if it.charge is None or month[it.kind] is None else month[it.kind] + it.charge
    return months


def total(month: typing.Optional[typing.Dict[str, typing.Optional[int]]]) -> typing.Optional[int]:
    """What a month comes to: 0 if nothing is used in it; nothing if it has no tariff."""
    return None if month and None in month.values() else sum((month or {}).values())


def both(preview: Preview) -> typing.List[tuple]:
    """Of each month in which a side uses something: the month, what it comes to by both sides, and the charges of the proposed one."""
    present, proposed = charges(preview.present.forecast), charges(preview.proposed.forecast)
    return [(it, total(present.get(it)), total(proposed.get(it)), proposed.get(it) or dict.fromkeys(LINES, 0))
            for it in sorted({*present, *proposed})]


def sums(rows: typing.List[tuple]) -> typing.Tuple[typing.Optional[int], typing.Optional[int]]:
    """What all months come to by both sides; nothing if one of them has no tariff."""
    return tuple(None if any(row[place] is None for row in rows) else sum(row[place] for row in rows) for place in (1, 2))


# ---- the program over a copy of the journal

def present_in(program, folder, bucket):
    """The configuration of the bucket in a folder; one that does nothing if it has none."""
    office = Running(program, folder)
    try:
        status, found = office.ask("GET", f"/buckets/{urllib.parse.quote(bucket, safe='')}/lifecycle")
    finally:
        office.end()
    if status == 404 and found.get("error") == "NoRules":
        return NOTHING
    if status != 200:
        raise Stop(5, f"bucket {bucket}: {reason(status, found)}")
    return found


def preview_of(program: str, journal: str, bucket: str, document: dict, until: str) -> Preview:
    """Forecasts both configurations up to the beginning of a day, over a copy of the journal. Nothing is changed."""
    program, last = program_of(program), read_tail(journal).last
    with Scratch(journal) as copy:
        # The program forecasts from the later of its clock and the last entry.
        as_of = moment(max(last, time.time_ns() // 1_000_000))
        before, this = day_before(until), day_after(as_of[:10])

        def made(which, day):
            return forecast(program, copy.folder, bucket, day, which)

        def side(which):
            whole = made(which, until)
            return Side(whole, stored_between(made(which, before), whole, before) if before >= this else None)
        present = present_in(program, copy.folder, bucket)
        proposed = side(document)
        stored = stored_between(made(NOTHING, this), made(NOTHING, day_after(this)), this) if day_after(this) <= LAST_DAY else None
        return Preview(bucket, journal, f"{as_of[:19]}Z", until, stored, side(present), proposed)


# ---- the text

def columns(rows: typing.List[typing.List[str]], texts: int = 1) -> str:
    """Rows in columns, the first row as a head with a line under it; the first `texts` columns are left-aligned."""
    widths = [max(len(row[place]) for row in rows) for place in range(len(rows[0]))]

    def line(row):
        return "  ".join(f"{it:<{width}}" if place < texts else f"{it:>{width}}" for place, (it, width) in enumerate(zip(row, widths))).rstrip() + "\n"
    return line(rows[0]) + "-" * (sum(widths) + 2 * len(widths) - 2) + "\n" + "".join(map(line, rows[1:]))


def gib(count: typing.Optional[int]) -> str:
    """Bytes in GiB, rounded to three digits."""
    return f"{count / GIB:,.3f}"


def money(charge: typing.Optional[int], unit: Unit) -> str:
    return "no tariff" if charge is None else f"-{unit.text(-charge)}" if charge < 0 else unit.text(charge)


def difference(present: typing.Optional[int], proposed: typing.Optional[int]) -> typing.Optional[int]:
    return None if present is None or proposed is None else proposed - present


def about(preview: Preview) -> typing.List[str]:
    """What a reader has to know of the figures, in sentences."""
    return [f"From a copy of {preview.journal}, as of {preview.as_of}. Nothing was changed.",
            f"Up to {preview.until} 00:00 UTC. It holds if only lifecycle actions happen to the bucket until then. Both configurations are set now, so what is "
            "overdue is done at once.",
            f"The first month counts from its beginning, the last one up to {preview.until}."]


def days_text(preview):
    """The table of the proposed actions by day."""
    days = by_day(preview.proposed.forecast.actions)
    if not days:
        return "The proposed configuration does nothing up to then.\n"
    rows = [["day", *KINDS], *([day, *(f"{count:,}" for count in it.values())] for day, it in days.items())]
    return columns([*rows, ["total", *(f"{sum(it[kind] for it in days.values()):,}" for kind in KINDS)]])


def stored_text(preview):
    """The table of the bytes that are billed by class, before and after."""
    sides = (preview.stored, preview.present.stored, preview.proposed.stored)
    if None in sides:
        return "The bytes by class are not shown: the day is too near.\n"
    names = [it for it in CLASSES if any(side.get(it) for side in sides)]
    last = day_before(preview.until)
    rows = [["GiB billed", "now", f"{last}, present", f"{last}, proposed"], *([it, *(gib(side.get(it, 0)) for side in sides)] for it in names)]
    return columns([*rows, ["all classes", *(gib(sum(side.values())) for side in sides)]])


def charges_text(preview, unit):
    """The table of the charges by month."""
    rows = both(preview)
    if all(None in row[1:3] for row in rows):
        return "No charges are shown: no tariff holds in these months.\n" if rows else "Nothing is charged.\n"
    cells = [[f"month, {unit.name}", "present", "proposed", "difference", *(f"of it {it}" for it in LINES)]]
    for month, present, proposed, parts in rows:
        cells.append([month, money(present, unit), money(proposed, unit), money(difference(present, proposed), unit), *(money(parts[it], unit) for it in LINES)])
    present, proposed = sums(rows)
    return columns([*cells, ["all months", money(present, unit), money(proposed, unit), money(difference(present, proposed), unit), *[""] * len(LINES)]])


def text_of(preview: Preview, unit: Unit) -> str:
    """The preview as text for a person."""
    told = "\n".join(textwrap.fill(it, 110) for it in about(preview))
    return (f"What the proposed configuration would do to bucket {preview.bucket}\n{told}\n\n"
            + days_text(preview) + "\n" + stored_text(preview) + "\n" + charges_text(preview, unit))
