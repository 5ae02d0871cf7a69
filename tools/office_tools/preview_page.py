"""The HTML of what a proposed configuration would do to a bucket, for lifecycle; it looks like that of usage-page."""
import html

from office_tools.entries import CLASSES
from office_tools.page import cells, grouped, money, share, table, whole_page
from office_tools.preview import Preview, about, both, by_day, day_before, difference, gib, sums
from office_tools.statement import Unit
from office_tools.sweeping import KINDS


def charged(charge, unit):
    """A charge in the unit of the page, or why there is none."""
    return "no tariff" if charge is None else f"-{money(-charge, unit)}" if charge < 0 else money(charge, unit)


def bar(charge, largest):
    return "" if charge is None else share(charge, largest)


def days_of(preview):
    """The proposed actions by day, each day with a bar that is full for the day with most."""
    days = by_day(preview.proposed.forecast.actions)
    if not days:
        return '<p id="days">The proposed configuration does nothing up to then.</p>\n'
    most = max(sum(it.values()) for it in days.values())
    rows = [cells([day], [*(grouped(it[kind]) for kind in KINDS), share(sum(it.values()), most)]) for day, it in days.items()]
    return table("days", "Actions by day", ["day"], [*KINDS, "of the day with most"], rows,
                 cells(["total"], [*(grouped(sum(it[kind] for it in days.values())) for kind in KINDS), ""]))


def stored_of(preview):
    """The bytes by class now and on the last day, with bars that are full for the class with most."""
    sides = (preview.stored, preview.present.stored, preview.proposed.stored)
    if None in sides:
        return '<p id="stored">The bytes by class are not shown: the day is too near.</p>\n'
    most, last = max((count for side in sides for count in side.values()), default=0), day_before(preview.until)
    names = [it for it in CLASSES if any(side.get(it) for side in sides)]
    rows = [cells([it], [text for side in sides for text in (gib(side.get(it, 0)), share(side.get(it, 0), most))]) for it in names]
    head = [text for name in ("now", "present", "proposed") for text in (f"{name}, GiB", "of the most")]
    return table("stored", f"Bytes billed by class, now and on {last}", ["class"], head, rows,
                 cells(["all classes"], [text for side in sides for text in (gib(sum(side.values())), "")]))


def charges_of(preview, unit):
    """The charges by month of both, each with a bar that is full for the largest."""
    rows = both(preview)
    if all(None in row[1:3] for row in rows):
        return f'<p id="charges">{"No charges are shown: no tariff holds in these months." if rows else "Nothing is charged."}</p>\n'
    largest = max((it for row in rows for it in row[1:3] if it is not None), default=0)
    found = [cells([month], [charged(present, unit), bar(present, largest), charged(proposed, unit), bar(proposed, largest),
                             charged(difference(present, proposed), unit)]) for month, present, proposed, _ in rows]
    present, proposed = sums(rows)
    name = html.escape(unit.name)
    return table("charges", "Charges by month", ["month"], [f"present, {name}", "of the largest", f"proposed, {name}", "of the largest", f"difference, {name}"],
                 found, cells(["all months"], [charged(present, unit), "", charged(proposed, unit), "", charged(difference(present, proposed), unit)]))


def page_of(preview: Preview, unit: Unit) -> str:
    """The page, whole."""
    told = "".join(f"<p>{html.escape(it)}</p>\n" for it in about(preview))
    return whole_page(f"Preview of bucket {preview.bucket}",
                      f"<h1>Preview of bucket {html.escape(preview.bucket)}</h1>\n{told}"
                      + charges_of(preview, unit) + stored_of(preview) + days_of(preview))
