"""The HTML of what a month used and costs, for usage-page."""
import html
import typing

from office_tools.bills import Posted
from office_tools.entries import CLASSES
from office_tools.months import gib_months
from office_tools.reports import TIERED
from office_tools.statement import NOT_BILLED, Statement, Unit
from office_tools.tariffs import taken

STYLE = """\
:root { color-scheme: light dark; font: 16px/1.4 system-ui, sans-serif }
body { margin: 2rem auto; max-width: 72rem; padding: 0 1rem }
table { border-collapse: collapse; margin: 2rem 0; width: 100% }
caption { font-size: 1.2rem; font-weight: 600; padding: .5rem 0; text-align: left }
th, td { border-bottom: 1px solid #8886; padding: .3rem .6rem; text-align: left; overflow-wrap: anywhere }
th.n, td.n { font-variant-numeric: tabular-nums; text-align: right; white-space: nowrap }
tfoot th, tfoot td { border-top: 2px solid; font-weight: 600 }
meter { width: 8rem }
.state { border-left: .3rem solid #8886; padding-left: .8rem }
.tiers { margin: 2rem 0 -1.5rem }
.warning { border-left: .3rem solid #c60; padding-left: .8rem }
@media print { body { margin: 0; max-width: none } }
"""


def grouped(number: int) -> str:
    """A number with its exact value beside it, for readers that are programs."""
    return f'<data value="{number}">{number:,}</data>'


def money(charge: int, unit: Unit) -> str:
    """A charge in the unit of the page."""
    text = unit.text(charge)
    return f'<data value="{text.replace(",", "")}">{text}</data>'


def months(byte_ms, month):
    """Byte-milliseconds in GiB-months."""
    value = gib_months(byte_ms, month)
    whole, _, rest = value.partition(".")
    return f'<data value="{value}">{int(whole):,}.{rest}</data>'


def share(charge: int, total: int) -> str:
    """How much of the total a charge is, as a bar."""
    permille = charge * 1000 // total if total else 0
    return f'<meter min="0" max="1000" value="{permille}">{permille / 10}%</meter>'


def share_text(charge, total):
    """The same as a number."""
    permille = charge * 1000 // total if total else 0
    return f"{permille // 10}.{permille % 10}%"


def cells(texts: typing.List[str], numbers: typing.List[str]) -> str:
    """A row: texts that are escaped here, and numbers that are spelled already."""
    first, *rest = (html.escape(it) for it in texts)
    return (f'<tr><th scope="row">{first}</th>' + "".join(f"<td>{it}</td>" for it in rest)
            + "".join(f'<td class="n">{it}</td>' for it in numbers) + "</tr>\n")


def table(name: str, caption: str, texts: typing.List[str], numbers: typing.List[str], rows: typing.List[str], foot: str) -> str:
    """A table with columns of texts and of numbers; `foot` is its last row."""
    head = "".join(f'<th scope="col">{it}</th>' for it in texts) + "".join(f'<th scope="col" class="n">{it}</th>' for it in numbers)
    return (f'<table id="{name}">\n<caption>{html.escape(caption)}</caption>\n<thead><tr>{head}</tr></thead>\n'
            f"<tbody>\n{''.join(rows)}</tbody>\n<tfoot>{foot}</tfoot>\n</table>\n")


def sums(names, of, report, meters):
    """By name what was stored, early, moved and charged; `of` is the place of the name in a meter's bucket and class."""
    found = {name: [0, 0, 0, 0] for name in names}
    for key, it in meters.items():
        for place, quantity in enumerate(it):
            found[key[of]][place] += quantity
    for line in report.lines:
        found[(line.bucket, line.storage_class)[of]][3] += line.charge
    return found


def summary(name, caption, column, found, statement, unit):
    """A table of sums by name, with their own sum last."""
    month, total = statement.month, statement.report.total

    def numbers(stored, early, moves, charge):
        return [months(stored, month), months(early, month), grouped(moves), money(charge, unit), share(charge, total)]
    rows = [cells([it], numbers(*of)) for it, of in found.items()]
    whole = [sum(it[place] for it in found.values()) for place in range(4)]
    return table(name, caption, [column], ["stored, GiB-months", "early, GiB-months", "moves", f"charge, {html.escape(unit.name)}", "share"],
                 rows, cells(["total"], numbers(*whole)))


def about(statement, unit, buckets):
    """What is above the tables: the state of the month, its charge, warnings, and what is not billed here."""
    state, words = statement.state()
    warnings = "".join(f'<p class="warning">Warning: {html.escape(it)}</p>\n' for it in statement.warnings())
    as_of = f' data-as-of="{statement.as_of}"' if statement.as_of else ""
    return (f'<p class="state" id="state" data-state="{state}"{as_of}><strong>{state.capitalize()}.</strong> {html.escape(words)}</p>\n{warnings}'
            f'<p>Charge: <strong id="total">{money(statement.report.total, unit)}</strong> {html.escape(unit.name)}. Buckets with use: {buckets}.</p>\n'
            "<p>A GiB-month is 2<sup>30</sup> bytes for the days of this month. Early is what is owed for objects that left their class too early. "
            "A price is for a GiB-month, and of transitions for 1,000 moves. "
            f"Not billed here: {NOT_BILLED}.</p>\n")


def price_of(line, unit):
    """The price of a line, or a word where it has several."""
    return "in tiers" if line.price == TIERED else money(line.price, unit)


def tiers_of(statement, unit):
    """Of each line in tiers its share of the whole charge as a bar, and under it what each tier took."""
    month, total = statement.month, statement.report.total
    lines = [it for it in statement.report.lines if it.price == TIERED]
    if lines and statement.tariff is None:
        return ('<p class="state" id="tiers">The lines in tiers are charged exactly. What each tier took is not shown, because the tariff of this month '
                "is not known here: it was replaced, or not given.</p>\n")
    found = []
    for place, line in enumerate(lines, 1):
        parts = taken(line.quantity, statement.tariff.storage[line.storage_class], month)
        rows = [cells([f"{it.begin:,} to {it.upto:,}" if it.upto else f"above {it.begin:,}"],
                      [months(it.quantity, month), money(it.price, unit), money(it.charge, unit), share(it.charge, line.charge)]) for it in parts]
        about = html.escape(f"{line.bucket}, {line.kind}, {line.storage_class}")
        found.append(f'<p class="tiers">{about}: {share(line.charge, total)} {share_text(line.charge, total)} of the whole charge</p>\n'
                     + table(f"tiers-{place}", f"Tiers of {line.storage_class} (from {statement.tariff.first})", ["tier, GiB-months"],
                             ["taken, GiB-months", "price", f"charge, {html.escape(unit.name)}", "share of the line"], rows,
                             cells(["all tiers"], [months(line.quantity, month), "", money(line.charge, unit), ""])))
    return "".join(found)


def next_month(month):
    year, number = map(int, month.split("-"))
    return f"{year + number // 12:04}-{number % 12 + 1:02}"


def months_before(posted, statement, unit):
    """What the months before came to, from the first that was posted on: each with a bar, which is full for the largest of them and of this month."""
    if not posted:
        return '<p id="before">No month before this one was posted.</p>\n'
    found, largest, rows, month = {it.month: it for it in posted}, max([*(it.total for it in posted), statement.report.total]), [], posted[0].month
    while month < statement.month:
        it = found.get(month)
        rows.append(cells([month], [grouped(it.bills), money(it.total, unit), share(it.total, largest)] if it else ["not posted", "", ""]))
        month = next_month(month)
    count, total = len({line.bucket for line in statement.report.lines}), statement.report.total
    return table("before", "Months before", ["month"], ["buckets", f"charge, {html.escape(unit.name)}", "of the largest"], rows,
                 cells([f"{statement.month} ({statement.state()[0]})"], [grouped(count), money(total, unit), share(total, largest)]))


def whole_page(title: str, body: str) -> str:
    """A page around this HTML. It has no script, and loads nothing."""
    return (f'<!DOCTYPE html>\n<html lang="en">\n<head>\n<meta charset="utf-8">\n'
            "<meta http-equiv=\"Content-Security-Policy\" content=\"default-src 'none'; style-src 'unsafe-inline'\">\n"
            '<meta name="viewport" content="width=device-width, initial-scale=1">\n'
            f"<title>{html.escape(title)}</title>\n<style>\n{STYLE}</style>\n</head>\n<body>\n{body}</body>\n</html>\n")


def page_of(statement: Statement, meters: dict, unit: Unit, before: typing.Optional[typing.List[Posted]] = None) -> str:
    """The page, whole; `before` is what was posted of the months before, oldest first."""
    month, report = statement.month, statement.report
    buckets = sorted({it for it, _ in meters}, key=str.encode)
    used = {it for _, it in meters}
    classes = [it for it in CLASSES if it in used] + sorted(used - set(CLASSES))
    lines = [cells([line.bucket, line.kind, line.storage_class], [grouped(line.quantity), price_of(line, unit), money(line.charge, unit)])
             for line in report.lines]
    by_bucket, by_class = (sums(names, of, report, meters) for of, names in enumerate((buckets, classes)))
    return whole_page(
            f"Storage in {month}", f'<h1>Storage in <time datetime="{month}">{month}</time></h1>\n'
            + about(statement, unit, len(buckets))
            + summary("buckets", "By bucket", "bucket", by_bucket, statement, unit)
            + summary("classes", "By storage class", "class", by_class, statement, unit)
            + table("lines", "Lines of the report", ["bucket", "line", "class"],
                    ["quantity (byte-milliseconds, moves)", "price", f"charge, {html.escape(unit.name)}"], lines,
                    cells(["total", "", ""], ["", "", money(report.total, unit)]))
            + tiers_of(statement, unit)
            + ("" if before is None else months_before(before, statement, unit)))
