"""The report of a month: its lines, read from the CSV of the program, and the same lines as a table of text."""
import csv
import io
import re
import typing

HEAD = ["bucket", "line", "class", "quantity", "price", "charge"]
KINDS = ("storage", "early", "transitions")
TIERED = "tiered"  # in the place of a price where the class has several tiers
# Digits of a number below 2^128; more are not read as a number at all.
NUMBER = re.compile(r"(0|[1-9][0-9]{0,38})", re.ASCII)


class NoReport(Exception):
    """What of a text is not as in a report of the program."""


class Line(typing.NamedTuple):
    """What a bucket owes for a class in the month; `price` is TIERED where the quantity went through several tiers."""
    bucket: str
    kind: str
    storage_class: str
    quantity: int
    price: typing.Union[int, str]
    charge: int


class Report(typing.NamedTuple):
    lines: list
    total: int

    def has_tiers(self) -> bool:
        """Whether a line went through several tiers."""
        return any(line.price == TIERED for line in self.lines)


def number(text: str, what: str, place: int) -> int:
    if not NUMBER.fullmatch(text):
        raise NoReport(f"line {place}: the {what} is '{text[:40]}'")
    return int(text)


def read_report(text: str) -> Report:
    """The report whose CSV this is, whole: docs/FORMATS.md, "Reports"."""
    try:
        rows = list(csv.reader(io.StringIO(text, newline=""), strict=True))
    except csv.Error as fault:
        raise NoReport(f"it is not CSV: {fault}") from None
    if rows[:1] != [HEAD]:
        raise NoReport(f"line 1 is not '{','.join(HEAD)}'")
    if len(rows) == 1 or rows[-1][:5] != ["", "total", "", "", ""] or len(rows[-1]) != 6 or not text.endswith("\n"):
        raise NoReport("the last line is not that of the total: it is cut short, or something follows")
    lines = []
    for place, row in enumerate(rows[1:-1], 2):
        if len(row) != 6 or row[1] not in KINDS or not row[0] or not row[2]:
            raise NoReport(f"line {place} is not a line of a report")
        quantity, price, charge = (it[0] if it == (TIERED, "price") and row[1] != "transitions" else number(*it, place)
                                   for it in zip(row[3:], HEAD[3:]))
        lines.append(Line(*row[:3], quantity, price, charge))
        if not lines[-1].quantity:
            raise NoReport(f"line {place}: the quantity is 0, and has no line")
    total = number(rows[-1][5], "total", len(rows))
    if total != sum(line.charge for line in lines):
        raise NoReport(f"the total is {total}, and the sum of the charges {sum(line.charge for line in lines)}")
    return Report(lines, total)


def text_of(report: Report) -> str:
    """The lines in columns, and last the total."""
    rows = [(line.bucket, line.kind, line.storage_class, line.quantity, line.charge) for line in report.lines]
    return "".join(f"{bucket:<24} {kind:<12} {name:<14} {quantity:>28} {charge:>16}\n"
                   for bucket, kind, name, quantity, charge in [*rows, ("", "total", "", "", report.total)])
