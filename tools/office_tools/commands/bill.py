"""Prints what a month costs, for people: each line with GiB-months, price and charge, and whether the month is closed."""
import calendar

from office_tools.asking import add_server, run, words_of
from office_tools.buckets import add_names
from office_tools.files import write
from office_tools.months import gib_months, month_of
from office_tools.reports import TIERED
from office_tools.statement import NOT_BILLED, add_unit, asked, of_file

EPILOG = f"""\
All figures come from one reply of the program, the report of the month. --journal says whether the month is
closed, and which buckets are asked for overdue actions. Without it the buckets of the report are asked, and
those of --bucket and --buckets. The moment is of this machine's clock. --report prints the bill of a file that
month-end wrote.

--unit names the money, and how many units of the prices are one of it. With prices in millionths of a euro it
is EUR=1000000.

  GiB-month  2^30 bytes for all days of the month, rounded here to six digits; charges are exact
  early      what is owed for objects that left their class before its minimum duration
  in tiers   the class has several prices, each for a part of the quantity; usage-page shows the parts

Not billed here: {NOT_BILLED}.

Behind a proxy the server is https://LOGIN@office.example:8443. The tool asks for the password at a terminal, or
takes it from the environment (OFFICE_PASSWORD).

  bill --server http://127.0.0.1:8080 --journal office-data/journal --unit EUR=1000000 2026-11
  bill --report 2026-11-report.csv --unit EUR=1000000 2026-11

exit codes:
  0  done
  1  usage error
  2  the server gave no reply or an unknown one, or the tool was stopped
  3  a file could not be read
  4  the bill could not be written
  5  the program refused the month or a bucket, or the file is not a report
 10  no tariff is in force in the month
"""
HEAD = ("bucket", "item", "class", "quantity", "", "price", "charge")


def rows_of(statement, unit):
    """The lines of the bill, each a text for each column."""
    for line in statement.report.lines:
        if line.kind == "transitions":
            quantity, of = f"{line.quantity:,}", "moves"
            price = f"{unit.text(line.price)} per 1,000"
        else:
            whole, _, rest = gib_months(line.quantity, statement.month, 6).partition(".")
            quantity, of = f"{int(whole):,}.{rest}", "GiB-months"
            price = "in tiers" if line.price == TIERED else f"{unit.text(line.price)} each"
        yield line.bucket, line.kind, line.storage_class, quantity, of, price, unit.text(line.charge)


def bill_of(statement, unit):
    """The text of the bill."""
    year, number = map(int, statement.month.split("-"))
    state, about = statement.state()
    days = calendar.monthrange(year, number)[1]
    rows = [HEAD, *rows_of(statement, unit), ("total", "", "", "", "", "", f"{unit.text(statement.report.total)} {unit.name}")]
    widths = [max(len(row[place]) for row in rows) for place in range(len(HEAD))]
    aligned = "<<<><>>"
    lines = ["  ".join(f"{text:{side}{width}}" for text, side, width in zip(row, aligned, widths)).rstrip() for row in rows]
    rule = "-" * max(map(len, lines))
    notes = [*statement.warnings(), f"Not billed here: {NOT_BILLED}."]
    body = [*lines[1:-1], rule] if statement.report.lines else ["(nothing was stored)"]
    return "\n".join([f"Object storage in {calendar.month_name[number]} {year} ({statement.month}-01 to {statement.month}-{days}, UTC)",
                      f"State: {state}. {about}", "", lines[0], rule, *body, lines[-1], "",
                      *(f"Warning: {it}" if place < len(notes) - 1 else it for place, it in enumerate(notes))]) + "\n"


def main():
    words = words_of("bill", __doc__, EPILOG)
    where = words.add_mutually_exclusive_group(required=True)
    add_server(where, required=False)
    where.add_argument("--report", metavar="FILE", help="the report of the month, as month-end writes it")
    add_names(words)
    add_unit(words)
    words.add_argument("--out", metavar="FILE", default="-", help="the file to write; standard output if not given")
    words.add_argument("month", metavar="MONTH", type=month_of, help="as 2026-11")
    given = words.parse_args()
    if given.report and (given.journal or given.bucket or given.buckets):
        words.error("--report takes all from its file")
    statement = of_file(given.report, given.month) if given.report else asked(given)
    write(bill_of(statement, given.unit), given.out)


def command() -> None:
    """Runs the tool with the words of the process, and ends with its exit code."""
    run("bill", main)
