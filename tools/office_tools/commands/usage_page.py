"""Makes one HTML file of what a month used and costs, from a running server or from files."""
import csv
import io
import json
import typing

from office_tools.asking import Stop, add_server, run, words_of
from office_tools.bills import read_bills
from office_tools.buckets import add_names
from office_tools.files import write
from office_tools.months import gib_months, month_of
from office_tools.page import page_of
from office_tools.reports import NoReport, number
from office_tools.statement import add_unit, asked, is_closed, its_tariff, of_file
from office_tools.tail import read_tail
from office_tools.tariffs import NoTariffs, tariffs_in

EPILOG = """\
The page has the state of the month (open or closed), the moment of its figures, and a warning if lifecycle
actions are overdue. Then come what was stored, early deletions, moves and charges, by bucket and by class, and
each line of the report. It has no script, and loads nothing.

With --server all figures come from one reply, the report of the month, so they are of one moment. --journal
says whether the month is closed, and which buckets are asked for overdue actions. Without it the buckets of the
report are asked, and those of --bucket and --buckets. The moment is of this machine's clock.

With --report and --meters the page is made of the CSV of month-end and of that of usage, for the same month and
all buckets. They have to belong together: each quantity, each GiB-month and the total are checked. So take
those of a closed month. --journal says that it is closed. The same files give the same page.

  tiers         for each line in tiers a small table shows what each tier took. The tariff comes from GET
                /tariff, or from the file of --tariff, which has that reply. It is used only if it gives each
                price and charge of the report, because a closed month keeps the tariff of its closing
  --bills FILE  shows the months before as bars. FILE is bills.db, with the bills of closed months. It is
                copied, and stays as it is. If the month itself was posted, its bills have to come to the total
                of the report
  --unit        names the money, and how many units of the prices are one of it, as EUR=1000000

  usage-page --server http://127.0.0.1:8080 --journal office-data/journal --unit EUR=1000000 --out 2026-11.html 2026-11
  usage-page --server http://127.0.0.1:8080 --bills /srv/reports/office-data/bills.db --out 2026-11.html 2026-11
  usage-page --report 2026-11-report.csv --meters 2026-11.csv --out 2026-11.html 2026-11
  usage-page --report 2026-11-report.csv --meters 2026-11.csv --tariff tariffs.json --out 2026-11.html 2026-11

exit codes:
  0  the page is written
  1  usage error
  2  the server gave no reply or an unknown one
  3  a file could not be read
  4  the page could not be written; a file that was there is as it was
  5  a file is not what it should be, two files do not belong together, or the program refused
 10  no tariff is in force in the month
"""
HEAD = ["bucket", "month", "class", "gib_months", "early_gib_months", "moves", "byte_ms", "early_byte_ms"]
FIELDS = {"storage": "stored", "early": "early", "transitions": "moves"}


class Meter(typing.NamedTuple):
    """What a bucket used in a class: byte-milliseconds, early ones, and moves."""
    stored: int
    early: int
    moves: int


def text_of(path):
    try:
        with open(path, encoding="utf-8", newline="") as file:
            return file.read()
    except OSError as fault:
        raise Stop(3, f"{path}: {fault.strerror}") from None
    except ValueError:
        raise Stop(5, f"{path}: not UTF-8") from None


def read_meters(text, month):
    """The meters of a month by bucket and class, from the CSV of usage."""
    try:
        rows = list(csv.reader(io.StringIO(text, newline=""), strict=True))
    except csv.Error as fault:
        raise NoReport(f"it is not CSV: {fault}") from None
    if rows[:1] != [HEAD] or not text.endswith("\n"):
        raise NoReport(f"line 1 is not '{','.join(HEAD)}'" if rows[:1] != [HEAD] else "its last line is cut short")
    found = {}
    for place, row in enumerate(rows[1:], 2):
        if len(row) != len(HEAD) or not row[0] or not row[2]:
            raise NoReport(f"line {place} is not a line of meters")
        if row[1] != month:
            raise NoReport(f"line {place} is of the month '{row[1][:40]}'")
        moves, stored, early = (number(*it, place) for it in zip(row[5:], HEAD[5:]))
        if row[3:5] != [gib_months(it, month) for it in (stored, early)]:
            raise NoReport(f"line {place}: the GiB-months are not those of the byte-milliseconds")
        if (row[0], row[2]) in found:
            raise NoReport(f"line {place}: bucket {row[0]} has {row[2]} twice")
        found[row[0], row[2]] = Meter(stored, early, moves)
    return found


def compare(report, meters):
    """The first quantity that is one of the report and another one of the meters ends all."""
    of_report = {}
    for line in report.lines:
        if (line.bucket, line.storage_class, line.kind) in of_report:
            raise Stop(5, f"the report has {line.kind} of bucket {line.bucket} and {line.storage_class} twice")
        of_report[line.bucket, line.storage_class, line.kind] = line.quantity
    of_meters = {(*name, kind): quantity for name, it in meters.items()
                 for kind, quantity in zip(("storage", "early", "transitions"), it) if quantity}
    for name in [*of_report, *of_meters]:
        one, other = of_report.get(name, 0), of_meters.get(name, 0)
        if one != other:
            raise Stop(5, f"the report and the meters do not belong together: {name[2]} of bucket {name[0]} and {name[1]} is "
                       f"{one} in the report and {other} in the meters")


def read(path, reader):
    try:
        return reader(text_of(path))
    except NoReport as fault:
        raise Stop(5, f"{path}: {fault}") from None


def meters_of(report):
    """The meters of a report, whose lines have all of them that are not 0."""
    found = {}
    for line in report.lines:
        it = found.get((line.bucket, line.storage_class), Meter(0, 0, 0))
        found[line.bucket, line.storage_class] = it._replace(**{FIELDS[line.kind]: line.quantity})
    return found


def of_files(given):
    """The statement and the meters of two files."""
    statement = of_file(given.report, given.month)
    meters = read(given.meters, lambda text: read_meters(text, given.month))
    compare(statement.report, meters)
    if given.tariff:
        try:
            statement = statement._replace(tariff=its_tariff(statement.report, tariffs_in(json.loads(text_of(given.tariff))), given.month))
        except (ValueError, RecursionError, NoTariffs) as fault:
            raise Stop(5, f"{given.tariff}: not the reply to GET /tariff: {fault}") from None
    if given.journal:
        statement = statement._replace(is_closed=is_closed(given.month, read_tail(given.journal)))
    return statement, meters


def posted_before(path, statement):
    """What the months before that of a statement came to. The month itself, if it was posted, has to come to the statement's total."""
    posted = read_bills(path)
    for it in posted:
        if it.month == statement.month and it.total != statement.report.total:
            raise Stop(5, f"the report and the bills do not belong together: {it.month} is {statement.report.total} in the report and {it.total} in {path}")
    return [it for it in posted if it.month < statement.month]


def main():
    words = words_of("usage-page", __doc__, EPILOG)
    where = words.add_mutually_exclusive_group(required=True)
    add_server(where, required=False)
    where.add_argument("--report", metavar="FILE", help="the report of the month, as month-end writes it")
    words.add_argument("--meters", metavar="FILE", help="with --report: the meters of the month, as usage writes them")
    words.add_argument("--tariff", metavar="FILE", help="with --report: the reply to GET /tariff, for lines in tiers")
    words.add_argument("--bills", metavar="FILE", help="the bills of closed months (bills.db), for a bar for each month before")
    add_names(words)
    add_unit(words)
    words.add_argument("--out", metavar="FILE", default="-", help="the page to write; standard output if not given")
    words.add_argument("month", metavar="MONTH", type=month_of, help="as 2026-11")
    given = words.parse_args()
    if bool(given.report) != bool(given.meters) or given.tariff and not given.report:
        words.error("--report and --meters go together, and --tariff goes with them")
    if given.report:
        statement, meters = of_files(given)
    else:
        statement = asked(given)
        meters = meters_of(statement.report)
    before = posted_before(given.bills, statement) if given.bills else None
    write(page_of(statement, meters, given.unit, before), given.out)


def command() -> None:
    """Runs the tool with the words of the process, and ends with its exit code."""
    run("usage-page", main, (4, "stopped; nothing was written"))
