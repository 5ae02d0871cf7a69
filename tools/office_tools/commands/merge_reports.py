"""Merges the reports of several offices for one month into the report that one office with all their buckets would give."""
import csv
import io
import os

from office_tools.asking import Stop, run, words_of
from office_tools.files import write
from office_tools.reports import HEAD, TIERED, NoReport, read_report

EPILOG = """\
Each REPORT is a CSV that month-end wrote, or the reply to GET /months/MONTH/report. A report does not have its
month: give reports of one month. Each bucket has to be in one office only, and give each file once. The lines
are put in the order of a report. The last line is the sum of all charges, however large it is. The file is
written whole or not at all.

The sum is exact, whatever tariffs the offices have: a charge belongs to one line, and a line to one bucket. For
a bucket in two offices it would not be exact, because the quantity of a class would go through the tiers twice.

  merge-reports --out 2026-11-report.csv office1/2026-11-report.csv office2/2026-11-report.csv office3/2026-11-report.csv

exit codes:
  0  done
  1  usage error
  3  a file could not be read
  4  the file could not be written
  5  a file is not a report, or a bucket is in two of them
"""


def read(path):
    try:
        with open(path, encoding="utf-8", newline="") as file:
            return read_report(file.read())
    except OSError as fault:
        raise Stop(3, f"{path}: {fault.strerror}") from None
    except ValueError:
        raise Stop(5, f"{path}: not UTF-8") from None
    except NoReport as fault:
        raise Stop(5, f"{path}: {fault}") from None


def lines_of(paths):
    """The lines of all reports in the order of a report. Status 5 if a bucket is in two of them."""
    files, found = {}, []
    for place, path in enumerate(paths):
        for line in read(path).lines:
            files.setdefault(line.bucket, {}).setdefault(place, []).append(line)
            found.append(line)
    for bucket in sorted(files, key=str.encode):
        of = files[bucket]
        if len(of) > 1:
            raise Stop(5, f"bucket {bucket} is in {paths[min(of)]} and in {paths[max(of)]}{tiered_twice(of.values())}")
    return sorted(found, key=lambda line: line.bucket.encode())  # lines of a bucket stay in their order


def tiered_twice(reports):
    """Which lines of a bucket are those of two offices with tiers, in words; its lines by office are given."""
    prices = {}
    for lines in reports:
        for name in {(line.kind, line.storage_class) for line in lines}:
            prices.setdefault(name, []).append([line.price for line in lines if (line.kind, line.storage_class) == name])
    told = ", ".join(f"{kind} of {name}" for (kind, name), of in sorted(prices.items()) if len(of) > 1 and any(TIERED in it for it in of))
    return f"; the charges of {told} do not add up, because each went through the tiers by itself" if told else ""


def main():
    words = words_of("merge-reports", __doc__, EPILOG)
    words.add_argument("--out", metavar="FILE", default="-", help="the file to write; standard output if not given")
    words.add_argument("report", metavar="REPORT", nargs="+", help="the report of an office")
    given = words.parse_args()
    real = [os.path.realpath(it) for it in given.report]
    for place, path in enumerate(given.report):
        if real[place] in real[:place]:
            raise Stop(1, f"{path} is given twice")
    lines, text = lines_of(given.report), io.StringIO()
    table = csv.writer(text, lineterminator="\n")
    table.writerow(HEAD)
    table.writerows(lines)
    table.writerow(["", "total", "", "", "", sum(line.charge for line in lines)])
    write(text.getvalue(), given.out)


def command() -> None:
    """Runs the tool with the words of the process, and ends with its exit code."""
    run("merge-reports", main, (4, "stopped; nothing was written"))
