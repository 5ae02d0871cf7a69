"""Writes what the buckets of a running server used in a month as CSV, in GiB-months."""
import csv
import datetime
import io
import sys
import urllib.parse

from office_tools.asking import Office, Stop, add_server, meters_in, reason, run, text_in, words_of
from office_tools.buckets import add_names, names_of
from office_tools.files import write
from office_tools.months import gib_months

EPILOG = """\
Name the buckets with --bucket, with --buckets (a file, one name a line), or with --journal (all buckets of that
journal). You may combine these.

  bucket, month, class
  gib_months            what was stored
  early_gib_months      what is owed for objects that left the class too early
  moves                 how many objects moved into the class
  byte_ms, early_byte_ms  the exact numbers of the program

A GiB-month is 2^30 bytes for the days of that month, rounded here to nine digits. Classes that were not used
are left out. `bill` and GET /months/MONTH/report have what the month costs. If one bucket is refused, no file
is written, so a file has the whole month. If the month is not over by this machine's clock, the file has the
use until now, and a note says so.

Behind a proxy the server is https://LOGIN@office.example:8443. The tool asks for the password at a terminal, or
takes it from the environment (OFFICE_PASSWORD). SSL_CERT_FILE names the certificate of the proxy if it is
self-signed.

  usage --server http://127.0.0.1:8080 --journal office-data/journal --out 2026-11.csv 2026-11
  usage --server https://clerk@office.example:8443 --buckets names --out 2026-11.csv 2026-11

exit codes:
  0  done
  1  usage error
  2  the server gave no reply or an unknown one, or the tool was stopped
  3  the names of the buckets could not be read
  4  the file could not be written
  5  the program refused the month or a bucket
"""
COLUMNS = ("bucket", "month", "class", "gib_months", "early_gib_months", "moves", "byte_ms", "early_byte_ms")


def rows_of(office, bucket, month):
    """The rows of one bucket."""
    parts = [urllib.parse.quote(it, safe="") for it in (bucket, month)]
    status, found = office.ask("GET", "/buckets/{}/meters/{}".format(*parts))
    if status != 200:
        raise Stop(5, f"bucket {bucket}: {reason(status, found)}")
    if (text_in(found, "bucket"), text_in(found, "month")) != (bucket, month):
        raise Stop(2, f"a reply is not one of the program: it is of bucket {found['bucket']} and {found['month']}")
    for name, stored, early, moves in meters_in(found):
        if stored or early or moves:
            months = [gib_months(byte_ms, month) for byte_ms in (stored, early)]
            yield (bucket, month, name, *months, moves, stored, early)


def main():
    words = words_of("usage", __doc__, EPILOG)
    add_server(words)
    words.add_argument("--out", metavar="FILE", default="-", help="the file to write; standard output if not given")
    add_names(words)
    words.add_argument("month", metavar="MONTH", help="as 2026-11")
    given = words.parse_args()
    names, office = names_of(given), Office(given.server)
    if not names:
        raise Stop(1, "no bucket is named; --help says how")
    text = io.StringIO()
    table = csv.writer(text, lineterminator="\n")
    table.writerow(COLUMNS)
    for name in names:
        table.writerows(rows_of(office, name, given.month))
    write(text.getvalue(), given.out)
    if given.month >= datetime.datetime.now(datetime.timezone.utc).strftime("%Y-%m"):
        print(f"usage: {given.month} is not over: this is its use until now", file=sys.stderr)


def command() -> None:
    """Runs the tool with the words of the process, and ends with its exit code."""
    run("usage", main)
