"""Gives the buckets and meters of a running server in the text format of Prometheus: in a file for the textfile collector of the node
exporter (--out), or at http://127.0.0.1:PORT/metrics (--listen)."""
import argparse
import contextlib
import datetime
import http.server
import os
import sys
import time

from office_tools.actions import last_sweep
from office_tools.asking import Office, Stop, add_server, run, words_of
from office_tools.buckets import add_names, named
from office_tools.digests import copies
from office_tools.files import write
from office_tools.months import EPOCH, bounds_of, moment, ms_of
from office_tools.samples import Reading, seconds
from office_tools.tail import read_tail
from office_tools.version import version

VERSION = version()
EPILOG = """\
Name the buckets with --bucket, with --buckets (a file, one name a line), or with --journal (all buckets of that
journal). You may combine these. Of the journal each reading takes only the new entries.

All metrics are gauges. A meter of a month can fall, because a late action takes effect at the moment at which
it was due.

  office_up                                1 if the server replied, else 0 and no other sample
  office_scrape_duration_seconds, office_build_info
  office_bucket_up                         1 if the bucket could be read, 0 if it was refused
  office_bucket_versions, _rules, _uploads
  office_bucket_billed_bytes               bytes that are billed now, by class, from two readings of the meters; missing while
                                           the clock of the office does not move
  office_bucket_overdue_since_timestamp_seconds, office_overdue_since_timestamp_seconds, office_overdue_buckets
                                           lifecycle actions that are due and not done; the first two only if there are any
  office_month_storage_byte_seconds        bytes times seconds stored, by class and month (UTC)
  office_month_early_deletion_byte_seconds what is owed for objects that left their class too early
  office_month_transitions                 moves into the class
  office_month_charge, office_bucket_month_charge
                                           charge of this month so far, in units of the prices; only if prices are set
  office_limit, office_used                limits, and with --journal what is used of Buckets, Versions, Uploads, Rules (bytes),
                                           Tariffs and Journal (bytes), if no bucket was refused. The program does
                                           not report what is used of Parts and Names
  office_journal_size_bytes, office_last_command_timestamp_seconds, office_closed_until_timestamp_seconds
                                           with --journal; the last is the end of the last closed month
  office_last_sweep_timestamp_seconds      with --log, the file of act-all
  office_last_backup_timestamp_seconds     with --backups, the folder of backup

Samples of a month have the label month, for this month and the one before. GiB-months of a month of 30 days are
office_month_storage_byte_seconds / 2^30 / 2592000. A reading takes one connection of the server, and so one
worker, and waits at most 10 seconds for a reply. --listen serves loopback only, one reader at a time. A server
behind a proxy is https://LOGIN@office.example:8443, with the password in the environment (OFFICE_PASSWORD).

The tool keeps the place that it reached in the journal in a file in $OFFICE_STATE, $CACHE_DIRECTORY or
~/.cache/nogawhin.

  metrics --server http://127.0.0.1:8080 --journal office-data/journal --out /var/lib/node_exporter/office.prom
  metrics --server http://127.0.0.1:8080 --journal office-data/journal --log actions.jsonl --backups /backup/office --listen 9101

exit codes:
  0  the file was written
  1  usage error
  2  the server gave no reply or an unknown one, and the file says office_up 0; or the tool was stopped
  3  the names of the buckets could not be read
  4  the file could not be written; it is as it was
  5  the file was written, but a bucket was refused
  7  the port could not be used
"""


def port(text):
    if not (text.isascii() and text.isdigit() and 0 < int(text) < 65536):
        raise argparse.ArgumentTypeError(f"'{text}' is not a port")
    return int(text)


def of_files(reading, given, tail):
    """What the journal, the lines of act-all and the copies say."""
    if tail:
        reading.add("office_journal_size_bytes", tail.size)
        reading.add("office_last_command_timestamp_seconds", seconds(tail.last))
        if tail.first is not None:
            until = bounds_of(tail.closed)[1] if tail.closed else bounds_of(moment(tail.first)[:7])[0]
            reading.add("office_closed_until_timestamp_seconds", seconds(until))
    if given.log and (ended := last_sweep(given.log)):
        reading.add("office_last_sweep_timestamp_seconds", seconds(ms_of(f"{ended[:-1]}.000Z")))
    if given.backups and (found := copies(given.backups)):
        made = datetime.datetime.strptime(os.path.basename(found[-1]), "journal-%Y%m%dT%H%M%SZ")
        reading.add("office_last_backup_timestamp_seconds", int((made - EPOCH).total_seconds()))
    reading.add("office_build_info", 1, tools=VERSION)


def read(given):
    """One reading: its text, and the status and the notes that it ends with."""
    tail = read_tail(given.journal) if given.journal else None
    names, office, reading, begun = named(given, tail), Office(given.server, 10), Reading(), time.monotonic()
    try:
        with contextlib.closing(office.link):
            if not names:
                office.ask("GET", "/buckets/no-bucket-is-named")
            for name in names:
                reading.bucket(office, name)
            reading.now(office)
    except Stop as stop:
        down = Reading()
        down.add("office_up", 0)
        return down.text(), *stop.args
    reading.limits(tail)
    of_files(reading, given, tail)
    reading.add("office_up", 1)
    reading.add("office_scrape_duration_seconds", f"{time.monotonic() - begun:.6f}")
    return reading.text(), 5 if reading.refused else 0, "; ".join(reading.refused)


class Handler(http.server.BaseHTTPRequestHandler):
    timeout, given = 10, None

    def do_GET(self):
        if self.path != "/metrics":
            return self.send_error(404)
        try:
            text, _, note = read(self.given)
        except Stop as stop:
            text, note = None, stop.args[1]
        if note:
            print(f"metrics: {note}", file=sys.stderr, flush=True)
        if text is None:
            return self.send_error(500)
        self.send_response(200)
        self.send_header("Content-Type", "text/plain; version=0.0.4; charset=utf-8")
        self.end_headers()
        self.wfile.write(text.encode())

    log_message = staticmethod(lambda *_: None)


def main():
    words = words_of("metrics", __doc__, EPILOG)
    add_server(words)
    where = words.add_mutually_exclusive_group(required=True)
    where.add_argument("--out", metavar="FILE", help="the file to write; - is standard output")
    where.add_argument("--listen", metavar="PORT", type=port, help="the port to listen at")
    add_names(words)
    words.add_argument("--log", metavar="FILE", help="the file of act-all --log, for the time of the last sweep")
    words.add_argument("--backups", metavar="FOLDER", help="the folder of backup, for the time of the last copy")
    Handler.given = given = words.parse_args()
    if given.listen:
        try:
            http.server.HTTPServer(("127.0.0.1", given.listen), Handler).serve_forever()
        except OSError as fault:
            raise Stop(7, f"port {given.listen}: {fault.strerror}") from None
    text, status, note = read(given)
    write(text, given.out)
    if status:
        raise Stop(status, note)


def command() -> None:
    """Runs the tool with the words of the process, and ends with its exit code."""
    run("metrics", main)
