"""Ends a month on a running server: does what is due, closes the month, keeps its report in two files, and posts its bills."""
import os

from office_tools.actions import add_log, open_log
from office_tools.asking import Office, Stop, add_server, number_in, reason, run, say, text_in, words_of
from office_tools.buckets import add_names, names_of
from office_tools.files import write
from office_tools.months import month_of
from office_tools.posting import Office as Bills
from office_tools.reports import NoReport, read_report, text_of
from office_tools.statement import tariffs_now
from office_tools.sweeping import Sweep, act_on_all, add_most, target_of
from office_tools.tail import read_tail
from office_tools.tariffs import in_force

EPILOG = """\
1. It asks the program to close the month. If the month is not over, an earlier month is open, or no tariff is in force, it stops and
   has changed nothing.
2. It does what is due in the named buckets, as act-all does. If lifecycle actions kept the month open, it closes it then.
3. It writes MONTH-report.csv, exactly as the program reports it, and the same lines in columns to MONTH-report.txt. It prints both
   names.
4. With --bill it posts the bills of the month.

A closed month is final: its report and its prices never change. The last note has the first month of the tariff
with which the month was closed; for a month that was closed before, it needs --journal.

You can give the same command again at any time, also after a stop: it accepts a closed month, and writes
missing files. It leaves a file with other content as it is (exit code 4).

Name the buckets with --bucket, with --buckets (a file, one name a line), or with --journal (all buckets of that
journal). You may combine these. A bucket that is not named may keep the month open, and is then reported.

--log appends a line for each action to a file, as act-all does.

--bill PROGRAM posts the bills with that program, one for each bucket. The server has the lock of its journal,
so the program works on a copy: FOLDER/office-data/journal, made from --journal, and renewed if it lacks the
month's closing. The bills are in FOLDER/office-data/bills.db, a database of SQLite. A month is posted once; the
same command again changes nothing. Name the same FOLDER each month. If no server runs, `office bill MONTH`
posts the bills.

Behind a proxy the server is https://LOGIN@office.example:8443. The tool asks for the password at a terminal, or
takes it from the environment (OFFICE_PASSWORD). LOGIN has to be an operator.

  month-end --server http://127.0.0.1:8080 --journal office-data/journal 2026-11
  month-end --server http://127.0.0.1:8080 --journal office-data/journal --log actions.jsonl 2026-11
  month-end --server http://127.0.0.1:8080 --buckets names --folder /srv/reports 2026-11
  month-end --server http://127.0.0.1:8080 --journal office-data/journal --folder /srv/reports --bill office 2026-11

exit codes:
  0  the month is closed, both files are there, and with --bill the bills are posted
  1  usage error
  2  the server gave no reply or an unknown one, or its disk failed; the same command continues
  3  the names of the buckets could not be read
  4  a file could not be written
  5  the program refused a bucket (the month is closed, the files and the bills are there), or it refused the month itself
 11  the month is closed and both files are there, but the bills are not posted; the same command continues
 13  the month is closed and both files are there, but other bills of it were posted before; they stay
  If the month is not closed, no file is written:
  6  the month is not over (refusal 84)
  7  lifecycle actions of the month are not done (85)
  8  an earlier month has to be closed first (87)
 10  no tariff is in force in the month (88)
"""


def folder_of(text):
    if not os.path.isdir(text):
        raise Stop(4, f"{text}: no folder")
    return text


def kept_open(month, found, sweep):
    """The status, and in words what keeps the month from closing; nothing where it is another refusal."""
    error = found.get("error")
    if error == "MonthNotOver":
        return 6, f"{month} is not over: it ends at {text_in(found, 'end')}"
    if error == "DueActions":
        what = f"upload {number_in(found, 'upload')}" if "upload" in found else f"version {text_in(found, 'version')}"
        bucket = text_in(found, "bucket")
        then = (f"name it too: --bucket {bucket}" if bucket not in sweep.names else
                "the same command continues" if bucket in sweep.left else "the bucket was changed, or refused; see the notes before")
        return 7, (f"{month} is not closed: in bucket {bucket} a lifecycle action that stands in the month is not done, "
                   f"first on {what} of the key {found.get('key')!r}; {then}")
    if error == "EarlierMonthOpen":
        return 8, f"{month} is not closed: {text_in(found, 'month')} has to be closed first"
    if error == "NoTariff":
        return 10, f"{month} is not closed: no prices are set for it (PUT /tariff)"
    return None


def refuse(month, status, found, sweep):
    """Ends with what the program refused."""
    raise Stop(*kept_open(month, found, sweep) or (2 if status in (500, 501, 503) else 5, f"{month}: {reason(status, found)}"))


def close(office, month, sweep, due_is_fine=False):
    """Closes the month. Returns what to say then; nothing if actions that are due keep it open, and that is fine."""
    status, found = office.ask("POST", f"/months/{month}/close")
    if status == 200 and found == {"closed": month}:
        return f"{month} is closed"
    if status == 200:
        raise Stop(2, f"a reply is not one of the program: {found}")
    if due_is_fine and found.get("error") == "DueActions":
        return None
    if found.get("error") != "AlreadyClosed":
        refuse(month, status, found, sweep)
    return f"{month} was closed already"


def first_month(office, month):
    """The first month of the tariff in force in a month, as the program shows it now; nothing if there is none."""
    found = in_force(month, tariffs_now(office))
    return found and found.first


def with_tariff(office, given, said, before):
    """With which tariff the month was closed, in words; nothing if it is not known.

    `before` is its first month before the closing. No tariff is ever removed, so if it is the same afterwards it was the same then.
    """
    if given.journal:
        first = read_tail(given.journal).closed_with.get(given.month)
    else:
        first = before if said == f"{given.month} is closed" and before == first_month(office, given.month) else None
    return f"{said}, with the tariff from {first}" if first else said


def report_of(office, month, sweep):
    """The CSV of the month, and the report that it is."""
    status, found = office.ask_csv(f"/months/{month}/report")
    if status != 200:
        refuse(month, status, found, sweep)
    try:
        return found, read_report(found)
    except NoReport as fault:
        raise Stop(2, f"the report of {month} is not one of the program: {fault}") from None


def keep(text, path):
    """Writes a file that is missing, and leaves one that says the same."""
    try:
        if os.path.isfile(path):
            with open(path, "rb") as file:
                if file.read() != text.encode():
                    raise Stop(4, f"{path}: is there and says something else; move it away")
            return
    except OSError as fault:
        raise Stop(4, f"{path}: {fault.strerror}") from None
    write(text, path)


def main():
    words = words_of("month-end", __doc__, EPILOG)
    add_server(words)
    add_names(words)
    add_most(words)
    add_log(words)
    words.add_argument("--folder", metavar="FOLDER", default=".", help="where the files are written; here if not given")
    words.add_argument("--bill", metavar="PROGRAM", help="post the bills with this program, over a copy of the journal in FOLDER; needs --journal")
    words.add_argument("month", metavar="MONTH", type=month_of, help="as 2026-11")
    given = words.parse_args()
    names, folder = names_of(given), folder_of(given.folder)
    if not names:
        raise Stop(1, "no bucket is named; --help says how")
    if given.bill and not given.journal:
        raise Stop(1, "--bill needs --journal, which it copies")
    bills = Bills(given.bill, given.journal, folder) if given.bill else None
    log = open_log(given, target_of)
    office, sweep = Office(given.server), Sweep("month-end", names, log)
    before = None if given.journal else first_month(office, given.month)
    said = close(office, given.month, sweep, due_is_fine=True)
    try:
        act_on_all(office, sweep, given.most)
    except (Stop, KeyboardInterrupt):
        if said:
            sweep.note(said)
        raise
    sweep.note(with_tariff(office, given, said or close(office, given.month, sweep), before))
    found, report = report_of(office, given.month, sweep)
    for text, end in ((found, "csv"), (text_of(report), "txt")):
        path = os.path.join(folder, f"{given.month}-report.{end}")
        keep(text, path)
        say(path + "\n")
    if bills:
        bills.renew(given.month)
        sweep.note(f"{given.month}: {bills.post(given.month, report)}")
    return 5 if sweep.refused else 0


def command() -> None:
    """Runs the tool with the words of the process, and ends with its exit code."""
    run("month-end", main)
