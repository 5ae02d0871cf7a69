"""Does what is due by the lifecycle rules of some buckets, until nothing is due."""
import json

from office_tools.actions import add_log, open_log
from office_tools.asking import Office, Stop, add_server, run, say, words_of
from office_tools.buckets import add_names, names_of
from office_tools.running import Running
from office_tools.scratch import Scratch, program_of
from office_tools.sweeping import KINDS, Sweep, act_on_all, add_most, target_of

EPILOG = """\
Name the buckets with --bucket, with --buckets (a file, one name a line), or with --journal (all buckets of that
journal). You may combine these.

Each request does one action, the first that is due. It is durable once it is answered. An action takes effect
at the moment at which it was due. So you can give the same command at any time, also after a stop: nothing is
done twice. Run it each day, because a put, a delete, new tags or new rules come before what was due and not
done. --most bounds the actions of a bucket; the last line names the buckets that have more. A refused bucket is
reported, and the others go on.

--json prints a line for each action that was done. --log appends the same line to a file:

  {"bucket":"logs","key":"tmp/1","version":"3","upload":null,"kind":"remove","class":null,"marker":null,
   "since":"2026-11-05T00:00:00.000Z","rule":"gone"}

  kind    remove, transition, marker or abort          class   the target of a transition
  marker  the version of the new delete marker         upload  the number of an upload that was aborted
  since   the moment at which the action takes effect  rule    the id of the rule

FILE and FILE.state are synced before and after each action. If a run is stopped, the next run looks into the
journal and adds the line whose reply was lost. No line is missing or there twice. If another command changed
the bucket in between, that line has the kind `unknown`, and a note names the entry of the journal. Move FILE
away only while no run is at work.

--dry-run does nothing. With --program and --journal it prints all that is due: the lines that --json would
print. The program does the actions on a copy of the journal, which is removed at the end. The copy takes as
much room as the journal: in memory if it is small, else in the folder of temporary files (TMPDIR). Without
--program, --dry-run prints the next action of each bucket, as the server reports it.

Behind a proxy the server is https://LOGIN@office.example:8443. The tool asks for the password at a terminal, or
takes it from the environment (OFFICE_PASSWORD).

  act-all --server http://127.0.0.1:8080 --journal office-data/journal
  act-all --server http://127.0.0.1:8080 --journal office-data/journal --log actions.jsonl
  act-all --journal office-data/journal --program office --dry-run
  act-all --server http://127.0.0.1:8080 --bucket logs --dry-run
  act-all --run ./office --bucket logs

exit codes:
  0  nothing is due in any bucket; with --dry-run, each bucket was asked
  1  usage error
  2  the server or the program gave no reply or an unknown one, or its disk failed; the same command continues
  3  the names of the buckets could not be read
  4  standard output, the file of --log or the copy of --dry-run could not be written
  5  a bucket was refused; the others are done
  6  a bucket has more due than --most
"""


def show(office, sweep, name):
    """Prints the next action of one bucket."""
    status, found = office.ask("GET", target_of(name, "due"))
    if status != 200:
        return sweep.refuse(name, status, found)
    if found.get("action") not in (*KINDS, "none"):
        raise Stop(2, f"a reply is not one of the program: {json.dumps(found)[:80]}")
    return say(json.dumps({"bucket": name, **found}, ensure_ascii=False) + "\n")


def show_all(given, names):
    """Prints all that is due, by having the program do it on a copy of the journal. Returns the status."""
    sweep = Sweep("act-all --dry-run", names, json_lines=True)
    with Scratch(given.journal) as copy:
        office = Running(program_of(given.program), copy.folder)
        try:
            act_on_all(office, sweep, given.most)
        finally:
            office.end()
    return status_of(sweep)


def status_of(sweep):
    return 5 if sweep.refused else 6 if sweep.left else 0


def main():
    words = words_of("act-all", __doc__, EPILOG)
    asked = words.add_mutually_exclusive_group()
    add_server(asked, required=False)
    asked.add_argument("--run", metavar="PROGRAM", help="the program, over office-data in this folder, if no server runs")
    add_names(words)
    add_most(words)
    words.add_argument("--json", action="store_true", help="print a line of JSON for each action that is done")
    add_log(words)
    words.add_argument("--dry-run", action="store_true", help="do nothing: show all that is due (--program), or the next action of each bucket")
    words.add_argument("--program", metavar="PROGRAM", help="with --dry-run: the program, over a copy of the journal")
    given = words.parse_args()
    if given.program and not (given.dry_run and given.journal):
        words.error("--program goes with --dry-run and --journal")
    if bool(given.program) + bool(given.server) + bool(given.run) != 1:
        words.error("one of --server, --run and --dry-run with --program says who does it")
    names = names_of(given)
    if not names:
        raise Stop(1, "no bucket is named; --help says how")
    if given.dry_run and (given.log or given.json):
        raise Stop(1, "--dry-run does nothing that --log or --json could tell")
    if given.program:
        return show_all(given, names)
    log = open_log(given, target_of)
    office, sweep = Office(given.server) if given.server else Running(given.run), Sweep("act-all", names, log, given.json)
    if given.dry_run:
        for name in names:
            show(office, sweep, name)
        return 5 if sweep.refused else 0
    act_on_all(office, sweep, given.most)
    return status_of(sweep)


def command() -> None:
    """Runs the tool with the words of the process, and ends with its exit code."""
    run("act-all", main)
