"""Shows and changes the lifecycle configuration of a bucket, and shows beforehand what a change would do and cost."""
import datetime
import difflib
import json
import sys
import urllib.parse

from office_tools.asking import Office, Stop, add_server, run, say, words_of
from office_tools.documents import MODE, as_printed, document_of, missing, without_missing
from office_tools.files import write
from office_tools.preview import NOTHING, a_year_on, preview_of, text_of, until_of
from office_tools.preview_page import page_of
from office_tools.refusals import in_words
from office_tools.statement import add_unit

EPILOG = """\
  get             prints the configuration
  set FILE        replaces the configuration by that of the file
  add FILE        adds the rules of the file after the present ones
  edit ID FILE    replaces the rule with this id by the one rule of the file
  remove ID       removes this rule; with the last one the configuration is dropped
  preview FILE    shows what the configuration of the file would do and cost; changes nothing, and needs no server

FILE is standard input (-), or one of these:

  - what `aws s3api get-bucket-lifecycle-configuration` or boto3 printed
  - a rule, or a list of rules
  - what `terraform show -json` printed of a state or a plan. If it has several configurations, the tool takes
    that of the bucket of this name, or the one of --resource

The tool drops ResponseMetadata and other fields around the rules, writes dates of other zones in UTC, and turns
the names of Terraform into those of the API. If the file has something that the program does not have, such as
another class or a date past 2099, the tool names it with its line and sends nothing. --leave-out sends the
rest: without these transitions and expirations, and without rules that then have no action.

Before it sends, the tool shows what changes and asks. --yes sends without asking. If nothing changes, nothing
is sent, because each configuration that is set makes the actions of the bucket due since then at the earliest.

preview, and --preview with a command that changes the configuration, show up to a day (--until)

  - the actions by day and kind
  - the billed bytes by class, now and on the last day
  - the charge of each month, beside that of the present configuration

The program computes it (`office forecast`) over a copy of the journal: --journal names that of the server, or a
copy of backup. If nothing else happens to the bucket, this is what will happen. The copy is removed at the end.
It takes as much room as the journal: in memory if it is small, else in the folder of temporary files (TMPDIR).
--page FILE writes the same as HTML, with bars.

  lifecycle --server http://127.0.0.1:8080 --bucket logs get
  lifecycle --bucket logs --journal office-data/journal --unit EUR=1000000 --page preview.html preview new-rules.json
  lifecycle --server http://127.0.0.1:8080 --bucket logs --journal office-data/journal --preview set new-rules.json
  aws s3api get-bucket-lifecycle-configuration --bucket logs | lifecycle --server http://127.0.0.1:8080 --bucket logs --yes set -

exit codes:
  0  done, or nothing changes
  1  usage error
  2  the server or the program gave no reply or an unknown one
  3  a file cannot be read, or is not a configuration
  4  standard output, the page or the copy could not be written
  5  the program refused it or the forecast, or there is no rule with this id
  6  the file has what the program does not have; nothing was sent
  7  nobody said yes; nothing was sent
  8  the configuration was changed meanwhile; nothing was sent
  9  the program of --program has no forecast; nothing was sent
"""
COUNTS = {"get": (), "set": ("FILE",), "add": ("FILE",), "edit": ("ID", "FILE"), "remove": ("ID",), "preview": ("FILE",)}


def present(office, target):
    """The present configuration; None if the bucket has none."""
    status, found = office.ask("GET", target)
    if status == 404 and found.get("error") == "NoRules":
        return None
    if status != 200:
        raise Stop(5, in_words(status, found, None))
    if not isinstance(found.get("Rules"), list) or not all(isinstance(it, dict) for it in found["Rules"]):
        raise Stop(2, "a reply is not one of the program")
    return found


def place_of(rules, name):
    """The place of the rule with this id."""
    for place, rule in enumerate(rules):
        if rule.get("ID") == name:
            return place
    known = ", ".join(repr(it.get("ID")) for it in rules) or "none"
    raise Stop(5, f"there is no rule {name!r}; there are: {known}")


def changed(given, before):
    """The configuration as it is to be; None if it is dropped."""
    if given.word in ("set", "add", "edit"):
        document = document_of(given.values[-1], given.bucket, given.resource)
    if given.word == "set":
        return document
    rules = list(before["Rules"]) if before else []
    mode = {MODE: before[MODE]} if before and MODE in before else {}
    if given.word == "add":
        return {**document, **mode, "Rules": rules + document["Rules"]}
    place = place_of(rules, given.values[0])
    if given.word == "remove":
        del rules[place]
        return {**mode, "Rules": rules} if rules else None
    if len(document["Rules"]) != 1:
        raise Stop(3, f"{given.values[1]}: {len(document['Rules'])} rules in place of one")
    rule = document["Rules"][0]
    rules[place] = {**rule, "ID": rule.get("ID") or given.values[0]}
    return {**mode, "Rules": rules}


def confirm(given):
    """Asks at a terminal whether to send."""
    if given.yes:
        return
    if given.values[-1] == "-" or not sys.stdin.isatty():
        raise Stop(7, "nothing was sent: give --yes where nobody can be asked")
    print(f"send this to bucket {given.bucket}? [y/N] ", end="", file=sys.stderr, flush=True)
    if sys.stdin.readline().strip().lower() not in ("y", "yes"):
        raise Stop(7, "nothing was sent")


def without_wrong(given, after):
    """The configuration without what the program does not have, which is named. Status 6 if the rest is not wanted, or is nothing."""
    wrong = list(missing(after or {}))
    for it in wrong:
        print(f"lifecycle: {it}", file=sys.stderr)
    if wrong and not given.leave_out:
        raise Stop(6, f"the program does not have {len(wrong)} of what the file says; nothing was sent (--leave-out sends the rest)")
    if not wrong:
        return after
    rules, after = len(after["Rules"]), without_missing(after)
    print(f"lifecycle: left out: these {len(wrong)}, and {rules - len(after['Rules'])} rules without another action", file=sys.stderr)
    if list(missing(after)) or not after["Rules"]:
        raise Stop(6, "nothing that could be sent is left; nothing was sent")
    return after


def show_preview(given, document):
    """The preview of a configuration as text, and as a page if one is wanted."""
    found = preview_of(given.program, given.journal, given.bucket, document, given.until or a_year_on(datetime.date.today()))
    if given.page:
        write(page_of(found, given.unit), given.page)
    return text_of(found, given.unit)


def change(given, office, target):
    """Shows what changes, asks, and sends."""
    before = present(office, target)
    after = without_wrong(given, changed(given, before))
    texts = [as_printed(it) if it is not None else [] for it in (before, after)]
    lines = list(difflib.unified_diff(*texts, f"{given.bucket} as it is", f"{given.bucket} as it will be", lineterm="", n=3))
    if not lines and (before is None) == (after is None):
        print("lifecycle: nothing changes, and nothing was sent", file=sys.stderr)
        return
    print(*lines, sep="\n", file=sys.stderr, flush=True)
    # A worker of the server is held by an open connection, and ends it after a minute.
    office.link.close()
    if given.preview:
        print("", show_preview(given, NOTHING if after is None else after), sep="\n", file=sys.stderr, flush=True)
    confirm(given)
    if present(office, target) != before:
        raise Stop(8, "the configuration was changed meanwhile; nothing was sent")
    status, found = office.ask("DELETE", target) if after is None else office.ask("PUT", target, after)
    if status != 200:
        raise Stop(2 if status in (500, 503) else 5, in_words(status, found, after))
    print(f"lifecycle: bucket {given.bucket}: rules {found.get('rules')}", file=sys.stderr)


def words_given():
    """The words of the command line. Status 1 if they do not go together."""
    words = words_of("lifecycle", __doc__, EPILOG)
    add_server(words, required=False)
    words.add_argument("--bucket", metavar="NAME", required=True, help="the bucket")
    words.add_argument("--resource", metavar="ADDRESS", help="of Terraform: the address of the configuration to take")
    words.add_argument("--leave-out", action="store_true", help="if the program does not have all, send the rest")
    words.add_argument("--yes", action="store_true", help="send without asking")
    words.add_argument("--preview", action="store_true", help="show what the change would do and cost, before the tool asks")
    words.add_argument("--journal", metavar="FILE", help="of a preview: the journal, or a copy of it")
    words.add_argument("--program", metavar="PROGRAM", default="office", help="of a preview: the program that forecasts; office if not given")
    words.add_argument("--until", metavar="DAY", type=until_of, help="of a preview: up to the beginning of this day; a year if not given")
    words.add_argument("--page", metavar="FILE", help="of a preview: write it as HTML too")
    add_unit(words)
    words.add_argument("word", metavar="WORD", choices=COUNTS, help=", ".join(COUNTS))
    words.add_argument("values", metavar="ID FILE", nargs="*", help="what the command takes")
    given = words.parse_intermixed_args()
    if len(given.values) != len(COUNTS[given.word]):
        words.error(f"{given.word} takes {' '.join(COUNTS[given.word]) or 'nothing'}")
    if given.word != "preview" and not given.server:
        words.error(f"{given.word} needs --server")
    if given.preview and given.word == "get" or (given.preview or given.word == "preview") and not given.journal:
        words.error("--preview goes with a change, and a preview needs --journal")
    return given


def main():
    given = words_given()
    if given.word == "preview":
        return say(show_preview(given, without_wrong(given, document_of(given.values[0], given.bucket, given.resource))))
    office, target = Office(given.server), f"/buckets/{urllib.parse.quote(given.bucket, safe='')}/lifecycle"
    if given.word != "get":
        return change(given, office, target)
    found = present(office, target)
    if found is None:
        raise Stop(5, f"bucket {given.bucket} has no configuration (404 NoRules)")
    return say(json.dumps(found, indent=4, ensure_ascii=False) + "\n")


def command() -> None:
    """Runs the tool with the words of the process, and ends with its exit code."""
    run("lifecycle", main, (7, "stopped"))
