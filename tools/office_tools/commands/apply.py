"""Does at an object store what act-all did in the office: permanent removals, delete markers and aborts of uploads."""
import json
import sys

from office_tools.applying import ALREADY, DONE, LEFT, REFUSED, Apply, lines_of
from office_tools.asking import Stop, run, say, words_of
from office_tools.idmap import IdMap, add_map
from office_tools.store import add_store, store_of
from office_tools.sweeping import count_of

EPILOG = """\
FILE has the lines that `act-all --log FILE` or `month-end --log FILE` wrote. --map is the file of
import-inventory and follow; it has the store's id of each version. The tool uses boto3 or the aws command,
whichever is there, with the credentials that these find.

Without --yes nothing is changed: the tool looks up each line at the store, and prints what it would do. With
--yes it does it, and notes each line that is done in the map. You can give the same command at any time, also
after a stop: it skips these lines. --limit bounds the changes of one run.

  remove      removes the version with that id for good, if its size is that of the map. In a bucket without
              versions it removes the object, if nobody put another one since the action took effect
  marker      puts a delete marker, if the newest version at the store is the one that expired
  abort       aborts the upload
  transition  does nothing. A client cannot move a version to another class in a bucket with versions: a copy is
              a new version with a new age. Put the same rules at the store. `compare` shows where a class
              differs

What is already so at the store counts as done. If a check fails or the store refuses, the line is reported with
the reason, and the others go on. The next run tries it again. A put that comes between the check and a delete
marker is below that marker then: hidden, and not lost. A store that ages objects by the same rules does all
this by itself: then leave out --yes, and read what it did.

  act-all --server http://127.0.0.1:8080 --journal office-data/journal --log actions.jsonl
  apply --map photos.map --endpoint-url http://127.0.0.1:9000 actions.jsonl
  apply --map photos.map --endpoint-url http://127.0.0.1:9000 --yes --limit 500 --report done.jsonl actions.jsonl

exit codes:
  0  all is done, or could be done
  1  usage error
  2  the store gave no reply, or there is neither boto3 nor the aws command; the same command continues
  3  the lines or the map cannot be read, or are not what they should be
  4  standard output, the map or the report could not be written
  5  some lines were refused
  6  there is more to do than --limit
"""


def told(how, it, words, is_dry):
    """One line of the report."""
    about = {name: it[name] for name in ("bucket", "key", "version", "upload", "kind")}
    how = "would be done" if is_dry and how == DONE else how
    return json.dumps({"how": how, "what": words, **about}, ensure_ascii=False) + "\n"


def main():
    words = words_of("apply", __doc__, EPILOG)
    add_map(words)
    add_store(words)
    words.add_argument("--bucket", metavar="NAME", action="append", default=[], help="only lines of this bucket; may be given again")
    words.add_argument("--yes", action="store_true", help="change the store; without it nothing is changed")
    words.add_argument("--limit", metavar="N", type=count_of, default=1000, help="at most N changes; 1000 if not given")
    words.add_argument("--report", metavar="FILE", help="append what came of each line to this file, and not to standard output")
    words.add_argument("file", metavar="FILE", help="the lines of act-all --log")
    given = words.parse_args()
    lines, is_cut = lines_of(given.file)
    work = Apply(store_of(given), IdMap(given.map, create=False), not given.yes)
    try:
        report = open(given.report, "a", encoding="utf-8") if given.report else None
    except OSError as fault:
        raise Stop(4, f"{given.report}: {fault.strerror}") from None
    left = 0
    try:
        for text, it in lines:
            if given.bucket and it["bucket"] not in given.bucket:
                continue
            if work.counts[DONE] >= given.limit:
                left += 1
                continue
            how, what = work.do(text, it)
            work.counts[how] += 1
            write(report, given.report, told(how, it, what, work.is_dry))
    finally:
        names = {DONE: "would be done" if work.is_dry else DONE}
        counts = ", ".join(f"{names.get(how, how)} {work.counts[how]}" for how in (DONE, ALREADY, REFUSED, LEFT))
        more = f"; {left} more lines behind --limit" if left else ""
        dry = "; nothing was changed, --yes does it" if work.is_dry else ""
        print(f"apply: {counts}{' (transitions)' if work.counts[LEFT] else ''}{more}{dry}", file=sys.stderr)
    if is_cut:
        print(f"apply: {given.file}: its last line is not whole; it is left for the next run", file=sys.stderr)
    return 5 if work.counts[REFUSED] else 6 if left else 0


def write(report, path, text):
    if report is None:
        return say(text)
    try:
        report.write(text)
        report.flush()
    except OSError as fault:
        raise Stop(4, f"{path}: {fault.strerror}") from None


def command() -> None:
    """Runs the tool with the words of the process, and ends with its exit code."""
    run("apply", main)
