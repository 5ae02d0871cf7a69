"""Does in a running server of the program what the event notifications of an object store say: puts, deletes and removals."""
import http.server
import json
import os
import select
import sys

from office_tools.asking import Office, Stop, add_server, run, words_of
from office_tools.entries import CLASSES
from office_tools.events import Event, by_sequencer
from office_tools.following import Follow, events_in
from office_tools.idmap import IdMap, add_map
from office_tools.store import Refused, add_store, store_of
from office_tools.tail import sample_of

EPILOG = """\
FILE has events as SQS, SNS, EventBridge or MinIO deliver them: one JSON text, or one a line, with or without
their envelopes; - is standard input. A file of lines may grow: the tool keeps the place that it reached, and
leaves an incomplete last line for the next run. --listen answers POST at 127.0.0.1, as a webhook of MinIO or a
proxy before SNS sends it: 200 after the events are done and kept, 503 if the program gave no reply. --queue
takes the messages of an SQS queue, up to 100 at a time, and deletes those whose events are kept.

  ObjectCreated                      a put
  ObjectRemoved:DeleteMarkerCreated  a delete
  ObjectRemoved:Delete               the removal of the version with that id, whose number is in --map
  lifecycle events                   counted and ignored: the program does what is due by its own rules (act-all)

S3's events have no class and no tags. --class names the class to assume (MinIO's events have one). --ask-store
asks the store for both, also if an event says that tags changed.

Events of one key are done in the order of their sequencers, each once. A repeated event is ignored, and in a
bucket without versions a late one too. Dead letters get these, each once with its reason, and the other events
go on:

  - a late version in a bucket with versions, because it cannot be put below a newer one. To bring it in, remove
    the versions of its key in the program, and import that key with import-inventory --anew; then --retry
  - what is not an event
  - what the program refuses

Dead letters are in the map, and are written to --dead at the end of each run. --retry tries them again.

If the tool or the server is stopped, give the same command again. The map has what was asked for last. The tool
asks again with the same tokens (Office-Token), so nothing is done twice. The program keeps the last 10,000
replies with a token, and the tool asks for 100 events at a time, so others may use these buckets meanwhile. If
an older copy of the journal was restored, numbers in the map may be those of other versions. The tool sees that
in --journal and ends with 3. Then give --restored once, with the events since that copy and no earlier ones.

  follow --server http://127.0.0.1:8080 --journal office-data/journal --map photos.map --bucket photos events.jsonl
  follow --server http://127.0.0.1:8080 --journal office-data/journal --map photos.map --listen 9200
  aws sqs receive-message --queue-url URL | follow --server http://127.0.0.1:8080 --journal office-data/journal --map photos.map -

exit codes:
  0  done
  1  usage error
  2  the server or the store gave no reply, or its disk failed or is full; the same command continues
  3  a file, the journal or the map cannot be read, or is not what it should be
  4  the map or the dead letters could not be written
  5  done; some events are dead letters
"""
SLICE = 10_000
REPLIES = 10  # of a queue, with up to 10 messages each, whose events are put in order together


class Lines:
    """A file of events, read from the place that was reached before."""

    def __init__(self, path, ids):
        self.path, self.ids = os.path.realpath(path), ids
        try:
            self.file = open(path, "rb", buffering=0)
            about = os.fstat(self.file.fileno())
        except OSError as fault:
            raise Stop(3, f"{path}: {fault.strerror}") from None
        self.name, self.offset = f"{about.st_dev}:{about.st_ino}", 0
        row = ids.do("select file, offset, before from files where path = ?", self.path).fetchone()
        if row and row[0] == self.name and row[1] <= about.st_size and sample_of(self.file, row[1]) == row[2]:
            self.offset = row[1]

    def slices(self):
        """The values of the next lines, up to SLICE of them at a time, and where they end."""
        while True:
            data = self.read()
            whole = data[:data.rfind(b"\n") + 1]
            lines = whole.split(b"\n")[:-1][:SLICE]
            values = values_of(lines) if lines else None
            if values is None:
                # One JSON text over several lines, or one without a line's end.
                if (document := self.document(data)) is not None:
                    yield [document]
                elif lines:
                    raise Stop(3, f"{self.path}: neither JSON nor lines of JSON, or cut in the middle; nothing of it was done")
                elif data:
                    print(f"follow: {self.path}: its last line is not whole; it is left for the next run", file=sys.stderr)
                return
            self.offset += sum(len(it) + 1 for it in lines)
            yield values

    def read(self):
        try:
            self.file.seek(self.offset)
            return self.file.read()
        except OSError as fault:
            raise Stop(3, f"{self.path}: {fault.strerror}") from None

    def document(self, data):
        try:
            found = json.loads(data)
        except (ValueError, RecursionError):
            return None
        self.offset += len(data)
        return found

    def keep(self):
        """Keeps the place, once all before it is done."""
        before = sample_of(self.file, self.offset)
        self.ids.do("insert or replace into files values (?, ?, ?, ?)", self.path, self.name, self.offset, before)


def values_of(lines):
    """What each line says; nothing if the first one is not JSON. A later one that is not JSON comes as its text."""
    found = []
    for line in lines:
        try:
            found.append(json.loads(line))
        except (ValueError, RecursionError):
            if not found:
                return None
            found.append(line.decode("utf-8", "replace"))
    return found


def do(work, values):
    """Does the events in what was sent."""
    work.resume()
    work.states.clear()
    found = list(events_in(values))
    events = iter(by_sequencer([it for it in found if isinstance(it, Event)]))
    work.run([next(events) if isinstance(it, Event) else it for it in found])


def follow_file(work, path):
    """Does the events of a file, from the place that was reached before."""
    lines = Lines(path, work.ids)
    for values in lines.slices():
        do(work, values)
        lines.keep()


def follow_input(work):
    """Does what comes on standard input, whenever nothing more comes for a while."""
    held = b""
    while True:
        ready = select.select([0], [], [], 0.5 if held.endswith(b"\n") else None)[0]
        data = os.read(0, 1 << 20) if ready else None
        held += data or b""
        if data and len(held) < 1 << 23:
            continue
        values = values_of(held.split(b"\n")[:-1]) if held.endswith(b"\n") else None
        if data == b"":
            try:
                return do(work, values if values is not None else [json.loads(held)] if held.strip() else [])
            except ValueError:
                raise Stop(3, "standard input: neither JSON nor lines of JSON, or cut in the middle") from None
        if values is not None:
            do(work, values)
            held = b""


def listen(work, given):
    """Answers a webhook until the tool is stopped."""
    class Handler(http.server.BaseHTTPRequestHandler):
        protocol_version, log_message = "HTTP/1.1", staticmethod(lambda *_: None)

        def say(self, status):
            self.send_response(status)
            self.send_header("Content-Length", "0")
            self.end_headers()

        def do_GET(self):
            self.say(200)

        def do_POST(self):
            try:
                found = json.loads(self.rfile.read(int(self.headers.get("Content-Length") or 0)))
            except (ValueError, RecursionError):
                return self.say(400)
            try:
                do(work, [found])
                work.write_dead(given.dead)
            except Stop as stop:
                print(f"follow: {stop.args[1]}", file=sys.stderr, flush=True)
                self.say(503)
                if stop.args[0] != 2:
                    raise
                return None
            return self.say(200)
        do_HEAD = do_GET
    try:
        door = http.server.HTTPServer(("127.0.0.1", given.listen), Handler)
    except OSError as fault:
        raise Stop(2, f"port {given.listen}: {fault.strerror}") from None
    door.handle_error = lambda *_: None
    door.serve_forever()


def queue(work, store, url):
    """Does the messages of a queue until there is none, and deletes each once its events are kept."""
    def ask(operation, **fields):
        try:
            return store.call("sqs", operation, QueueUrl=url, **fields)
        except Refused as why:
            raise Stop(2, f"the queue refuses {operation}: {why}") from None
    while messages := together(ask):
        do(work, [{"Messages": messages}])
        for place in range(0, len(messages), 10):
            entries = [{"Id": str(nth), "ReceiptHandle": it["ReceiptHandle"]} for nth, it in enumerate(messages[place:place + 10])]
            ask("delete-message-batch", Entries=entries)


def together(ask):
    """The next messages of a queue, of several replies: a queue does not keep the order, and events of one key are put in order here."""
    messages = []
    for _ in range(REPLIES):
        more = ask("receive-message", MaxNumberOfMessages=10, WaitTimeSeconds=1).get("Messages")
        if not more:
            break
        messages += more
    return messages


def given_words():
    words = words_of("follow", __doc__, EPILOG)
    add_server(words)
    words.add_argument("--journal", metavar="FILE", required=True, help="the journal of the server")
    add_map(words)
    words.add_argument("--bucket", metavar="NAME", action="append", default=[],
                       help="follow this bucket; may be given again; all if not given")
    words.add_argument("--class", metavar="CLASS", dest="storage_class", default="STANDARD", choices=CLASSES,
                       help="the class of objects whose event names none; STANDARD if not given")
    words.add_argument("--nearest", metavar="CLASS", choices=CLASSES, help="put objects of a class that the office does not have into this one")
    words.add_argument("--dead", metavar="FILE", help="the dead letters, a line of JSON each; the map and .dead if not given")
    words.add_argument("--retry", action="store_true", help="try the dead letters again first")
    words.add_argument("--restored", action="store_true", help="the journal is an older copy: forget what the program no longer has")
    words.add_argument("--listen", metavar="PORT", type=int, help="answer a webhook at this port of 127.0.0.1")
    words.add_argument("--queue", metavar="URL", help="take the messages of this SQS queue")
    words.add_argument("--ask-store", action="store_true", help="ask the store for the class and the tags of objects")
    add_store(words)
    words.add_argument("files", metavar="FILE", nargs="*", help="events, JSON or lines of JSON; - is standard input")
    given = words.parse_args()
    if not (given.files or given.retry or given.restored or given.listen is not None or given.queue):
        words.error("no events are named: give a FILE, --listen, --queue or --retry")
    given.dead = given.dead or f"{given.map}.dead"
    return given


def main():
    given = given_words()
    office, store = Office(given.server), store_of(given) if given.ask_store or given.queue else None
    work = Follow(given, office, IdMap(given.map, office.name), store if given.ask_store else None)
    work.ids.alone()
    if given.restored:
        work.forget()
    work.check_journal()
    try:
        work.resume()
        if given.retry:
            # What is not an event stays among the dead letters.
            work.run(by_sequencer([it for it in work.dead() if isinstance(it, Event)]))
        for path in given.files:
            if path == "-":
                follow_input(work)
            else:
                follow_file(work, path)
        if given.queue:
            queue(work, store, given.queue)
        if given.listen is not None:
            listen(work, given)
    finally:
        tell(work, given, work.write_dead(given.dead))
    return 5 if work.counts["dead letters"] else 0


def tell(work, given, left):
    """Says what was done."""
    counts = ", ".join(f"{kind} {count}" for kind, count in sorted(work.counts.items())) or "no event"
    mapped = "".join(f"; {name} put as {given.nearest}: {count}" for name, count in sorted(work.mapped.items()))
    kept = f"; dead letters in all {left}, in {given.dead}" if left else ""
    print(f"follow: {counts}{mapped}{kept}", file=sys.stderr)


def command() -> None:
    """Runs the tool with the words of the process, and ends with its exit code."""
    run("follow", main)
