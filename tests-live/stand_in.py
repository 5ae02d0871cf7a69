#!/usr/bin/env python3
"""Stands in for the program where it is not built, for the cases of the tools: `init`, `run`, `report MONTH [--text]`, `bill MONTH`,
`forecast BUCKET DATE`, `serve --listen HOST:PORT`.

It answers a part of the requests of docs/FORMATS.md by the plain models of plain_office.py, plain_months.py and plain_tokens.py, and
keeps a journal in its folder.
"""
import datetime
import http.client
import http.server
import json
import re
import subprocess
import sys
import threading
import time
import urllib.parse

sys.dont_write_bytecode = True
from histories import ACT, CLOSE, KINDS, MAKE, TARIFF  # noqa: E402
from model_words import configuration, stack_of  # noqa: E402
from plain_forecast import forecast, forecast_csv  # noqa: E402
from plain_months import Months, entry_of, is_month, tariff_of  # noqa: E402
from plain_office import CLASSES, Refused, text_of  # noqa: E402
from plain_tokens import Kept, refuse_fields  # noqa: E402
from stand_in_bills import bill  # noqa: E402
from stand_in_journal import Journal, drawn, made  # noqa: E402
from stand_in_rules import moment_of, refuse, rules_of  # noqa: E402
from stand_in_slots import DamagedTail  # noqa: E402

STATUS = {**dict.fromkeys(("NoSuchBucket", "NoRules", "NoSuchKey", "NoSuchVersion", "NoSuchUpload", "NoRoute"), 404),
          **dict.fromkeys(("BucketExists", "NotEnabledBefore", "MonthNotOver", "DueActions", "AlreadyClosed", "EarlierMonthOpen", "NoTariff",
                           "IsMarker", "BadPart", "NoParts", "TokenReused"), 409), "BadMethod": 405, "Full": 507}
USAGE = ("usage: office init; run; serve --listen A [--workers N] [--connections K]; report MONTH [--text]; explain [--workers N]; gen NUMBER COUNT; "
         "bill MONTH; forecast BUCKET DATE\n")
NAME, DAY = re.compile(r"[a-z0-9][a-z0-9.-]{1,61}[a-z0-9]"), re.compile(r"20\d\d-(0[1-9]|1[0-2])-(0[1-9]|[12]\d|3[01])")
MADE = (0x01, 0x05, 0x09, 0x0B)  # kinds of commands whose reply is 201


class Office:
    """The plain models, and what keeps them."""

    def __init__(self):
        self.buckets, self.months, self.kept, self.last, self.turn = {}, Months(), Kept(), 0, threading.Lock()

    def now(self):
        """The moment of the clock, which does not fall."""
        return max(self.last, time.time_ns() // 1_000_000)

    def do(self, kind, about, now):
        """Does a command at its moment: the fields of its entry, and the reply."""
        if kind == TARIFF:
            return entry_of(about)[1:], lambda: self.months.set_tariff(about)
        if kind == CLOSE:
            year, month = map(int, about.split("-"))
            return year.to_bytes(2, "big") + bytes([month]), lambda: self.months.close(about, self.buckets, now)
        row = KINDS[kind - 1]
        if row is KINDS[MAKE]:
            return about.bucket_field(), lambda: row.does(self, about)
        return about.bucket_field() + row.fields(about), lambda: row.does(self.bucket(about.name), about)

    def bucket(self, name):
        return self.buckets[name] if name in self.buckets else refuse("NoSuchBucket", 81)

    def command(self, kind, about, tokens, now):
        """The reply to a command; it is kept in the journal where it is accepted."""
        refuse_fields(tokens, kind)
        token, (fields, done) = (tokens or [None])[0], self.do(kind, about, now)
        if token and (reply := self.kept.recall(token, kind, fields)) is not None:
            return reply, None
        reply = done()
        if reply == {"action": "none"}:
            return reply, None
        if token:
            self.kept.keep(token, kind, fields, reply, now)
        self.months.accepted(now)
        self.last = now
        written = entry_of(about)[0] if kind == TARIFF else kind
        return reply, made(now, written, fields, token)


# ---- what a message asks

def key_of(rest):
    try:
        key = urllib.parse.unquote("/".join(rest), errors="strict")
    except UnicodeDecodeError:
        key = ""
    return key if 1 <= len(key.encode()) <= 1024 else refuse("BadKey", 11)


def number_of(text, error, number):
    return int(text) if re.fullmatch("[1-9][0-9]{0,18}", text) else refuse(error, number)


def version_of(text):
    return text if text == "null" else str(number_of(text, "NoSuchVersion", 51))


def month_of(text):
    return text if is_month(text) else refuse("NotAMonth", 4)


def object_in(body):
    """The size, class and tags of a body."""
    if body.get("size", 0) > 5 << 40:
        refuse("BadSize", 13)
    if body.get("class", "STANDARD") not in CLASSES:
        refuse("UnsupportedClass", 43, name=body["class"])
    return {"size": body.get("size", 0), "storage_class": body.get("class", "STANDARD"), "tags": body.get("tags", {})}


# By method and word: the kind of the command, how many parts the path has behind the word, 9 for a key that may have more, and what it
# says. A query has no kind.
COMMANDS = {
    ("PUT", ""): (0x01, 0, lambda rest, body: {}),
    ("PUT", "versioning"): (0x02, 0, lambda rest, body: {"is_enabled": body["Status"] == "Enabled"}),
    ("PUT", "lifecycle"): (0x03, 0, lambda rest, body: rules_of(body)),
    ("DELETE", "lifecycle"): (0x04, 0, lambda rest, body: {}),
    ("PUT", "objects"): (0x05, 9, lambda rest, body: {"key": key_of(rest), **object_in(body)}),
    ("DELETE", "objects"): (0x06, 9, lambda rest, body: {"key": key_of(rest)}),
    ("DELETE", "versions"): (0x07, 9, lambda rest, body: {"version": version_of(rest[0]), "key": key_of(rest[1:])}),
    ("PUT", "tags"): (0x08, 9, lambda rest, body: {"version": version_of(rest[0]), "key": key_of(rest[1:]), "tags": body["tags"]}),
    ("POST", "uploads"): (0x09, 9, lambda rest, body: {"key": key_of(rest), **object_in(body)}),
    ("PUT", "parts"): (0x0A, 2, lambda rest, body: {"upload": number_of(rest[0], "NoSuchUpload", 60), "part": int(rest[1]), "size": body["size"]}),
    ("POST", "upload"): (0x0B, 1, lambda rest, body: {"upload": number_of(rest[0], "NoSuchUpload", 60)}),
    ("DELETE", "upload"): (0x0C, 1, lambda rest, body: {"upload": number_of(rest[0], "NoSuchUpload", 60)}),
    ("POST", "act"): (ACT, 0, lambda rest, body: {}),
}


def shown_upload(bucket, number):
    it = bucket.upload(number_of(number, "NoSuchUpload", 60))
    return {"class": it["class"], "key": it["key"], "started": text_of(it["started"]), "tags": it["tags"], "upload": int(number),
            "parts": [{"part": part, "size": size} for part, size in sorted(it["parts"].items())]}


def shown_rules(bucket):
    return json.loads(configuration(bucket.rules, bucket.mode)) if bucket.rules is not None else refuse("NoRules", 82)


QUERIES = {
    "": lambda it, name, *_: {"bucket": name, "rules": len(it.rules or []), "uploads": len(it.uploads), "versioning": it.versioning,
                              "versions": sum(len(stack["versions"]) for stack in it.stacks.values())},
    "lifecycle": lambda it, *_: shown_rules(it),
    "objects": lambda it, name, rest, now: stack_of(it, key) if (key := key_of(rest)) in it.stacks else refuse("NoSuchKey", 50),
    "upload": lambda it, name, rest, now: shown_upload(it, *rest),
    "meters": lambda it, name, rest, now: {"bucket": name, "classes": it.meters(month_of(rest[0]), now), "month": rest[0]},
    "due": lambda it, name, rest, now: it.shown(it.choice(now)),
}


def body_of(kind, sent):
    """The body of a command; that of a configuration goes as it stands, an empty one too."""
    try:
        return json.loads(sent if sent or kind == 0x03 else b"{}")
    except ValueError:
        return refuse("NotJson", 40) if kind == 0x03 else refuse("BadBody", 123, field="")


def meant(method, path, sent, now):
    """What a message asks: a kind and what it is about, or no kind and the question."""
    first, *parts = path.split("/")[1:]
    if (first, parts) == ("tariff", []) and method in ("PUT", "GET"):
        return (TARIFF, tariff_of(sent)) if method == "PUT" else (None, lambda office: office.months.shown())
    if first == "months" and len(parts) == 2 and parts[1] in ("close", "report"):
        month = month_of(parts[0])
        if (method, parts[1]) == ("POST", "close"):
            return CLOSE, month
        return None, lambda office: office.months.report(month, office.buckets, now) if method == "GET" else refuse("BadMethod", 122)
    if first != "buckets" or not parts or not parts[0]:
        return refuse("NoRoute", 121)
    name, word, rest = parts[0], (parts[1:2] or [""])[0], parts[2:]
    if not NAME.fullmatch(name):
        refuse("BadBucketName", 10)
    if (method, word) in COMMANDS:
        kind, count, says = COMMANDS[method, word]
        if (count != 9 and len(rest) != count) or (count == 9 and not "".join(rest)):
            refuse("NoRoute", 121)
        return kind, drawn(now, name, **says(rest, body_of(kind, sent)))
    if method != "GET" or word not in QUERIES:
        return refuse("NoRoute", 121)
    return None, lambda office: QUERIES[word](office.bucket(name), name, rest, now)


def replied(office, journal, method, path, tokens, sent):
    """The status, the content type and the body of the reply to a message."""
    with office.turn:
        now = office.now()
        try:
            kind, about = meant(method, path, sent, now)
            if kind is None:
                status, found = 200, about(office)
            else:
                found, entry = office.command(kind, about, tokens, now)
                if entry:
                    journal.append(entry)
                status = 201 if kind in MADE else 200
        except Refused as refusal:
            error, number, *more = refusal.args
            status, found = STATUS.get(error, 400), {"error": error, "number": number, **(more[0] if more else {})}
    if isinstance(found, str):
        return status, "text/csv", found.encode()
    return status, "application/json", json.dumps(found, sort_keys=True, separators=(",", ":"), ensure_ascii=False).encode()


class Handler(http.server.BaseHTTPRequestHandler):
    protocol_version = "HTTP/1.1"
    office = journal = None

    def answer(self):
        size = int(self.headers.get("Content-Length", 0))
        sent = self.rfile.read(size)
        if len(sent) < size:  # the client went away in the middle of its message
            self.close_connection = True
            return
        tokens = [it.strip(" \t") for it in self.headers.get_all("Office-Token", [])]
        status, kind, text = replied(self.office, self.journal, self.command, self.path, tokens, sent)
        self.wfile.write(f"HTTP/1.1 {status} {http.client.responses[status]}\r\ncontent-type: {kind}\r\n"
                         f"content-length: {len(text)}\r\n\r\n".encode() + text)

    do_GET = do_PUT = do_POST = do_DELETE = answer
    log_message = staticmethod(lambda *_: None)


class Input(Handler):
    """The same over standard input and output."""

    def __init__(self):
        self.rfile, self.wfile, self.close_connection = sys.stdin.buffer, sys.stdout.buffer, False
        while not self.close_connection:
            self.handle_one_request()


def report(office, month, is_table):
    """Prints what a month costs. Returns the status."""
    status, _, text = replied(office, Handler.journal, "GET", f"/months/{month}/report", [], b"")
    if status != 200:
        return sys.stderr.write("report: no tariff\n") and 10
    if is_table:
        rows = [row.split(",") for row in text.decode().splitlines()[1:]]
        text = "".join(f"{row[0]:<24} {row[1]:<12} {row[2]:<14} {row[3]:>28} {row[5]:>16}\n" for row in rows).encode()
    sys.stdout.buffer.write(text)
    return 0


def is_day(text):
    try:
        return bool(DAY.fullmatch(text) and datetime.date.fromisoformat(text))
    except ValueError:
        return False


def is_line(words):
    """Whether this is a command line."""
    if words[:1] == ["bill"]:
        return len(words) == 2 and is_month(words[1])
    if words[:1] == ["forecast"]:
        return len(words) == 3 and NAME.fullmatch(words[1]) and is_day(words[2])
    return words[:1] in (["run"], ["report"], ["explain"]) or words[:2] == ["serve", "--listen"]


def foretell(office, bucket, day):
    """Prints what the configuration on standard input would do. Returns the status."""
    sent, now = sys.stdin.buffer.read(), office.now()
    try:
        found = rules_of(body_of(0x03, sent)) if len(sent) <= 1_048_576 else refuse("BodyTooLarge", 124)
        until = moment_of(day) if moment_of(day) >= now else refuse("PastDay", 140)
        text = forecast_csv(*forecast(office.bucket(bucket), office.months, found, now, until))
    except Refused as refusal:
        return sys.stderr.write(f"forecast: refused {refusal.args[1]}\n") and 14
    sys.stdout.buffer.write(text.encode())
    return 0


class Door(http.server.ThreadingHTTPServer):
    daemon_threads = False  # the end of a server waits for its connections


def serve(address, *more):
    """Answers connections: K for each worker, and then saves a checkpoint, or until a signal."""
    (host, _, port), given = address.rpartition(":"), dict(zip(more[::2], more[1::2]))
    door = Door((host, int(port)), Handler)
    if "--connections" not in given:
        return door.serve_forever()
    for _ in range(int(given["--connections"]) * int(given.get("--workers", 4))):
        door.handle_request()
    door.server_close()
    return Handler.journal.close(Handler.office)


def main(words):
    if words == ["init"]:
        sys.stdout.write("already made\n" if Journal.path.exists() else "made\n")
        return Journal.make()
    if not is_line(words):
        return sys.stderr.write(USAGE) and 1
    try:
        Handler.office, Handler.journal = Office(), Journal()
        Handler.journal.replay(Handler.office, words[0] != "explain")
    except DamagedTail as fault:
        return sys.stderr.write(f"journal: damaged at {fault}\n") and 5
    except Refused:
        return 5  # what the office does not accept at its place is damage
    except BlockingIOError:
        return sys.stderr.write("store: failed\n") and 2
    except subprocess.CalledProcessError as fault:
        sys.stderr.write(fault.stderr)
        return fault.returncode
    if words[0] == "run":
        Input()
        Handler.journal.close(Handler.office)
    elif words[0] == "report":
        return report(Handler.office, [it for it in words[1:] if it != "--text"][0], "--text" in words)
    elif words[0] == "forecast":
        return foretell(Handler.office, *words[1:])
    elif words[0] == "bill":
        return bill(Handler.office, words[1], Handler.office.now())
    elif words[0] == "serve":
        serve(*words[2:])
    return 0


sys.exit(main(sys.argv[1:]))
