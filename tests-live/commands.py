"""Commands as they are sent and as entries of the journal, and the plain model that does them in the order of the
journal; for test_kills.py, test_disk_calls.py, test_lost_power.py and test_full_disk.py.

An `Ask` is a command: the bytes of its request, and its entry without the moment, spelled after docs/FORMATS.md
(histories.py). `Model` is the office of plain_office.py. `check_session` compares a session with the journal that it
left."""
import json
import typing

from histories import KINDS, Drawn, path_of
from model_words import configuration, stack_of, text
from plain_office import Bucket, Refused, text_of
from test_model import message

CREATE, VERSIONING, RULES, DROP, PUT, DELETE, DELETE_VERSION, TAGS, START, PART, COMPLETE, ABORT, ACT = range(1, 14)
MADE = (CREATE, PUT, START, COMPLETE)  # kinds whose reply is 201
# A rule by which each object is due since it was put, or since the rule was set if that is later: its date is long
# past.
GONE = {"id": "gone", "enabled": True, "prefix": "", "tags": [], "date": 1_577_836_800_000}
FAULT, NONE = (503, '{"error":"StoreFault","number":114}'), '{"action":"none"}'
NO_BUCKET, NO_KEY = (404, '{"error":"NoSuchBucket","number":81}'), (404, '{"error":"NoSuchKey","number":50}')


def about(name, **more):
    """What a command is about."""
    unused = {"key": "", "storage_class": "STANDARD", "tags": {}, "size": 0, "version": "null", "upload": 0, "part": 0,
              "is_enabled": False,
              "rules": [], "mode": "all_storage_classes_128K"}
    return Drawn(0, name, **{**unused, **more})


class Ask:
    """A command of a kind, with a token or none."""

    def __init__(self, kind, name, token=None, **more):
        self.kind, self.about, self.token, row = kind, about(name, **more), token, KINDS[kind - 1]
        it = self.about
        target = f"/buckets/{name}" + row.target.format(path=path_of(it.key), version=it.version, upload=it.upload,
                                                        part=it.part)
        self.sent = message(row.method, target, row.body(it), [token] if token else [])
        before = bytes([kind]) if token is None else bytes([kind | 0x80, len(token)]) + token.encode()
        self.entry = before + it.bucket_field() + row.fields(it)

    def __repr__(self):
        return self.sent.split(b" HTTP")[0].decode() + (f" with {self.token}" if self.token else "")

    def done(self, reply):
        """The status and the body of this reply of the model."""
        return 201 if self.kind in MADE else 200, text(reply)


class Model:
    """The buckets, to which commands are done at the moments of their entries, the keys that were named, and the reply
    under each token."""

    def __init__(self):
        self.buckets, self.keys, self.kept, self.last = {}, {}, {}, 0

    def do(self, ask, moment=None):
        """The reply to a command, as status and body, at its moment or at the last one. If the office refuses it, the
        refusal: its name and its number; then nothing changes."""
        self.last = self.last if moment is None else moment
        it = ask.about._replace(now=self.last)
        if it.key:
            self.keys.setdefault(it.name, set()).add(it.key)
        try:
            if ask.kind != CREATE and it.name not in self.buckets:
                raise Refused("NoSuchBucket", 81)
            return ask.done(KINDS[ask.kind - 1].does(self if ask.kind == CREATE else self.buckets[it.name], it))
        except Refused as refusal:
            return refusal.args[:2]

    def forget(self):
        """Drops what only the meters need."""
        for it in self.buckets.values():
            it.stays, it.early, it.moves = [stay for stay in it.stays if stay[3] is None], [], []

    def queries(self):
        """Every query whose reply does not depend on the clock: the target, the status and the body. Of each key that
        was named, too."""
        for name, it in sorted(self.buckets.items()):
            yield f"/buckets/{name}", 200, {"bucket": name, "rules": len(it.rules or []), "uploads": len(it.uploads),
                                            "versioning": it.versioning,
                                            "versions": sum(len(stack["versions"]) for stack in it.stacks.values())}
            yield ((f"/buckets/{name}/lifecycle", 404, {"error": "NoRules", "number": 82}) if it.rules is None
                   else (f"/buckets/{name}/lifecycle", 200, json.loads(configuration(it.rules, it.mode))))
            for key in sorted(self.keys.get(name, ())):
                yield f"/buckets/{name}/objects/{path_of(key)}", 200 if key in it.stacks else 404, stack_of(it, key)
            for number, upload in it.uploads.items():
                yield f"/buckets/{name}/upload/{number}", 200, {
                    "class": upload["class"], "key": upload["key"], "started": text_of(upload["started"]),
                    "tags": upload["tags"], "upload": number,
                    "parts": [{"part": part, "size": size} for part, size in sorted(upload["parts"].items())]}

    def targets(self):
        return [target for target, _, _ in self.queries()]

    def reply(self, target):
        """The reply to a query; also of a key that was not named yet, or of a bucket that is not there."""
        found = {target: (status, text(body)) for target, status, body in self.queries()}
        return found.get(target, NO_KEY if target.split("/")[2] in self.buckets else NO_BUCKET)


class Entry(typing.NamedTuple):
    """An entry of the journal: its moment, and what follows it."""
    moment: int
    rest: bytes


def entry_in(data):
    return Entry(int.from_bytes(data[:8], "big"), data[8:])


def replies_in(said):
    """The status and the body of each reply in these bytes. Whatever is left over is the last one, as bytes."""
    found = []
    while said:
        head, _, rest = said.partition(b"\r\n\r\n")
        size = head.rpartition(b"content-length: ")[2]
        if not head.startswith(b"HTTP/1.1 ") or not size.isdigit() or len(rest) < int(size):
            return [*found, said]
        found.append((int(head[9:12]), rest[:int(size)].decode()))
        said = rest[int(size):]
    return found


def is_refusal(reply):
    """Whether a reply of the model is a refusal, or finds nothing to do."""
    return isinstance(reply[0], str) or reply[1] == NONE


def refused(reply):
    """A refusal as the model has it: its name and its number."""
    if reply[1] == NONE:
        return reply
    found = json.loads(reply[1])
    return found.get("error"), found.get("number")


def check_session(model, asked, replies, entries):
    """Does a session in the model, and says each difference.

    `asked` are commands and targets of queries in order, `replies` those of the first ones of them, and `entries` what
    the session left in the journal. A command with a reply of success is in the journal, and a refused one is not. One
    without a reply, or with 503, is there or not. One whose token was done before has the reply of then, and is not
    there again. Nothing else is there."""
    entries, wrong = list(entries), []
    for place, it in enumerate(asked):
        reply = replies[place] if place < len(replies) else None
        wanted = None
        if isinstance(it, str):
            wanted = model.reply(it)
        elif it.token in model.kept:
            wanted = model.kept[it.token]
        elif entries and entries[0].rest == it.entry:
            moment = entries.pop(0).moment
            wanted = model.do(it, moment)
            if is_refusal(wanted):
                wrong.append(f"{it}: in the journal at {moment}, and the model says {wanted}")
            elif it.token:
                model.kept[it.token] = wanted
        elif reply not in (None, FAULT):
            if reply[0] < 300 and reply[1] != NONE:
                wrong.append(f"{it}: acknowledged and not in the journal: {reply}")
                continue
            wanted, reply = model.do(it), refused(reply)
        if reply not in (None, FAULT) and reply != wanted:
            wrong.append(f"{it}: wanted {wanted}, found {reply}")
    return wrong + [f"in the journal, and not asked: {it}" for it in entries]
