"""Random histories of the office: each command is done in the plain model and written as an entry of a journal (docs/FORMATS.md).

`Drawn` is what a command may be about, `KINDS` has a row for each kind of command, and `History` draws commands, some of them with
a token, does them in the models, and keeps the entries of those that were accepted.
"""
import json
import random
import typing
import urllib.parse

from model_words import configuration, stack_of
from plain_office import CLASSES, DAY, Bucket, Refused, text_of, window
from plain_tokens import TAKE_NONE, Kept, refuse_fields

# 2030-01-01 00:00 UTC: later than the clock, so that each answer is given at the moment of the last entry.
START = 1_893_456_000_000
KEYS, NAMES = ("a", "b/c", "b/d", "\u00e9"), ("logs", "rest")
TAGS = ({}, {"k": "v"}, {"k": "w", "a": "b"})
SIZES, PARTS, VERSIONS = (0, 5, 1_500, 131_072, 10**9), (1, 2, 10_001), ("null", "1", "2", "3")
MODES = ("all_storage_classes_128K", "varies_by_storage_class")
# What a rule does, and what it is about.
ACTIONS = (
    {"moves": [(30, "STANDARD_IA"), (90, "GLACIER")], "days": 200}, {"days": 10}, {"date": START + 40 * DAY}, {"lone_marker": True},
    {"abort": 7}, {"noncurrent": (5, 1)}, {"noncurrent": (60, None), "noncurrent_moves": [(30, 2, "ONEZONE_IA"), (45, None, "DEEP_ARCHIVE")]},
    {"moves": [(31, "ONEZONE_IA")]}, {"moves": [(0, "DEEP_ARCHIVE")]}, {"noncurrent": (1, None), "abort": 1},
)
FILTERS = ({}, {"prefix": "b/"}, {"tags": [("k", "v")]}, {"greater": 1_000}, {"prefix": "a", "greater": 10, "less": 200_000})


def number(value, count=8):
    return value.to_bytes(count, "big")


def text_field(text):
    """A text with its length in bytes before it."""
    return number(len(text.encode()), 2) + text.encode()


def tags_field(tags):
    return number(len(tags), 1) + b"".join(text_field(it) + text_field(tags[it]) for it in sorted(tags))


def path_of(key):
    return urllib.parse.quote(key)


class Drawn(typing.NamedTuple):
    """What a command may be about, at a moment. Each kind of command takes what it needs of it."""
    now: int
    name: str
    key: str
    storage_class: str
    tags: dict
    size: int
    version: str
    upload: int
    part: int
    is_enabled: bool
    rules: list
    mode: str

    def status(self):
        return "Enabled" if self.is_enabled else "Suspended"

    def document(self):
        return configuration(self.rules, self.mode)

    # The fields of entries.

    def bucket_field(self):
        return text_field(self.name)

    def key_field(self):
        return text_field(self.key)

    def class_field(self):
        return number(CLASSES.index(self.storage_class), 1)

    def version_field(self):
        return self.key_field() + number(0 if self.version == "null" else int(self.version))

    def document_field(self):
        return number(len(self.document().encode()), 4) + self.document().encode()


# What the model does for each kind of command, and what the program replies then.

def make(history, it):
    if it.name in history.buckets:
        raise Refused("BucketExists", 80)
    history.buckets[it.name] = Bucket(it.now)
    return {"bucket": it.name}


def set_versioning(bucket, it):
    if not it.is_enabled and bucket.versioning == "Unversioned":
        raise Refused("NotEnabledBefore", 83)
    bucket.versioning, bucket.rules_since = it.status(), it.now
    return {"versioning": it.status()}


def set_rules(bucket, it):
    bucket.rules, bucket.mode, bucket.rules_since = it.rules, it.mode, it.now
    return {"rules": len(it.rules)}


def drop_rules(bucket, it):
    if bucket.rules is None:
        raise Refused("NoRules", 82)
    bucket.rules, bucket.rules_since = None, it.now
    return {"rules": 0}


def put(bucket, it):
    return {"moment": text_of(it.now), "version": bucket.put(it.key, it.size, it.storage_class, it.tags, it.now)}


def delete(bucket, it):
    return bucket.delete(it.key, it.now)


def delete_version(bucket, it):
    bucket.stack(it.key)
    bucket.remove(it.key, it.version, it.now)
    return {"removed": it.version}


def set_tags(bucket, it):
    bucket.set_tags(it.key, it.version, it.tags, it.now)
    return {"tags": len(it.tags)}


def start_upload(bucket, it):
    return {"upload": bucket.start(it.key, it.storage_class, it.tags, it.now)}


def put_part(bucket, it):
    bucket.put_part(it.upload, it.part, it.size, it.now)
    return {"part": it.part}


def complete(bucket, it):
    return {"moment": text_of(it.now), "version": bucket.complete(it.upload, it.now)}


def abort(bucket, it):
    bucket.drop_upload(it.upload, it.now)
    return {"aborted": it.upload}


def act(bucket, it):
    return bucket.act(it.now)


class Kind(typing.NamedTuple):
    """A kind of command: how often it is drawn, its request, its entry's fields after the bucket, and what the model does."""
    weight: int
    method: str
    target: str
    body: typing.Callable
    fields: typing.Callable
    does: typing.Callable


def nothing(_):
    return None


def no_fields(_):
    return b""


# In the order of their numbers in the journal, from 1 on.
KINDS = (
    Kind(2, "PUT", "", nothing, no_fields, make),
    Kind(2, "PUT", "/versioning", lambda it: {"Status": it.status()}, lambda it: number(1 if it.is_enabled else 2, 1), set_versioning),
    Kind(3, "PUT", "/lifecycle", lambda it: json.loads(it.document()), Drawn.document_field, set_rules),
    Kind(1, "DELETE", "/lifecycle", nothing, no_fields, drop_rules),
    Kind(20, "PUT", "/objects/{path}", lambda it: {"size": it.size, "class": it.storage_class, "tags": it.tags},
         lambda it: it.key_field() + number(it.size) + it.class_field() + tags_field(it.tags), put),
    Kind(8, "DELETE", "/objects/{path}", nothing, Drawn.key_field, delete),
    Kind(8, "DELETE", "/versions/{version}/{path}", nothing, Drawn.version_field, delete_version),
    Kind(4, "PUT", "/tags/{version}/{path}", lambda it: {"tags": it.tags}, lambda it: it.version_field() + tags_field(it.tags), set_tags),
    Kind(5, "POST", "/uploads/{path}", lambda it: {"class": it.storage_class, "tags": it.tags},
         lambda it: it.key_field() + it.class_field() + tags_field(it.tags), start_upload),
    Kind(12, "PUT", "/parts/{upload}/{part}", lambda it: {"size": it.size}, lambda it: number(it.upload) + number(it.part, 4) + number(it.size),
         put_part),
    Kind(6, "POST", "/upload/{upload}", nothing, lambda it: number(it.upload), complete),
    Kind(2, "DELETE", "/upload/{upload}", nothing, lambda it: number(it.upload), abort),
    Kind(24, "POST", "/act", nothing, no_fields, act),
)
MAKE = 0
# Kinds of commands by their numbers in the journal: one of the rows above, and the two that name no bucket.
ACT, TARIFF, CLOSE = 0x0D, 0x0E, 0x0F


class History:
    """One random history: the buckets of the model, and the journal, whose last gate stays open until `closed`."""

    def __init__(self, seed):
        self.draw, self.now, self.last = random.Random(seed), START, START
        self.buckets, self.journal, self.kept, self.sent = {}, b"\xa5METERJRN1\xa5", Kept(), []

    def append(self, moment, fields):
        """Writes an entry: its kind and what follows."""
        entry = number(moment) + fields
        self.journal += number(len(entry), 4) + entry + b"\xa5"
        self.last = moment

    def closed(self):
        """The journal with its last gate closed."""
        return self.journal[:-1] + b"\0"

    def fill(self):
        """Two buckets perhaps, and 20, 60 or 150 commands, up to twelve days apart."""
        for _ in range(3):
            self.command(MAKE)
        for _ in range(self.draw.choice((20, 60, 150))):
            self.now += self.draw.choice((0, 1, 3_600_000, DAY // 2, self.draw.randint(0, 12 * DAY)))
            self.command()

    def draw_rules(self):
        rules = []
        for place in range(self.draw.randint(1, 3)):
            action, about = dict(self.draw.choice(ACTIONS)), dict(self.draw.choice(FILTERS))
            if "abort" in action or "lone_marker" in action:
                about = {"prefix": about.get("prefix", "")}
            rules.append({"id": f"r{place}", "enabled": self.draw.random() < 0.9, "prefix": "", "tags": [], **about, **action})
        return rules, self.draw.choice(MODES)

    def draw_command(self, which):
        """A kind of command, drawn if none is given, and what it is about."""
        draw = self.draw
        about = (draw.choice(NAMES), draw.choice(KEYS), draw.choice(CLASSES), draw.choice(TAGS), draw.choice(SIZES), draw.choice(VERSIONS),
                 draw.randint(1, 4), draw.choice(PARTS))
        if which is None:
            which = draw.choices(range(len(KINDS)), [it.weight for it in KINDS])[0]
        return which, Drawn(self.now, *about, draw.random() < 0.7, *self.draw_rules())

    def draw_tokens(self):
        """The fields Office-Token of a message: mostly none, else a token of a few, and now and then none that may be."""
        if self.draw.random() < 0.6:
            return []
        return self.draw.choices((["t1"], ["t2"], ["!" * 64], [f"own-{self.draw.randrange(10**6)}"], ["a b"], ["x" * 65], ["t1", "t1"]),
                                 (4, 4, 2, 12, 1, 1, 1))[0]

    def reply_to(self, kind, it):
        if kind.does is make:
            return make(self, it)
        if it.name not in self.buckets:
            raise Refused("NoSuchBucket", 81)
        return kind.does(self.buckets[it.name], it)

    def reply_once(self, which, it, tokens):
        """The reply to a command with a token or none; its entry is written if it is accepted."""
        refuse_fields(tokens, which + 1)
        fields, token = it.bucket_field() + KINDS[which].fields(it), (tokens or [None])[0]
        if token and (reply := self.kept.recall(token, which + 1, fields)) is not None:
            return reply
        reply = self.reply_to(KINDS[which], it)
        if token:
            self.kept.keep(token, which + 1, fields, reply, self.now)
            self.append(self.now, number(which + 1 | 0x80, 1) + number(len(token), 1) + token.encode() + fields)
        elif reply != {"action": "none"}:
            self.append(self.now, number(which + 1, 1) + fields)
        return reply

    def command(self, which=None):
        """Does a command in the model: the request, its fields Office-Token, and what is replied to it. Some are sent before again."""
        if which is None and self.sent and self.draw.random() < 0.1:
            which, it, tokens = self.draw.choice(self.sent)
            it = it._replace(now=self.now)
        else:
            (which, it), tokens = self.draw_command(which), self.draw_tokens()
        if tokens and which + 1 not in TAKE_NONE:
            self.sent.append((which, it, tokens))
        kind = KINDS[which]
        target = f"/buckets/{it.name}" + kind.target.format(path=path_of(it.key), version=it.version, upload=it.upload, part=it.part)
        try:
            reply = self.reply_once(which, it, tokens)
        except Refused as refusal:
            reply = {"error": refusal.args[0], "number": refusal.args[1], **(refusal.args[2] if refusal.args[2:] else {})}
        return kind.method, target, kind.body(it), tokens, reply

    def queries(self):
        """Every query of every bucket: the target, and the reply of now."""
        for name, bucket in sorted(self.buckets.items()):
            for target, reply in self.queries_of(name, bucket):
                yield f"/buckets/{name}{target}", reply

    def queries_of(self, name, bucket):
        yield "", {"bucket": name, "rules": len(bucket.rules or []), "uploads": len(bucket.uploads), "versioning": bucket.versioning,
                   "versions": sum(len(it["versions"]) for it in bucket.stacks.values())}
        yield "/lifecycle", ({"error": "NoRules", "number": 82} if bucket.rules is None
                             else json.loads(configuration(bucket.rules, bucket.mode)))
        yield "/due", bucket.shown(bucket.choice(self.now))
        for key in KEYS:
            yield f"/objects/{path_of(key)}", stack_of(bucket, key)
        for upload, it in bucket.uploads.items():
            yield f"/upload/{upload}", {
                "class": it["class"], "key": it["key"], "started": text_of(it["started"]), "tags": it["tags"], "upload": upload,
                "parts": [{"part": part, "size": size} for part, size in sorted(it["parts"].items())]}
        for month in (f"{year}-{it:02}" for year in (2030, 2031) for it in range(1, 13)):
            if window(month)[0] <= self.now:
                yield f"/meters/{month}", {"bucket": name, "classes": bucket.meters(month, self.now), "month": month}
