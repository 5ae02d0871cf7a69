"""Does in the program what events of a store say, each event once over any number of stops; for follow.

Each request has a token made of its event, so an event that is asked for again gets its first reply and is not done twice. Before a
group of events is asked for, their requests are kept in the map, synced; after a stop the same are sent again, first.
"""
import argparse
import collections
import json
import os
import sys
import typing

from office_tools.asking import Office, Stop, reason
from office_tools.entries import CLASSES
from office_tools.events import MARKER, PUT, REMOVE, TAGS, Bad, Event, event_of, name_of, records_of, text_of
from office_tools.files import atomic_write
from office_tools.idmap import IdMap
from office_tools.sending import bucket_target
from office_tools.store import Store
from office_tools.sweeping import target_of
from office_tools.tail import open_journal, read_tail, sample_of
from office_tools.tokens import token_of

GROUP, SHOWN = 100, 5
TWICE, GONE = "sent twice or late", "gone already"


class Dead(Exception):
    """Why an event is not asked for."""


class Later(Exception):
    """The event needs the number of a version that is put in this group: the group is ended before it."""


class Ask(typing.NamedTuple):
    """A request."""
    method: str
    target: str
    body: typing.Optional[dict] = None


def ask_put(event, storage_class, tags):
    body = {"size": event.size, "class": storage_class, **({"tags": tags} if tags else {})}
    return Ask("PUT", target_of(event.bucket, "objects", event.key), body)


def ask_delete(event):
    return Ask("DELETE", target_of(event.bucket, "objects", event.key))


def ask_remove(event, number):
    return Ask("DELETE", target_of(event.bucket, f"versions/{number}", event.key))


class Follow:
    """What is kept over the events of one run."""

    def __init__(self, given: argparse.Namespace, office: Office, ids: IdMap, store: typing.Optional[Store] = None):
        self.given, self.office, self.ids, self.store = given, office, ids, store
        self.tail, self.journal = read_tail(given.journal), open_journal(given.journal)
        self.counts, self.mapped, self.states = collections.Counter(), collections.Counter(), {}
        self.last, self.new, self.buried = {}, set(), []

    # ---- which request an event asks for

    def versioning(self, bucket):
        """The versioning of a bucket here."""
        if bucket not in self.states:
            status, found = self.office.ask("GET", bucket_target(bucket))
            if status in (400, 404):
                raise Dead(f"there is no bucket {bucket!r} here")
            if status != 200:
                raise Stop(2, f"bucket {bucket}: {reason(status, found)}")
            self.states[bucket] = found.get("versioning")
        return self.states[bucket]

    def class_of(self, event):
        """The class of a new object, and its tags: as the event says, or the store, or the words."""
        named, tags = event.storage_class, {}
        if self.store:
            named, tags = self.store.about(event.bucket, event.key, event.version)
            tags = tags or {}
        named = named or self.given.storage_class
        if named not in CLASSES and self.given.nearest:
            self.mapped[named] += 1
            named = self.given.nearest
        return named, tags

    def asks_of(self, event):
        """The requests that an event asks for, the last of which makes it done; none if it is done already."""
        bucket, key, version = event.bucket, event.key, event.version
        if self.given.bucket and bucket not in self.given.bucket:
            raise Dead(f"bucket {bucket!r} is not followed")
        here, is_real = self.versioning(bucket), version not in (None, "null")
        if event.what in (PUT, MARKER) and is_real and here != "Enabled":
            raise Dead(f"the store keeps versions, and here the versioning of the bucket is {here}")
        if event.what == REMOVE and is_real and here == "Unversioned":
            raise Dead(f"the store keeps versions, and here the versioning of the bucket is {here}")
        if not is_real and here == "Enabled" and not (event.what == REMOVE and version):
            raise Dead("the event names no version, and here the versioning of the bucket is Enabled")
        if (bucket, key, version) in self.new:
            raise Later
        known = self.ids.number_of(bucket, key, version) if version else None
        if event.what == TAGS:
            return self.asks_of_tags(event, known or (None if is_real else "null"))
        is_late = event.sequencer <= self.last_of(bucket, key)
        if event.what == REMOVE and version:
            if is_real and known is None:
                raise Dead("this version id is not in the map")
            return [ask_remove(event, known or "null")]
        if is_real and known is not None:
            return []
        if is_late and is_real:
            raise Dead("a later event of this key was done already, so this version has no place below it any more")
        if is_late:
            return []
        if event.what == REMOVE:
            return [ask_delete(event)]
        # In a suspended bucket the null version that an import brought has a number, and is replaced too.
        first = [ask_remove(event, known)] if known not in (None, "null") else []
        return [*first, ask_put(event, *self.class_of(event)) if event.what == PUT else ask_delete(event)]

    def asks_of_tags(self, event, number):
        """The tags that a version has at the store now, if it has others here."""
        if number is None:
            raise Dead("this version id is not in the map")
        tags = self.store.about(event.bucket, event.key, event.version)[1]
        status, stack = self.office.ask("GET", target_of(event.bucket, "objects", event.key))
        here = [it.get("tags") for it in (stack.get("versions") if status == 200 else None) or [] if it.get("version") == number]
        if tags is None or not here or here[0] == tags:
            return []
        return [Ask("PUT", target_of(event.bucket, f"tags/{number}", event.key), {"tags": tags})]

    def last_of(self, bucket, key):
        """The sequencer of the latest event of a key that was done."""
        if (kept := self.last.get((bucket, key))) is not None:
            return kept
        return self.ids.one("select sequencer from sequencers where bucket = ? and key = ?", bucket, key) or ""

    # ---- doing

    def run(self, found: typing.Iterable[tuple]) -> None:
        """Does these events and dead letters, in their order."""
        group = []
        for it in found:
            while True:
                try:
                    if self.prepare(it, group):
                        break
                except Later:
                    pass
                self.finish(group)
                group = []
        self.finish(group)

    def prepare(self, it, group):
        """Adds an event to the group, or notes why it is not asked for. False if the group is full."""
        if len(group) >= GROUP:
            return False
        if not isinstance(it, Event):
            self.bury(*it)
            return True
        if it.what not in (PUT, MARKER, REMOVE) and not (it.what == TAGS and self.store):
            self.counts[it.what] += 1
            return True
        try:
            asks = self.asks_of(it)
        except Dead as why:
            self.bury(it.raw, str(why))
            return True
        if not asks:
            self.counts[TWICE] += 1
            self.ids.do("delete from dead where event = ?", text_of(it.raw))
            return True
        group.append((it, asks))
        if it.what != TAGS:
            self.last[it.bucket, it.key] = max(it.sequencer, self.last_of(it.bucket, it.key))
        if it.what in (PUT, MARKER):
            self.new.add((it.bucket, it.key, it.version))
        return True

    def finish(self, group):
        """Keeps what is asked for next, asks for it, and keeps what came of it."""
        if self.buried:
            with self.ids.change():
                self.keep_buried()
        if not group:
            return
        self.tail.read(self.journal)
        with self.ids.change():
            self.ids.do("insert or replace into place values (0, ?, ?)", self.tail.gate, sample_of(self.journal, self.tail.gate))
            self.ids.do("delete from intents")
            for place, (it, asks) in enumerate(group):
                self.ids.do("insert into intents values (?, ?, ?)", place, self.tail.gate, json.dumps({"event": it.raw, "asks": asks}))
        done = []
        try:
            for it, asks in group:
                done.append((it, self.ask(it, asks)))
        finally:
            with self.ids.change():
                for place, (it, said) in enumerate(done):
                    self.settle(it, *said)
                    self.ids.do("delete from intents where place = ?", place)
                self.keep_buried()
                self.keep_place()
            self.last, self.new = {}, set()

    def ask(self, event, asks):
        """The status and the body of the reply to the last request of an event."""
        for left, it in zip(reversed(range(len(asks))), asks):
            # The tags of an event are those of now, and are set again where they changed since.
            said = [it.body] if event.what == TAGS else []
            status, found = self.office.ask(it.method, it.target, it.body, token_of("event", name_of(event.raw), left, *said))
            if status in (500, 503, 507):
                raise Stop(2, f"bucket {event.bucket}: {reason(status, found)}; the same command continues")
        return status, found

    def settle(self, event, status, found):
        """Keeps what came of an event."""
        if status == 404 and event.what in (REMOVE, TAGS) and found.get("error") != "NoRoute":
            self.counts[GONE] += 1
        elif status not in (200, 201):
            return self.bury(event.raw, f"refused: {reason(status, found)}")
        else:
            self.counts[event.what] += 1
            if event.what == PUT:
                self.ids.keep(event.bucket, event.key, event.version or "null", found.get("version"), event.size, event.etag)
            elif event.what == MARKER and event.version:
                self.ids.keep(event.bucket, event.key, event.version, found.get("marker"))
        self.ids.do("delete from dead where event = ?", text_of(event.raw))
        if event.what == TAGS:
            return
        self.ids.do("insert or replace into sequencers values (?, ?, max(?, coalesce((select sequencer from sequencers where bucket = ? "
                    "and key = ?), '')))", event.bucket, event.key, event.sequencer, event.bucket, event.key)

    def bury(self, raw, why):
        """Puts an event among the dead letters, once; they are kept with what comes next."""
        self.counts["dead letters"] += 1
        if self.counts["dead letters"] <= SHOWN:
            print(f"follow: dead letter: {why}: {text_of(raw)[:200]}", file=sys.stderr, flush=True)
        self.buried.append((text_of(raw), why))

    def keep_buried(self):
        for text, why in self.buried:
            self.ids.do("insert into dead (event, why) values (?, ?) on conflict (event) do update set why = excluded.why", text, why)
        self.buried = []

    # ---- after a stop

    def check_journal(self) -> None:
        """Ends the tool if the journal has not what it had when the map was last kept: numbers of the map may be others' then."""
        found = self.ids.do("select gate, before from place").fetchone()
        if found and sample_of(self.journal, found[0]) != found[1]:
            raise Stop(3, f"{self.given.journal} is not the journal of the last run, or an older copy of it was brought back; see --restored")

    def forget(self) -> None:
        """Takes the journal as it is: what the map knows and the program has not is forgotten."""
        rows = self.ids.do("select bucket, key, id, number, size from versions order by bucket, key").fetchall()
        gone, key_before, here = [], None, set()
        for bucket, key, version, number, size in rows:
            if (bucket, key) != key_before:
                key_before = (bucket, key)
                status, stack = self.office.ask("GET", target_of(bucket, "objects", key))
                if status not in (200, 400, 404):
                    raise Stop(2, f"bucket {bucket}: {reason(status, stack)}")
                here = {(it.get("version"), it.get("size")) for it in stack.get("versions") or []}
            if (number, size) not in here:
                gone.append((bucket, key, version))
        with self.ids.change():
            for bucket, key, version in gone:
                self.ids.do("delete from versions where bucket = ? and key = ? and id = ?", bucket, key, version)
                self.ids.do("delete from sequencers where bucket = ? and key = ?", bucket, key)
            for table in ("intents", "place"):
                self.ids.do(f"delete from {table}")
        print(f"follow: of {len(rows)} versions in the map {len(gone)} are not here, and were forgotten", file=sys.stderr)

    def keep_place(self):
        """Notes what the journal has now."""
        self.tail.read(self.journal)
        self.ids.do("insert or replace into place values (0, ?, ?)", self.tail.gate, sample_of(self.journal, self.tail.gate))

    def resume(self) -> None:
        """Sends the requests again that the last run was about to send: by its token each event is done once."""
        rows = [json.loads(it) for it, in self.ids.do("select event from intents order by place")]
        if not rows:
            return
        if not all("asks" in it for it in rows):
            raise Stop(3, f"{self.ids.path}: the last run was one of an older follow without tokens, and was stopped; run that once more")
        print(f"follow: the last run was stopped: {len(rows)} events are asked for again, by their tokens", file=sys.stderr)
        self.finish([(event_of(it["event"]), [Ask(*one) for one in it["asks"]]) for it in rows])

    def dead(self) -> list:
        """The events among the dead letters, to try them again."""
        return list(events_in([json.loads(it) for it, in self.ids.do("select event from dead order by place")]))

    def write_dead(self, path: str) -> int:
        """Writes the dead letters to their file, a line each, or removes a file that has none any more."""
        rows = self.ids.do("select why, event from dead order by place").fetchall()
        if rows or os.path.exists(path):
            atomic_write(path, (json.dumps({"why": why, "event": json.loads(it)}, ensure_ascii=False) + "\n" for why, it in rows))
        return len(rows)


def events_in(found: typing.Any) -> typing.Iterator[tuple]:
    """The events in what was sent; anything else comes with the reason, to be a dead letter."""
    for it in found if isinstance(found, list) else [found]:
        try:
            raws = list(records_of(it))
        except Bad as why:
            yield it, str(why)
            continue
        for raw in raws:
            try:
                yield event_of(raw)
            except Bad as why:
                yield raw, str(why)
