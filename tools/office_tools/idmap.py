"""The map from a store's version ids to the numbers of the program, in an SQLite file; for import-inventory, follow, apply and compare.

The program numbers versions and uploads by itself, and knows no ids of the store. Who removes a version there, or is told that
one was removed, looks it up here. The file also keeps how far `follow` and `apply` are.
"""
import argparse
import contextlib
import fcntl
import os
import sqlite3
import typing

from office_tools.asking import Stop

VERSION = 1
TABLES = """
create table if not exists about (name text primary key, value text not null);
create table if not exists versions (bucket text, key text, id text, number text, size integer, etag text, primary key (bucket, key, id));
create index if not exists versions_by_number on versions (bucket, key, number);
create table if not exists uploads (bucket text, id text, key text not null, number integer, primary key (bucket, id));
create table if not exists sequencers (bucket text, key text, sequencer text not null, primary key (bucket, key));
create table if not exists intents (place integer primary key, gate integer not null, event text not null);
create table if not exists place (one integer primary key, gate integer not null, before text not null);
create table if not exists dead (place integer primary key autoincrement, event text unique, why text not null);
create table if not exists files (path text primary key, file text not null, offset integer not null, before text not null);
create table if not exists applied (action text primary key, how text not null);
"""


class IdMap:
    """One file of this kind. Each change is durable once `commit` has returned."""

    def __init__(self, path: str, office: typing.Optional[str] = None, create: bool = True):
        self.path = path
        if not create and not os.path.isfile(path):
            raise Stop(3, f"{path}: there is no such map; import-inventory --map and follow --map make one")
        with self.faults():
            # A second tool waits for the first: apply holds the map while it asks the store.
            self.link = sqlite3.connect(path, timeout=60, isolation_level=None)
            self.link.execute("pragma synchronous = full")
            known = {name for name, in self.link.execute("select name from sqlite_master where type = 'table'")}
            if known and "about" not in known:
                raise Stop(3, f"{path}: this is not a map of these tools")
            self.link.executescript(TABLES)
        self.same("version", str(VERSION), "was made by another version of these tools")
        if office:
            self.same("office", office, f"is of another office than {office}; if that office has this address now, give it the address "
                      f"there: sqlite3 {path} \"update about set value = '{office}' where name = 'office'\"")

    @contextlib.contextmanager
    def faults(self):
        """What sqlite says is wrong with the file, as a status and a note."""
        try:
            yield
        except sqlite3.DatabaseError as fault:
            is_other = "not a database" in str(fault) or "malformed" in str(fault)
            raise Stop(3 if is_other else 4, f"{self.path}: {fault}") from None

    def same(self, name, wanted, otherwise):
        """Keeps a value with which the file was made, or finds it there."""
        if (found := self.one("select value from about where name = ?", name)) is None:
            self.do("insert or ignore into about values (?, ?)", name, wanted)
            found = self.one("select value from about where name = ?", name)
        if found != wanted:
            raise Stop(3, f"{self.path} {otherwise}")

    def alone(self) -> None:
        """Ends the tool if another one asks the program by this map: each would do again what the other has under way."""
        try:
            self.lock = open(f"{self.path}.lock", "w", encoding="utf-8")
            fcntl.flock(self.lock, fcntl.LOCK_EX | fcntl.LOCK_NB)
        except BlockingIOError:
            raise Stop(2, f"{self.path}: another follow or import-inventory works with this map") from None
        except OSError as fault:
            raise Stop(4, f"{self.path}.lock: {fault.strerror}") from None

    def do(self, text: str, *values: typing.Any) -> sqlite3.Cursor:
        with self.faults():
            return self.link.execute(text, values)

    def one(self, text: str, *values: typing.Any) -> typing.Any:
        """The first field of the first row; nothing without a row."""
        row = self.do(text, *values).fetchone()
        return row[0] if row else None

    @contextlib.contextmanager
    def change(self):
        """All that is changed meanwhile is kept together, and no other tool changes the file."""
        self.do("begin immediate")
        try:
            yield
        except BaseException:
            with contextlib.suppress(sqlite3.Error):
                self.link.execute("rollback")
            raise
        self.do("commit")

    def place_of(self, digest: str) -> int:
        """How many rows of an import have their numbers here."""
        return int(self.one("select value from about where name = ?", f"import {digest}") or 0)

    def keep_place(self, digest: str, place: int) -> None:
        self.do("insert or replace into about values (?, ?)", f"import {digest}", str(place))

    # ---- versions and uploads

    def keep(self, bucket: str, key: str, version: str, number: str, size: typing.Optional[int] = None, etag: typing.Optional[str] = None) -> None:
        """Notes the number of a version of the store; `size` is nothing for a delete marker."""
        self.do("insert or replace into versions values (?, ?, ?, ?, ?, ?)", bucket, key, version, number, size, etag and etag.strip('"'))

    def number_of(self, bucket: str, key: str, version: str) -> typing.Optional[str]:
        """The number of a version of the store; nothing if it is unknown."""
        return self.one("select number from versions where bucket = ? and key = ? and id = ?", bucket, key, version)

    def version_of(self, bucket: str, key: str, number: str) -> typing.Optional[tuple]:
        """The store's id of a version, its size and its ETag; nothing if it is unknown, or if two ids have this number."""
        rows = self.do("select id, size, etag from versions where bucket = ? and key = ? and number = ?", bucket, key, number).fetchall()
        return rows[0] if len(rows) == 1 else None

    def keep_upload(self, bucket: str, version: str, key: str, number: int) -> None:
        self.do("insert or replace into uploads values (?, ?, ?, ?)", bucket, version, key, number)

    def upload_of(self, bucket: str, number: int) -> typing.Optional[tuple]:
        """The key and the store's id of an upload; nothing if it is unknown."""
        return self.do("select key, id from uploads where bucket = ? and number = ?", bucket, number).fetchone()


def add_map(words: argparse.ArgumentParser, required: bool = True, what: str = "the ids of the store's versions and their numbers, an SQLite file") -> None:
    words.add_argument("--map", metavar="FILE", required=required, help=what)
