#!/usr/bin/env python3
"""What one request may cost: python3 bench/costs.py [--small] [--no-times] [--port PORT] PROGRAM [ROW..]

Measures the rows of the table below, or those that are named, and compares each figure with its bound. A bound is what the documents
state, or what was measured if the program does not keep that. A figure without a bound is in no document, or differs much between
machines. PROGRAM is crates/office_cli/out/office_cli. Each size has an office of its own, in a new folder in /dev/shm.

  memory     The most that the process had (VmHWM) above what it had before the request. Of a start and of `explain` it is what they
             had above `run` over an office without records. The system counts pages in lots, so it may be off by 1 MiB.
  processor  The time of all threads of the process for a request, so no less than the time inside the turn on the office. If it has
             a bound, it is the least of five turns, and a row that passes it is tried up to three times. The bound is twice the time
             that is stated, for a busy machine.
  syncs      The calls of fsync and fdatasync for a request that changes something, counted by `strace -c -f`.

`--small` takes small sizes: seconds in all. The servers listen on PORT, or on a port that the system chooses. The exit code is

  0   No bound was passed.
  1   A bound was passed, or the program did something else. The last lines have the row, what was found and the bound.
  77  No bound was passed, and syncs were left out, since strace is missing. A line names each row.
"""
import argparse
import collections
import datetime
import itertools
import json
import pathlib
import re
import string
import subprocess
import sys
import tempfile
from collections.abc import Callable, Iterator
from functools import partial
from typing import NamedTuple, Optional

sys.dont_write_bytecode = True
import acts  # noqa: E402
from acts import MOMENT, frame, place  # noqa: E402
from rules import configuration  # noqa: E402
from watched import Office, Reply, Server, Wrong, command, lacking, running, serving, syncs  # noqa: E402

ROOT = pathlib.Path(__file__).resolve().parent.parent
MIB = 1 << 20
OFF_BY = MIB  # what the system's count of a process's pages may be off by, in bytes
LEFT_OUT = 77  # as automake and meson have it
TURNS, TRIES = 5, 3  # of the turns of a row the least processor time counts
MADE, DONE, UNKNOWN = b"HTTP/1.1 201 ", b"HTTP/1.1 20", b'{"error":"UnknownField",'
ACT, REMOVED = b"POST /buckets/logs/act HTTP/1.1\r\n\r\n", b'{"action":"remove",'
ONE_TAG, COLDER = {"Tag": {"Key": "none", "Value": "none"}}, ("STANDARD_IA", "ONEZONE_IA", "GLACIER_IR", "GLACIER", "DEEP_ARCHIVE")
DUE, NONE_DUE = b"GET /buckets/logs/due HTTP/1.1\r\n\r\n", b'{"action":"none"}'
CLASSES = ("STANDARD", "STANDARD_IA", "ONEZONE_IA", "GLACIER_IR", "GLACIER", "DEEP_ARCHIVE")
NEVER = 365 * 70  # days after which nothing here is due
WIDEST = "\U00010000"  # a character of four bytes


class Found(NamedTuple):
    """What a row took. Memory is in bytes, and a multiple of `weight`; seconds are for `times` requests, syncs for `changes` of them."""
    bytes: Optional[int] = None
    weight: int = MIB
    seconds: Optional[float] = None
    times: int = 1
    syncs: Optional[int] = None
    changes: int = 1


class Row(NamedTuple):
    """A row of the table: its name, what is asked, what a size counts, the sizes and the small ones, and how it is measured.

    Then its bounds: memory with its unit, processor milliseconds with what they are for, and the syncs of a request that changes
    something. `None` in place of a bound says that no document has a figure.
    """
    name: str
    asked: str
    counts: str
    sizes: tuple[int, ...]
    small: tuple[int, ...]
    measure: Callable[[Office, int], Found]
    memory: Optional[float] = None
    unit: str = "MiB"
    milliseconds: Optional[float] = None
    each: str = "a request"
    syncs: Optional[int] = None


# Requests, and journals.

def message(line: str, body: bytes = b"", fields: str = "") -> bytes:
    """The bytes of a request."""
    return f"{line} HTTP/1.1\r\n{fields}Content-Length: {len(body)}\r\n\r\n".encode() + body


def put_rules(rules: list[dict], bucket: str = "logs") -> bytes:
    """The request that sets a configuration of these enabled rules."""
    document = {"Rules": [{"Status": "Enabled", **it} for it in rules]}
    return message(f"PUT /buckets/{bucket}/lifecycle", json.dumps(document).encode())


def up_to(size: int, lines: Iterator[bytes]) -> bytes:
    """The first of these lines, which have at most `size` bytes together."""
    text = bytearray()
    for line in lines:
        if len(text) + len(line) > size:
            break
        text += line
    return bytes(text)


def short_names() -> Iterator[bytes]:
    """The shortest keys of TOML that differ."""
    letters = string.ascii_letters + string.digits + "-_"
    return ("".join(it).encode() for count in (1, 2, 3) for it in itertools.product(letters, repeat=count))


def dotted_keys(size: int, parts: int, behind: bytes) -> bytes:
    """Pairs of dotted keys with so many parts of two bytes, each with something behind it, as many as fit."""
    return up_to(size, (name + b".a" * parts + b"=0" + behind for name in short_names()))


def inline_tariff(size: int, parts: int, front: bytes, end: bytes) -> bytes:
    """Dotted keys in an inline table."""
    return front + dotted_keys(size - len(front) - len(end), parts, b",")[:-1] + end


def tables_tariff(size: int) -> bytes:
    """A list of inline tables, each with tables of one entry in it."""
    table = b"{" + b".".join([b"a"] * 76) + b"=0}"
    return b"a=[" + b",".join([table] * ((size - 4) // (len(table) + 1))) + b"]"


def headers_tariff(size: int) -> bytes:
    """As many headers as there can be."""
    return up_to(size, (b"[" + name + b"]\n" for name in short_names()))


def tiers_tariff(first: str) -> bytes:
    """A tariff from a month on, with eight tiers in each class."""
    tiers = ", ".join(f"{{ upto = {it}, price = {it} }}" for it in range(1, 8)) + ", { price = 8 }"
    storage, moves = "\n".join(f"{it} = [{tiers}]" for it in CLASSES), "\n".join(f"{it} = 1" for it in CLASSES[1:])
    return f'from = "{first}"\n[storage]\n{storage}\n[transition]\n{moves}\n'.encode()


def nested_json(size: int, depth: int) -> bytes:
    """A list of nested objects, under a name that no body has."""
    one = b'{"":' * depth + b"0" + b"}" * depth
    return b'{"x":[' + b",".join([one] * ((size - 8) // (len(one) + 1))) + b"]}"


def listed_json(size: int, item: bytes, head: bytes = b'{"x":[', tail: bytes = b"]}") -> bytes:
    """A list of one item, again and again."""
    return head + b",".join([item] * ((size - len(head) - len(tail) + 1) // (len(item) + 1))) + tail


def tags_json(size: int) -> bytes:
    """A put with as many tags as there can be."""
    return up_to(size - 20, (b',"' + name + b'":""' for name in short_names())).replace(b",", b'{"size":1,"tags":{', 1) + b"}}"


def rules_json(size: int, rule: bytes) -> bytes:
    """A configuration of one rule, again and again."""
    return listed_json(size, rule, b'{"Rules":[')


def greatest_tags(character: str) -> dict[str, str]:
    """Ten tags of greatest length, of this character."""
    return {chr(97 + it) + character * 127: character * 256 for it in range(10)}


def put_frame(key: bytes, name: str = "STANDARD", character: str = "", at: int = MOMENT) -> bytes:
    """The frame of a put of one byte in a class at a moment, with the greatest tags of a character, or without tags."""
    tags = sorted(greatest_tags(character).items()) if character else []
    text = b"".join(place(it.encode()) + place(value.encode()) for it, value in tags)
    return frame(5, place(key) + (1).to_bytes(8, "big") + bytes([CLASSES.index(name), len(tags)]) + text, at)


def write_stack(office: Office, count: int, character: str = "", apart: int = 0) -> None:
    """Makes a journal of `count` versions of the key `k`, with tags as in `put_frame`, so many milliseconds apart."""
    office.write([frame(1, b""), frame(2, b"\1"), *(put_frame(b"k", character=character, at=MOMENT + apart * it) for it in range(count))])


def write_puts(office: Office, count: int) -> None:
    """Makes a journal of `count` puts, each under a key of its own."""
    office.write([frame(1, b""), *(put_frame(b"k%d" % it) for it in range(count))])


def write_long_keys(office: Office, count: int, name: str, character: bytes) -> None:
    """Makes a journal of `count` puts under keys of 1,024 bytes, which end in a character. Each key is put 500 times."""
    office.write([frame(1, b""), *(put_frame(b"%04d" % (it // 500) + character * 1_020, name) for it in range(count))])


def write_expiring(office: Office, count: int, days: int) -> None:
    """Makes a journal of `count` objects of January 2024, which expire after `days`."""
    office.journal.write_bytes(acts.journal(count, {"Days": days}))
    office.forget()


def write_acted(office: Office, count: int) -> None:
    """Makes a journal of `count` puts and `count` acts."""
    write_expiring(office, count, 1)
    with running(office) as run:
        run.ask([ACT] * count, REMOVED)
    office.forget()


# Ways of measuring.

def bodies(requests: list[bytes]) -> int:
    """The bytes of the bodies of requests together."""
    return sum(len(it.partition(b"\r\n\r\n")[2]) for it in requests)


def expect(replies: list[Reply], status: int, front: bytes = b"") -> int:
    """Checks the status and the front of each reply. Returns the bytes of their bodies together."""
    for it in replies:
        if it.status != status or not it.front.startswith(front):
            raise Wrong(f"a reply is {it.status} {it.front[:100]!r}, not {status} {front.decode()}")
    return sum(it.length for it in replies)


def spent(server: Server, asked: list[bytes], status: int, front: bytes = b"", ask: Callable = Server.ask, memory: Callable = Server.peak) -> Found:
    """What a server takes for requests at once, whose replies have this status and front.

    Memory is a multiple of the bodies, or of the replies if there are no bodies.
    """
    rest, before = server.rest(), server.seconds()
    length = expect(ask(server, asked), status, front)
    return Found(memory(server) - rest, bodies(asked) or length, server.seconds() - before, len(asked))


def by_turns(office: Office, turns: list[list[bytes]], answer: bytes, before: tuple[bytes, ...] = ()) -> Found:
    """What requests take that are sent in turns, after those of `before`. Each of their replies has to contain `answer`.

    The last turn is only for the syncs. It has three requests or more if they change something, and else none.
    """
    with running(office) as run:
        run.ask(list(before), DONE)
        rest = run.rest()
        seconds = min(run.ask(turn, answer) for turn in turns[:-1])
        most = run.peak() - rest
    return Found(most, MIB, seconds, len(turns[0]), *counted(office, turns[-1], answer))


def counted(office: Office, messages: list[bytes], answer: bytes) -> tuple[Optional[int], int]:
    """The syncs of messages, and of how many of them. `None` if they cannot be counted here."""
    return syncs(office, messages, answer) if messages and not lacking() else (None, 1)


def resting(office: Office) -> int:
    """What `run` has over an office without records, in bytes."""
    with running(office) as run:
        return run.memory()


def explained(office: Office, rest: int, times: int, weight: int, turns: int = 1) -> Found:
    """What `explain` takes above the resting size, in multiples of `weight`. Its time is for `times` entries."""
    least = min((command(office, "explain") for _ in range(turns)), key=lambda it: it.seconds)
    return Found(least.bytes - rest, weight, least.seconds, times)


# The rows.

def unit_setting() -> dict[str, str]:
    """The setting of the C library in the unit."""
    unit = (ROOT / "tools" / "systemd" / "office.service").read_text("utf-8")
    return dict(re.findall(r"^Environment=(GLIBC_TUNABLES)=(\S+)$", unit, flags=re.MULTILINE))


def tariff_bodies(size: int) -> Iterator[tuple[bytes, bytes]]:
    """Bodies of TOML for a tariff, and the front of the reply to each."""
    yield from ((dotted_keys(size, parts, b"\n"), UNKNOWN) for parts in (0, 1, 10, 60, 78))
    yield from ((body(size), UNKNOWN) for body in (tables_tariff, headers_tariff))
    yield b"[[storage.STANDARD]]\nprice=0\n" * (size // 29), b"{"
    tables = (b"storage={", b"}"), (b"storage={STANDARD={", b"}}"), (b"storage={STANDARD={tiers=[{", b"}]}}"), (b"[storage.STANDARD]\nx=[{", b"}]")
    for front, end in tables:
        yield from ((inline_tariff(size, parts, front, end), b"{") for parts in (10, 60, 76))
    yield b"[storage]\nSTANDARD=[" + b",".join([b"0"] * ((size - 22) // 2)) + b"]", b"{"
    half = dotted_keys(size // 2, 76, b"\n")
    yield half + inline_tariff(size // 2, 76, b"storage={", b"}\n"), UNKNOWN
    yield inline_tariff(size // 2, 76, b"storage={STANDARD={", b"}}\n") + half, UNKNOWN


def tariffs(office: Office, size: int, of_unit: bool = True) -> Found:
    """Sends each of these tariffs to a server of its own, and returns what the costliest takes."""
    found = []
    for body, front in tariff_bodies(size):
        with serving(office, setting=unit_setting() if of_unit else {}) as server:
            found.append(spent(server, [message("PUT /tariff", body)], 400, front))
    return max(found, key=lambda it: it.bytes / it.weight)


def four_tariffs(office: Office, size: int, memory: Callable = Server.peak) -> Found:
    """Sends a tariff of nested keys four times at once, with the setting of the unit."""
    with serving(office, setting=unit_setting()) as server:
        return spent(server, [message("PUT /tariff", dotted_keys(size, 60, b"\n"))] * 4, 400, UNKNOWN, memory=memory)


def put_bodies(size: int) -> Iterator[tuple[bytes, bytes]]:
    """Bodies of JSON for a put, and the front of the reply to each."""
    other = b'{"error":"BadBody","field":"x",'
    yield from ((nested_json(size, depth), other) for depth in (1, 3, 100))
    yield from ((listed_json(size, item), other) for item in (b"0", b"[]", b"{}", b'""', rb'"\n"', b'{"":0}'))
    yield tags_json(size), b'{"error":"BadTags",'


def configurations(size: int) -> Iterator[tuple[bytes, bytes]]:
    """Bodies of JSON for a lifecycle configuration, and the front of the reply to each."""
    yield from ((nested_json(size, depth), UNKNOWN) for depth in (1, 3, 100))
    yield from ((listed_json(size, item), UNKNOWN) for item in (b"0", b"[]", b'{"":0}'))
    tag = listed_json(size - 64, b'{"Key":"","Value":""}', b'{"Rules":[{"Filter":{"And":{"Tags":[', b']}},"Status":"Enabled"}]}')
    for body in (tag, rules_json(size, b'{"Status":"Enabled"}'), rules_json(size, b'{"Expiration":{"Days":1},"Status":"Enabled"}')):
        yield body, b'{"error":"'


def json_bodies(office: Office, size: int) -> Found:
    """Sends each of these bodies to a server of its own, and returns what the costliest takes."""
    found = []
    for target, sent in (("lifecycle", configurations(size)), ("objects/k", put_bodies(size))):
        for body, front in sent:
            with serving(office, setting=unit_setting()) as server:
                found.append(spent(server, [message(f"PUT /buckets/logs/{target}", body)], 400, front))
    return max(found, key=lambda it: it.bytes / it.weight)


def replies(office: Office, size: int, count: int = 1, character: str = "\1", unread: bool = False) -> Found:
    """Asks `count` times at once for all versions of a key, with tags of a character. JSON has six bytes for the character 1."""
    write_stack(office, size, character)
    with serving(office, max(count, 4)) as server:
        return spent(server, [message("GET /buckets/logs/objects/k")] * count, 200, ask=Server.leave_unread if unread else Server.ask)


def put_on_stack(office: Office, size: int, rules: int = 0) -> Found:
    """Puts on a key with many versions, also under rules for noncurrent versions that match none of them."""
    write_stack(office, size, apart=1 if rules else 0)
    rule = {"Filter": ONE_TAG, "NoncurrentVersionExpiration": {"NoncurrentDays": NEVER}}
    puts = [message("PUT /buckets/logs/objects/k", b'{"size":1}')]
    return by_turns(office, [puts * (5 if rules else 1_000)] * TURNS + [puts * 6], MADE, (put_rules([rule] * rules),) if rules else ())


def below_steps(office: Office, size: int, rules: int, removes: bool = False) -> Found:
    """Puts on a key with many versions, or removals of its newer ones. Each step of the rules, six each, takes one of the newest alone."""
    write_stack(office, size, apart=1)
    moves = [{"NoncurrentDays": NEVER - 4_000 + 1_000 * it, "StorageClass": name} for it, name in enumerate(COLDER)]
    rule = {"Filter": ONE_TAG, "NoncurrentVersionExpiration": {"NoncurrentDays": NEVER + 1_000}, "NoncurrentVersionTransitions": moves}
    put = message("PUT /buckets/logs/objects/k", b'{"size":1}')
    before = (put_rules([rule] * rules), message("PUT /buckets/logs/objects/k", b'{"size":1000000,"tags":{"none":"none"}}'), put)
    removals = [message(f"DELETE /buckets/logs/versions/{size - 20 - it}/k") for it in range(5 * TURNS + 6)]
    turns = [removals[5 * it:5 * it + 5] if removes else [put] * 5 for it in range(TURNS)]
    return by_turns(office, [*turns, removals[-6:] if removes else [put] * 6], b'{"removed":' if removes else MADE, before)


def act_on_stack(office: Office, size: int, rules: int) -> Found:
    """Has the oldest versions of a key removed by one rule, under others that match none of its versions."""
    write_stack(office, size, apart=1)
    other = {"Filter": ONE_TAG, "NoncurrentVersionExpiration": {"NoncurrentDays": NEVER}}
    all_rules = [other] * (rules - 1) + [{"Filter": {"Prefix": ""}, "NoncurrentVersionExpiration": {"NoncurrentDays": 1}}]
    return by_turns(office, [[ACT] * 5] * TURNS + [[ACT] * 6], REMOVED, (put_rules(all_rules),))


def rules_on_stack(office: Office, size: int, rules: int) -> Found:
    """Sets rules on a bucket with a key of many versions, of which they match none."""
    write_stack(office, size, apart=1)
    rule = {"Filter": ONE_TAG, "NoncurrentVersionExpiration": {"NoncurrentDays": NEVER}}
    return by_turns(office, [[put_rules([rule] * rules)]] * 2 + [[]], DONE)


def delete_versions(office: Office, size: int, newest: bool = False) -> Found:
    """Removes versions of a key, always the oldest one or the newest one."""
    write_stack(office, size)
    removals = [message(f"DELETE /buckets/logs/versions/{size - it if newest else it + 1}/k") for it in range(size)]
    tenth = size // 10
    turns = [removals[it * tenth:(it + 1) * tenth] for it in range(TURNS)]
    return by_turns(office, [*turns, removals[TURNS * tenth:TURNS * tenth + 6]], b'{"removed":')


def due(office: Office, size: int, rules: int = 1) -> Found:
    """Asks what is due in a bucket, under one rule or more. Nothing is."""
    write_expiring(office, size, NEVER)
    more = put_rules([{"Filter": {"Prefix": ""}, "Expiration": {"Days": NEVER + it}} for it in range(rules)])
    return by_turns(office, [[DUE] * 5_000] * TURNS + [[]], NONE_DUE, (more,) if rules > 1 else ())


def act(office: Office, size: int) -> Found:
    """Has due objects removed, one after another."""
    write_expiring(office, size, 1)
    return by_turns(office, [[ACT] * min(size // 6, 5_000)] * TURNS + [[ACT] * 6], REMOVED)


def set_rules(office: Office, size: int, wrong: bool = False) -> Found:
    """Sets a configuration, whose last rule may be wrong."""
    office.write([frame(1, b"")])
    put = [message("PUT /buckets/logs/lifecycle", configuration(90 if wrong else 365, size))]
    answer = b'{"error":"ExpiresTooSoon","number":29,"rule":%d}' if wrong else b'{"rules":%d}'
    return by_turns(office, [put * 5] * TURNS + [[] if wrong else put * 6], answer % size)._replace(weight=bodies(put), times=5 * size)


def set_tariffs(office: Office, size: int) -> Found:
    """Sets a tariff again, beside others with eight tiers in each class."""
    puts = [message("PUT /tariff", tiers_tariff(f"{2030 + it // 12}-{it % 12 + 1:02}")) for it in range(size)]
    return by_turns(office, [puts[:10] * 5] * TURNS + [puts[:6]], b'{"tariff":"set"}', tuple(puts))


def tokens(office: Office, size: int) -> Found:
    """Puts an object again, each time with a token, with names and tags of greatest length."""
    bucket, body = "b" * 63, json.dumps({"size": 1, "tags": greatest_tags(WIDEST)}, ensure_ascii=False).encode()
    puts = [message(f"PUT /buckets/{bucket}/objects/{'k' * 1_024}", body, f"Office-Token: {it:064}\r\n") for it in range(size + 7)]
    found = by_turns(office, [puts[1:size + 1], puts[size + 1:]], MADE, (message(f"PUT /buckets/{bucket}"), puts[0]))
    return found._replace(weight=size * len(body))


def commands(office: Office, size: int) -> Found:
    """Sends each kind of command, and some acts."""
    write_expiring(office, size, 1)
    asked = [message(f"{line} /buckets/two{rest}", body) for line, rest, body in (
        ("PUT", "", b""), ("PUT", "/versioning", b'{"Status":"Enabled"}'), ("DELETE", "/lifecycle", b""), ("PUT", "/objects/k", b'{"size":1}'),
        ("PUT", "/tags/1/k", b'{"tags":{"a":"b"}}'), ("DELETE", "/objects/k", b""), ("DELETE", "/versions/1/k", b""), ("POST", "/uploads/k", b""),
        ("PUT", "/parts/1/1", b'{"size":1}'), ("POST", "/upload/1", b""), ("POST", "/uploads/k", b""), ("DELETE", "/upload/2", b""))]
    asked.insert(2, put_rules([{"Filter": {"Prefix": "none/"}, "Expiration": {"Days": NEVER}}], "two"))
    asked += [message("PUT /tariff", tiers_tariff("1970-01")), message("POST /months/2024-01/close")]
    calls, changes = counted(office, [ACT] * size + asked, DONE)
    return Found(syncs=calls, changes=changes)


def opening(office: Office, size: int) -> Found:
    """Starts over a journal of puts and as many acts, without a checkpoint."""
    rest = resting(office)
    write_acted(office, size)
    found = []
    for _ in range(TURNS):
        with running(office) as run:
            found.append(Found(run.peak() - rest, MIB, run.seconds(), 2 * size))
    return min(found, key=lambda it: it.seconds)


def explain_acts(office: Office, size: int) -> Found:
    """Prints the stays of puts and as many acts."""
    rest = resting(office)
    write_acted(office, size)
    return explained(office, rest, 2 * size, MIB, TURNS)


def explain_puts(office: Office, size: int) -> Found:
    """Prints the stays of puts, each under a key of its own: what a put takes."""
    rest = resting(office)
    write_puts(office, size)
    return explained(office, rest, size, size)


def explain_keys(office: Office, size: int, name: str = "STANDARD", character: bytes = b"k") -> Found:
    """Prints the stays of puts under long keys, again and again. CSV has two bytes for a quote."""
    rest = resting(office)
    write_long_keys(office, size, name, character)
    return explained(office, rest, size, office.journal.stat().st_size)


def explain_sparse(office: Office, size: int) -> Found:
    """Prints the stays of 1,000 puts. The file of the journal goes on in a hole, up to `size` bytes."""
    rest = resting(office)
    write_puts(office, 1_000)
    with open(office.journal, "r+b") as file:
        file.truncate(size)
    return explained(office, rest, 1_000, size)


BODIES, REPLIES, FILE, PUT, ENTRY, RULE = "times the bodies", "times the replies", "times the journal", "bytes a put", "an entry", "a rule"
# Above each row are the words of the document from which its bound is. A MB there is 1,000 KiB, above what the process had before. If the
# words are not kept, the bound is what was measured. A bound on a time is twice the words. The syncs are from FORMATS, "To append": "sync;
# write A5 at p; sync".
TABLE = {row.name: row for row in (
    # SECURITY: "at most 15 MB a worker". The aim is 16 times the body.
    Row("tariff", "PUT /tariff of TOML, of the costliest form", "bytes", (65_536, MIB), (65_536,), tariffs, 16, BODIES),
    Row("tariff-four", "four at once", "bytes", (MIB,), (65_536,), four_tariffs, 16, BODIES),
    # SECURITY: "21 MB for an inline table in an inline table".
    Row("tariff-no-setting", "one of them without the setting of the unit", "bytes", (MIB,), (65_536,),
        partial(tariffs, of_unit=False), 21.6, BODIES),
    # SECURITY: "below 1 MB stays".
    Row("tariff-stays", "what stays of four of them", "bytes", (MIB,), (65_536,), partial(four_tariffs, memory=Server.settled), 0.25, BODIES),
    # SECURITY: "7 to 15 MB a worker". The aim is 16 times the body.
    Row("json", "PUT of JSON, of the costliest form", "bytes", (MIB,), (65_536,), json_bodies, 16, BODIES),
    # SECURITY: "a reply of 698 MB, 143 MB of memory", which are the versions.
    Row("reply", "GET of a key, each version with the greatest tags", "versions", (30_000,), (500,), replies, 0.215, REPLIES),
    # SECURITY: "0.6 GB for four".
    Row("reply-four", "four of them at once", "versions", (30_000,), (500,), partial(replies, count=4), 0.215, REPLIES),
    # SECURITY: "a reply of 156 MB, 159 MB of memory".
    Row("reply-widest", "GET of a key, with tags of characters of four bytes", "versions", (10_000,), (200,),
        partial(replies, character=WIDEST), 1.1, REPLIES),
    # SECURITY: "a reply of 19 MB; with 64 workers and clients that do not read 142 MB of memory".
    Row("reply-unread", "64 GETs of a key that are not read", "versions", (100_000,), (20_000,),
        partial(replies, count=64, character="", unread=True), 0.16, REPLIES),
    # PERFORMANCE: 38,789 puts a second.
    Row("put-stack", "PUT on a key with versions", "versions", (190_000,), (2_000,), put_on_stack, None, "MiB", 0.052, syncs=2),
    # SECURITY: "50,000 versions and 100 rules"; the aim is 50 ms.
    Row("put-rules", "the same under 100 rules that match none of them", "versions", (50_000,), (6_000,),
        partial(put_on_stack, rules=100), None, "MiB", 50, syncs=2),
    # SECURITY: "199,000 versions and 1,000 rules"; the aim is 50 ms.
    Row("put-rules-most", "the same under 1,000 rules", "versions", (199_000,), (2_000,),
        partial(put_on_stack, rules=1_000), None, "MiB", 50, syncs=2),
    # SECURITY: "of six steps each, which take one of the newest versions alone"; the aim is 50 ms.
    Row("put-steps", "the same under 1,000 rules of six steps", "versions", (189_941,), (2_000,),
        partial(below_steps, rules=1_000), None, "MiB", 50, syncs=2),
    # SECURITY: "on a key of 220 versions, which has no blocks"; the aim is 50 ms.
    Row("put-steps-few", "the same on a key without blocks", "versions", (220,), (220,),
        partial(below_steps, rules=1_000), None, "MiB", 50, syncs=2),
    Row("delete-steps", "DELETE of a version beside them", "versions", (189_941,), (2_000,),
        partial(below_steps, rules=1_000, removes=True), None, "MiB", 50, syncs=2),
    # SECURITY: "an act that removes the oldest of 150,000 versions"; the aim is 50 ms.
    Row("act-rules", "POST act, which removes the oldest version", "versions", (150_000,), (2_000,),
        partial(act_on_stack, rules=1_000), None, "MiB", 50, syncs=2),
    # SECURITY: "setting 1,000 such rules". It is no bound of the aim.
    Row("rules-versions", "PUT of 1,000 rules over a key with versions", "versions", (190_000,), (2_000,),
        partial(rules_on_stack, rules=1_000), None, "MiB", 6_000),
    Row("delete-oldest", "DELETE of the oldest version", "versions", (50_000,), (1_000,), delete_versions, syncs=2),
    Row("delete-newest", "DELETE of the newest version", "versions", (50_000,), (1_000,), partial(delete_versions, newest=True), syncs=2),
    # PERFORMANCE: "Query, nothing due: 3 µs".
    Row("due", "GET due, of which nothing is", "objects", (100, 10_000, 200_000), (100, 2_000), due, None, "MiB", 0.006),
    Row("due-rules", "the same under 1,000 rules", "objects", (100_000,), (500,), partial(due, rules=1_000)),
    # PERFORMANCE: "Act that removes one: 11 µs", 8, and 17 for 200,000 objects.
    Row("act", "POST act, which removes an object", "objects", (100, 10_000, 200_000), (100, 2_000), act, None, "MiB", 0.034, syncs=2),
    # PERFORMANCE: 56 a second of 1,000 rules, so 0.036 ms a rule are wanted. Not kept: 0.028 to 0.048 ms.
    Row("rules", "PUT of a configuration", "rules", (1_000,), (100,), set_rules, None, BODIES, 0.05, RULE, 2),
    # PERFORMANCE: 149 a second of 1,000 rules, so 0.0134 ms a rule are wanted. Not kept: 0.011 to 0.019 ms.
    Row("rules-refused", "the same with an error in the last rule", "rules", (1_000,), (100,),
        partial(set_rules, wrong=True), None, BODIES, 0.02, RULE),
    Row("tariffs", "PUT /tariff of eight tiers, beside others", "tariffs", (100,), (100,), set_tariffs, syncs=2),
    # SECURITY: "177 MB for the kept replies", of 10,000 puts.
    Row("tokens", "PUT with a token, the greatest tags and names", "puts", (10_000,), (500,), tokens, 1.15, BODIES, syncs=2),
    Row("commands", "each kind of command", "acts", (5,), (5,), commands, syncs=2),
    # PERFORMANCE: "opening 20,000 puts and 20,000 acts, processor time: 0.11 s".
    Row("opening", "a start without a checkpoint", "puts and acts", (20_000,), (5_000,), opening, None, "MiB", 0.0055, ENTRY),
    # PERFORMANCE: "`office explain` of that journal, processor time: 0.11 s".
    Row("explain-acts", "explain", "puts and acts", (20_000,), (5_000,), explain_acts, None, "MiB", 0.0055, ENTRY),
    # SECURITY: "611 bytes a put".
    Row("explain-puts", "explain", "puts", (200_000,), (20_000,), explain_puts, 625, PUT, each=ENTRY),
    # SECURITY: "2.1 times the journal".
    Row("explain-keys", "explain, keys of 1,024 bytes", "puts", (478_000,), (20_000,), explain_keys, 2.2, FILE, each=ENTRY),
    # SECURITY: "5.1 times the journal".
    Row("explain-quotes", "the same of quotes, in GLACIER", "puts", (100_000,), (5_000,),
        partial(explain_keys, name="GLACIER", character=b'"'), 5.25, FILE, each=ENTRY),
    # SECURITY: "below 1 MiB".
    Row("explain-sparse", "explain of 1,000 puts before a hole in the file", "bytes", (2 << 30,), (64 << 20,),
        explain_sparse, 0.02, FILE, each=ENTRY),
)}


# What is printed.

def figures(row: Row, found: Found) -> Iterator[tuple[str, float, str, Optional[float], float]]:
    """Each figure that was found: its name, its value, its unit, its bound, and by how much it may be off."""
    if found.bytes is not None:
        yield "memory", found.bytes / found.weight, row.unit, row.memory, OFF_BY / found.weight
    if found.seconds is not None:
        yield "processor", 1_000 * found.seconds / found.times, f"ms {row.each}", row.milliseconds, 0
    if found.syncs is not None:
        yield "syncs", found.syncs / found.changes, "a change", row.syncs, 0


def shown(row: Row, found: Found) -> str:
    """The figures of a row with their bounds, as a text."""
    return ", ".join(f"{name} {value:.4g} {unit}" + (f" (at most {bound:.4g})" if bound is not None else "")
                     for name, value, unit, bound, _ in figures(row, found))


def passed(row: Row, found: Found) -> list[str]:
    """Each bound that is passed, with both figures. Fewer syncs than stated are as wrong as more."""
    return [f"{name} {value:.4g} {unit}, {'at most' if value > bound else 'not'} {bound:.4g}"
            for name, value, unit, bound, off in figures(row, found)
            if bound is not None and (value > bound + off or name == "syncs" and value != bound)]


def found_for(row: Row, size: int, program: str, port: Optional[int]) -> Found:
    """Measures one size of a row, and again if only its time passes a bound: another process may have been at work."""
    for _ in range(TRIES):
        with tempfile.TemporaryDirectory(dir="/dev/shm") as folder:
            found = row.measure(Office(program, folder, port), size)
        if [it.partition(" ")[0] for it in passed(row, found)] != ["processor"]:
            break
    return found


def measure(row: Row, size: int, program: str, port: Optional[int]) -> tuple[str, list[str]]:
    """Measures one size of a row, and prints it. Returns how that ended, and the lines of what failed."""
    about = f"{row.name} {size} {row.counts}"
    try:
        found = found_for(row, size, program, port)
    except (Wrong, OSError, subprocess.SubprocessError) as why:
        print(f"{about}: {why}", flush=True)
        return "failed", [f"FAILED: {about}: {why}"]
    print(f"{about}: {shown(row, found) or 'nothing'}", flush=True)
    wrong = [f"BOUND PASSED: {about}: {it}" for it in passed(row, found)]
    if row.syncs is None or found.syncs is not None:
        return "measured", wrong
    print(f"left out: {about}: syncs: no {lacking()}", flush=True)
    return "left out", wrong


def words_of(line: list[str]) -> argparse.Namespace:
    """Reads the command line."""
    rows = "rows:\n" + "".join(f"  {it.name:18}{it.asked}\n" for it in TABLE.values())
    parser = argparse.ArgumentParser(prog="costs.py", description=__doc__, epilog=rows, formatter_class=argparse.RawDescriptionHelpFormatter)
    parser.add_argument("--small", action="store_true", help="small sizes, which take seconds in all")
    parser.add_argument("--no-times", action="store_true", help="processor times are printed and not compared: for a busy machine")
    parser.add_argument("--port", type=int, help="the port of the servers")
    parser.add_argument("program", metavar="PROGRAM")
    parser.add_argument("rows", metavar="ROW", nargs="*", help="a row by its name; all of them if none is named")
    given = parser.parse_args(line)
    unknown = [name for name in given.rows if name not in TABLE]
    if unknown:
        parser.error(f"there is no row {' '.join(unknown)}; there are: {' '.join(TABLE)}")
    return given


def main(line: list[str]) -> int:
    """Measures the rows, and returns the exit code."""
    given = words_of(line)
    program, wrong, ends = str(pathlib.Path(given.program).resolve()), [], collections.Counter()
    for name in given.rows or TABLE:
        row = TABLE[name]._replace(milliseconds=None) if given.no_times else TABLE[name]
        for size in row.small if given.small else row.sizes:
            end, why = measure(row, size, program, given.port)
            ends[end] += 1
            wrong += why
    print("".join(f"{it}\n" for it in wrong), end="")
    print(f"{ends['measured']} measured, {len(wrong)} failed, {ends['left out']} left out, date {datetime.date.today()}")
    return 1 if wrong else LEFT_OUT if ends["left out"] else 0


if __name__ == "__main__":
    sys.exit(main(sys.argv[1:]))
