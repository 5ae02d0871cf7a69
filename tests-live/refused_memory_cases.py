"""The cases of refused_memory.sh: python3 refused_memory_cases.py PROGRAM FOLDER. Ends with 1 where one failed.

A run with a refused allocation ends with status 0, or with 6 and its line. Its replies are a front of those of the whole run, with
the refusal for want of memory behind them where it has one, and the journal holds the commands that were accepted, and no other. A
report and a table of stays are whole, or a front of them was said. The bills of a month are posted whole or not at all; of these
not each allocation is refused, and a refusal inside the database may also be its fault, status 11."""
import os
import pathlib
import shutil
import socket
import subprocess
import sys
import time

from spelled import GIB, create, frame, journal, put
from sqlite_bills import all_rows, rows_of

PROGRAM, FOLDER = sys.argv[1], pathlib.Path(sys.argv[2])
COUNTED, DATA = FOLDER / "counted", FOLDER / "run" / "office-data"
LACKS = b'HTTP/1.1 500 Internal Server Error\r\ncontent-type: application/json\r\ncontent-length: 33\r\n\r\n{"error":"NoMemory","number":115}'
BODIES = (b"", b'{"size":200000,"class":"STANDARD_IA","tags":{"team":"a"}}', b'{"size":1}', b"")
STARTS = (b"PUT /buckets/logs", b"PUT /buckets/logs/objects/a", b"PUT /buckets/logs/objects/b", b"DELETE /buckets/logs/objects/b")
# Lifecycle actions: a renewal of the queue of what is due that finds no memory drops the queue, and the actions stay the same ones.
RULES = (b'{"Rules":[{"Status":"Enabled","Filter":{"Prefix":""},"Expiration":{"Date":"2020-01-01"},'
         b'"AbortIncompleteMultipartUpload":{"DaysAfterInitiation":1}}]}')
DUE_BODIES = (b"", RULES, b'{"size":1}', b'{"size":2}', b"", b'{"size":3}', b"", b"", RULES, b"")
DUE_STARTS = (b"PUT /buckets/logs", b"PUT /buckets/logs/lifecycle", b"PUT /buckets/logs/objects/a", b"PUT /buckets/logs/objects/b",
              b"POST /buckets/logs/uploads/c", b"PUT /buckets/logs/parts/1/1", b"POST /buckets/logs/upload/1", b"POST /buckets/logs/act",
              b"PUT /buckets/logs/lifecycle", b"POST /buckets/logs/act")
NOTES = {0: b"", 6: b"memory: refused\n"}
counts = {True: 0, False: 0}


def check(name, wanted, found):
    counts[wanted == found] += 1
    if wanted != found:
        print(f"FAILED: {name}: wanted {wanted!r}, found {found!r}", flush=True)


def message(start, body):
    return start + b" HTTP/1.1\r\nHost: office\r\nContent-Length: %d\r\n\r\n" % len(body) + body


def surroundings(refused):
    """The environment in which the program allocates without the allocation of this number."""
    COUNTED.unlink(missing_ok=True)
    return {**os.environ, "LD_PRELOAD": str(FOLDER / "refused_memory.so"), "REFUSED": str(refused), "COUNTED": str(COUNTED)}


def office(words, sent=b"", refused=0):
    """Runs the program on an input: its status, what it said, and its notes."""
    ended = subprocess.run([PROGRAM, *words], cwd=FOLDER / "run", input=sent, capture_output=True, timeout=60, check=False,
                           env=surroundings(refused))
    return ended.returncode, ended.stdout, ended.stderr


def served(words, sent=b"", refused=0):
    """The same of a server of one connection, on which the messages are sent."""
    with socket.create_server(("127.0.0.1", 0)) as free:
        port = free.getsockname()[1]
    words, until, said = [*words, "--listen", f"127.0.0.1:{port}"], time.monotonic() + 60, b""
    with subprocess.Popen([PROGRAM, *words], cwd=FOLDER / "run", stdout=subprocess.PIPE, stderr=subprocess.PIPE, env=surroundings(refused)) as server:
        while server.poll() is None and time.monotonic() < until:
            try:
                with socket.create_connection(("127.0.0.1", port), timeout=60) as client:
                    client.sendall(sent)
                    client.shutdown(socket.SHUT_WR)
                    while piece := client.recv(65_536):
                        said += piece
                break
            except ConnectionRefusedError:
                time.sleep(0.002)
            except OSError:
                break  # it ended with the connection
        _, notes = server.communicate(timeout=60)
        return server.returncode, said, notes


def commands():
    """The commands of the journal, without their moments: behind a head of ten bytes each has an open gate, its length in four
    bytes, and eight bytes of a moment."""
    journal, at, found = (DATA / "journal").read_bytes(), 10, []
    while journal[at] == 0xA5:
        size = int.from_bytes(journal[at + 1:at + 5], "big")
        found.append(journal[at + 13:at + 5 + size])
        at += 5 + size
    return found


def replies(said):
    """The replies in what was said, each without its moment of the day."""
    found = []
    while said:
        head, _, rest = said.partition(b"\r\n\r\n")
        size = int(head.rpartition(b" ")[2])
        body = rest[:size]
        found.append((head, body.split(b'"moment"')[0] + body[-20:] if b'"moment"' in body else body))
        said = rest[size:]
    return found


def anew(saved):
    shutil.rmtree(FOLDER / "run", ignore_errors=True)
    shutil.copytree(saved, FOLDER / "run")


def refuse_each(name, saved, words, sent, look, start=office, notes_of=NOTES, most=None):
    """Refuses each allocation of a command in turn, or so many of them over the whole run, and looks at what it then did."""
    anew(saved)
    whole = start(words, sent)
    check(f"{name}: status with nothing refused", (0, b""), (whole[0], whole[2]))
    total, ends = int.from_bytes(COUNTED.read_bytes(), sys.byteorder), {}
    kept = commands()
    numbers = range(1, total + 1) if most is None else sorted({1 + place * (total - 1) // most for place in range(most + 1)})
    for refused in numbers:
        anew(saved)
        status, said, notes = start(words, sent, refused)
        ends[status] = ends.get(status, 0) + 1
        what = f"{name}: allocation {refused}"
        check(f"{what}: its note", notes_of.get(status, f"one of the statuses {[*notes_of]}"), notes)
        look(what, status, said, whole[1], kept)
    print(f"{name}: {total} allocations, {len(numbers)} of them refused in turn: " + ", ".join(f"status {status} {n} times" for status, n in sorted(ends.items())))


def look_at_run(what, status, said, whole, kept):
    lacks = said.endswith(LACKS)
    told = replies(said[:-len(LACKS)] if lacks else said)
    check(f"{what}: its replies", replies(whole)[:len(told)], told)
    check(f"{what}: what the journal holds", kept[:len(told)], commands())
    if status == 0:
        check(f"{what}: each message is answered", (len(kept), False), (len(told), lacks))


def look_at_server(what, status, said, whole, kept):
    """As of a run, but a connection that ends for want of memory gives the server no status."""
    look_at_run(what, status if not said.endswith(LACKS) else 6, said, whole, kept)


def look_at_text(what, status, said, whole, kept):
    check(f"{what}: its text", whole if status == 0 else whole[:len(said)], said)
    check(f"{what}: what the journal holds", kept, commands())


def look_at_bills(what, status, said, whole, kept):
    rows = all_rows(DATA / "bills.db") if (DATA / "bills.db").exists() else []
    check(f"{what}: the rows are whole or not there", True, rows in {0: [BILLS], 6: [[]]}.get(status, [[], BILLS]))
    check(f"{what}: its text", whole if status == 0 else b"", said)
    check(f"{what}: what the journal holds", kept, commands())
    check(f"{what}: then", (0, b"already posted" if rows else b"bills"), ((it := office(["bill", "2024-01"]))[0], it[1].rpartition(b" 2 total 2")[0]))


def look_at_init(what, status, said, whole, kept):
    """A journal is made at once or by the next call, which finds memory."""
    check(f"{what}: its text", whole if status == 0 else b"", said)
    again, text, _ = office(["init"])
    check(f"{what}: then", (0, True), (again, text in (b"made\n", b"already made\n")))
    check(f"{what}: what the journal holds", kept, commands())


(FOLDER / "run").mkdir()
shutil.copytree(FOLDER / "run", FOLDER / "empty")
refuse_each("init", FOLDER / "empty", ["init"], b"", look_at_init)
anew(FOLDER / "empty")
office(["init"])
shutil.copytree(FOLDER / "run", FOLDER / "made")
SENT = b"".join(map(message, STARTS, BODIES))
refuse_each("run", FOLDER / "made", ["run"], SENT, look_at_run)
refuse_each("run with lifecycle actions", FOLDER / "made", ["run"], b"".join(map(message, DUE_STARTS, DUE_BODIES)), look_at_run)
refuse_each("serve", FOLDER / "made", ["serve", "--workers", "1", "--connections", "1"], SENT, look_at_server, served)
anew(FOLDER / "made")
CLASSES = (b"STANDARD", b"STANDARD_IA", b"ONEZONE_IA", b"GLACIER_IR", b"GLACIER", b"DEEP_ARCHIVE")
TARIFF = b"[storage]\n" + b"".join(b"%s = 1\n" % name for name in CLASSES) + b"[transition]\n" + b"".join(
    b"%s = 1\n" % name for name in CLASSES[1:])
office(["run"], SENT + message(b"PUT /tariff", TARIFF))
shutil.copytree(FOLDER / "run", FOLDER / "filled")
refuse_each("report", FOLDER / "filled", ["report", "2024-01"], b"", look_at_text)
refuse_each("explain", FOLDER / "filled", ["explain", "--workers", "1"], b"", look_at_text)
refuse_each("gen", FOLDER / "filled", ["gen", "1", "20"], b"", look_at_text, most=300)
# By a day of next year, so that what is foretold is the same whenever it is asked for.
refuse_each("forecast", FOLDER / "filled", ["forecast", "logs", f"{time.gmtime().tm_year + 1}-12-31"],
            b'{"Rules":[{"Status":"Enabled","Filter":{"Prefix":""},"Expiration":{"Days":100}}]}', look_at_text, most=300)
BILLS = rows_of("2024-01", [("logs", 1, 1), ("raw", 1, 1)])
(FOLDER / "closed" / "office-data").mkdir(parents=True)
(FOLDER / "closed" / "office-data" / "journal").write_bytes(journal(
    frame(1, 14, (1).to_bytes(4, "big") * 11), create(1, "logs"), create(1, "raw"), put(1, "logs", "a", GIB), put(1, "raw", "b", GIB),
    frame(32, 15, (2024).to_bytes(2, "big") + b"\1")))
refuse_each("bill", FOLDER / "closed", ["bill", "2024-01"], b"", look_at_bills, notes_of={**NOTES, 11: b"bills: failed\n"}, most=300)
print(f"{counts[True]} passed, {counts[False]} failed")
sys.exit(1 if counts[False] else 0)
