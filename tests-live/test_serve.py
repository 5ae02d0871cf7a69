#!/usr/bin/env -S python3 -B
"""Serves real clients, and shows that each is answered, that a client that fails costs its own connection only, and that the
journal then has what was acknowledged: requests one after another, slow ones, half ones, resets, 64 connections at once, 1,000
in turn, long replies that are not read, a stop by SIGTERM, and fifty kills by signal 9 under load."""
import contextlib
import itertools
import json
import random
import select
import threading
import time

import live
from serve_client import LIMIT, Server, at_once, put_object, request

MAKE = request("PUT", "/buckets/load")
SHOW = request("GET", "/buckets/load")
KILLS = 50


class Load:
    """Keys that were sent and keys that were acknowledged, each used once; for several threads."""

    def __init__(self):
        self.numbers = itertools.count()
        self.sent, self.acked, self.lock = set(), set(), threading.Lock()

    def key(self, kind="key"):
        with self.lock:
            name = f"{kind}-{next(self.numbers):06}"
            self.sent.add(name)
            return name

    def put(self, client, kind="key", **more):
        """Puts an object under a new key; answers the status."""
        key = self.key(kind)
        reply = client.ask(put_object(key, **more))
        if reply and reply[0] == 201:
            with self.lock:
                self.acked.add(key)
        return reply and reply[0]

    def agrees(self, keys):
        """Whether these keys of a journal are the acknowledged ones, each once, and at most sent ones besides."""
        return len(keys) == len(set(keys)) and self.acked <= set(keys) <= self.sent


def begin_to_come(clients, count):
    """The clients to whom a reply began to come, one second after there were so many."""
    late = time.monotonic() + LIMIT
    while len(select.select(clients, [], [], 0.1)[0]) < count and time.monotonic() < late:
        time.sleep(0.01)
    time.sleep(1)
    return select.select(clients, [], [], 0)[0]


class Serve(live.Case):
    def ends(self, server, load):
        """How connections end, and what stands in one message after another."""
        with server.client() as client:
            made = [client.ask(request("PUT", f"/buckets/many-{n:02}"))[0] for n in range(20)]
            self.check("each bucket is made", [201] * 20, made)
            order = random.Random(7).choices(range(20), k=100)
            client.send(b"".join(request("GET", f"/buckets/many-{n:02}") for n in order))
            self.check("pipelined requests are answered in order", [f'{{"bucket":"many-{n:02}"' for n in order],
                       [client.reply()[1].split(",")[0] for _ in order])
            client.end()
            self.check("a connection whose client ends it is ended", None, client.reply())
        for name, more in (("Connection: close", {"fields": "Connection: close\r\n"}), ("HTTP/1.0", {"version": "1.0"})):
            with server.client() as client:
                self.check(f"{name} is answered", 201, load.put(client, **more))
                self.check(f"{name} ends the connection", None, client.reply())
        with server.client() as client:
            client.send(put_object(load.key())[:40])
            client.end()
            self.check("a message cut short is refused", (400, '{"error":"CutShort","number":127}'), client.reply())
        with server.client() as client:
            found = client.ask(request("PUT", "/buckets/load/objects/large", "x" * (2 << 20)))
            self.check("a refusal reaches a client that sends two mebibytes behind its head", 413, found and found[0])

    def slow_and_lost(self, server, load):
        """Clients that are slow, that go away, and that reset their connections."""
        with server.client() as slow, server.client() as swift:
            key = load.key("slow")
            for place, byte in enumerate(put_object(key)):
                slow.send(bytes([byte]))
                if place % 10 == 0 and load.put(swift) != 201:
                    self.check("a swift client beside a slow one", 201, None)
            self.check("a slow request is answered", 201, slow.reply()[0])
            load.acked.add(key)
        for turn in range(40):
            client = server.client()
            if turn % 4 == 1:
                client.send(put_object(load.key("half"))[:50])
            elif turn % 4 == 2:
                client.send(put_object(load.key("unread")))
            elif turn % 4 == 3:
                client.send(SHOW * 2000)
                client.socket.recv(1)
            if turn < 20:
                client.reset()
            else:
                client.socket.close()
        with server.client() as client:
            self.check("a client after forty that went away", 201, load.put(client))

    def many(self, server, load):
        """Many connections, at once and one after another."""
        def one(_):
            with server.client() as client:
                return load.put(client)
        self.check("64 connections at once", [201] * 64, at_once(64, one))
        self.check("1,000 connections one after another", [201] * 1000, [one(None) for _ in range(1000)])

    def test_all_on_one_server(self):
        """All these on one server, which is stopped by SIGTERM, and then the journal."""
        load = Load()
        with Server(self.program, self.folder / "served", "--workers", "8") as server:
            with server.client() as client:
                self.check("a bucket is made", 201, client.ask(MAKE)[0])
            self.ends(server, load)
            self.slow_and_lost(server, load)
            self.many(server, load)
            with server.client() as client:
                load.put(client)
                self.check("SIGTERM stops it", -15, server.stop())
            keys = [key for key in server.keys() if key != "load" and not key.startswith("many-")]
        self.check("the journal has what was acknowledged, and of the rest only what was sent", True, load.agrees(keys))
        self.check("an object that came in part is not there", [], [key for key in keys if key.startswith("half")])

    def test_as_many_connections_as_workers(self):
        """As many connections as workers, all of them open at the same time; K connections a worker, and status 0."""
        barrier, load = threading.Barrier(64, timeout=LIMIT), Load()

        def one(_):
            with server.client() as client:
                barrier.wait()
                found = [load.put(client), load.put(client)]
                barrier.wait()
                return found
        with Server(self.program, self.folder / "served", "--workers", "64", "--connections", "1") as server:
            self.check("64 workers serve 64 connections side by side", [[404, 404]] * 64, at_once(64, one))
            self.check("the status once each served its connections", 0, server.process.wait(LIMIT))

    def test_versions_of_a_key(self):
        """The reply that shows the versions of a key: each version that was put, the newest first, below and above the 32 up to which it is printed
        whole, with tags that are small and that are as great as can be."""
        put, marks = [], "\x01\"k\u00e9\U00010000"
        with Server(self.program, self.folder / "served") as server, server.client() as client:
            client.ask(request("PUT", "/buckets/long"))
            self.check("versions are kept", 200, client.ask(request("PUT", "/buckets/long/versioning", '{"Status":"Enabled"}'))[0])
            for place in range(400):
                length = 128 if place % 50 == 49 else place % 7 + 1
                tags = {chr(97 + it) + marks[it % 5] * (length - 1): marks[(it + place) % 5] * min(256, length * 2) for it in range(place % 11)}
                body = json.dumps({"size": place, "tags": tags})
                self.check(f"put {place}", 201, client.ask(request("PUT", "/buckets/long/objects/k", body))[0])
                put.insert(0, (place, tags))
                if len(put) in (1, 2, 31, 32, 33, 34, 100, 400):
                    shown = json.loads(client.ask(request("GET", "/buckets/long/objects/k"))[1])["versions"]
                    self.check(f"{len(put)} versions", put, [(it["size"], it["tags"]) for it in shown])
                    self.check(f"{len(put)} numbers", [str(it) for it in range(len(put), 0, -1)], [it["version"] for it in shown])
                    self.check(f"{len(put)} moments", [None] + [it["created"] for it in shown[:-1]], [it.get("noncurrent_since") for it in shown])

    def test_long_replies(self):
        """With twenty workers, seventeen clients ask for 200 versions of a key, and do not read. Sixteen replies come, and the last one waits in
        vain until one of them was read. Meanwhile others are answered, but for the versions of a key."""
        tags = {f"{it}".rjust(128, "\x01"): "\x01" * 256 for it in range(10)}
        show = request("GET", "/buckets/load/objects/long")
        with Server(self.program, self.folder / "served", "--workers", "20") as server, contextlib.ExitStack() as held:
            with server.client() as client:
                client.ask(MAKE)
                client.ask(request("PUT", "/buckets/load/versioning", '{"Status":"Enabled"}'))
                put = request("PUT", "/buckets/load/objects/long", json.dumps({"size": 1, "tags": tags}))
                self.check("versions are put", [201] * 200, [client.ask(put)[0] for _ in range(200)])
                self.check("another key is put", 201, client.ask(put_object("short"))[0])
            clients = [held.enter_context(server.client(room=4096)) for _ in range(17)]
            for client in clients:
                client.send(show)
            begun = begin_to_come(clients, 16)
            self.check("sixteen replies begin to come", 16, len(begun))
            [last] = [client for client in clients if client not in begun]
            with server.client() as other:
                self.check("a put beside them", 201, other.ask(put_object("beside"))[0])
                self.check("a query beside them", 200, other.ask(SHOW)[0])
            status, body = begun[0].reply()
            self.check("one is read to its end", (200, 200), (status, len(json.loads(body)["versions"])))
            self.check("then the last one begins to come", [last], begin_to_come([last], 1))
            short = held.enter_context(server.client())
            short.send(request("GET", "/buckets/load/objects/short"))
            self.check("the versions of another key wait", [], begin_to_come([short], 0))
            status, body = last.reply()
            self.check("the last one is read to its end", (200, 200), (status, len(json.loads(body)["versions"])))
            status, body = short.reply()
            self.check("then those of the other key come", (200, 1), (status, len(json.loads(body)["versions"])))

    def test_killed_under_load(self):
        """Kills the server by signal 9 under load, and starts it again on the same folder."""
        load, lost = Load(), []
        with Server(self.program, self.folder / "served") as server, server.client() as client:
            client.ask(MAKE)
            server.stop(9)
        for turn in range(KILLS):
            with Server(self.program, self.folder / "served", "--workers", "4") as server:
                def work(_):
                    with server.client() as client:
                        while load.put(client) == 201:
                            pass
                server.client().socket.close()
                threading.Timer(0.1 + 0.2 * turn / KILLS, server.process.kill).start()
                at_once(4, work)
                server.process.wait(LIMIT)
            if not load.agrees([key for key in server.keys() if key != "load"]):
                lost.append(turn)
        self.check(f"killed {KILLS} times, the journal has what was acknowledged", [], lost)
        self.check("objects were acknowledged between the kills", True, len(load.acked) > KILLS)
        print(f"acknowledged between the kills: {len(load.acked)}; sent without a reply: {len(load.sent - load.acked)}")
        with Server(self.program, self.folder / "served") as server, server.client() as client:
            wanted = f'"versions":{len(server.keys()) - 1}}}'
            self.check("the office counts what the journal has", wanted, client.ask(SHOW)[1].rsplit(",", 1)[1])


if __name__ == "__main__":
    live.main()
