#!/usr/bin/env -S python3 -B
"""What a stop of a server costs the next start: after K connections a worker the server saves a checkpoint and the next start replays
nothing; a signal ends it without one, and the next start replays what came since the last checkpoint."""
import json
import signal

import live
from serve_client import LIMIT, Server, put_object, request


class Stops(live.Case):
    in_memory = True

    def setUp(self):
        super().setUp()
        self.folder = self.new_folder("served")
        self.office("run", sent=request("PUT", "/buckets/load"), folder=self.folder)
        if not self.slots()[0]:
            self.skipTest("no checkpoint: the program leaves check.0 empty")

    def slots(self):
        return [path.read_bytes() if path.exists() else b"" for path in (self.folder / "office-data" / it for it in ("check.0", "check.1"))]

    def opening(self):
        """How many entries an opening replays, by journal-dump."""
        status, said, _ = self.run_tool("journal-dump", "--slots", self.folder / "office-data/journal")
        self.check("journal-dump", 0, status)
        return json.loads(said.splitlines()[-1])["entries"]

    def puts(self, server, *keys):
        """A put over a connection of its own for each key."""
        for key in keys:
            with server.client() as client:
                self.check(f"put {key}", 201, client.ask(put_object(key))[0])

    def test_stops(self):
        self.check("a run saved a checkpoint", 0, self.opening())
        with Server(self.program, self.folder, "--workers", "1", "--connections", "3") as server:
            self.puts(server, "a", "b", "c")
            self.check("it ends with its last connection", 0, server.process.wait(LIMIT))
        self.check("and saved a checkpoint: nothing to replay", 0, self.opening())
        for number in (signal.SIGTERM, signal.SIGINT, signal.SIGKILL):
            before, saved = self.opening(), self.slots()
            with Server(self.program, self.folder, "--workers", "1", "--connections", "100000") as server:
                self.puts(server, f"d{number}", f"e{number}")
                self.check(f"{number.name} ends it at once", -number, server.stop(number))
            self.check(f"{number.name}: no checkpoint, and two more to replay", (saved, before + 2), (self.slots(), self.opening()))
        with Server(self.program, self.folder, "--workers", "1", "--connections", "1") as server:
            with server.client() as client:
                self.check("all is there", (200, 9), ((it := client.ask(request("GET", "/buckets/load")))[0], json.loads(it[1])["versions"]))
            self.check("it ends with its last connection again", 0, server.process.wait(LIMIT))
        # It accepted no command, so it saves nothing: the next start replays the same.
        self.check("a server that only answered queries saves no checkpoint", 6, self.opening())
        with Server(self.program, self.folder, "--workers", "1", "--connections", "1") as server:
            self.puts(server, "f")
            self.check("one that did a put, status", 0, server.process.wait(LIMIT))
        self.check("saves one", 0, self.opening())


if __name__ == "__main__":
    live.main()
