#!/usr/bin/env -S python3 -B
"""A connection that says nothing more ends after a minute, and its worker serves the next one. Takes that minute."""
import time

import live
from serve_client import LIMIT, Client, Server, request

SHOW = request("GET", "/buckets/load")
MINUTE = 60


class Silent(live.Case):
    def test_after_a_minute(self):
        with Server(self.program, self.folder / "served", "--workers", "1", "--connections", "2") as server:
            begin = time.monotonic()
            with server.client() as silent, Client(server.port, MINUTE + LIMIT) as waiting:
                silent.send(SHOW[:10])
                self.check("the client behind it is answered", 404, waiting.ask(SHOW)[0])
                self.check("not before the minute is over", True, time.monotonic() - begin > MINUTE - 2)
                self.check("the silent one was let go", None, silent.reply())
            self.check("the status, once each worker served its connections", 0, server.process.wait(LIMIT))


if __name__ == "__main__":
    live.main()
