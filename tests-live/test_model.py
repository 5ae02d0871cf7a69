#!/usr/bin/env -S python3 -B
"""Compares the program with plain models of the office (plain_office.py, plain_tokens.py) on random histories: each is written as a
journal with moments of its own, further commands are sent, some of them with tokens and some again, and every bucket, key, upload,
configuration and month is asked for.

OFFICE_SEEDS=1000,1000 takes 1,000 histories from number 1000 on in place of 40.
"""
import json

import live
from histories import History
from model_words import text


def message(method, target, body, tokens):
    sent = b"" if body is None else json.dumps(body, ensure_ascii=False).encode()
    fields = "".join(f"{name}: {token}\r\n" for name, token in zip(("Office-Token", "office-TOKEN"), tokens))
    return f"{method} {target} HTTP/1.1\r\n{fields}Content-Length: {len(sent)}\r\n\r\n".encode() + sent


def bodies(said):
    """The bodies of replies that follow each other."""
    while said:
        head, _, rest = said.partition(b"\r\n\r\n")
        size = int(head.rpartition(b" ")[2])
        yield rest[:size].decode()
        said = rest[size:]


class Model(live.Case):
    def test_random_histories(self):
        for seed in live.seeds(1, 40):
            with self.subTest(seed=seed):
                self.compare(seed)

    def compare(self, seed):
        history, folder = History(seed), self.folder / str(seed)
        (folder / "office-data").mkdir(parents=True)
        history.fill()
        (folder / "office-data/journal").write_bytes(history.closed())
        history.now = history.last  # the clock is before it
        asked = [history.command() for _ in range(20)]
        # A query passes over a token, whatever it is.
        asked += [("GET", target, None, ["a b", "t1"], wanted) for target, wanted in history.queries()]
        ended = self.office("run", sent=b"".join(message(*it[:4]) for it in asked), folder=folder)
        self.assertEqual((0, ""), (ended.returncode, ended.stderr.decode()))
        found = list(bodies(ended.stdout))
        self.assertEqual(len(asked), len(found), "a reply to each message")
        wrong = [f"{method} {target}: wanted {text(wanted)}, found {body}"
                 for (method, target, _, _, wanted), body in zip(asked, found) if text(wanted) != body]
        self.assertEqual([], wrong[:3])


if __name__ == "__main__":
    live.main()
