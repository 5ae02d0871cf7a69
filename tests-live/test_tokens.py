#!/usr/bin/env -S python3 -B
"""Sends requests with a token to a server, again, to another command, behind a stop and behind 10,000 others, and compares the replies
byte for byte, and the journal."""
import json

import live
from serve_client import entries_of, request, token_in, whole_entries_of
from spelled import create, journal

# What the clock does not decide of the reply to CreateBucket.
MADE = b'HTTP/1.1 201 Created\r\ncontent-type: application/json\r\ncontent-length: 17\r\n\r\n{"bucket":"logs"}'
NOT_SERVED, BAD = (400, '{"error":"TokenNotServed","number":129}'), (400, '{"error":"BadToken","number":128}')
RULES = '{"Rules":[{"Status":"Enabled","Filter":{},"Expiration":{"Days":1}}]}'
PRICES = "[storage]\n" + "".join(f"{it} = 1\n" for it in live.CLASSES) + "[transition]\n" + "".join(f"{it} = 1\n" for it in live.CLASSES[1:])
KEPT = 10_000


def with_token(method, target, token, body="", name="Office-Token"):
    return request(method, target, body, fields=f"{name}: {token}\r\n")


def reused(kind):
    return 409, f'{{"error":"TokenReused","kind":{kind},"number":92}}'


class Tokens(live.Case):
    in_memory = True

    def setUp(self):
        super().setUp()
        self.server, self.place = self.serve(), self.folder / "served"
        self.client = self.server.client()
        self.addCleanup(lambda: self.client.socket.close())

    def ask(self, *how, **more):
        return self.client.ask(with_token(*how, **more))

    def plain(self, method, target, body=""):
        return self.client.ask(request(method, target, body))

    def again(self, number=9):
        """Stops the server, and opens the office again."""
        self.client.socket.close()
        self.server.stop(number)
        self.server = self.serve()
        self.client = self.server.client()

    def open(self, data):
        """Serves a journal of these bytes."""
        self.client.socket.close()
        self.server.stop()
        (self.place / "office-data" / "journal").write_bytes(data)
        self.server = self.serve()
        self.client = self.server.client()

    def bytes_of(self, sent):
        """The bytes of the reply to a message that is the last of its connection."""
        with self.server.client() as client:
            client.send(sent.replace(b"Host: office\r\n", b"Host: office\r\nConnection: close\r\n"))
            said = b""
            while piece := client.socket.recv(65536):
                said += piece
        return said

    def count(self):
        return len(entries_of(self.place))

    def test_the_same_request_twice(self):
        sent = with_token("PUT", "/buckets/logs", "t1")
        self.check("both replies, byte for byte", [MADE, MADE], [self.bytes_of(sent), self.bytes_of(sent)])
        (entry,) = whole_entries_of(self.place)
        self.check("the entry behind its moment", "8102743100046c6f6773", entry[8:].hex())
        data = (self.place / "office-data" / "journal").read_bytes()
        self.check("the journal has 34 bytes up to its end gate at 33", (b"\0" * (len(data) - 33), 18), (data[33:], len(entry)))
        shown = json.loads(self.run_tool("journal-dump", self.place / "office-data" / "journal")[1])
        self.check("as journal-dump shows it", ("create-bucket", "t1", "logs"), tuple(shown[name] for name in ("kind", "token", "bucket")))
        self.check("another bucket", reused(1), self.ask("PUT", "/buckets/other", "t1"))
        self.check("another command", reused(1), self.ask("PUT", "/buckets/logs/objects/a", "t1", '{"size":1}'))
        self.check("another token", (409, '{"error":"BucketExists","number":80}'), self.ask("PUT", "/buckets/logs", "t2"))
        self.check("one entry", 1, self.count())

    def test_what_a_token_is_kept_with(self):
        for target, body in (("", ""), ("/versioning", '{"Status":"Enabled"}')):
            self.plain("PUT", f"/buckets/logs{target}", body)
        first = self.ask("PUT", "/buckets/logs/objects/a%2Fb", "put", '{"size":5,"tags":{"b":"2","a":"1"}}')
        same = ('{"tags":{"a":"1","b":"2"},"size":5,"class":"STANDARD"}', ' {"size": 5, "size": 5, "tags": {"a": "1", "b": "2"}}')
        self.check("the same command in other words", [first, first], [self.ask("PUT", "/buckets/logs/objects/a/b", "put", it) for it in same])
        for name, method, target, body in (
                ("another size", "PUT", "objects/a/b", '{"size":6,"tags":{"a":"1","b":"2"}}'), ("another class", "PUT", "objects/a/b", '{"size":5,"class":"GLACIER","tags":{"a":"1","b":"2"}}'),
                ("other tags", "PUT", "objects/a/b", '{"size":5}'), ("another key", "PUT", "objects/a", '{"size":5,"tags":{"a":"1","b":"2"}}'), ("a delete", "DELETE", "objects/a/b", "")):
            self.check(name, reused(5), self.ask(method, f"/buckets/logs/{target}", "put", body))
        self.check("one version", 1, json.loads(self.plain("GET", "/buckets/logs")[1])["versions"])
        rows = [("DELETE", "objects/gone", "", 6), ("DELETE", "versions/1/a/b", "", 7), ("POST", "uploads/big", "{}", 9), ("PUT", "parts/1/7", '{"size":3}', 10),
                ("POST", "upload/1", "", 11), ("PUT", "tags/3/big", '{"tags":{"k":"v"}}', 8), ("PUT", "versioning", '{"Status":"Suspended"}', 2)]
        more = [("DELETE", "lifecycle", "", 4), ("DELETE", "upload/2", "", 12)]
        self.once(rows)
        self.plain("PUT", "/buckets/logs/lifecycle", RULES)
        self.plain("POST", "/buckets/logs/uploads/other", "{}")
        self.once(more)
        found = [it[8] for it in whole_entries_of(self.place) if it[8] > 0x80]
        self.check("the entries have their kinds and 80", [0x85, *(kind + 0x80 for *_, kind in rows + more)], found)

    def once(self, rows):
        """Each of these is done once, however often it is asked for, and its token serves no other command."""
        for method, target, body, kind in rows:
            one = self.ask(method, f"/buckets/logs/{target}", f"of-{kind}", body)
            self.check(f"kind {kind}: done once", (True, one), (one[0] < 300, self.ask(method, f"/buckets/logs/{target}", f"of-{kind}", body)))
            self.check(f"kind {kind}: with another command", reused(kind), self.ask("PUT", "/buckets/third", f"of-{kind}"))

    def test_a_month_is_closed_once(self):
        self.open(journal(create(1, "logs")))
        self.plain("PUT", "/tariff", PRICES)
        close = ("POST", "/months/2024-01/close", "t1")
        self.check("with a token, twice", [(200, '{"closed":"2024-01"}')] * 2, [self.ask(*close), self.ask(*close)])
        self.check("without one", (409, '{"error":"AlreadyClosed","number":86}'), self.plain(*close[:2]))
        self.check("the next month with the token of this one", reused(15), self.ask("POST", "/months/2024-02/close", "t1"))
        self.check("its entry", ["8f02743107e801"], [it[8:].hex() for it in whole_entries_of(self.place)][2:])

    def test_a_refused_command_keeps_nothing(self):
        put = ("PUT", "/buckets/logs/objects/a", "t", '{"size":1}')
        self.check("no bucket", (404, '{"error":"NoSuchBucket","number":81}'), self.ask(*put))
        self.plain("PUT", "/buckets/logs")
        self.check("the same request later", (201, self.ask(*put)), (self.ask(*put)[0], self.ask(*put)))
        self.check("two entries", 2, self.count())

    def test_what_takes_no_token(self):
        self.plain("PUT", "/buckets/logs")
        for method, target, body in (("POST", "/buckets/logs/act", ""), ("PUT", "/buckets/logs/lifecycle", RULES), ("PUT", "/tariff", PRICES)):
            self.check(f"{method} {target}", NOT_SERVED, self.ask(method, target, "t", body))
            self.check(f"{method} {target}, a token that is none", BAD, self.ask(method, target, "a b", body))
        for method, target, body, number in (("PUT", "/buckets/logs/lifecycle", "x", 40), ("PUT", "/tariff", "x = [", 70), ("PUT", "/x", "", 121)):
            self.check(f"what the message is refused for comes first: {number}", [number] * 2,
                       [json.loads(self.ask(method, target, it, body)[1])["number"] for it in ("t", "a b")])
        self.check("of no bucket", NOT_SERVED, self.ask("POST", "/buckets/none/act", "t"))
        self.check("one entry", 1, self.count())
        self.check("it is new all the same", 201, self.ask("PUT", "/buckets/more", "t")[0])

    def test_fields(self):
        for token in ("!", "~" * 64, "a:b,c;d"):
            self.check(f"a token {token[:9]}", 201, self.ask("PUT", f"/buckets/b{len(token):02}-x", token)[0])
        for name in ("office-token", "OFFICE-TOKEN", "oFFICE-tOKEN"):
            self.check(f"the name {name}", reused(1), self.ask("PUT", "/buckets/other", "!", name=name))
        for token in ("", "a b", "a\tb", "x" * 65, "\u00e9"):
            self.check(f"no token: {token[:9]!r}", BAD, self.ask("PUT", "/buckets/other", token))
        for first, second in (("t", "t"), ("t", "u"), ("!", "")):
            sent = request("PUT", "/buckets/other", fields=f"Office-Token: {first}\r\nX: y\r\noffice-token: {second}\r\n")
            self.check(f"two fields: {first} {second}", BAD, self.client.ask(sent))
        self.check("a query passes it over", 404, self.ask("GET", "/buckets/other", "a b")[0])
        self.check("blanks around it", reused(1), self.ask("PUT", "/buckets/other", "  !\t "))

    def test_a_stop_between_the_two(self):
        self.plain("PUT", "/buckets/logs")
        self.plain("PUT", "/buckets/logs/versioning", '{"Status":"Enabled"}')
        asked = [("PUT", "/buckets/logs/objects/a", "p1", '{"size":5}'), ("DELETE", "/buckets/logs/objects/a", "d1"), ("POST", "/buckets/logs/uploads/u", "u1", "{}")]
        before = [self.ask(*it) for it in asked]
        entries = whole_entries_of(self.place)
        for number in (9, 15, 9):
            self.again(number)
            self.check(f"signal {number}: the first replies", before, [self.ask(*it) for it in asked])
            self.check(f"signal {number}: another command", reused(6), self.ask("PUT", "/buckets/logs/objects/a", "d1", '{"size":5}'))
        self.check("no entry more", entries, whole_entries_of(self.place))
        self.check("two versions", 2, json.loads(self.plain("GET", "/buckets/logs")[1])["versions"])

    def test_a_reply_that_is_lost(self):
        """The server is killed while requests are on their way: sent again with their tokens, each is done once."""
        self.plain("PUT", "/buckets/logs")
        self.plain("PUT", "/buckets/logs/versioning", '{"Status":"Enabled"}')
        sent = [with_token("PUT", "/buckets/logs/objects/a", f"p{it}", f'{{"size":{it}}}') for it in range(50)]
        for place in range(0, 50, 10):
            self.client.send(b"".join(sent[:place + 10]))
            self.again(9)
        found = [self.client.ask(it) for it in sent]
        self.check("each has a version of its own", (50, {201}), (len({it[1] for it in found}), {it[0] for it in found}))
        self.check("and is done once", 50, json.loads(self.plain("GET", "/buckets/logs")[1])["versions"])
        self.check("in the journal too", [f"p{it}" for it in range(50)], sorted(filter(None, map(token_in, whole_entries_of(self.place))), key=lambda it: int(it[1:])))

    def test_a_journal_without_tokens_is_continued(self):
        data, old = self.place / "office-data" / "journal", journal(create(1, "logs"))
        self.check("31 bytes, by hand", "a54d455445524a524e31a50000000f0000018cc251f4000100046c6f677300", old.hex())
        self.open(old)
        first = self.ask("PUT", "/buckets/logs/objects/a", "t1", '{"size":5}')
        self.again()
        self.check("both are there", (first, [0x01, 0x85]), (self.ask("PUT", "/buckets/logs/objects/a", "t1", '{"size":5}'), [it[8] for it in whole_entries_of(self.place)]))
        self.check("what was there is as it was", old[:10] + b"\xa5" + old[11:-1], data.read_bytes()[:len(old) - 1])
        self.check("an action", NOT_SERVED, self.ask("POST", "/buckets/logs/act", "t2"))

    def test_ten_thousand(self):
        """The replies to the last 10,000 commands with tokens are kept, and no more."""
        self.plain("PUT", "/buckets/logs")
        puts = [with_token("PUT", "/buckets/logs/objects/a", f"p{it}", f'{{"size":{it}}}') for it in range(KEPT + 1)]

        def send(them):
            found = []
            for place in range(0, len(them), 500):
                self.client.send(b"".join(them[place:place + 500]))
                found += [self.client.reply() for _ in them[place:place + 500]]
            return found
        before = send(puts[:KEPT])
        self.check("the oldest of 10,000", before[0], self.client.ask(puts[0]))
        self.check("is not made younger by that", 201, self.client.ask(puts[KEPT])[0])
        # A bucket and 10,001 puts are in the journal, and now one more.
        self.check("the oldest is forgotten, and done once more", (201, 1 + KEPT + 2), (self.client.ask(puts[0])[0], self.count()))
        self.check("the second went for it, and the third is kept", before[2], self.client.ask(puts[2]))
        self.again()
        self.check("the same behind a reopening", before[2:5] + before[KEPT - 2:], [self.client.ask(it) for it in (*puts[2:5], *puts[KEPT - 2:KEPT])])
        self.check("and nothing is done", 1 + KEPT + 2, self.count())


if __name__ == "__main__":
    live.main()
