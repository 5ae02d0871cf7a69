#!/usr/bin/env -S python3 -B
"""Starts three offices behind haproxy and behind nginx with the configurations of tools/proxy, and shows that each bucket has one
office, and that their reports of a month, merged, are the one of a single office with all their buckets."""
import re
import subprocess

import live
from free_port import free_port
from live import LIMIT, TOOLS
from serve_client import Client, request
from spelled import CLASSES, GIB, create, journal, put

TARIFF = ("[storage]\n" + "\n".join(f"{it} = {price}" for it, price in zip(CLASSES, (23_000, 12_500, 10_000, 4_000, 3_600, 990)))
          + "\n[transition]\n" + "\n".join(f"{it} = 30000" for it in CLASSES[1:]) + "\n")
# Which office has a bucket, by hand; media is an exception to the letters.
OFFICE_OF = {"archive": 1, "0-logs": 1, "hot": 1, "images": 2, "queue": 2, "media": 3, "raw": 3, "zoo": 3}
SEEN = {"backups": 1, "h9": 1, "it.is": 2, "m-e-d-i-a": 2, "media.old": 2, "small": 3}


def entries(offices):
    """The entries of January 2024 of the buckets of these offices."""
    names = [it for it, office in OFFICE_OF.items() if office in offices]
    made = [create(1, it) for it in names]
    first = [put(2 + len(it), it, f"{it}/a", 3 * GIB + 1_000 * len(it), CLASSES[len(it) % 6]) for it in sorted(names, key=len)]
    return journal(*made, *first, *(put(20, it, f"{it}/a", GIB // len(it)) for it in names))

class Proxy:
    """A stock proxy with the configuration of tools/proxy, and the ports of here in place of those in it."""

    def __init__(self, name, offices, folder):
        self.name, self.port = name, free_port()
        ports = {8080: self.port, 8079: free_port(), **{8081 + place: it.port for place, it in enumerate(offices)}}
        source = TOOLS / "proxy" / f"offices-{name}.{'cfg' if name == 'haproxy' else 'conf'}"
        (folder / "temp").mkdir(parents=True)
        for it in (folder.parent, folder):
            it.chmod(0o755)
        path = folder / source.name
        path.write_text(re.sub(r"127\.0\.0\.1:(\d+)", lambda found: f"127.0.0.1:{ports[int(found[1])]}", source.read_text("utf-8")), "utf-8")
        self.words = (["haproxy", "-f", path] if name == "haproxy" else ["nginx", "-p", folder, "-c", path])

    def tried(self):
        """The status with which the proxy reads its configuration, and its warnings."""
        tried = subprocess.run([*self.words, "-c" if self.name == "haproxy" else "-t"], capture_output=True, text=True, timeout=LIMIT, check=False)
        return tried.returncode, re.findall("(?i).*warn.*", tried.stderr)

    def __enter__(self):
        self.process = subprocess.Popen([*self.words, *([] if self.name == "haproxy" else ["-g", "daemon off;"])],
                                        stdout=subprocess.DEVNULL, stderr=subprocess.DEVNULL)
        return self

    def __exit__(self, *_):
        self.process.terminate()
        self.process.wait(LIMIT)

    def ask(self, method, target, body="", fields=""):
        with Client(self.port) as client:
            client.send(request(method, target, body, fields=fields))
            # A reply of the proxy itself may have its fields in other letters.
            while b"\r\n\r\n" not in client.held and client._read():
                pass
            return int(client.held.split(b" ")[1])


def placed(offices, name):
    """In which offices a bucket is."""
    found = []
    for place, it in enumerate(offices, 1):
        with it.client() as client:
            found += [place] if client.ask(request("GET", f"/buckets/{name}"))[0] == 200 else []
    return found


class Scaling(live.Case):
    def setUp(self):
        super().setUp()
        self.offices = [self.start(f"office{place}", {place}) for place in (1, 2, 3)]
        self.whole = self.start("whole", {1, 2, 3})

    def start(self, name, which):
        (self.new_folder(name) / "office-data/journal").write_bytes(entries(which))
        return self.serve(name)

    def end_january(self):
        """Ends January in each office, and returns the files of their reports, the one of all buckets last."""
        for it in [*self.offices, self.whole]:
            with it.client() as client:
                client.ask(request("PUT", "/tariff", TARIFF))
            (it.folder / "kept").mkdir()
            ended = self.run_tool("month-end", "--server", f"http://127.0.0.1:{it.port}", "--journal", it.folder / "office-data/journal",
                                  "--folder", it.folder / "kept", "2024-01")
            self.check(f"month-end of {it.folder.name}, status", 0, ended[0])
        return [it.folder / "kept" / "2024-01-report.csv" for it in [*self.offices, self.whole]]

    def total_of(self, report):
        return int(report.read_text("ascii").rpartition(",")[2])

    def test_merged_reports(self):
        *parts, whole = self.end_january()
        status, merged, _ = self.run_tool("merge-reports", *parts[::-1])
        self.check("they are the report of one office with all buckets", (0, whole.read_text("ascii")), (status, merged))
        totals = [self.total_of(it) for it in parts]
        self.check("each has a part of the total", (True, self.total_of(whole)), (min(totals) > 0, sum(totals)))

    @live.needs("sqlite3")
    def test_merged_by_sqlite3(self):
        *parts, whole = self.end_january()
        done = self.ended(["sqlite3", "-batch", ":memory:", "create table r (bucket, line, class, quantity, price integer, charge integer)",
                           ".mode csv", *(f".import --skip 1 {it} r" for it in parts), "select sum(charge) from r where line <> 'total'",
                           "select count(distinct bucket) from r where bucket <> ''"], text=True)
        self.check("the same sum, and all buckets", [str(self.total_of(whole)), str(len(OFFICE_OF))], done.stdout.split())

    def test_reports_that_are_not_merged(self):
        *parts, _ = self.end_january()
        bad = self.folder / "bad.csv"
        for name, text in (("a report in which a bucket is too", parts[0].read_text("ascii")), ("no report", "none\n"),
                           ("a report that is cut", parts[0].read_text("ascii")[:-9])):
            bad.write_text(text, "ascii")
            self.check(f"{name}, status and text", (5, ""), self.run_tool("merge-reports", *parts, bad)[:2])
        bad.write_text(f"bucket,line,class,quantity,price,charge\nx,early,A,1,1,{2 ** 127}\n,total,,,,{2 ** 127}\n", "ascii")
        self.check("a charge above 2^63", (0, str(self.total_of(parts[0]) + 2 ** 127)),
                   ((it := self.run_tool("merge-reports", parts[0], bad))[0], it[1].rstrip().rpartition(",")[2]))
        self.check("a file twice, status", 1, self.run_tool("merge-reports", parts[0], parts[0])[0])
        self.check("a file that is not there, status", 3, self.run_tool("merge-reports", parts[0], self.folder / "none")[0])
        self.check("a folder that is not there, status", 4, self.run_tool("merge-reports", "--out", self.folder / "none/x", parts[0])[0])
        self.check("no file, status", 1, self.run_tool("merge-reports")[0])
        self.check("help, status", 0, self.run_tool("merge-reports", "--help")[0])

    @live.needs("haproxy")
    def test_haproxy(self):
        self.through("haproxy")

    @live.needs("nginx")
    def test_nginx(self):
        self.through("nginx")

    def through(self, name):
        """Asks three offices through a proxy."""
        proxy = Proxy(name, self.offices, self.folder / f"{name}-proxy")
        self.check("the proxy takes its configuration", (0, []), proxy.tried())
        self.end_january()
        with proxy:
            self.places(proxy)
            self.tools(proxy)
            self.slow_clients(proxy)
            self.one_office_ends(proxy)

    def places(self, proxy):
        """Which office has a bucket, and what no office is asked."""
        for bucket, office in SEEN.items():
            made = f"{bucket}-{proxy.name}" if bucket != "media.old" else f"{bucket}.{proxy.name}"
            found = [proxy.ask("PUT", f"/buckets/{made}"), proxy.ask("PUT", f"/buckets/{made}/objects/a/../b%20c", '{"size":1000}')]
            self.check(f"{made} is in office {office} alone", ([201, 201], [office]), (found, placed(self.offices, made)))
            self.check(f"{made} is read there", (200, 200), (proxy.ask("GET", f"/buckets/{made}"), proxy.ask("GET", f"/buckets/{made}/due")))
        token = f"Office-Token: {proxy.name}\r\n"
        self.check("a token reaches an office", [201, 201, 409], [proxy.ask("PUT", "/buckets/hot/objects/once", f'{{"size":{it}}}', token) for it in (7, 7, 8)])
        for bucket in OFFICE_OF:
            self.check(f"{bucket} is found", 200, proxy.ask("GET", f"/buckets/{bucket}/meters/2024-01"))
        for method, target in (("PUT", "/tariff"), ("GET", "/months/2024-01/report"), ("POST", "/months/2024-01/close"), ("GET", "/"),
                               ("GET", "/buckets/%6Dedia"), ("GET", "/buckets/-x"), ("GET", "/x/../buckets/media"), ("GET", "//buckets/media")):
            self.check(f"{method} {target} goes to no office", 421, proxy.ask(method, target))

    def tools(self, proxy):
        names, at = self.file("names", "\n".join(OFFICE_OF)), f"http://127.0.0.1:{proxy.port}"
        found = self.run_tool("usage", "--from", at, "--buckets", names, "2024-01")
        direct = self.run_tool("usage", "--from", f"http://127.0.0.1:{self.whole.port}", "--buckets", names, "2024-01")
        self.check("usage tells all buckets as one office does", (0, True, direct), (found[0], found[1].count("\n") > len(OFFICE_OF), found))
        self.check("act-all over all, status", 0, self.run_tool("act-all", "--to", at, "--buckets", names)[0])
        status, _, note = self.run_tool("month-end", "--server", at, "--buckets", names, "2024-02")
        self.check("month-end asks no proxy", (2, True), (status, note.endswith("421 another name is served there")))

    def slow_clients(self, proxy):
        """Half a request for an office with four workers, eight times, and a whole one behind them."""
        halves = [Client(proxy.port) for _ in range(8)]
        for half in halves:
            half.send(request("PUT", "/buckets/hot/objects/a", '{"size":1000}')[:-1])
        self.check("slow clients hold no worker", 200, proxy.ask("GET", "/buckets/hot"))
        for half in halves:
            half.socket.close()

    def one_office_ends(self, proxy):
        """Its buckets alone are not answered."""
        self.offices[1].stop()
        found = [proxy.ask("GET", f"/buckets/{it}") for it in ("hot", "queue", "zoo")]
        self.check("of an office that ended no bucket is answered, and of the others all", [200, True, 200],
                   [found[0], found[1] in (502, 503), found[2]])


if __name__ == "__main__":
    live.main()
