#!/usr/bin/env -S python3 -B
"""Offices behind a stock nginx with a map of 20,000 buckets, a bucket in pieces by prefix, and their bills joined by sqlite3 with
examples/bills.sql: the same quantities as one office with all objects."""
import re
import subprocess

import live
from free_port import free_port
from live import LIMIT, TOOLS
from serve_client import Client, request
from spelled import CLASSES, GIB, create, journal, put

TARIFF = ("[storage]\n" + "\n".join(f"{it} = {price}" for it, price in zip(CLASSES, (23_000, 12_500, 10_000, 4_000, 3_600, 990)))
          + "\n[transition]\n" + "\n".join(f"{it} = 30000" for it in CLASSES[1:]) + "\n")
# Objects of January 2024: day, bucket, key, size, class. The bucket film has two pieces, by the first letter of the key.
OBJECTS = [(1, "hot", "a", 3 * GIB, "STANDARD"), (2, "film", "a/1", 5000 * GIB, "GLACIER"), (3, "film", "m/1", 4096 * GIB + 7, "GLACIER"),
           (4, "raw", "z", 5, "DEEP_ARCHIVE"), (9, "film", "b/2", 1, "STANDARD"), (20, "film", "z", 12_345_678_901, "STANDARD"),
           (25, "hot", "a", 4 * GIB, "STANDARD_IA")]
OFFICE_OF = {"hot": 0, "film.p-a": 0, "film.p-m": 1, "raw": 1}


def piece_of(bucket, key):
    return bucket if bucket != "film" else "film.p-a" if key < "m" else "film.p-m"


class ManyOffices(live.Case):
    def setUp(self):
        super().setUp()
        self.folders = []
        for number in (0, 1):
            made = [create(1, it) for it, office in OFFICE_OF.items() if office == number]
            self.make(f"office{number}", [*made, *(put(day, piece_of(bucket, key), key, size, name) for day, bucket, key, size, name in OBJECTS
                                                   if OFFICE_OF[piece_of(bucket, key)] == number)])
        self.make("whole", [*(create(1, it) for it in ("hot", "film", "raw")), *(put(*it) for it in OBJECTS)])

    def make(self, name, frames):
        folder = self.new_folder(name)
        (folder / "office-data" / "journal").write_bytes(journal(*frames))
        self.office("run", sent=request("PUT", "/tariff", TARIFF), folder=folder)
        (folder / "stays.csv").write_bytes(self.office("explain", folder=folder).stdout)
        (folder / "report.csv").write_bytes(self.office("report", "2024-01", folder=folder).stdout)
        self.folders.append(folder)

    def ask(self, folders, query, *more):
        """The rows of a query over the files of these offices."""
        words = ["create table reports (bucket, line, class, quantity text, price integer, charge integer)",
                 "create table stays (bucket, key, item, class, bytes integer, begins, ends)", "create table month as select '2024-01-01' as first", ".mode csv",
                 *(f".import --skip 1 {it / 'report.csv'} reports" for it in folders), *(f".import --skip 1 {it / 'stays.csv'} stays" for it in folders),
                 f".read {live.ROOT / 'examples' / 'bills.sql'}", ".mode list", *more, query]
        done = self.ended(["sqlite3", "-batch", ":memory:", *words], text=True)
        self.check("sqlite3 has nothing to say", "", done.stderr)
        return [line.split("|") for line in done.stdout.splitlines()]

    @live.needs("sqlite3")
    def test_bills_are_joined(self):
        *parts, whole = self.folders
        query = "select whole, line, class, quantity from bills order by whole, line, class"
        wanted, found = self.ask([whole], query), self.ask(parts, query)
        self.check("lines of all buckets", True, len(wanted) > 4 and {it[0] for it in wanted} == {"hot", "film", "raw"})
        self.check("the quantities are those of one office", wanted, found)
        large = [int(it[3]) for it in wanted if it[:3] == ["film", "storage", "GLACIER"]]
        # By hand: 5,000 GiB for 30 days and 4,096 GiB and 7 bytes for 29 days, each with 32,768 bytes more.
        self.check("and the sum by hand, above 2^63", [((5000 * GIB + 32_768) * 30 + (4096 * GIB + 7 + 32_768) * 29) * 86_400_000], large)
        self.check("above 2^63", True, large[0] > 2 ** 63)
        charges = [int(self.ask(them, "select sum(charge) from bills")[0][0]) for them in ([whole], parts)]
        self.check("charges differ by the rounding of the pieces at most", True, 0 <= charges[0] - charges[1] <= 2)
        for name, them in (("one office", [whole]), ("pieces", parts)):
            self.check(f"{name}: each line is the sum of its stays", [], self.ask(them, "select * from wrong"))
            stays = self.ask(them, "select count(*) from metered where quantity <> ''")
            self.check(f"{name}: and there are such lines", True, int(stays[0][0]) >= 5)
        tiered = "update reports set price = 'tiered' where class = 'GLACIER'"
        self.check("charges in tiers that do not add up", [["film", "storage", "GLACIER", "2"]], self.ask(parts, "select * from apart", tiered))
        self.check("of one office they do", [], self.ask([whole], "select * from apart", tiered))
        self.check("nor do they matter with one price", [], self.ask(parts, "select * from apart"))
        self.check("a report that is wrong is found", [["hot", "STANDARD"]], self.ask(parts, "select bucket, class from wrong",
                   "update reports set quantity = quantity + 1 where bucket = 'hot' and class = 'STANDARD' and line = 'storage'"))

    @live.needs("nginx")
    def test_a_map_of_buckets(self):
        offices = [self.serve(it.name) for it in self.folders[:2]]
        folder, ports = self.folder / "proxy", {8080: free_port(), 8079: free_port()}
        (folder / "temp").mkdir(parents=True)
        for it in (self.folder, folder):
            it.chmod(0o755)
        source = (TOOLS / "proxy" / "offices-map-nginx.conf").read_text("utf-8")
        path = folder / "offices-map-nginx.conf"
        path.write_text(re.sub(r"127\.0\.0\.1:(\d+)", lambda found: f"127.0.0.1:{ports[int(found[1])]}", source), "utf-8")
        lines = [f"bucket-{it:05} 127.0.0.1:{offices[it % 2].port};\n" for it in range(20_000)]
        (folder / "offices.map").write_text("".join(lines + [f"{name} 127.0.0.1:{offices[it].port};\n" for name, it in OFFICE_OF.items()]), "utf-8")
        words = ["nginx", "-p", folder, "-c", path]
        tried = subprocess.run([*words, "-t"], capture_output=True, text=True, timeout=LIMIT, check=False)
        self.check("nginx takes it", (0, []), (tried.returncode, re.findall("(?i).*warn.*", tried.stderr)))
        proxy = subprocess.Popen([*words, "-g", "daemon off;"], stdout=subprocess.DEVNULL, stderr=subprocess.DEVNULL)
        self.addCleanup(proxy.wait)
        self.addCleanup(proxy.terminate)

        def ask(method, target, body=""):
            with Client(ports[8080]) as client:
                client.send(request(method, target, body))
                while b"\r\n\r\n" not in client.held and client._read():
                    pass
                return int(client.held.split(b" ")[1])
        for name in OFFICE_OF:
            self.check(f"{name} is found", 200, ask("GET", f"/buckets/{name}"))
        for number in (0, 1):
            self.check("a new bucket of the map", (201, 201), (ask("PUT", f"/buckets/bucket-{number:05}"), ask("PUT", f"/buckets/bucket-{number:05}/objects/a%20b/../c", '{"size":1}')))
            with offices[number].client() as client:
                self.check("is in its office", 200, client.ask(request("GET", f"/buckets/bucket-{number:05}/objects/a%20b/../c"))[0])
        for method, target in (("PUT", "/buckets/bucket-99999"), ("GET", "/tariff"), ("GET", "/months/2024-01/report"), ("GET", "/buckets/%68ot"), ("GET", "//buckets/hot")):
            self.check(f"{method} {target} goes to no office", 421, ask(method, target))


if __name__ == "__main__":
    live.main()
