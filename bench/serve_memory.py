#!/usr/bin/env python3
"""The greatest resident memory of `office serve`: python3 bench/serve_memory.py PROGRAM [FOLDER]

PROGRAM is crates/office_cli/out/office_cli. With 1 worker and with 64 it prints the process's high-water mark (VmHWM of /proc/PID/status)
before the first request, after five puts over each of as many connections as workers, all open at once, with bodies of 13 bytes, and
after five more with bodies of 1 MiB. No bucket is made, so that each put is answered 404 and the records do not grow. The
folder is made inside FOLDER (/dev/shm).
"""
import datetime
import pathlib
import re
import socket
import subprocess
import sys
import tempfile
import threading
import time

HEAD = b"PUT /buckets/logs/objects/k HTTP/1.1\r\nHost: office\r\nContent-Length: %d\r\n\r\n"


def free_port():
    with socket.socket() as probe:
        probe.bind(("127.0.0.1", 0))
        return probe.getsockname()[1]


def connect(port):
    """Connects to a server that may not listen yet."""
    for _ in range(1000):
        try:
            return socket.create_connection(("127.0.0.1", port), 30)
        except ConnectionRefusedError:
            time.sleep(0.01)
    sys.exit("nobody listens")


def ask(client, together, size, faults):
    body = b'{"size":1000}'.ljust(size)
    together.wait()
    for _ in range(5):
        client.sendall(HEAD % len(body) + body)
        if not client.recv(4096).startswith(b"HTTP/1.1 404 "):
            faults.append(size)
    together.wait()


def measure(program, folder, workers):
    subprocess.run([program, "init"], cwd=folder, check=True, stdout=subprocess.DEVNULL)
    port = free_port()
    words = [program, "serve", "--listen", f"127.0.0.1:{port}", "--workers", str(workers)]
    with subprocess.Popen(words, cwd=folder) as server:
        def high_water_kib():
            status = pathlib.Path(f"/proc/{server.pid}/status").read_text(encoding="ascii")
            return int(re.search(r"VmHWM:\s*(\d+)", status)[1])
        clients = [connect(port) for _ in range(workers)]
        found, faults = [high_water_kib()], []
        for size in (13, 1 << 20):
            together = threading.Barrier(workers, timeout=60)
            threads = [threading.Thread(target=ask, args=(client, together, size, faults)) for client in clients]
            for thread in threads:
                thread.start()
            for thread in threads:
                thread.join()
            found.append(high_water_kib())
        server.kill()
    if faults:
        sys.exit(f"not answered 404 with bodies of {faults[0]} bytes")
    return found


def main():
    if not 2 <= len(sys.argv) <= 3:
        sys.exit(__doc__)
    program = str(pathlib.Path(sys.argv[1]).resolve())
    for workers in (1, 64):
        with tempfile.TemporaryDirectory(dir=sys.argv[2] if len(sys.argv) > 2 else "/dev/shm") as folder:
            before, small, large = measure(program, folder, workers)
        print(f"workers {workers} idle_kib {before} small_bodies_kib {small} large_bodies_kib {large} date {datetime.date.today()}")


if __name__ == "__main__":
    main()
