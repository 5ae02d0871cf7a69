"""What the cases of a server share: its process, requests over a socket, and the journal's entries."""
import pathlib
import signal
import socket
import struct
import subprocess
import threading
import time

from free_port import HOST, free_port

# Seconds to wait for what usually takes less than six: only a hang takes longer.
LIMIT = 60


def request(method, target, body="", version="1.1", fields=""):
    """The bytes of a message."""
    return (f"{method} {target} HTTP/{version}\r\nHost: office\r\n{fields}"
            f"Content-Length: {len(body)}\r\n\r\n{body}").encode()


def put_object(key, **more):
    """The bytes of a request to put an object of 1,000 bytes into the bucket 'load'."""
    return request("PUT", f"/buckets/load/objects/{key}", '{"size":1000}', **more)


class Client:
    """One connection, and what came by it and was not taken yet. `room` is how many bytes the system holds that were not taken."""

    def __init__(self, port, patience=LIMIT, room=None):
        # A server that was just started may not listen yet.
        late = time.monotonic() + LIMIT
        while True:
            try:
                self.socket = socket.socket()
                self.socket.settimeout(patience)
                if room:
                    self.socket.setsockopt(socket.SOL_SOCKET, socket.SO_RCVBUF, room)
                self.socket.connect((HOST, port))
                break
            except ConnectionRefusedError:
                self.socket.close()
                if time.monotonic() > late:
                    raise TimeoutError(f"timed out after {LIMIT} s: nobody listens on port {port}") from None
                time.sleep(0.01)
        self.socket.setsockopt(socket.IPPROTO_TCP, socket.TCP_NODELAY, 1)
        self.held = b""

    def __enter__(self):
        return self

    def __exit__(self, *_):
        self.socket.close()

    def fileno(self):
        return self.socket.fileno()

    def send(self, sent):
        self.socket.sendall(sent)

    def end(self):
        """Sends no more; what comes can still be read."""
        self.socket.shutdown(socket.SHUT_WR)

    def reset(self):
        """Closes the connection with a reset in place of its regular end."""
        self.socket.setsockopt(socket.SOL_SOCKET, socket.SO_LINGER, struct.pack("ii", 1, 0))
        self.socket.close()

    def reply(self):
        """The status and the body of the next reply; nothing at the end of the connection."""
        while b"\r\n\r\n" not in self.held:
            if not self._read():
                return None
        head, _, self.held = self.held.partition(b"\r\n\r\n")
        length = next(int(line[15:]) for line in head.split(b"\r\n") if line.startswith(b"content-length:"))
        while len(self.held) < length:
            if not self._read():
                raise ConnectionError("a reply was cut short")
        body, self.held = self.held[:length], self.held[length:]
        return int(head.split(b" ")[1]), body.decode()

    def ask(self, sent):
        """Sends a request, and waits for its reply."""
        self.send(sent)
        return self.reply()

    def _read(self):
        got = self.socket.recv(65536)
        self.held += got
        return len(got) > 0


def at_once(count, work):
    """What `work` answers for each number below the count, each in a thread of its own."""
    found = [None] * count

    def run(place):
        try:
            found[place] = work(place)
        except OSError as error:
            found[place] = repr(error)
    threads = [threading.Thread(target=run, args=(place,)) for place in range(count)]
    for thread in threads:
        thread.start()
    for thread in threads:
        thread.join()
    return found


class Server:
    """A process of the program that serves the office of a folder."""

    def __init__(self, program, folder, *words):
        self.folder = pathlib.Path(folder)
        self.port = free_port()
        if not (self.folder / "office-data").exists():
            self.folder.mkdir(parents=True, exist_ok=True)
            subprocess.run([program, "init"], cwd=folder, check=True, stdout=subprocess.DEVNULL)
        with open(self.folder / "notes", "ab") as notes:
            self.process = subprocess.Popen([program, "serve", "--listen", f"{HOST}:{self.port}", *words], cwd=folder,
                                            stdin=subprocess.DEVNULL, stdout=subprocess.DEVNULL, stderr=notes)

    def __enter__(self):
        return self

    def __exit__(self, *_):
        if self.process.poll() is None:
            self.process.kill()
            self.process.wait()

    def client(self, **how):
        return Client(self.port, **how)

    def stop(self, number=signal.SIGTERM):
        """Sends a signal and waits; answers the status, a signal's number negative."""
        self.process.send_signal(number)
        return self.process.wait(LIMIT)

    def keys(self):
        return keys_of(self.folder)


def name_at(entry, offset):
    length = int.from_bytes(entry[offset:offset + 2], "big")
    return entry[offset + 2:offset + 2 + length].decode(), offset + 2 + length


def token_in(entry):
    """The token of an entry; nothing if it has none."""
    return entry[10:10 + entry[9]].decode() if entry[8] & 0x80 else None


def without_token(entry):
    """An entry as it would be without its token."""
    return entry[:8] + bytes([entry[8] & 0x7F]) + entry[10 + entry[9]:] if entry[8] & 0x80 else entry


def entries_of(folder):
    """The entries of the journal of a folder without their tokens, up to its first closed gate, as bytes; by docs/FORMATS.md."""
    return [without_token(it) for it in whole_entries_of(folder)]


def whole_entries_of(folder):
    """The same entries, with their tokens."""
    data = (pathlib.Path(folder) / "office-data" / "journal").read_bytes()
    if data[:10] != b"\xa5METERJRN1":
        raise ValueError("no journal")
    entries, gate = [], 10
    while data[gate] == 0xA5:
        length = int.from_bytes(data[gate + 1:gate + 5], "big")
        entries.append(data[gate + 5:gate + 5 + length])
        gate += 5 + length
    return entries


def keys_of(folder):
    """What the journal's entries did, in order: a bucket's name, or the key of an object."""
    found = []
    for entry in entries_of(folder):
        name, after = name_at(entry, 9)
        found.append(name if entry[8] == 1 else name_at(entry, after)[0])
    return found
