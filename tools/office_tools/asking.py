"""One connection to a server of the program, and the notes and statuses of the tools beside this file."""
import argparse
import base64
import getpass
import http.client
import json
import os
import re
import sys
import typing
import urllib.parse

from office_tools.tokens import FIELD

# What a proxy answers by itself, without a reply of the program.
PROXY = {401: "login or password is wrong", 403: "the login may not ask this", 413: "the body is too large",
         421: "another name is served there", 429: "too many requests", 502: "no server behind the proxy",
         503: "no server behind the proxy", 504: "no reply behind the proxy"}


# Where standard error is closed a note goes nowhere, and not to standard output.
sys.stderr = sys.stderr or open(os.devnull, "w", encoding="utf-8")


Words = argparse._ActionsContainer  # a reader of words, or a group of it


class Stop(Exception):
    """The status and the note with which a tool ends."""


def run(name: str, main: typing.Callable[[], typing.Optional[int]], stopped: typing.Tuple[int, str] = (2, "stopped; the same command continues")) -> typing.NoReturn:
    """Runs a tool, and ends with its status; `stopped` is the one where somebody ends it at a terminal."""
    try:
        sys.exit(main())
    except Stop as stop:
        status, note = stop.args
    except KeyboardInterrupt:
        status, note = stopped
    print(f"{name}: {note}", file=sys.stderr)
    sys.exit(status)


def say(text: str) -> None:
    """Writes to standard output. Status 4 where it cannot be written."""
    try:
        if sys.stdout is None:
            raise Stop(4, "standard output: closed")
        print(text, end="", flush=True)
    except OSError as fault:
        raise Stop(4, f"standard output: {fault.strerror}") from None


def words_of(name: str, about: str, epilog: str) -> argparse.ArgumentParser:
    """A reader of the words of a tool, which ends with status 1 where they are no command line."""
    words = argparse.ArgumentParser(prog=name, description=about, epilog=epilog, allow_abbrev=False,
                                    formatter_class=argparse.RawDescriptionHelpFormatter)
    words.error = lambda message: words.exit(1, f"{name}: {message}; --help says more\n")
    return words


class Server(typing.NamedTuple):
    """Where a server is, and as whom it is asked."""
    scheme: str
    host: str
    port: int
    login: typing.Optional[str]


def server_of(url: str) -> Server:
    """The server at an address as http://127.0.0.1:8080, or behind a proxy as https://LOGIN@office.example:8443."""
    parts = urllib.parse.urlsplit(url)
    try:
        if (parts.scheme in ("http", "https") and parts.hostname and parts.port and parts.path in ("", "/") and not parts.query
                and parts.password is None and (parts.username is None or parts.scheme == "https")):
            return Server(parts.scheme, parts.hostname, parts.port, parts.username)
    except ValueError:
        pass
    raise argparse.ArgumentTypeError(f"'{url}' is no address as http://127.0.0.1:8080 or https://LOGIN@office.example:8443")


def add_server(words: Words, required: bool = True) -> None:
    """The word that names the server. --to and --from are older names."""
    words.add_argument("--server", "--to", "--from", dest="server", metavar="URL", type=server_of, required=required,
                       help="a running server, as http://127.0.0.1:8080")


def fields_of(login):
    """The field of a login. The password is not among the words, which every user of the machine can read."""
    if login is None:
        return {}
    password = os.environ.get("OFFICE_PASSWORD")
    if password is None and sys.stdin is not None and sys.stdin.isatty():
        password = getpass.getpass(f"password of {login}: ", sys.stderr)
    if password is None:
        raise Stop(1, f"the password of {login} is asked for at a terminal, or is in the environment (OFFICE_PASSWORD)")
    pair = f"{urllib.parse.unquote(login)}:{password}".encode()
    return {"Authorization": "Basic " + base64.b64encode(pair).decode()}


class Office:
    """Asks over one connection, which is made anew where the server ended it between two requests."""

    def __init__(self, server: Server, patience: float = 70):
        self.name = f"{server.scheme}://{server.host}:{server.port}"
        self.fields = fields_of(server.login)
        kind = http.client.HTTPSConnection if server.scheme == "https" else http.client.HTTPConnection
        self.link = kind(server.host, server.port, timeout=patience)

    def exchange(self, method: str, target: str, sent: typing.Optional[bytes] = None, token: typing.Optional[str] = None) -> typing.Tuple[int, str, bytes]:
        """The status of the reply, its content type and the bytes of its body. Status 2 where there is no reply."""
        try:
            self.link.request(method, target, sent, {**self.fields, **({FIELD: token} if token else {})})
            reply = self.link.getresponse()
            said = reply.read()
        except (OSError, http.client.HTTPException) as fault:
            self.link.close()
            how = getattr(fault, "strerror", None) or str(fault) or type(fault).__name__
            raise Stop(2, f"no reply from {self.name} to {method} {target}: {how}") from None
        # The program ends the connection after a message whose framing it refuses (BadHead, CutShort, and the three statuses).
        if reply.status in (413, 431, 501) or said.endswith((b'"number":120}', b'"number":127}')):
            self.link.close()
        return reply.status, reply.getheader("content-type", ""), said

    def object_of(self, method: str, target: str, status: int, said: bytes) -> dict:
        """The body of a reply, an object. Status 2 where it is not one of the program."""
        try:
            found = json.loads(said)
            if b"\\u" in said:
                json.dumps(found, ensure_ascii=False).encode()  # half a pair of code units is no character
        except (ValueError, RecursionError):
            found = None
        if not isinstance(found, dict) and status in PROXY:
            raise Stop(2, f"{self.name} refuses {method} {target}: {status} {PROXY[status]}")
        if not isinstance(found, dict):
            raise Stop(2, f"what answers at {self.name} is not the program: {method} {target} has status {status}")
        return found

    def ask(self, method: str, target: str, body: typing.Optional[dict] = None, token: typing.Optional[str] = None) -> typing.Tuple[int, dict]:
        """The status of the reply and its body, an object. Status 2 where there is no reply, or an unknown one."""
        sent = None if body is None else json.dumps(body, separators=(",", ":")).encode()
        status, _, said = self.exchange(method, target, sent, token)
        return status, self.object_of(method, target, status, said)

    def ask_csv(self, target: str) -> typing.Tuple[int, typing.Union[str, dict]]:
        """The status of the reply and its body: where it is 200 the text of a CSV, else an object."""
        status, kind, said = self.exchange("GET", target)
        if status == 200 and kind.partition(";")[0].strip().lower() == "text/csv":
            try:
                return status, said.decode()
            except ValueError:
                raise Stop(2, f"what answers at {self.name} is not the program: GET {target} is not UTF-8") from None
        if status == 200:
            raise Stop(2, f"what answers at {self.name} is not the program: GET {target} is no CSV")
        return status, self.object_of("GET", target, status, said)


def text_in(found: dict, name: str) -> str:
    """A text of a reply, on one line. Status 2 if it is not one."""
    text = found.get(name)
    if not isinstance(text, str) or not text.isprintable():
        raise Stop(2, f"a reply is not one of the program: its {name} is {json.dumps(text)[:80]}")
    return text


def number_in(found: dict, name: str, kind: type = int) -> int:
    """A whole number of a reply, spelled as a number or as a text of digits. Status 2 if it is not one."""
    value = found.get(name)
    if not isinstance(value, kind) or isinstance(value, bool) or not re.fullmatch("0|[1-9][0-9]{0,38}", str(value), re.ASCII):
        raise Stop(2, f"a reply is not one of the program: its {name} is {json.dumps(value)[:80]}")
    return int(value)


def meters_in(found: dict) -> typing.List[typing.Tuple[str, int, int, int]]:
    """The class, byte-milliseconds, early ones and moves of each class of a bucket. Status 2 where a reply has none."""
    classes = found.get("classes")
    if not isinstance(classes, list) or not classes or not all(isinstance(it, dict) for it in classes):
        raise Stop(2, "a reply is not one of the program: it has no list of classes")
    return [(text_in(it, "class"), number_in(it, "byte_ms", str), number_in(it, "early_byte_ms", str), number_in(it, "moves"))
            for it in classes]


def reason(status: int, found: dict) -> str:
    """A refusal in words."""
    error = found.get("error")
    return f"{status} {error if isinstance(error, str) and error.isprintable() else 'without a reason'}"
