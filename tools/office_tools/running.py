"""The program itself, asked over its standard input in place of a connection: `office run` in this folder."""
import contextlib
import subprocess
import typing

from office_tools.asking import Office, Stop
from office_tools.tokens import FIELD


class Running(Office):
    """Asks one run of the program, which ends with the tool. No server may work in the folder meanwhile."""

    def __init__(self, program: str, folder: typing.Optional[str] = None):
        """Over `office-data` in this folder, or in another one."""
        self.name = f"{program} run"
        try:
            self.process = subprocess.Popen([program, "run"], stdin=subprocess.PIPE, stdout=subprocess.PIPE, cwd=folder)
        except OSError as fault:
            raise Stop(2, f"{program} is not started: {fault.strerror}") from None

    def ended(self, method: str, target: str) -> typing.NoReturn:
        """The program gave no reply: its note went to standard error."""
        with contextlib.suppress(OSError):  # what was not taken yet goes nowhere
            self.process.stdin.close()
        raise Stop(2, f"no reply from {self.name} to {method} {target}: it ended with status {self.process.wait(60)}")

    def end(self) -> None:
        """Ends the run: it has no more input."""
        with contextlib.suppress(OSError):
            self.process.stdin.close()
        self.process.stdout.close()
        self.process.wait(60)

    def exchange(self, method: str, target: str, sent: typing.Optional[bytes] = None, token: typing.Optional[str] = None) -> typing.Tuple[int, str, bytes]:
        body, field = sent or b"", f"{FIELD}: {token}\r\n" if token else ""
        try:
            self.process.stdin.write(f"{method} {target} HTTP/1.1\r\n{field}Content-Length: {len(body)}\r\n\r\n".encode() + body)
            self.process.stdin.flush()
        except OSError:
            self.ended(method, target)
        lines = []
        while not lines or lines[-1] not in (b"\r\n", b""):
            lines.append(self.process.stdout.readline())
        fields = dict(line.decode("latin-1").rstrip().lower().split(": ", 1) for line in lines[1:-1] if b": " in line)
        words = lines[0].split()
        if lines[-1] == b"" or len(words) < 2 or not words[1].isdigit() or not fields.get("content-length", "").isdigit():
            self.ended(method, target)
        said = self.process.stdout.read(int(fields["content-length"]))
        return int(words[1]), fields.get("content-type", ""), said
