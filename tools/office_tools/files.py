"""Writes files whole, synced, or not at all; for all tools that write one."""
import contextlib
import os
import typing

from office_tools.asking import Stop, say


def sync_folder(path: str) -> None:
    """Syncs the folder of a file, so that its name lasts too. Some file systems cannot, and keep it by themselves."""
    with contextlib.suppress(OSError):
        folder = os.open(os.path.dirname(os.path.abspath(path)), os.O_RDONLY)
        try:
            os.fsync(folder)
        finally:
            os.close(folder)


def atomic_write(path: str, parts: typing.Union[str, bytes, typing.Iterable[typing.Union[str, bytes]]], mode: int = 0o666) -> None:
    """Replaces a file by these texts or bytes, one after the other. Status 4 on failure: the old file is then as it was.

    The new file is written beside the old one, synced and renamed. `mode` is limited by the umask of the process.
    """
    part = f"{path}.{os.getpid()}.part"
    if os.path.exists(path) and not os.path.isfile(path):
        raise Stop(4, f"{path}: not a regular file")
    try:
        with open(os.open(part, os.O_WRONLY | os.O_CREAT | os.O_EXCL | os.O_CLOEXEC, mode), "wb") as file:
            for it in [parts] if isinstance(parts, (str, bytes)) else parts:
                file.write(it.encode() if isinstance(it, str) else it)
            file.flush()
            os.fsync(file.fileno())
        os.replace(part, path)
        sync_folder(path)
    except OSError as fault:
        with contextlib.suppress(OSError):
            os.remove(part)
        raise Stop(4, f"{path}: {fault.strerror}") from None
    except BaseException:
        with contextlib.suppress(OSError):
            os.remove(part)
        raise


def write(text: str, out: str) -> None:
    """Writes a text to a file, whole or not at all; - is standard output."""
    if out == "-":
        say(text)
    else:
        atomic_write(out, text)
