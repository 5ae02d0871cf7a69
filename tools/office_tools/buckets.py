"""The names of the buckets that a tool asks for."""
import argparse
import pathlib
import typing

from office_tools.asking import Stop
from office_tools.tail import Tail, read_tail


def add_names(words: argparse.ArgumentParser) -> None:
    """The words that name buckets: the program has no list of them."""
    words.add_argument("--bucket", metavar="NAME", action="append", default=[], help="a bucket; may be given again")
    words.add_argument("--buckets", metavar="FILE", help="a file with a bucket's name on each line")
    words.add_argument("--journal", metavar="FILE", help="the journal of the server: all its buckets")


def named(given: argparse.Namespace, tail: typing.Optional[Tail] = None) -> typing.List[str]:
    """The names of the buckets, each once, in order; `tail` is what was read of the journal."""
    found = list(given.bucket)
    if given.buckets:
        try:
            found += pathlib.Path(given.buckets).read_text("utf-8").split()
        except (OSError, ValueError) as fault:
            raise Stop(3, f"{given.buckets}: {getattr(fault, 'strerror', None) or 'not UTF-8'}") from None
    return list(dict.fromkeys([*found, *(tail.buckets if tail else ())]))


def names_of(given: argparse.Namespace) -> typing.List[str]:
    """The names of the buckets, each once, in order."""
    return named(given, read_tail(given.journal) if given.journal else None)
