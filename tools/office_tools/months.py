"""Months, as 2026-11, moments, and quantities in GiB-months; for the tools that report a month."""
import argparse
import calendar
import datetime
import fractions
import re
import typing

from office_tools.asking import Stop

EPOCH = datetime.datetime(1970, 1, 1)
MONTH = re.compile(r"(19[7-9][0-9]|20[0-9][0-9])-(0[1-9]|1[0-2])", re.ASCII)


def month_of(text: str) -> str:
    """A month among the words of a tool."""
    if not MONTH.fullmatch(text):
        raise argparse.ArgumentTypeError(f"'{text}' is not a month as 2026-11")
    return text


def bounds_of(month: str) -> typing.Tuple[int, int]:
    """The first moment of a month, and the first after it, in milliseconds since 1970."""
    year, number = map(int, month.split("-"))
    start = calendar.timegm((year, number, 1, 0, 0, 0)) * 1000
    return start, start + calendar.monthrange(year, number)[1] * 86_400_000


def ms_of(text: str) -> int:
    """A moment of a reply, as 2026-11-05T00:00:00.000Z, in milliseconds since 1970. Status 2 if it is not one."""
    try:
        if not re.fullmatch(r"\d{4}-\d\d-\d\dT\d\d:\d\d:\d\d\.\d{3}Z", text, re.ASCII):
            raise ValueError
        return (datetime.datetime.fromisoformat(text[:-1]) - EPOCH) // datetime.timedelta(milliseconds=1)
    except ValueError:
        raise Stop(2, f"a reply is not one of the program: its moment is {text[:40]!r}") from None


def moment(ms: int) -> str:
    """Milliseconds since 1970 as a text, as 2026-11-05T00:00:00.000Z."""
    return (EPOCH + datetime.timedelta(milliseconds=ms)).isoformat(timespec="milliseconds") + "Z"


def gib_months(byte_ms: int, month: str, digits: int = 9) -> str:
    """Byte-milliseconds in GiB-months of this month, rounded to this number of digits after the point."""
    start, end = bounds_of(month)
    whole = round(fractions.Fraction(byte_ms * 10 ** digits, 2 ** 30 * (end - start)))
    return f"{whole // 10 ** digits}.{whole % 10 ** digits:0{digits}}"
