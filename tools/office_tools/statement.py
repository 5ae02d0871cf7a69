"""What a month costs, with what is known of its state: for bill and usage-page."""
import argparse
import datetime
import re
import typing
import urllib.parse

from office_tools.asking import Office, Stop, reason, text_in
from office_tools.buckets import named
from office_tools.months import bounds_of, moment, ms_of
from office_tools.reports import NoReport, Report, read_report
from office_tools.tail import Tail, read_tail
from office_tools.tariffs import NoTariffs, Tariff, in_force, is_of, tariffs_in

NOT_BILLED = "requests, retrieval, data transfer out (egress), monitoring and taxes"


class Unit(typing.NamedTuple):
    """A unit of money, and how many units of the prices are one of it."""
    name: str
    per: int

    def text(self, charge: int) -> str:
        """A charge or a price, exact if `per` is a power of ten, else rounded to six digits."""
        digits = len(str(self.per)) - 1 if re.fullmatch("10*", str(self.per)) else 6
        if not digits:
            return f"{charge:,}"
        whole = round(charge * 10 ** digits / self.per) if charge * 10 ** digits % self.per else charge * 10 ** digits // self.per
        return f"{whole // 10 ** digits:,}.{whole % 10 ** digits:0{digits}}"


class Overdue(typing.NamedTuple):
    """A lifecycle action that is due in a bucket and not done."""
    bucket: str
    since: str
    kind: str
    key: str


class Statement(typing.NamedTuple):
    """A report, and what is known beside it."""
    month: str
    report: Report
    is_closed: typing.Optional[bool]
    as_of: typing.Optional[str]
    overdue: typing.Optional[list]
    source: str
    tariff: typing.Optional[Tariff] = None

    def state(self) -> typing.Tuple[str, str]:
        """Open or closed, and as of when, in words."""
        if self.is_closed:
            return "closed", "The month is closed: this is final."
        end = moment(bounds_of(self.month)[1])
        if self.as_of is None and self.is_closed is False:
            return "open", f"The month is not closed. These are the figures of {self.source}, and they may change."
        if self.as_of is None:
            return "not known", f"These are the figures of {self.source}, which does not say whether the month is closed."
        if self.as_of < end:
            return "open", f"The month so far, as of {self.as_of[:19]}Z. It is not over and will change."
        if self.is_closed is None:
            return "over", f"The month is over, as of {self.as_of[:19]}Z. Whether it is closed is not known: --journal tells."
        return "open", f"The month is over and not closed, as of {self.as_of[:19]}Z. It may still change: month-end closes it."

    def warnings(self) -> typing.List[str]:
        """What is overdue in the month, in words; a line each."""
        if self.overdue is None:
            return ["whether lifecycle actions are overdue is not known."] if not self.is_closed else []
        if not self.overdue:
            return []
        first = min(self.overdue, key=lambda it: it.since)
        count = len(self.overdue)
        told = f"{count} buckets have" if count > 1 else "one bucket has"
        return [f"{told} overdue lifecycle actions: {', '.join(sorted(it.bucket for it in self.overdue)[:5])}{', ..' if count > 5 else ''}. "
                f"The first is {first.kind} of the key {first.key!r} in bucket {first.bucket}, due since {first.since[:19]}Z. "
                "The figures change when these actions are done (act-all)."]


def unit_of(text: str) -> Unit:
    """A unit among the words of a tool."""
    found = re.fullmatch(r"([^=\s]{1,20})(?:=([1-9][0-9]{0,12}))?", text)
    if not found or not text.isprintable():
        raise argparse.ArgumentTypeError(f"'{text}' is not a unit as EUR or EUR=1000000")
    return Unit(found[1], int(found[2] or 1))


def add_unit(words: argparse.ArgumentParser) -> None:
    words.add_argument("--unit", metavar="UNIT", type=unit_of, default=Unit("units", 1),
                       help="what charges are in; EUR=1000000 if 1,000,000 units of the prices are one EUR")


def is_closed(month: str, tail: typing.Optional[Tail]) -> typing.Optional[bool]:
    """Whether the journal says that a month is closed. Months before that of the first command count as closed."""
    if tail is None or tail.first is None:
        return None if tail is None else False
    return month <= (tail.closed or "") or month < moment(tail.first)[:7]


def overdue_in(office, names, month):
    """The first action of each bucket that is due in the month; nothing if a proxy does not let the question through."""
    found, end = [], bounds_of(month)[1]
    for name in names:
        try:
            status, due = office.ask("GET", f"/buckets/{urllib.parse.quote(name, safe='')}/due")
        except Stop as stop:
            if ": 403 " in stop.args[1]:
                return None
            raise
        if status != 200:
            raise Stop(2 if status in (500, 503) else 5, f"bucket {name}: {reason(status, due)}")
        if text_in(due, "action") != "none" and ms_of(text_in(due, "moment")) < end:
            found.append(Overdue(name, due["moment"], due["action"], str(due.get("key"))))
    return found


def asked(given: argparse.Namespace) -> Statement:
    """The statement of a server: its report, from one reply, and what the journal and the buckets say."""
    tail, office = read_tail(given.journal) if given.journal else None, Office(given.server)
    closed = is_closed(given.month, tail)  # before the report, which is then final
    status, found = office.ask_csv(f"/months/{given.month}/report")
    as_of = f"{datetime.datetime.now(datetime.timezone.utc):%Y-%m-%dT%H:%M:%S}.000Z"
    if status != 200 and found.get("error") == "NoTariff":
        raise Stop(10, f"{given.month}: no prices are set for it (PUT /tariff)")
    if status != 200:
        raise Stop(2 if status in (500, 501, 503) else 5, f"{given.month}: {reason(status, found)}")
    try:
        report = read_report(found)
    except NoReport as fault:
        raise Stop(2, f"the report of {given.month} is not one of the program: {fault}") from None
    names = dict.fromkeys([*named(given, tail), *(line.bucket for line in report.lines)])
    tariff = tariff_of(office, report, given.month)
    return Statement(given.month, report, closed, as_of, [] if closed else overdue_in(office, names, given.month), office.name, tariff)


def tariff_of(office, report, month):
    """The tariff of a report with lines in tiers; nothing where it has none, where it cannot be asked for, or where it was replaced.

    A closed month keeps the tariff of its closing, and the program shows those of now: what shows is whether it gives each charge.
    """
    return its_tariff(report, tariffs_now(office), month) if report.has_tiers() else None


def tariffs_now(office: Office) -> typing.List[Tariff]:
    """The tariffs that are set; none where a proxy does not let the question through."""
    try:
        status, found = office.ask("GET", "/tariff")
        if status != 200 and found.get("error") != "NoTariff":
            raise Stop(2 if status in (500, 503) else 5, f"the tariff: {reason(status, found)}")
        return tariffs_in(found) if status == 200 else []
    except Stop as stop:
        if ": 403 " in stop.args[1]:
            return []
        raise
    except NoTariffs as fault:
        raise Stop(2, f"the tariffs are not those of the program: {fault}") from None


def its_tariff(report: Report, tariffs: typing.List[Tariff], month: str) -> typing.Optional[Tariff]:
    """Of some tariffs the one of a report; nothing where none gives its charges."""
    tariff = in_force(month, tariffs)
    return tariff if tariff and is_of(report, tariff, month) else None


def of_file(path: str, month: str) -> Statement:
    """The statement of a report in a file."""
    try:
        with open(path, encoding="utf-8", newline="") as file:
            return Statement(month, read_report(file.read()), None, None, None, path)
    except OSError as fault:
        raise Stop(3, f"{path}: {fault.strerror}") from None
    except ValueError:
        raise Stop(5, f"{path}: not UTF-8") from None
    except NoReport as fault:
        raise Stop(5, f"{path}: {fault}") from None
