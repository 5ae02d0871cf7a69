"""Tariffs as the program shows them (GET /tariff), and what each tier takes of a line of a report; by docs/FORMATS.md, "Tariffs"."""
import typing

from office_tools.entries import CLASSES, MOST_TIERS
from office_tools.months import MONTH, bounds_of
from office_tools.reports import TIERED, Report

GIB, MOST_PRICE, MOST_GIB = 2 ** 30, 1_048_576, 2 ** 32 - 1


class NoTariffs(Exception):
    """What of a text is not as in a reply of the program."""


class Tier(typing.NamedTuple):
    """A price up to an end in GiB-months, the last without one."""
    upto: typing.Optional[int]
    price: int


class Tariff(typing.NamedTuple):
    """The month from which it holds, the tiers of storage by class, and the price of moves by class."""
    first: str
    storage: dict
    transition: dict


class Taken(typing.NamedTuple):
    """What a tier took of a line: from its begin and up to its end in GiB-months, how many byte-milliseconds, its price and their charge."""
    begin: int
    upto: typing.Optional[int]
    quantity: int
    price: int
    charge: int


def whole(value, least, most, what):
    if not isinstance(value, int) or isinstance(value, bool) or not least <= value <= most:
        raise NoTariffs(f"the {what} is {str(value)[:40]}")
    return value


def tiers_in(value):
    """The tiers of a class: a price, or a list of them."""
    if not isinstance(value, list):
        return [Tier(None, whole(value, 0, MOST_PRICE, "price"))]
    names = [{"price", "upto"}] * (len(value) - 1) + [{"price"}]
    if not 2 <= len(value) <= MOST_TIERS or not all(isinstance(it, dict) and set(it) == name for it, name in zip(value, names)):
        raise NoTariffs("a list of tiers has another form")
    found = [Tier(whole(it["upto"], 1, MOST_GIB, "end of a tier") if "upto" in it else None, whole(it["price"], 0, MOST_PRICE, "price")) for it in value]
    if any(one.upto >= two.upto for one, two in zip(found, found[1:-1])):
        raise NoTariffs("the ends of the tiers do not rise")
    return found


def tariffs_in(found: typing.Any) -> typing.List[Tariff]:
    """The tariffs of a reply, by their first months."""
    them = found.get("tariffs") if isinstance(found, dict) else None
    if not isinstance(them, list) or not all(isinstance(it, dict) and set(it) == {"from", "storage", "transition"} for it in them):
        raise NoTariffs("it has no list of tariffs")
    tariffs = []
    for it in them:
        if not isinstance(it["from"], str) or not MONTH.fullmatch(it["from"]):
            raise NoTariffs(f"a tariff holds from {str(it['from'])[:40]!r}")
        for table, classes in (("storage", CLASSES), ("transition", CLASSES[1:])):
            if not isinstance(it[table], dict) or set(it[table]) != set(classes):
                raise NoTariffs(f"the table {table} has other classes")
        moves = {name: whole(price, 0, MOST_PRICE, "price") for name, price in it["transition"].items()}
        tariffs.append(Tariff(it["from"], {name: tiers_in(value) for name, value in it["storage"].items()}, moves))
    if any(one.first >= two.first for one, two in zip(tariffs, tariffs[1:])):
        raise NoTariffs("the tariffs are not by their first months")
    return tariffs


def in_force(month: str, tariffs: typing.Iterable[Tariff]) -> typing.Optional[Tariff]:
    """The tariff in force in a month: the one with the latest first month that is not after it; nothing if all begin later."""
    return max((it for it in tariffs if it.first <= month), key=lambda it: it.first, default=None)


def taken(quantity: int, tiers: typing.List[Tier], month: str) -> typing.List[Taken]:
    """What each tier takes of a quantity of byte-milliseconds; those that take nothing are left out.

    All tiers but the last of these are filled, so their charges are whole, and the sum is the charge of the line, rounded down once.
    """
    start, end = bounds_of(month)
    unit, begin, found = GIB * (end - start), 0, []
    for upto, price in tiers:
        stop = quantity if upto is None else min(quantity, upto * unit)
        if stop > begin * unit:
            part = stop - begin * unit
            found.append(Taken(begin, upto, part, price, part * price // unit))
        begin = upto
    return found


def is_of(report: Report, tariff: Tariff, month: str) -> bool:
    """Whether a tariff gives each price and each charge of a report."""
    for line in report.lines:
        if line.storage_class not in tariff.storage:
            return False
        if line.kind == "transitions":
            price = tariff.transition.get(line.storage_class)
            if price is None or (line.price, line.charge) != (price, line.quantity * price // 1_000):
                return False
            continue
        tiers = tariff.storage[line.storage_class]
        charge = sum(it.charge for it in taken(line.quantity, tiers, month))
        if (line.price, line.charge) != (tiers[0].price if len(tiers) == 1 else TIERED, charge):
            return False
    return True
