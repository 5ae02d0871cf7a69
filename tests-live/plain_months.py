"""A plain model of tariffs, closed months and reports, written from docs/LIFECYCLE.md and docs/FORMATS.md alone."""
import re
import tomllib

from plain_office import CLASSES, END, Refused, text_of, window

HEAD = "bucket,line,class,quantity,price,charge\n"
TABLES = {"storage": CLASSES, "transition": CLASSES[1:]}
FIRST, MOST_TARIFFS, MOST_TIERS, MOST_GIB, MOST_PRICE = "1970-01", 100, 8, 2 ** 32 - 1, 1_048_576
GIB = 2 ** 30


def month_at(moment):
    """The month in which a moment lies."""
    return text_of(moment)[:7]


def next_month(month):
    return month_at(window(month)[1])


def is_month(text):
    return isinstance(text, str) and re.fullmatch(r"(19[7-9][0-9]|20[0-9][0-9])-(0[1-9]|1[0-2])", text) is not None


def is_whole(value, least, most):
    return isinstance(value, int) and not isinstance(value, bool) and least <= value <= most


# ---- the document of a tariff, with its refusals in their order

def first_unknown(found, known):
    for name in sorted(set(found) - set(known), key=str.encode):
        raise Refused("UnknownField", 73, {"name": name})


def are_tiers(value):
    """Whether a list has the form of tiers, whatever its prices are."""
    if not 1 <= len(value) <= MOST_TIERS or not all(isinstance(it, dict) for it in value):
        return False
    if any(set(it) != {"upto", "price"} for it in value[:-1]) or set(value[-1]) != {"price"}:
        return False
    ends = [it["upto"] for it in value[:-1]]
    return all(is_whole(it, 1, MOST_GIB) for it in ends) and all(one < two for one, two in zip(ends, ends[1:]))


def tiers_of(table, name, value):
    """The tiers that a value of a table spells: pairs of an end, None for the last, and a price."""
    is_list = isinstance(value, list) and table == "storage"
    if is_list and not are_tiers(value):
        raise Refused("BadTiers", 74, {"class": name})
    tiers = [(it.get("upto"), it["price"]) for it in value] if is_list else [(None, value)]
    if not all(is_whole(price, 0, MOST_PRICE) for _, price in tiers):
        raise Refused("BadPrice", 72, {"class": name, "table": table})
    return tiers


def tariff_of(sent):
    """The tariff of a document: the month from which it holds, and by table and class its tiers."""
    try:
        found = tomllib.loads(sent.decode())
    except (UnicodeDecodeError, tomllib.TOMLDecodeError):
        raise Refused("NotToml", 70) from None
    known = [it for it in TABLES if isinstance(found.get(it, {}), dict)]
    first_unknown(found, [*known, "from"])
    if not is_month(found.get("from", FIRST)):
        raise Refused("BadFrom", 75)
    for table, classes in TABLES.items():
        first_unknown(found.get(table, {}), classes)
    tariff = {"from": found.get("from", FIRST)}
    for table, classes in TABLES.items():
        tariff[table] = {}
        for name in classes:
            if name not in found.get(table, {}):
                raise Refused("MissingClass", 71, {"class": name, "table": table})
            tariff[table][name] = tiers_of(table, name, found[table][name])
    return tariff


def plain(storage, transition, first=FIRST):
    """A tariff with a price a class."""
    return {"from": first, "storage": {name: [(None, it)] for name, it in zip(CLASSES, storage)},
            "transition": {name: [(None, it)] for name, it in zip(CLASSES[1:], transition)}}


def document_of(tariff):
    """A document that spells a tariff."""
    def value(tiers):
        if len(tiers) == 1:
            return str(tiers[0][1])
        return "[" + ", ".join(f"{{ {f'upto = {upto}, ' if upto else ''}price = {price} }}" for upto, price in tiers) + "]"
    rows = "".join(f"[{table}]\n" + "".join(f"{name} = {value(tiers)}\n" for name, tiers in tariff[table].items()) for table in TABLES)
    return f'from = "{tariff["from"]}"\n{rows}'


def shown(tariff):
    """A tariff as the program shows it."""
    def value(tiers):
        return tiers[0][1] if len(tiers) == 1 else [{"price": price, **({"upto": upto} if upto else {})} for upto, price in tiers]
    return {"from": tariff["from"], **{table: {name: value(tiers) for name, tiers in tariff[table].items()} for table in TABLES}}


def moves_field(tariff):
    return b"".join(tariff["transition"][name][0][1].to_bytes(4, "big") for name in CLASSES[1:])


def month_field(month):
    year, number = map(int, month.split("-"))
    return year.to_bytes(2, "big") + bytes([number])


def tariff_field(tariff):
    """A tariff with its first month and the tiers of each class."""
    fields = month_field(tariff["from"])
    for name in CLASSES:
        them = tariff["storage"][name]
        fields += bytes([len(them)]) + b"".join((upto or 0).to_bytes(4, "big") + price.to_bytes(4, "big") for upto, price in them)
    return fields + moves_field(tariff)


def entry_of(tariff):
    """The kind and the fields of the entry that sets a tariff."""
    tiers = [tariff["storage"][name] for name in CLASSES]
    if tariff["from"] == FIRST and all(len(it) == 1 for it in tiers):
        return bytes([0x0E]) + b"".join(it[0][1].to_bytes(4, "big") for it in tiers) + moves_field(tariff)
    return bytes([0x10]) + tariff_field(tariff)


# ---- charges

def charge(quantity, tiers, month):
    """What so many byte-milliseconds cost: each tier takes what lies between its two ends."""
    start, end = window(month)
    whole, begin, units = GIB * (end - start), 0, 0
    for upto, price in tiers:
        stop = quantity if upto is None else min(quantity, upto * whole)
        units += max(0, stop - begin) * price
        begin = max(begin, stop)
    return units // whole


def in_force(month, tariffs):
    """Of the tariffs by their first months the one in force in a month; nothing if all begin later."""
    begun = [it for it in sorted(tariffs) if it <= month]
    return tariffs[begun[-1]] if begun else None


class Months:
    """The tariffs by first month, the month of the first accepted command, and the closed months with the tariff of their closing."""

    def __init__(self):
        self.tariffs, self.first, self.closed = {}, None, {}

    def accepted(self, moment):
        self.first = self.first or month_at(moment)

    def set_tariff(self, tariff):
        """Sets a tariff in the place of the one with the same first month, if there is one."""
        if tariff["from"] not in self.tariffs and len(self.tariffs) >= MOST_TARIFFS:
            raise Refused("Full", 90, {"limit": MOST_TARIFFS, "what": "Tariffs"})
        self.tariffs[tariff["from"]] = tariff
        return {"tariff": "set"}

    def shown(self):
        if not self.tariffs:
            raise Refused("NoTariff", 88)
        return {"tariffs": [shown(it) for _, it in sorted(self.tariffs.items())]}

    def to_close(self, now):
        month = self.first or month_at(now)
        for _ in self.closed:
            month = next_month(month)
        return month

    def tariff_in(self, month):
        """The tariff of a month: that of its closing, else the one in force."""
        tariff = self.closed.get(month) or in_force(month, self.tariffs)
        if tariff is None:
            raise Refused("NoTariff", 88)
        return tariff

    def close(self, month, buckets, now):
        end = window(month)[1]
        if now < end:
            raise Refused("MonthNotOver", 84, {"end": text_of(end)})
        if month < self.to_close(now):
            raise Refused("AlreadyClosed", 86)
        if month > self.to_close(now):
            raise Refused("EarlierMonthOpen", 87, {"month": self.to_close(now)})
        tariff = self.tariff_in(month)
        for name, bucket in sorted(buckets.items()):
            choice = bucket.choice(now)
            if choice and choice[0] < end:
                what, number, _ = choice[6]
                raise Refused("DueActions", 85, {"bucket": name, "key": choice[2].decode(), what: number})
        self.closed[month] = tariff
        return {"closed": month}

    def lines(self, month, buckets, now):
        """The lines of a report: bucket, line, class, quantity, price and charge."""
        tariff = self.tariff_in(month)
        for name, bucket in sorted(buckets.items()):
            for it in bucket.meters(month, min(now, END)):
                tiers, moves = tariff["storage"][it["class"]], tariff["transition"].get(it["class"], [(None, 0)])[0][1]
                price = tiers[0][1] if len(tiers) == 1 else "tiered"
                for line, quantity in (("storage", int(it["byte_ms"])), ("early", int(it["early_byte_ms"]))):
                    if quantity:
                        yield name, line, it["class"], quantity, price, charge(quantity, tiers, month)
                if it["moves"]:
                    yield name, "transitions", it["class"], it["moves"], moves, it["moves"] * moves // 1_000

    def report(self, month, buckets, now):
        """The CSV of what a month costs."""
        rows = list(self.lines(month, buckets, now))
        return HEAD + "".join(",".join(map(str, row)) + "\n" for row in rows) + f",total,,,,{sum(row[5] for row in rows)}\n"
