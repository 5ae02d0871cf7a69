"""A plain model of a forecast: a copy of the bucket gets the configuration, and does what is due until a moment, each action at its own."""
import copy

from plain_months import charge, in_force, month_at, next_month
from plain_office import CLASSES

HEADS = ("since,action,key,item,class,rule", "month,line,class,quantity,charge")


def forecast(bucket, months, found, now, until):
    """The rows of both tables: what would be done until a moment, and what each month from that of now to that of then would use."""
    tried = copy.deepcopy(bucket)
    tried.rules, tried.mode, tried.rules_since = found["rules"], found["mode"], now
    actions = []
    while tried.choice(until):
        it = tried.act(until)
        item = f"v:{it['version']}" if "version" in it else f"u:{it['upload']}"
        actions.append((it["moment"], it["action"], it["key"], item, it.get("class", ""), it["rule"]))
    lines, month = [], month_at(now)
    while month <= month_at(until):
        lines += lines_of(tried, month, months.closed.get(month) or in_force(month, months.tariffs), until)
        month = next_month(month)
    return actions, lines


def lines_of(bucket, month, tariff, until):
    """The lines of a month with their charges; no charge without a tariff."""
    meters = {it["class"]: it for it in bucket.meters(month, until)}
    for name in CLASSES:
        it = meters[name]
        for line, quantity in (("storage", int(it["byte_ms"])), ("early", int(it["early_byte_ms"])), ("transitions", it["moves"])):
            if quantity:
                yield month, line, name, quantity, "" if tariff is None else charge_of(line, name, quantity, tariff, month)


def charge_of(line, name, quantity, tariff, month):
    if line == "transitions":
        return quantity * tariff["transition"][name][0][1] // 1_000
    return charge(quantity, tariff["storage"][name], month)


def cell(value):
    """A field of a CSV: in quotes if it has a comma, a quote or an end of a line."""
    text = str(value)
    return '"' + text.replace('"', '""') + '"' if any(it in text for it in ',"\r\n') else text


def forecast_csv(actions, lines):
    """Both tables as the program prints them."""
    rows = [*(",".join(map(cell, row)) for row in actions)], [*(",".join(map(cell, row)) for row in lines)]
    return "\n".join([HEADS[0], *rows[0], "", HEADS[1], *rows[1]]) + "\n"
