#!/usr/bin/env -S python3 -B
"""Compares `office forecast` with a plain model on random histories, and with what then happens: the configuration is set, some of
what is due is done at some moments and the rest at the last, and the meters and the report are those of the forecast.

OFFICE_SEEDS=1000,1000 takes 1,000 histories from number 1000 on in place of 200. Left out if the program knows no forecast.
"""
import csv
import datetime
import io
import json

import live
from histories import ACT, KINDS, History, number
from model_words import configuration
from plain_forecast import forecast, forecast_csv
from plain_months import FIRST, Months, entry_of, in_force, month_at, next_month, plain
from plain_office import DAY, text_of
from serve_client import request
from test_model import bodies

MAKE, SET_RULES = 0x01, 0x03
DAYS = (1, 31, 90, 400, 400)


def day_at(moment):
    return text_of(moment)[:10]


@live.needs_word("forecast")
class Forecasts(live.Case):
    in_memory = True

    def folder_of(self, name, journal):
        folder = self.folder / name
        (folder / "office-data").mkdir(parents=True)
        (folder / "office-data/journal").write_bytes(journal)
        return folder

    def drawn(self, seed):
        """A history with a bucket, a tariff perhaps, a configuration that is to be tried, and the day up to which."""
        history, months = History(seed), Months()
        history.fill()
        bucket, draw = max(sorted(history.buckets), key=lambda it: len(history.buckets[it].stacks)), history.draw
        if draw.random() < 0.8:
            first = draw.choice((FIRST, month_at(history.last), next_month(month_at(history.last))))
            tariff = plain([draw.randint(0, 10 ** 6) for _ in range(6)], [draw.randint(0, 10 ** 6) for _ in range(5)], first)
            months.set_tariff(tariff)
            history.append(history.last, entry_of(tariff))
        (rules, mode), (more, _) = history.draw_rules(), history.draw_rules()
        rules += [{**it, "id": f"more-{it['id']}"} for it in more]
        until = (history.last // DAY + draw.choice(DAYS)) * DAY
        return history, months, bucket, {"rules": rules, "mode": mode}, until

    def test_random_histories(self):
        for seed in live.seeds(1, 200):
            with self.subTest(seed=seed):
                self.compare(seed)

    def compare(self, seed):
        history, months, name, found, until = self.drawn(seed)
        folder, before = self.folder_of(str(seed), history.closed()), history.closed()
        # The clock is before the history, so the forecast begins at its last moment.
        actions, lines = forecast(history.buckets[name], months, found, history.last, until)
        ended = self.office("forecast", name, day_at(until), sent=configuration(found["rules"], found["mode"]).encode(), folder=folder)
        self.assertEqual((0, "", forecast_csv(actions, lines)), (ended.returncode, ended.stderr.decode(), ended.stdout.decode()))
        self.assertEqual(before.rstrip(b"\0"), (folder / "office-data/journal").read_bytes().rstrip(b"\0"), "the journal is as it was")
        self.then(history, months, name, found, until, ended.stdout.decode())

    def then(self, history, months, name, found, until, told):
        """Sets the configuration, does some of what is due at some moments and the rest at the last, and compares what the program says then."""
        bucket, draw = history.buckets[name], history.draw
        bucket.rules, bucket.mode, bucket.rules_since = found["rules"], found["mode"], history.last
        document = configuration(found["rules"], found["mode"]).encode()
        first, field = history.last, number(len(name), 2) + name.encode()
        history.append(first, bytes([SET_RULES]) + field + number(len(document), 4) + document)
        for moment in [*sorted(draw.randint(first, until) for _ in range(3)), until]:
            most = None if moment == until else draw.choice((0, 1, 5, None))
            done = 0
            while (most is None or done < most) and bucket.act(moment) != {"action": "none"}:
                history.append(moment, bytes([ACT]) + field)
                done += 1
        # Another bucket brings the clock of the office to the last moment.
        history.append(until, bytes([MAKE]) + number(5, 2) + b"clock")
        served = self.folder_of(f"{history.draw.random()}", history.closed())
        all_months, month = [], month_at(first)
        while month <= month_at(until):
            all_months.append(month)
            month = next_month(month)
        asked = [request("GET", f"/buckets/{name}/meters/{it}") for it in all_months]
        charged = [it for it in all_months if in_force(it, months.tariffs)]
        asked += [request("GET", f"/months/{it}/report") for it in charged]
        ended = self.office("run", sent=b"".join(asked), folder=served)
        self.assertEqual((0, ""), (ended.returncode, ended.stderr.decode()))
        said = list(bodies(ended.stdout))
        lines = [row for row in csv.reader(io.StringIO(told.partition("\n\nmonth,")[2]))][1:]
        self.assertEqual([row[:4] for row in lines], list(of_meters(all_months, said)), "the meters are the forecast's")
        self.assertEqual([row for row in lines if row[0] in charged], list(of_reports(charged, said[len(all_months):], name)), "the report is the forecast's")
        self.assertEqual({""}, {row[4] for row in lines if row[0] not in charged} | {""}, "no tariff, no charge")

    def test_refusals(self):
        folder = self.new_folder("refused")
        self.office("run", sent=request("PUT", "/buckets/logs"), folder=folder)
        today = datetime.datetime.now(datetime.timezone.utc).date()
        later = (today + datetime.timedelta(days=30)).isoformat()
        for words, sent, wanted in (
                (("logs", later), '{"Rules":[]}', (0, "")), (("other", later), '{"Rules":[]}', (14, "forecast: refused 81")),
                (("logs", "2023-12-10"), '{"Rules":[]}', (14, "forecast: refused 140")), (("logs", later), "", (14, "forecast: refused 40")),
                (("logs", later), '{"Rules":[{"Status":"Enabled"}]}', (14, "forecast: refused 23")),
                (("logs", later), '{"Rules":[]}' + " " * 1_048_576, (14, "forecast: refused 124"))):
            ended = self.office("forecast", *words, sent=sent.encode(), folder=folder)
            self.check(f"{words} {sent[:40]}", wanted, (ended.returncode, ended.stderr.decode().strip()))
        for words in (("LOGS", later), ("logs", "2027-02-30"), ("logs", "2100-01-01"), ("logs",), ()):
            self.check(f"{words}", (1, b""), (self.office("forecast", *words, folder=folder).returncode, self.office("forecast", *words, folder=folder).stdout))


def of_meters(months, said):
    """The rows of the second table without charges, by the meters of each month."""
    for month, text in zip(months, said):
        for it in json.loads(text)["classes"]:
            for line, quantity in (("storage", it["byte_ms"]), ("early", it["early_byte_ms"]), ("transitions", str(it["moves"]))):
                if quantity != "0":
                    yield [month, line, it["class"], quantity]


def of_reports(months, said, name):
    """The rows of the second table, by the report of each month."""
    for month, text in zip(months, said):
        for row in csv.reader(io.StringIO(text)):
            if row[0] == name:
                yield [month, *row[1:4], row[5]]


if __name__ == "__main__":
    live.main()
