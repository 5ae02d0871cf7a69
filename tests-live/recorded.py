"""Random histories with every kind of command, tariffs and closed months too, whose checkpoint slot is known at each moment; for
test_checkpoints.py and test_backup_slots.py."""
from histories import CLOSE, History, number
from plain_months import FIRST, Months, document_of, entry_of, month_at, month_field, next_month, plain
from plain_office import CLASSES, Refused
from plain_slots import State, slot_of
from plain_tokens import refuse_fields
from serve_client import request
from test_model import message


class Recorded(History):
    """A history with tariffs and closed months, too."""

    def __init__(self, seed):
        super().__init__(seed)
        self.months = Months()

    def append(self, moment, fields):
        super().append(moment, fields)
        self.months.accepted(moment)

    def state(self):
        return State(self.last if len(self.journal) > 11 else None, self.buckets, self.months, self.kept)

    def slot(self):
        return slot_of(len(self.journal) - 1, self.state())

    def command(self, which=None):
        if which is not None or self.draw.random() < 0.85:
            return super().command(which)
        return self.set_tariff() if self.draw.random() < 0.3 else self.close()

    def set_tariff(self):
        draw, this = self.draw, month_at(self.now)
        first = draw.choice((FIRST, this, next_month(this), "2030-02"))
        tiers = [(upto, draw.randint(0, 1_048_576)) for upto in [*sorted(draw.sample(range(1, 50), draw.randint(0, 3))), None]]
        tariff = plain([draw.randint(0, 9) for _ in CLASSES], [draw.randint(0, 9) for _ in CLASSES[1:]], first)
        if draw.random() < 0.6:
            tariff["storage"][draw.choice(CLASSES)] = tiers
        reply = self.months.set_tariff(tariff)
        self.append(self.now, entry_of(tariff))
        return "PUT", "/tariff", document_of(tariff), [], reply

    def close(self):
        month, tokens = self.months.to_close(self.now), self.draw_tokens()
        target, fields = f"/months/{month}/close", month_field(month)
        try:
            refuse_fields(tokens, CLOSE)
            reply = self.kept.recall(tokens[0], CLOSE, fields) if tokens else None
            if reply is None:
                reply = self.months.close(month, self.buckets, self.now)
                if tokens:
                    self.kept.keep(tokens[0], CLOSE, fields, reply, self.now)
                    self.append(self.now, number(CLOSE | 0x80, 1) + number(len(tokens[0]), 1) + tokens[0].encode() + fields)
                else:
                    self.append(self.now, number(CLOSE, 1) + fields)
        except Refused as refusal:
            reply = {"error": refusal.args[0], "number": refusal.args[1], **(refusal.args[2] if refusal.args[2:] else {})}
        return "POST", target, None, tokens, reply

    def asked(self):
        """The queries, as commands are given: their replies are those of now."""
        return [("GET", target, None, [], reply) for target, reply in self.queries()]


def sent_of(method, target, body, tokens):
    """The bytes of a message; a text as its body is sent as it stands."""
    return request(method, target, body) if isinstance(body, str) else message(method, target, body, tokens)


def filled(seed):
    """A history with its commands, of which a month was closed if that can be."""
    history = Recorded(seed)
    history.fill()
    history.now = history.last  # the clock is before it
    return history
