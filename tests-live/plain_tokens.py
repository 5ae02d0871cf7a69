"""A plain model of requests with a token, written from docs/FORMATS.md alone: the kept replies, and what a token may be."""
import re

from plain_office import Refused

MOST_KEPT = 10_000
# Kinds of commands by their numbers in the journal that take no token: a configuration, an action, a tariff.
TAKE_NONE = (0x03, 0x0D, 0x0E)


def is_token(text):
    return re.fullmatch("[\x21-\x7e]{1,64}", text) is not None


def refuse_fields(tokens, kind):
    """What the fields Office-Token of a message are refused for; `kind` is that of its command."""
    if len(tokens) > 1 or not all(map(is_token, tokens)):
        raise Refused("BadToken", 128)
    if tokens and kind in TAKE_NONE:
        raise Refused("TokenNotServed", 129)


class Kept:
    """The replies that are kept, oldest first: a kind of command, the command, its reply, and the moment of both, by token."""

    def __init__(self, most=MOST_KEPT):
        self.most, self.replies = most, {}

    def recall(self, token, kind, command):
        """The kept reply to a command; nothing if its token is not kept. Refused if it is kept with another command."""
        if token not in self.replies:
            return None
        its_kind, its_command, reply, _ = self.replies[token]
        if (its_kind, its_command) != (kind, command):
            raise Refused("TokenReused", 92, {"kind": its_kind})
        return reply

    def keep(self, token, kind, command, reply, now):
        """Keeps the reply to a command that was accepted at a moment."""
        self.replies[token] = (kind, command, reply, now)
        while len(self.replies) > self.most:
            del self.replies[next(iter(self.replies))]
