"""Tokens of requests: a command that is asked for again with its token gets its first reply, and is not done again.

The program keeps the replies to the last KEPT commands with tokens. A refused command keeps none, and may be tried again.
"""
import hashlib
import json
import typing

FIELD, KEPT = "Office-Token", 10_000


def token_of(*parts: typing.Any) -> str:
    """A token for what these parts say, the same whenever it is made: 64 hexadecimal digits."""
    return hashlib.sha256(json.dumps(parts, separators=(",", ":")).encode()).hexdigest()
