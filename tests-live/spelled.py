"""Spells the journal of an office in January 2024 by hand, after docs/FORMATS.md, so that its months are over."""
import struct

CLASSES = ("STANDARD", "STANDARD_IA", "ONEZONE_IA", "GLACIER_IR", "GLACIER", "DEEP_ARCHIVE")
GIB, DAY, NEW_YEAR = 2 ** 30, 86_400_000, 1_704_067_200_000


def text(of):
    return struct.pack(">H", len(of.encode())) + of.encode()


def frame(day, kind, fields):
    """A frame without the gate before it: an entry of this day of 2024, as counted from January 1, and an open gate."""
    entry = struct.pack(">QB", NEW_YEAR + (day - 1) * DAY, kind) + fields
    return struct.pack(">I", len(entry)) + entry + b"\xa5"


def create(day, bucket):
    return frame(day, 1, text(bucket))


def put(day, bucket, key, size, name="STANDARD"):
    return frame(day, 5, text(bucket) + text(key) + struct.pack(">QBB", size, CLASSES.index(name), 0))


def delete(day, bucket, key):
    return frame(day, 6, text(bucket) + text(key))


def rules(day, bucket, document):
    """Sets a configuration, whose text stands as the program prints it."""
    return frame(day, 3, text(bucket) + struct.pack(">I", len(document.encode())) + document.encode())


def journal(*frames):
    return b"\xa5METERJRN1\xa5" + b"".join(frames)[:-1] + b"\x00"
