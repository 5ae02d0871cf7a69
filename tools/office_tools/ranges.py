"""What entries, configurations and slots have in common: ranges of docs/FORMATS.md, and how a damaged one is said."""
import datetime

END_OF_TIME, LARGEST_SIZE = 4_102_444_800_000, 5_497_558_138_880
CLASSES = ("STANDARD", "STANDARD_IA", "ONEZONE_IA", "GLACIER_IR", "GLACIER", "DEEP_ARCHIVE")
EPOCH = datetime.datetime(1970, 1, 1)


class Damaged(Exception):
    """What is wrong at a place."""
