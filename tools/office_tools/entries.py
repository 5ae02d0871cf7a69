"""Reads the entries of a journal by docs/FORMATS.md, and the fields of which they consist."""
import datetime
import json
import re

from office_tools.configurations import read_configuration
from office_tools.ranges import CLASSES, END_OF_TIME, EPOCH, LARGEST_SIZE, Damaged

FIRST_MONTH, MOST_TIERS = "1970-01", 8
# A kind with this bit has a token before its fields. What is harmless to repeat takes none, and neither does a tariff.
WITH_TOKEN, WITHOUT_TOKEN = 0x80, (0x03, 0x0D, 0x0E, 0x10)


class Fields:
    """The bytes of an entry, or of what has the same fields, read from the front: `at` is the next byte."""
    whole = "entry"

    def __init__(self, data, at=0):
        self.data, self.at = data, at

    def take(self, count, what):
        begin, self.at = self.at, self.at + count
        if self.at > len(self.data):
            raise Damaged(f"the {self.whole} ends within its {what}")
        return self.data[begin:self.at]

    def number(self, count, what):
        return int.from_bytes(self.take(count, what), "big")

    def below(self, count, what, limit):
        number = self.number(count, what)
        if number >= limit:
            raise Damaged(f"the {what} is {number}")
        return number

    def bucket(self):
        name = self.take(self.number(2, "bucket"), "bucket")
        if not re.fullmatch(rb"[a-z0-9][a-z0-9.-]{1,61}[a-z0-9]", name):
            raise Damaged("the name is none of a bucket")
        return name.decode("ascii")

    def key(self):
        key = self.take(self.number(2, "key"), "key")
        if not 1 <= len(key) <= 1024:
            raise Damaged(f"the key has {len(key)} bytes")
        try:
            return key.decode("utf-8")
        except UnicodeDecodeError:
            raise Damaged("the key is not UTF-8") from None

    def size(self):
        return self.below(8, "size", LARGEST_SIZE + 1)

    def storage_class(self):
        return CLASSES[self.below(1, "class", len(CLASSES))]

    def text(self, least, most, what):
        """A text with a number of characters in range, with its length in bytes before it."""
        try:
            found = self.take(self.number(2, what), what).decode("utf-8")
        except UnicodeDecodeError:
            raise Damaged(f"the {what} is not UTF-8") from None
        if not least <= len(found) <= most:
            raise Damaged(f"the {what} has {len(found)} characters")
        return found

    def tags(self):
        found, last = {}, b""
        for _ in range(self.below(1, "number of tags", 11)):
            key = self.text(1, 128, "tag's key")
            if key.encode() <= last:
                raise Damaged("the tags are not in the order of their keys")
            last = key.encode()
            found[key] = self.text(0, 256, "tag's value")
        return found

    def status(self):
        status = self.number(1, "status")
        if status not in (1, 2):
            raise Damaged(f"the status is {status}")
        return ("Enabled", "Suspended")[status - 1]

    def version(self):
        return self.number(8, "version") or "null"

    def rules(self):
        """The object of a configuration, which is written as it is printed."""
        text = self.take(self.number(4, "configuration"), "configuration")
        read_configuration(text)
        return json.loads(text)

    def token(self):
        token = self.take(self.number(1, "token"), "token")
        if not re.fullmatch(rb"[\x21-\x7e]{1,64}", token):
            raise Damaged("the token has another length than 1 to 64, or another byte than 21 to 7E")
        return token.decode("ascii")

    def price(self):
        return self.below(4, "price", 1_048_577)

    def prices(self, count):
        return [self.price() for _ in range(count)]

    def tiers(self):
        """What a class costs: a price, or a list of tiers as the program shows them."""
        count, found, begin = self.number(1, "number of tiers"), [], 0
        if not 1 <= count <= MOST_TIERS:
            raise Damaged(f"the number of tiers is {count}")
        for place in range(count):
            upto = self.number(4, "end of a tier")
            if (upto != 0) if place == count - 1 else upto <= begin:
                raise Damaged(f"the end of tier {place + 1} of {count} is {upto}")
            begin = upto
            found.append({"price": self.price(), **({"upto": upto} if upto else {})})
        return found if count > 1 else found[0]["price"]

    def all_tiers(self):
        return [self.tiers() for _ in CLASSES]

    def month(self):
        year, month = self.number(2, "year"), self.number(1, "month")
        if not (1970 <= year <= 2099 and 1 <= month <= 12):
            raise Damaged(f"the month is {year}-{month}")
        return f"{year}-{month:02}"


# Of each kind its name, and its fields in their order with the reader of each.
BUCKET, KEY, TAGS = ("bucket", Fields.bucket), ("key", Fields.key), ("tags", Fields.tags)
CLASS, VERSION, UPLOAD = ("class", Fields.storage_class), ("version", Fields.version), ("upload", lambda it: it.number(8, "upload"))
KINDS = {
    0x01: ("create-bucket", BUCKET),
    0x02: ("set-versioning", BUCKET, ("status", Fields.status)),
    0x03: ("set-rules", BUCKET, ("rules", Fields.rules)),
    0x04: ("drop-rules", BUCKET),
    0x05: ("put", BUCKET, KEY, ("size", Fields.size), CLASS, TAGS),
    0x06: ("delete", BUCKET, KEY),
    0x07: ("delete-version", BUCKET, KEY, VERSION),
    0x08: ("set-tags", BUCKET, KEY, VERSION, TAGS),
    0x09: ("start-upload", BUCKET, KEY, CLASS, TAGS),
    0x0A: ("put-part", BUCKET, UPLOAD, ("part", lambda it: it.number(4, "part")), ("size", lambda it: it.number(8, "size"))),
    0x0B: ("complete", BUCKET, UPLOAD),
    0x0C: ("abort", BUCKET, UPLOAD),
    0x0D: ("act", BUCKET),
    # A tariff from the first month on with a price a class; the other ones are of kind 10.
    0x0E: ("set-tariff", ("from", lambda it: FIRST_MONTH), ("storage", lambda it: it.prices(6)), ("transition", lambda it: it.prices(5))),
    0x0F: ("close", ("month", Fields.month)),
    0x10: ("set-tariff", ("from", Fields.month), ("storage", Fields.all_tiers), ("transition", lambda it: it.prices(5))),
}


def kind_of(fields):
    """The kind of an entry without the bit of a token, and the token where it has one."""
    kind = fields.number(1, "kind")
    plain = kind & ~WITH_TOKEN
    if plain not in KINDS or (kind != plain and plain in WITHOUT_TOKEN):
        raise Damaged(f"the kind {kind:02x} is unknown")
    return plain, {} if kind == plain else {"token": fields.token()}


def is_plain(tariff):
    """Whether kind 0E spells a tariff."""
    return tariff["from"] == FIRST_MONTH and all(isinstance(it, int) for it in tariff["storage"])


def read_entry(entry: bytes, before: int) -> dict:
    """What an entry says; it may not be earlier than the one before."""
    fields = Fields(entry)
    ms = fields.below(8, "moment", END_OF_TIME)
    kind, token = kind_of(fields)
    name, *readers = KINDS[kind]
    found = {"kind": name, **token, **{field: reader(fields) for field, reader in readers}}
    if kind == 0x10 and is_plain(found):
        raise Damaged("the kind is 10, and 0e spells this tariff")
    if fields.at < len(entry):
        raise Damaged("bytes follow the last field of the entry")
    if ms < before:
        raise Damaged("the moment is before that of the entry before it")
    text = (EPOCH + datetime.timedelta(milliseconds=ms)).isoformat(timespec="milliseconds") + "Z"
    return {"moment": text, "ms": ms, **found}
