"""Checkpoint slots, spelled by hand after docs/FORMATS.md, "Checkpoints"."""
import pathlib
import sys
import unittest

sys.path.insert(0, str(pathlib.Path(__file__).resolve().parent.parent))
from office_tools.slots import Misspelled, Version, month_at, number_of, read_body, read_slot, start_of  # noqa: E402
from office_tools.spelling import written  # noqa: E402

NEW_YEAR = "0000018cc251f400"  # 2024-01-01 00:00 UTC
NONE, ONE, TWO = bytes(4), (1).to_bytes(4, "big"), (2).to_bytes(4, "big")
# The bucket logs is made at that moment, in a journal of 31 bytes.
MADE = bytes.fromhex("a7" "000000000000001e" "0000000000000047" + NEW_YEAR + "07e801" "00" "00000000" "00000001"
                     "00046c6f6773" "00" + NEW_YEAR + "00000000" "0000000000000001" "0000000000000001" "00000000" "00000000" "00000000" "00000000")
# The same with the token t1, and an object a of 5 bytes: the example of crates/checkpoint/README.md.
EXAMPLE = bytes.fromhex("""
    a7 00 00 00 00 00 00 00  42 00 00 00 00 00 00 00  a0 00 00 01 8c c2 51 f4  00 07 e8 01 00 00 00 00
    00 00 00 00 01 00 04 6c  6f 67 73 00 00 00 01 8c  c2 51 f4 00 00 00 00 00  00 00 00 00 00 00 00 01
    00 00 00 00 00 00 00 01  00 00 00 01 00 01 61 00  00 01 8c c2 51 f4 00 00  00 00 01 00 00 00 00 00
    00 00 00 00 00 00 01 8c  c2 51 f4 00 00 00 01 8c  c2 51 f4 00 00 00 00 00  00 00 00 05 00 00 00 01
    8c c2 51 f4 00 00 00 00  00 00 00 00 00 00 00 00  00 01 02 74 31 00 00 01  8c c2 51 f4 00 00 00 00
    00 00 00 00 00 00 00 00  00 07 01 00 04 6c 6f 67  73""")
CONFIGURATION = b'{"Rules":[],"TransitionDefaultMinimumObjectSize":"all_storage_classes_128K"}'


def n(value, count=8):
    return value.to_bytes(count, "big")


def day(number):
    """A moment: midnight, so many days after 2024-01-01."""
    return n(1_704_067_200_000 + number * 86_400_000)


def text(value, count=2):
    return n(len(value), count) + value


def tiers(*them):
    return n(len(them), 1) + b"".join(n(it, 4) for tier in them for it in tier)


def tariff(month, first=tiers((0, 5))):
    """Of STANDARD these tiers, and one of each other class."""
    return month + first + tiers((0, 5)) * 5 + b"".join(n(it, 4) for it in (6, 7, 8, 9, 10))


def head(name, versioning=0, since=day(0), rules=NONE, version=1, upload=1):
    return text(name) + n(versioning, 1) + since + rules + n(version) + n(upload)


def made(number, created, ceased, size=5, rank=0, entered=None, tags=b"\0"):
    """An object."""
    return n(number) + b"\0" + created + ceased + n(size) + n(rank, 1) + (entered or created) + tags


def marker(number, created, ceased):
    return n(number) + b"\1" + created + ceased


def stack(key, changed, *versions):
    return text(key) + changed + n(len(versions), 4) + b"".join(versions)


def part(number, size, put):
    return n(number, 4) + n(size) + put


def upload(number, key, started, changed, *parts, rank=0, tags=b"\0"):
    return n(number) + text(key) + n(rank, 1) + tags + started + changed + n(len(parts), 4) + b"".join(parts)


def sums(month, *numbers):
    """Of the first classes the three numbers, and zeros of the others."""
    return month + b"".join(n(it, 8 if at % 3 == 2 else 16) for at, it in enumerate([*numbers, *[0] * (18 - len(numbers))]))


def kept(token, moment, command, told=0, is_marker=0):
    return text(token, 1) + moment + n(is_marker, 1) + n(told) + text(command, 4)


JANUARY, FEBRUARY, MARCH = b"\x07\xe8\1", b"\x07\xe8\2", b"\x07\xe8\3"
TWO_TIERS = tiers((1, 23_000), (0, 20_000))
LOGS = text(b"logs")
# By name, in the order of the body: what a test replaces.
PARTS = {
    "last": day(70), "open": MARCH, "tariffs": b"\2" + tariff(b"\x07\xb2\1") + tariff(FEBRUARY, TWO_TIERS),
    "closed": TWO + JANUARY + tariff(b"\x07\xb2\1") + FEBRUARY + tariff(FEBRUARY, TWO_TIERS),
    "heads": TWO + head(b"logs", 1, day(2), text(CONFIGURATION, 4), 7, 5) + head(b"raw"),
    "stacks": TWO + stack(b"a", day(9), marker(6, day(9), day(9)), made(5, day(3), day(9), 7, 4, day(5), b"\1" + text(b"k") + text(b"v")),
                          made(0, day(1), day(3))) + stack(b"b/c", day(4), made(4, day(4), day(4), 5 << 40))
    + ONE + stack(b"z", day(2), made(0, day(2), day(2), 0, 5)),
    "uploads": TWO + upload(2, b"a", day(3), day(3)) + upload(4, b"u", day(4), day(6), part(1, 5 << 30, day(5)), part(10_000, 0, day(4)), rank=3,
                                                                 tags=b"\1" + text(b"k") + text(b"")) + NONE,
    "sums": TWO + sums(JANUARY, 5 * 86_400_000, 0, 0, 0, 0, 2) + sums(FEBRUARY, 0, (1 << 120) - 1) + NONE,
    "kept": TWO + kept(b"t1", day(9), b"\6" + LOGS + text(b"a"), 6, 1) + kept(b"~" * 64, day(4), b"\5" + LOGS + text(b"b/c") + n(5 << 40) + b"\0\0", 4),
}


def body(**other):
    return b"".join({**PARTS, **other}.values())


def place_of(name, **other):
    """Where a part begins."""
    return sum(len(it) for it in list({**PARTS, **other}.values())[:list(PARTS).index(name)])


def slot(data, position=30, behind=b""):
    return b"\xa7" + n(position) + n(len(data)) + data + behind


class Heads(unittest.TestCase):
    def test_the_slots_of_the_formats(self):
        found = read_slot(MADE)
        self.assertEqual(("whole", 30, 71, None), (found.state, found.position, found.size, found.fault))
        self.assertEqual((1_704_067_200_000, "2024-01", [], []), found.snapshot[:4])
        self.assertEqual([("logs", "Unversioned", 1_704_067_200_000, None, 1, 1, [], [], [])], list(map(tuple, found.snapshot.buckets)))
        found = read_slot(EXAMPLE)
        self.assertEqual(("whole", 66, 160), (found.state, found.position, found.size))
        bucket, = found.snapshot.buckets
        at = 1_704_067_200_000
        self.assertEqual([("a", at, [Version(0, at, at, 5, "STANDARD", at, {})])], list(map(tuple, bucket.stacks)))
        self.assertEqual([("t1", at, False, 0, 1, {"kind": "create-bucket", "bucket": "logs"})], list(map(tuple, found.snapshot.kept)))

    def test_files_that_do_not_count(self):
        self.assertEqual("empty", read_slot(b"").state)
        for gate in (0, 0x37, 0xA5, 0xA6, 0xA8):
            self.assertEqual(("closed", None), read_slot(bytes([gate]) + MADE[1:])[:2])

    def test_bytes_after_the_body(self):
        for behind in (b"\0", b"\xa7" * 40):
            self.assertEqual(("whole", 30, 71), read_slot(MADE + behind)[:3])

    def test_each_cut(self):
        for count in range(1, len(MADE)):
            found = read_slot(MADE[:count])
            why = "the file ends within the head of the slot" if count < 17 else f"the body claims 71 bytes, and the file has {count - 17}"
            self.assertEqual(("damaged", (count if count < 17 else 9, why)), (found.state, found.fault))

    def test_positions(self):
        for position in (10, 11, 2 ** 64 - 1):
            self.assertEqual(("whole", position), read_slot(slot(body(), position))[:2])
        for position in (0, 9):
            self.assertEqual((1, f"the position is {position}, before the first gate of a journal"), read_slot(slot(body(), position)).fault)

    def test_offsets_count_from_the_start_of_the_file(self):
        self.assertEqual((43, "the versioning is 3"), read_slot(MADE[:43] + b"\3" + MADE[44:]).fault)
        self.assertEqual((88, "bytes follow the last part of the body"), read_slot(MADE[:16] + b"\x48" + MADE[17:] + b"\0").fault)


class Bodies(unittest.TestCase):
    def refused(self, at, why, **other):
        with self.assertRaises(Misspelled) as found:
            read_body(body(**other))
        self.assertEqual((at, why), found.exception.args)

    def test_each_part(self):
        found = read_body(body())
        at = [1_704_067_200_000 + it * 86_400_000 for it in range(80)]
        self.assertEqual((at[70], "2024-03"), (found.last, found.first_open))
        one = {"from": "1970-01", "storage": [5] * 6, "transition": [6, 7, 8, 9, 10]}
        two = {"from": "2024-02", "storage": [[{"price": 23_000, "upto": 1}, {"price": 20_000}], *[5] * 5], "transition": [6, 7, 8, 9, 10]}
        self.assertEqual(([one, two], [("2024-01", one), ("2024-02", two)]), (found.tariffs, found.closed))
        logs, raw = found.buckets
        rules = {"Rules": [], "TransitionDefaultMinimumObjectSize": "all_storage_classes_128K"}
        self.assertEqual(("logs", "Enabled", at[2], rules, 7, 5), logs[:6])
        self.assertEqual(("raw", "Unversioned", at[0], None, 1, 1), raw[:6])
        self.assertEqual([("a", at[9], [Version(6, at[9], at[9]), Version(5, at[3], at[9], 7, "GLACIER", at[5], {"k": "v"}),
                                        Version(0, at[1], at[3], 5, "STANDARD", at[1], {})]),
                          ("b/c", at[4], [Version(4, at[4], at[4], 5 << 40, "STANDARD", at[4], {})])], list(map(tuple, logs.stacks)))
        self.assertEqual([("z", at[2], [Version(0, at[2], at[2], 0, "DEEP_ARCHIVE", at[2], {})])], list(map(tuple, raw.stacks)))
        self.assertEqual([(2, "a", "STANDARD", {}, at[3], at[3], []),
                          (4, "u", "GLACIER_IR", {"k": ""}, at[4], at[6], [(1, 5 << 30, at[5]), (10_000, 0, at[4])])], list(map(tuple, logs.uploads)))
        zeros = [(0, 0, 0)] * 5
        self.assertEqual([("2024-01", [(432_000_000, 0, 0), (0, 0, 2), *zeros[:4]]), ("2024-02", [(0, 2 ** 120 - 1, 0), *zeros])], logs.months)
        self.assertEqual(([], []), (raw.uploads, raw.months))
        self.assertEqual([("t1", at[9], True, 6, 6, {"kind": "delete", "bucket": "logs", "key": "a"}),
                          ("~" * 64, at[4], False, 4, 5, {"kind": "put", "bucket": "logs", "key": "b/c", "size": 5 << 40, "class": "STANDARD", "tags": {}})],
                         list(map(tuple, found.kept)))

    def test_it_is_spelled_again(self):
        for data in (body(), MADE[17:], EXAMPLE[17:], b"\xff" * 8 + bytes(3 + 1 + 4 + 4 + 4)):
            self.assertEqual(data, written(read_body(data)))

    def test_each_cut_and_a_byte_too_many(self):
        whole = body()
        for count in range(len(whole)):
            with self.subTest(count), self.assertRaises(Misspelled):
                read_body(whole[:count])
        self.refused(len(whole), "bytes follow the last part of the body", kept=PARTS["kept"] + b"\0")

    def test_each_byte_has_a_meaning(self):
        """What decodes after a byte was changed is another state, spelled by just these bytes."""
        whole = body()
        one = read_body(whole)
        for place in range(len(whole)):
            data = whole[:place] + bytes([whole[place] ^ 1 << place % 8]) + whole[place + 1:]
            try:
                found = read_body(data)
            except Misspelled as fault:
                self.assertLessEqual(fault.args[0], len(whole))
            else:
                self.assertEqual((data, False), (written(found), found == one))

    def test_before_the_first_command(self):
        nothing = {"last": b"\xff" * 8, "open": bytes(3), "tariffs": b"\0", "closed": NONE, "heads": NONE, "stacks": b"", "uploads": b"",
                   "sums": b"", "kept": NONE}
        self.assertEqual((None, None, [], [], [], []), tuple(read_body(body(**nothing))))
        two = "there is a first open month and no last moment, or the other way round"
        self.refused(8, two, **{**nothing, "open": MARCH})
        self.refused(8, two, open=bytes(3))
        self.refused(12, "there are tariffs or closed months, and no command was accepted", **{**nothing, "closed": ONE + JANUARY + tariff(JANUARY)})
        self.refused(16 + 4, "there is a bucket, and no command was accepted", **{**nothing, "heads": ONE + head(b"logs"), "stacks": NONE})
        self.refused(16 + 4 + 4, "there is a kept reply, and no command was accepted", **{**nothing, "kept": ONE + kept(b"t", day(0), b"\1" + LOGS)})

    def test_the_front(self):
        end = 4_102_444_800_000
        self.refused(0, f"the last moment is {end}", last=n(end))
        self.refused(0, f"the last moment is {2 ** 64 - 2}", last=n(2 ** 64 - 2))
        for year, month in ((1969, 12), (2100, 1), (2024, 0), (2024, 13), (0, 1), (1970, 0)):
            self.refused(8, f"the month is {year}-{month}", open=n(year, 2) + n(month, 1))

    def test_tariffs(self):
        at, one = place_of("tariffs") + 1, tariff(JANUARY)
        for second in (JANUARY, b"\x07\xe7\x0c"):
            self.refused(at + len(one), "the tariffs are not in the order of their first months", tariffs=b"\2" + one + tariff(second))
        self.refused(at + 3, "the number of tiers is 0", tariffs=b"\1" + tariff(JANUARY, b"\0"))
        self.refused(at + 3, "the end of tier 1 of 1 is 1", tariffs=b"\1" + tariff(JANUARY, tiers((1, 5))))
        months = [n(1970 + it // 12, 2) + n(it % 12 + 1, 1) for it in range(101)]
        self.assertEqual(100, len(read_body(body(tariffs=b"\x64" + b"".join(map(tariff, months[:100])))).tariffs))
        with self.assertRaisesRegex(Misspelled, "there are more than 100 tariffs"):
            read_body(body(tariffs=b"\x65" + b"".join(map(tariff, months))))

    def test_closed_months(self):
        at, one = place_of("closed"), tariff(JANUARY)
        why = "the closed months are not those before the first open month"
        for months in ([FEBRUARY, JANUARY], [JANUARY], [JANUARY, FEBRUARY, MARCH], [b"\x07\xe7\x0c", FEBRUARY], [FEBRUARY, FEBRUARY]):
            self.refused(at, why, closed=n(len(months), 4) + b"".join(it + one for it in months))
        self.assertEqual(["2024-02"], [it for it, _ in read_body(body(closed=ONE + FEBRUARY + one)).closed])
        self.assertEqual([], read_body(body(closed=NONE)).closed)
        self.refused(at, "the last closed month is not over at the last moment", last=n(1_709_251_200_000 - 1))
        self.assertEqual(60, (1_709_251_200_000 - 1_704_067_200_000) // 86_400_000)  # March begins then
        self.assertEqual(2, len(read_body(body(last=day(60))).closed))

    def test_heads(self):
        at = place_of("heads") + 4
        raw, logs = head(b"raw"), PARTS["heads"][4:-len(head(b"raw"))]
        self.refused(at + len(raw), "the buckets are not in their order", heads=TWO + raw + logs)
        self.refused(at + len(raw), "the buckets are not in their order", heads=TWO + raw + raw)
        self.refused(at, "the name is none of a bucket", heads=TWO + head(b"Logs") + raw)
        self.refused(at + 6, "the versioning is 3", heads=TWO + head(b"logs", 3) + raw)
        late = 1_704_067_200_000 + 71 * 86_400_000
        self.refused(at + 7, f"the moment of the rules is {late}, which is after what it may be", heads=TWO + head(b"logs", 1, day(71)) + raw)
        self.refused(at + 15, "the configuration is no JSON text", heads=TWO + head(b"logs", 1, day(1), text(b"{", 4)) + raw)
        self.refused(at + 15, "the configuration is not written as it is printed", heads=TWO + head(b"logs", 1, day(1), text(b'{"Rules": []}', 4)) + raw)
        for number in (0, 2 ** 62, 2 ** 64 - 1):
            self.refused(at + 19, f"the number of the next version is {number}", heads=TWO + head(b"logs", 1, version=number) + raw)
            self.refused(at + 27, f"the number of the next upload is {number}", heads=TWO + head(b"logs", 1, upload=number) + raw)
        many = [b"a%03d" % it for it in range(1001)]
        lists = {it: NONE * 1000 for it in ("stacks", "uploads", "sums")}
        self.assertEqual(1000, len(read_body(body(heads=n(1000, 4) + b"".join(map(head, many[:1000])), **lists)).buckets))
        with self.assertRaisesRegex(Misspelled, "there are more than 1000 buckets"):
            read_body(body(heads=n(1001, 4) + b"".join(map(head, many)), **lists))

    def test_actions_in_closed_months(self):
        """Nothing is due before the end of the last closed month; here the rule removes objects after a day."""
        rules = (b'{"Rules":[{"Expiration":{"Days":1},"Filter":{"Prefix":"%s"},"ID":"r","Status":"Enabled"}],'
                 b'"TransitionDefaultMinimumObjectSize":"all_storage_classes_128K"}')

        def heads(prefix, since=2):
            return TWO + head(b"logs", 1, day(since), text(rules % prefix, 4), 7, 5) + head(b"raw")
        one = {"uploads": NONE * 2, "sums": NONE * 2, "kept": NONE}
        at = place_of("heads") + 4
        for changed, prefix, since, right in ((58, b"", 2, False), (59, b"", 2, True), (58, b"b", 2, True), (58, b"", 60, True), (60, b"", 2, True)):
            # March begins on day 60; what was made on day 58 is due on day 59.
            stacks = ONE + stack(b"a", day(changed), made(1, day(changed), day(changed))) + NONE
            other = {**one, "heads": heads(prefix, since), "stacks": stacks}
            if right:
                self.assertEqual(1, len(read_body(body(**other)).buckets[0].stacks))
            else:
                self.refused(at, "an action on the key 'a' of logs is due before the end of the last closed month", **other)
            self.assertEqual(1, len(read_body(body(**other, closed=NONE)).buckets[0].stacks))

    def test_configurations(self):
        for rules in (b'{"Rules":[],"TransitionDefaultMinimumObjectSize":"some"}', b'{"Rules":[]}', b"{}"):
            with self.assertRaisesRegex(Misspelled, "configuration"):
                read_body(body(heads=TWO + head(b"logs", 1, day(2), text(rules, 4), 7, 5) + head(b"raw")))

    def stacks(self, *them):
        return {"stacks": n(len(them), 4) + b"".join(them) + NONE}

    def test_stacks(self):
        at, one = place_of("stacks") + 4, made(1, day(1), day(1))
        for second in (b"a", b"B"):
            first = stack(b"a", day(1), one)
            self.refused(at + len(first), "the keys are not in their order", **self.stacks(first, stack(second, day(1), made(2, day(1), day(1)))))
        two = self.stacks(stack(b"a", day(1), one), stack("\u00e9".encode(), day(1), one))
        self.assertEqual(["a", "\u00e9"], [it.key for it in read_body(body(**two)).buckets[0].stacks])
        self.refused(at, "the key is not UTF-8", **self.stacks(stack(b"\xff", day(1), one)))
        self.refused(at, "the key 'a' has no version", **self.stacks(stack(b"a", day(1))))
        self.refused(at, "the key 'a' has two versions with one number", **self.stacks(stack(b"a", day(1), one, marker(0, day(1), day(1)), one)))
        self.refused(at + 3, f"the moment of the last change is {1_704_067_200_000 + 71 * 86_400_000}, which is after what it may be",
                     **self.stacks(stack(b"a", day(71), one)))

    def test_versions(self):
        at = place_of("stacks") + 4 + 3 + 8 + 4
        late = 1_704_067_200_000 + 86_400_000 * 2
        for offset, why, version in (
                (0, "the version is 7, and the next one is 7", made(7, day(1), day(1))),
                (8, "the mark of a delete marker is 2", n(1) + b"\2" + day(1) * 2),
                (9, f"the moment of creation is {late}, which is after what it may be", made(1, day(2), day(1))),
                (17, f"the moment at which it ceased is {late}, which is after what it may be", made(1, day(1), day(2))),
                (25, f"the size is {(5 << 40) + 1}", made(1, day(1), day(1), (5 << 40) + 1)), (33, "the class is 6", made(1, day(1), day(1), 5, 6)),
                (34, f"the moment of entering the class is {late - 2 * 86_400_000}, which is before what it may be", made(1, day(1), day(1), 5, 0, day(0))),
                (34, f"the moment of entering the class is {late}, which is after what it may be", made(1, day(1), day(1), 5, 0, day(2))),
                (42, "the number of tags is 11", made(1, day(1), day(1), tags=b"\x0b"))):
            self.refused(at + offset, why, **self.stacks(stack(b"a", day(1), version)))
        self.assertEqual(day(0), n(read_body(body(**self.stacks(stack(b"a", day(1), made(1, day(1), day(0)))))).buckets[0].stacks[0].versions[0].ceased))

    def test_an_unversioned_bucket(self):
        why = "the key 'a' has more than a null object in an Unversioned bucket"
        heads = TWO + head(b"logs", 0, version=7, upload=5) + head(b"raw")
        at = place_of("stacks", heads=heads) + 4
        null = made(0, day(1), day(1))
        for versions in ([made(1, day(1), day(1))], [marker(0, day(1), day(1))], [null, made(1, day(1), day(1))]):
            self.refused(at, why, heads=heads, **self.stacks(stack(b"a", day(1), *versions)))
        self.assertEqual(1, len(read_body(body(heads=heads, **self.stacks(stack(b"a", day(1), null)))).buckets[0].stacks))

    def uploads(self, *them):
        return {"uploads": n(len(them), 4) + b"".join(them) + NONE}

    def test_uploads(self):
        at, one = place_of("uploads") + 4, upload(2, b"a", day(1), day(1))
        for number in (1, 2):
            self.refused(at + len(one), "the uploads are not in their order", **self.uploads(one, upload(number, b"a", day(1), day(1))))
        self.refused(at, "the upload is 5, and the next one is 5", **self.uploads(upload(5, b"a", day(1), day(1))))
        self.refused(at + 8, "the key has 0 bytes", **self.uploads(upload(1, b"", day(1), day(1))))
        self.refused(at + 11, "the class is 6", **self.uploads(upload(1, b"a", day(1), day(1), rank=6)))
        self.refused(at + 21, "the moment of the last change is 1704067200000, which is before what it may be",
                     **self.uploads(upload(1, b"a", day(1), day(0))))
        self.refused(at + 21, f"the moment of the last change is {1_704_067_200_000 + 71 * 86_400_000}, which is after what it may be",
                     **self.uploads(upload(1, b"a", day(1), day(71))))

    def test_parts(self):
        at = place_of("uploads") + 4 + 8 + 3 + 1 + 1 + 16 + 4

        def with_parts(*parts):
            return self.uploads(upload(1, b"a", day(1), day(2), *parts))
        for number in (0, 10_001, 2 ** 32 - 1):
            self.refused(at, f"the part is {number}", **with_parts(part(number, 1, day(1))))
        self.refused(at + 4, f"the size of the part is {(5 << 30) + 1}", **with_parts(part(1, (5 << 30) + 1, day(1))))
        late = 1_704_067_200_000 + 3 * 86_400_000
        self.refused(at + 12, f"the moment of the part is {late}, which is after what it may be", **with_parts(part(1, 1, day(3))))
        for number in (1, 2):
            self.refused(at + 20, "the parts are not in their order", **with_parts(part(2, 1, day(1)), part(number, 1, day(1))))
        most = [part(it, 5 << 30, day(1)) for it in range(1, 1026)]
        self.assertEqual(1024, len(read_body(body(**with_parts(*most[:1024]))).buckets[0].uploads[0].parts))
        self.refused(at - 20, f"the parts have more than {5 << 40} bytes", **with_parts(*most))
        self.assertEqual(1, len(read_body(body(**with_parts(part(1, 1, day(0))))).buckets[0].uploads[0].parts))

    def months(self, *them):
        return {"sums": n(len(them), 4) + b"".join(them) + NONE}

    def test_sums(self):
        at, one = place_of("sums") + 4, sums(FEBRUARY, 1)
        for month in (JANUARY, FEBRUARY):
            self.refused(at + len(one), "the months of sums are not in their order", **self.months(one, sums(month, 1)))
        self.refused(at, "all sums of 2024-01 are 0", **self.months(sums(JANUARY)))
        self.refused(at + 3, "the number of byte-milliseconds is 2^120 or more", **self.months(sums(JANUARY, 1 << 120)))
        self.refused(at + 19, "the early quantity is 2^120 or more", **self.months(sums(JANUARY, 0, 1 << 120)))
        self.refused(at + 35, "the number of moves is 2^62 or more", **self.months(sums(JANUARY, 0, 0, 1 << 62)))
        self.assertEqual((0, 0, 2 ** 62 - 1), read_body(body(**self.months(sums(JANUARY, 0, 0, 2 ** 62 - 1)))).buckets[0].months[0][1][0])

    def test_sums_of_a_time_to_come(self):
        """A month begins before stays have ended in it, and not after the last moment."""
        begun = {"last": day(60), "closed": NONE}
        at, why = place_of("sums", **begun) + 4, "the sums of 2024-03 are of a time after the last moment"
        self.assertEqual("2024-03", read_body(body(**begun, **self.months(sums(MARCH, 0, 1, 1)))).buckets[0].months[0][0])
        self.refused(at, why, **begun, **self.months(sums(MARCH, 1)))
        self.refused(at, "the sums of 2024-04 are of a time after the last moment", **begun, **self.months(sums(b"\x07\xe8\4", 0, 0, 1)))

    def test_commands_of_kept_replies(self):
        key, number = LOGS + text(b"a"), n(3)
        for fields, told, is_marker in (
                (b"\1" + LOGS, 0, 0), (b"\2" + LOGS + b"\2", 0, 0), (b"\4" + LOGS, 0, 0), (b"\5" + key + n(0) + b"\5\0", 9, 0), (b"\6" + key, 0, 0),
                (b"\6" + key, 0, 1), (b"\6" + key, 8, 1), (b"\7" + key + number, 3, 0), (b"\7" + key + n(0), 0, 0), (b"\x08" + key + number + b"\0", 0, 0),
                (b"\x09" + key + b"\0\0", 2, 0), (b"\x0a" + LOGS + number + n(9, 4) + n(2 ** 64 - 1), 0, 0), (b"\x0b" + LOGS + number, 1, 0),
                (b"\x0c" + LOGS + number, 3, 0), (b"\x0f" + JANUARY, 0, 0)):
            with self.subTest(fields):
                data = body(kept=ONE + kept(b"t", day(1), fields, told, is_marker))
                self.assertEqual(data, written(read_body(data)))
        at = place_of("kept") + 4 + 2 + 8
        for kind in (0, 3, 13, 14, 16, 17, 0x81, 255):
            self.refused(at + 13, f"the kind {kind:02x} is none of a command with a token", kept=ONE + kept(b"t", day(1), bytes([kind]) + LOGS))
        self.refused(at + 13, "the command ends within its kind", kept=ONE + kept(b"t", day(1), b""))
        self.refused(at + 14, "the command ends within its bucket", kept=ONE + kept(b"t", day(1), b"\1" + LOGS[:-1]))
        self.refused(at + 20, "bytes follow the last field of the command", kept=ONE + kept(b"t", day(1), b"\1" + LOGS + b"\0"))
        for fields, told, is_marker in ((b"\1" + LOGS, 1, 0), (b"\1" + LOGS, 0, 1), (b"\6" + key, 1, 0), (b"\7" + key + number, 4, 0),
                                        (b"\5" + key + n(0) + b"\0\0", 1, 1), (b"\x0c" + LOGS + number, 2, 0), (b"\x0c" + LOGS + number, 3, 1)):
            with self.subTest(fields), self.assertRaisesRegex(Misspelled, "does not tell this"):
                read_body(body(kept=ONE + kept(b"t", day(1), fields, told, is_marker)))
        self.refused(at, "the reply to create-bucket does not tell this", kept=ONE + kept(b"t", day(1), b"\1" + LOGS, 1))

    def test_kept_replies(self):
        at = place_of("kept")
        for token in (b"", b" ", b"a" * 65):
            self.refused(at + 4, "the token has another length than 1 to 64, or another byte than 21 to 7E", kept=ONE + kept(token, day(1), b"\1" + LOGS))
        one = kept(b"t", day(1), b"\1" + LOGS)
        why = "there are more than 10000 kept replies, or two with one token"
        self.refused(at, why, kept=TWO + one + kept(b"t", day(2), b"\4" + LOGS))
        many = [kept(b"%d" % it, day(1), b"\1" + LOGS) for it in range(10_001)]
        self.assertEqual(10_000, len(read_body(body(kept=n(10_000, 4) + b"".join(many[1:]))).kept))
        self.refused(at, why, kept=n(10_001, 4) + b"".join(many))
        self.assertEqual(1, len(read_body(body(kept=ONE + kept(b"t", n(4_102_444_800_000 - 1), b"\1" + LOGS))).kept))
        self.refused(at + 6, "the moment of the kept reply is 4102444800000", kept=ONE + kept(b"t", n(4_102_444_800_000), b"\1" + LOGS))

    def test_many_tags(self):
        tags = b"\x0a" + b"".join(text(b"%d" % it) + text(b"v" * 256) for it in range(10))
        found = read_body(body(**self.stacks(stack(b"a", day(1), made(1, day(1), day(1), tags=tags)))))
        self.assertEqual(2_570, sum(len(key) + len(value) for key, value in found.buckets[0].stacks[0].versions[0].tags.items()))


class Months(unittest.TestCase):
    def test_numbers(self):
        for month, number, start in (("1970-01", 0, 0), ("1970-12", 11, 28_857_600_000), ("2024-01", 648, 1_704_067_200_000),
                                     ("2099-12", 1559, 4_099_766_400_000)):
            self.assertEqual((number, month, start), (number_of(month), month_at(number), start_of(number)))


if __name__ == "__main__":
    unittest.main()
