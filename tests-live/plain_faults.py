"""What crates/office_faults prints for its tables, by a plain model of a disk, a journal and two slots; for test_fault_tables.py.

It was written from docs/FORMATS.md and the READMEs of disk_core, slots and office_faults. The order of the disk's calls is that of these
texts; which calls read is counted in the code, as no format tells it. Entries other than `make a bucket` are not looked into.
"""
import collections
import functools
import re

HEAD, OPEN, SLOT_OPEN, FILLER = b"\xa5METERJRN1", 0xA5, 0xA7, 0x37
JOURNAL, SLOTS, END_OF_TIME = 0, (1, 2), 4_102_444_800_000
BLOCK = 65_536  # what is read of the journal at a time
NAME = re.compile(rb"[a-z0-9][a-z0-9.-]{1,61}[a-z0-9]")


class Fault(Exception):
    """A call of the disk failed."""


class Broken(Exception):
    """The journal is not made, foreign or damaged."""


def number(value, size):
    return value.to_bytes(size, "big")


class Disk:
    """Three files. `calls` counts from 1; a write that fails has happened, a sync that fails has not."""

    def __init__(self, files, failing=(), keeps=False):
        self.seen, self.synced = list(files), list(files)
        self.lengths, self.ranges = [(len(it),) for it in files], [() for _ in files]
        self.failing, self.calls, self.faults = set(failing), 0, 0
        self.past = [] if keeps else None  # the state of each file after each call

    def call(self):
        self.calls += 1
        return self.calls in self.failing

    def end(self, fails):
        if self.past is not None:
            self.past.append(self.state())
        if fails:
            self.faults += 1
            raise Fault

    def state(self):
        return list(zip(self.seen, self.synced, self.lengths, self.ranges))

    def length(self, file):
        self.end(self.call())
        return len(self.seen[file])

    def read(self, file, at, size):
        self.end(self.call())
        return self.seen[file][at:at + size]

    def write(self, file, at, data):
        fails, was = self.call(), self.seen[file]
        self.seen[file] = was[:at] + data + was[at + len(data):]
        self.lengths[file] += (len(self.seen[file]),)
        self.ranges[file] += ((at, at + len(data)),)
        self.end(fails)

    def sync(self, file):
        fails = self.call()
        if not fails:
            self.synced[file], self.lengths[file], self.ranges[file] = self.seen[file], (len(self.seen[file]),), ()
        self.end(fails)

    def images(self, file, after=None):
        """Images of a file after so many calls, or now."""
        return images_of(*(self.past[after - 1] if after else self.state())[file])


@functools.lru_cache(maxsize=None)
def images_of(seen, synced, lengths, ranges):
    """One for each length since the last sync, each place, and one filling of the pending bytes before the place and one after it."""
    found = set()
    for length in lengths:
        pending = [at >= len(synced) or any(a <= at < b for a, b in ranges) for at in range(length)]
        fillings = [bytes((from_[at] if at < len(from_) else 0) if pending[at] else synced[at] for at in range(length)) for from_ in (synced, seen)]
        fillings.append(bytes(FILLER if pending[at] else synced[at] for at in range(length)))
        for place in range(length + 1):
            for one in fillings:
                for other in fillings:
                    found.add(one[:place] + other[place:])
    return found


def body_of(buckets):
    """The body of a checkpoint of buckets that were made at the start of 2024, without anything in them."""
    moment, names = number(1_704_067_200_000, 8), sorted(buckets)
    heads = b"".join(number(len(it), 2) + it + b"\0" + moment + number(0, 4) + number(1, 8) * 2 for it in names)
    return moment + b"\x07\xe8\x01" + number(0, 1) + number(0, 4) + number(len(names), 4) + heads + number(0, 12) * len(names) + number(0, 4)


class Window:
    """A part of the journal in memory. If it lacks what is wanted, a block of the file is read from there on, or all that is wanted if that is more."""

    def __init__(self, disk, end):
        self.disk, self.end, self.at, self.bytes = disk, end, 0, b""

    def part(self, at, size):
        if at < self.at or self.at + len(self.bytes) < at + size:
            self.at, self.bytes = at, self.disk.read(JOURNAL, at, min(max(BLOCK, size), self.end - at))
        return self.bytes[at - self.at:at - self.at + size]


class Office:
    """What a session knows: the names of its buckets, its end gate, and whether the entry of the table is in its journal."""

    def __init__(self, table):
        self.journal = bytes.fromhex(table["journal"])
        self.slots = [bytes.fromhex(it) for it in table.get("slots", [])] or [b"", b""]
        self.entry = bytes.fromhex(table.get("entry", ""))
        self.frame = number(len(self.entry), 4) + self.entry
        self.gate = len(self.journal) - 1
        self.known = {self.body(it): it for it in self.slots if it}

    def body(self, slot):
        return slot[17:17 + int.from_bytes(slot[9:17], "big")]

    def state_body(self, names):
        """The body of the state at the end of the journal."""
        return body_of(names)

    # Reading.

    def heads(self, disk):
        """The head of each slot that is open and ends within its file."""
        found = []
        for file in SLOTS:
            size = disk.length(file)
            head = disk.read(file, 0, 17) if size >= 17 else b"\0" * 17
            place, more = (int.from_bytes(it, "big") for it in (head[1:9], head[9:17]))
            found.append((place, more) if head[0] == SLOT_OPEN and more <= size - 17 else None)
        return found

    def loaded(self, disk):
        """The slot that is loaded: its number, its position and its body; None if none decodes."""
        heads = self.heads(disk)
        order = (1, 0) if None not in heads and heads[0][0] < heads[1][0] else (0, 1)
        for slot in order:
            if heads[slot] and heads[slot][0] >= 10:
                body = disk.read(SLOTS[slot], 17, heads[slot][1])
                if body in self.known:
                    return slot, heads[slot][0], body
        return None

    def names_in(self, body):
        """The buckets of a body that is known, if it has nothing else."""
        return next((names for names in self.states() if body_of(names) == body), ())

    def states(self):
        made = [self.name_of(it) for it in frames_of(self.journal)] + [self.name_of(self.entry)]
        return [tuple(made[:count]) for count in range(len(made) + 1)]

    @staticmethod
    def name_of(entry):
        return entry[11:] if entry[8:9] == b"\1" else entry

    def entry_at(self, entry, gate, last, names):
        """The moment of an entry and the name of its bucket; damage at its gate if it is refused."""
        moment = int.from_bytes(entry[:8], "big")
        if len(entry) < 9 or moment >= END_OF_TIME or moment < last:
            raise Broken(f"damaged at {gate}")
        if entry[8] != 1:
            if entry[8] in (0, FILLER):
                raise Broken(f"damaged at {gate}")
            return moment, None
        name = entry[11:]
        if entry[9:11] != number(len(name), 2) or not NAME.fullmatch(name) or name in names:
            raise Broken(f"damaged at {gate}")
        return moment, name

    def open(self, disk):
        """Opens the office. Returns the end gate, and the names of the buckets."""
        slot = self.loaded(disk)
        gate, names = (10, []) if slot is None else (slot[1], list(self.names_in(slot[2])))
        last = 0 if slot is None else int.from_bytes(slot[2][:8], "big")
        disk.sync(JOURNAL)
        end = disk.length(JOURNAL)
        if end < 11:
            raise Broken("not made")
        head = disk.read(JOURNAL, 0, 10)
        if head[0] != OPEN:
            raise Broken("not made" if end == 11 else "foreign")
        if head != HEAD:
            raise Broken("foreign")
        window = Window(disk, end)
        while True:
            if end <= gate:
                raise Broken(f"damaged at {gate}")
            if window.part(gate, 1)[0] != OPEN:
                return gate, names
            if end - gate < 5:
                raise Broken(f"damaged at {gate}")
            size = int.from_bytes(window.part(gate, 5)[1:], "big")
            if end < gate + 6 + size:
                raise Broken(f"damaged at {gate}")
            last, name = self.entry_at(window.part(gate + 5, size), gate, last, names)
            names += [name] if name else []
            gate += 5 + size

    # Writing.

    def append(self, disk, gate):
        for at, data in ((gate + 1, self.frame[:4]), (gate + 5, self.entry), (gate + 1 + len(self.frame), b"\0")):
            disk.write(JOURNAL, at, data)
        disk.sync(JOURNAL)
        disk.write(JOURNAL, gate, bytes([OPEN]))
        disk.sync(JOURNAL)
        return gate + 1 + len(self.frame)

    def save(self, disk, position, body):
        found = self.loaded(disk)
        file = SLOTS[1 if found and found[0] == 0 else 0]
        disk.sync(SLOTS[0])
        disk.sync(SLOTS[1])
        if disk.length(file) == 0 or disk.read(file, 0, 1)[0] == SLOT_OPEN:
            disk.write(file, 0, b"\0")
            disk.sync(file)
        for at, data in ((1, number(position, 8)), (9, number(len(body), 8)), (17, body)):
            disk.write(file, at, data)
        disk.sync(file)
        disk.write(file, 0, bytes([SLOT_OPEN]))
        disk.sync(file)

    # Sessions. `words` are those of the replies to the messages that show what is there.

    def shown(self, names, gate):
        raise NotImplementedError

    def session(self, disk, does_step):
        try:
            begun, names = self.open(disk)
        except Fault:
            return ["2 store: failed"]
        except Broken as fault:
            return [f"5 journal: {fault}"]
        said, gate, is_stale = [], begun, False
        for word in (["step"] if does_step else []) + ["show"] * self.shows:
            try:
                if is_stale:
                    gate, names = self.open(disk)
                    is_stale = False
                if word == "step":
                    gate = self.append(disk, gate)
                    names = [*names, self.name_of(self.entry)] if self.entry[8] == 1 else names
                    said.append("done")
                else:
                    said += [self.shown(names, gate, len(said) - does_step)]
            except Fault:
                is_stale = True
                said.append("fault")
        if is_stale:
            return [*said, "2 store: failed"]
        if gate != begun:
            body = self.state_body(names)
            self.known[body] = None
            try:
                self.save(disk, gate, body)
            except Fault:
                return [*said, "2 store: failed"]
        return [*said, "0"]

    def told(self, disk, does_step=False):
        return ", ".join(self.session(disk, does_step))


def frames_of(journal):
    """The entries of a whole journal."""
    found, gate = [], 10
    while journal[gate] == OPEN:
        size = int.from_bytes(journal[gate + 1:gate + 5], "big")
        found.append(journal[gate + 5:gate + 5 + size])
        gate += 5 + size
    return found


class Named(Office):
    """Shows which buckets there are."""

    def __init__(self, table):
        super().__init__(table)
        self.asked = [it["ask"].rpartition("/")[2].encode() for it in table["show"]]
        self.shows = len(self.asked)
        self.known = {body_of(names): None for names in self.states()}

    def shown(self, names, gate, place):
        return self.asked[place].decode() if self.asked[place] in names else "none"


class Whole(Office):
    """Shows whether the entry is there. A body stands for one of two states."""

    shows = 1

    def state_body(self, names):
        return b"a state"

    def shown(self, names, gate, place):
        return "with" if gate == self.gate + 1 + len(self.frame) else "without"


def tallied(counts):
    return [f"    {times}: {told}" for told, times in sorted(counts.items(), key=lambda it: it[0].encode())]


def ranges(what, found):
    """Outcomes of numbers from 0 on, the same ones once."""
    rows, first = [], 0
    for at, told in enumerate(found):
        if at + 1 == len(found) or found[at + 1] != told:
            rows.append(f"  {what} {first} to {at}: {told}")
            first = at + 1
    return rows


def damage(table):
    office = Named({**table, "entry": table.get("entry", "")})
    journal = office.journal

    def told(data):
        return office.told(Disk([data, *office.slots]))
    rows = []
    for value in (0x37, 0x00):
        rows += ranges(f"{value:02x} at", [told(journal[:at] + bytes([value]) + journal[at + 1:]) for at in range(len(journal))])
    return rows + ranges("cut to", [told(journal[:size]) for size in range(len(journal) + 1)])


def stops(table):
    office = Named(table)
    disk = Disk([office.journal, *office.slots], table.get("failing", ()), keeps=True)
    rows = ["  " + office.told(disk, True)]
    for after in range(table["calls"][0], table["calls"][1] + 1):
        journals, firsts, seconds = (disk.images(file, after) for file in (JOURNAL, *SLOTS))
        found, unread, at = collections.Counter(), collections.Counter(), table["unread"]
        for journal in journals:
            changed = journal[:at] + b"\x37" + journal[at + 1:]
            for first in firsts:
                for second in seconds:
                    found[office.told(Disk([journal, first, second]))] += 1
                    unread[office.told(Disk([changed, first, second]))] += 1
        rows += [f"  after call {after}", *tallied(found), f"   with 37 at {at}", *tallied(unread)]
    return rows


@functools.lru_cache(maxsize=None)
def images_word(before, frame, *state):
    """Whether images of the journal have the entry; a closed gate comes after what they have."""
    after, found = before + bytes([OPEN]) + frame, set()
    for image in images_of(*state):
        front = next((it for it in (after, before) if image.startswith(it) and image[len(it):len(it) + 1] not in (b"", bytes([OPEN]))), None)
        if front is None:
            return "damaged"
        found.add("with" if front is after else "without")
    return "both" if len(found) == 2 else found.pop()


def both(table, failing, looks):
    office = Whole(table)
    disk = Disk([office.journal, *office.slots], failing)
    told = office.told(disk, True)
    if looks:
        told += f" | images {images_word(office.journal[:-1], office.frame, *disk.state()[JOURNAL])}"
    return office, disk, told + " | " + office.told(disk)


def all_three(table, failing, looks):
    office, disk, told = both(table, failing, looks)
    while True:
        last = office.told(disk)
        if last.endswith("0"):
            return f"{told} | {last}"


def faults(table):
    calls = next(count for count in range(1000) if both(table, [count + 1], False)[1].faults == 0)
    single = collections.Counter(all_three(table, [it], True) for it in range(1, calls + 1))
    pairs = collections.Counter(all_three(table, [one, other], False) for one in range(1, calls + 1) for other in range(one + 1, calls + 1))
    onward = collections.Counter(all_three(table, range(one, calls + 1), True) for one in range(1, calls + 1))
    return [f"  one of {calls} calls fails", *tallied(single), "  two calls fail", *tallied(pairs), "  all calls from one on fail", *tallied(onward)]


def printed(table):
    """What is printed of a table."""
    return "\n".join([f"case: {table['name']}", *{"damage": damage, "stops": stops, "faults": faults}[table["does"]](table)]) + "\n"
