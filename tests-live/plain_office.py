"""A plain model of the office, written from docs/LIFECYCLE.md and docs/FORMATS.md alone: lists, and nothing kept that can be computed."""
import calendar
import datetime

DAY, END = 86_400_000, 4_102_444_800_000
CLASSES = ("STANDARD", "STANDARD_IA", "ONEZONE_IA", "GLACIER_IR", "GLACIER", "DEEP_ARCHIVE")
LEAST_SIZE = {"STANDARD_IA": 131_072, "ONEZONE_IA": 131_072, "GLACIER_IR": 131_072}
LEAST_DAYS = {"STANDARD": 0, "STANDARD_IA": 30, "ONEZONE_IA": 30, "GLACIER_IR": 90, "GLACIER": 90, "DEEP_ARCHIVE": 180}
KINDS = ("remove", "transition", "marker", "abort")


class Refused(Exception):
    """The name and the number of a refusal."""


def midnight(moment):
    return -(-moment // DAY) * DAY


def may_move(source, target):
    return CLASSES.index(target) > CLASSES.index(source) and (source, target) != ("ONEZONE_IA", "GLACIER_IR")


def lines_of(storage_class, size):
    """What is billed of an object: (class, bytes) each."""
    if storage_class in ("GLACIER", "DEEP_ARCHIVE"):
        return [(storage_class, size + 32_768), ("STANDARD", 8_192)]
    return [(storage_class, max(size, LEAST_SIZE.get(storage_class, 0)))]


def window(month):
    """The first moment of a month, as 2024-01, and the first one after it."""
    year, number = map(int, month.split("-"))
    start = calendar.timegm((year, number, 1, 0, 0, 0)) * 1000
    return start, start + calendar.monthrange(year, number)[1] * DAY


def text_of(moment):
    return (datetime.datetime(1970, 1, 1) + datetime.timedelta(milliseconds=moment)).isoformat(timespec="milliseconds") + "Z"


class Bucket:
    def __init__(self, now):
        self.versioning, self.rules, self.mode, self.rules_since = "Unversioned", None, None, now
        self.stacks, self.uploads, self.next_version, self.next_upload = {}, {}, 1, 1
        self.stays, self.early, self.moves = [], [], []

    # ---- what is booked: a stay is [whose, lines, from, to]

    def open(self, whose, lines, now):
        self.stays.append([whose, lines, now, None])

    def close(self, whose, now):
        stay = next(it for it in self.stays if it[0] == whose and it[3] is None)
        stay[3] = now

    def begin(self, key, version, now):
        lines = [("STANDARD", len(key.encode()))] if version["kind"] == "marker" else lines_of(version["class"], version["size"])
        self.open((key, version["version"]), lines, now)

    def end(self, key, version, now):
        self.close((key, version["version"]), now)
        if version["kind"] == "object":
            missing = version["entered"] + LEAST_DAYS[version["class"]] * DAY - now
            if missing > 0:
                self.early.append((version["class"], lines_of(version["class"], version["size"])[0][1] * missing, now))

    # ---- versions, newest first

    def stack(self, key):
        if key not in self.stacks:
            raise Refused("NoSuchKey", 50)
        return self.stacks[key]

    def version(self, key, name):
        for it in self.stack(key)["versions"]:
            if it["version"] == name:
                return it
        raise Refused("NoSuchVersion", 51)

    def add(self, key, version, now):
        """A new version comes to the top; of those that stay, the one that was current ceases to be."""
        stack = self.stacks.setdefault(key, {"changed": now, "versions": []})
        old = stack["versions"]
        name = "null"
        if self.versioning == "Enabled":
            name, self.next_version = str(self.next_version), self.next_version + 1
        for it in [it for it in old if it["version"] == name]:
            self.end(key, it, now)
        kept = [it for it in old if it["version"] != name]
        if kept and old[0] is kept[0]:
            kept[0]["ceased"] = now
        version = {"version": name, "created": now, "ceased": now, **version}
        stack["versions"], stack["changed"] = [version, *kept], now
        self.begin(key, version, now)
        return name

    def remove(self, key, name, now):
        version, stack = self.version(key, name), self.stacks[key]
        self.end(key, version, now)
        stack["versions"], stack["changed"] = [it for it in stack["versions"] if it is not version], now
        if not stack["versions"]:
            del self.stacks[key]

    def put(self, key, size, storage_class, tags, now):
        return self.add(key, {"kind": "object", "size": size, "class": storage_class, "tags": tags, "entered": now}, now)

    def delete(self, key, now):
        if self.versioning != "Unversioned":
            return {"marker": self.add(key, {"kind": "marker"}, now)}
        self.stack(key)
        self.remove(key, "null", now)
        return {"removed": "null"}

    def set_tags(self, key, name, tags, now):
        version = self.version(key, name)
        if version["kind"] == "marker":
            raise Refused("IsMarker", 52)
        version["tags"], self.stacks[key]["changed"] = tags, now

    # ---- uploads

    def upload(self, number):
        if number not in self.uploads:
            raise Refused("NoSuchUpload", 60)
        return self.uploads[number]

    def start(self, key, storage_class, tags, now):
        number, self.next_upload = self.next_upload, self.next_upload + 1
        self.uploads[number] = {"key": key, "class": storage_class, "tags": tags, "started": now, "changed": now, "parts": {}}
        return number

    def put_part(self, number, part, size, now):
        upload = self.upload(number)
        total = sum(upload["parts"].values()) - upload["parts"].get(part, 0) + size
        if not 1 <= part <= 10_000 or size > 5 << 30 or total > 5 << 40:
            raise Refused("BadPart", 61)
        if part in upload["parts"]:
            self.close((number, part), now)
        upload["parts"][part], upload["changed"] = size, now
        billed = "STANDARD" if upload["class"] in ("GLACIER", "DEEP_ARCHIVE") else upload["class"]
        self.open((number, part), [(billed, size)], now)

    def drop_upload(self, number, now):
        upload = self.upload(number)
        for part in upload["parts"]:
            self.close((number, part), now)
        return self.uploads.pop(number)

    def complete(self, number, now):
        if not self.upload(number)["parts"]:
            raise Refused("NoParts", 62)
        upload = self.drop_upload(number, now)
        return self.put(upload["key"], sum(upload["parts"].values()), upload["class"], upload["tags"], now)

    # ---- what is due: (since, kind, key, age, coldness, rule's place, what it does)

    def asked(self, rule, place, key, stack):
        versions = stack["versions"]
        for newer, it in enumerate(versions):
            older = len(versions) - newer - 1
            small = rule.get("greater") is None and rule.get("less") is None
            if it["kind"] == "marker":
                fits = key.startswith(rule["prefix"]) and not rule["tags"] and small
            else:
                fits = (key.startswith(rule["prefix"]) and all(it["tags"].get(k) == v for k, v in rule["tags"])
                        and (rule.get("greater") is None or it["size"] > rule["greater"])
                        and (rule.get("less") is None or it["size"] < rule["less"]))
            if not fits:
                continue

            def moves(target):
                if it["kind"] == "marker" or not may_move(it["class"], target):
                    return False
                varies = self.mode == "varies_by_storage_class" and target in ("GLACIER", "DEEP_ARCHIVE")
                return not small or it["size"] >= 131_072 or varies

            def due(kind, moment, target=None):
                cold = -CLASSES.index(target) if target else 0
                return moment, kind, key.encode(), older, cold, place, ("version", it["version"], target)

            if newer == 0:
                days, date = rule.get("days"), rule.get("date")
                whens = ([midnight(it["created"] + days * DAY)] if days is not None else []) + ([date] if date is not None else [])
                if it["kind"] == "object":
                    yield from (due(0 if self.versioning == "Unversioned" else 2, when) for when in whens)
                    for when, target in rule.get("moves", []):
                        if moves(target):
                            yield due(1, midnight(it["created"] + when * DAY), target)
                    yield from (due(1, date, target) for date, target in rule.get("date_moves", []) if moves(target))
                elif older == 0:
                    yield from (due(0, when) for when in whens)
                    if rule.get("lone_marker"):
                        yield due(0, midnight(stack["changed"]))
            else:
                gone = rule.get("noncurrent")
                if gone and newer - 1 >= (gone[1] or 0):
                    yield due(0, midnight(it["ceased"] + gone[0] * DAY))
                for when, least, target in rule.get("noncurrent_moves", []):
                    if newer - 1 >= (least or 0) and moves(target):
                        yield due(1, midnight(it["ceased"] + when * DAY), target)

    def choice(self, now):
        found = []
        for place, rule in enumerate(self.rules or [], 1):
            if not rule["enabled"]:
                continue
            for key, stack in self.stacks.items():
                floor = max(stack["changed"], self.rules_since)
                found += [(max(it[0], floor), *it[1:]) for it in self.asked(rule, place, key, stack) if it[0] < END]
            for number, upload in self.uploads.items():
                when = midnight(upload["started"] + rule.get("abort", 0) * DAY)
                if rule.get("abort") and upload["key"].startswith(rule["prefix"]) and when < END:
                    since = max(when, upload["changed"], self.rules_since)
                    found.append((since, 3, upload["key"].encode(), number, 0, place, ("upload", number, None)))
        return min((it for it in found if it[0] <= now), key=lambda it: it[:6], default=None)

    def shown(self, chosen):
        if chosen is None:
            return {"action": "none"}
        since, kind, key, _, _, place, (what, name, target) = chosen
        about = {"action": KINDS[kind], "key": key.decode(), "moment": text_of(since), "rule": self.rules[place - 1]["id"], what: name}
        return {**about, "class": target} if target else about

    def act(self, now):
        chosen = self.choice(now)
        reply = self.shown(chosen)
        if chosen is None:
            return reply
        since, kind, key, _, _, _, (_, name, target) = chosen
        key = key.decode()
        if kind == 0:
            self.remove(key, name, since)
        elif kind == 1:
            version = self.version(key, name)
            self.end(key, version, since)
            version["class"], version["entered"] = target, since
            self.stacks[key]["changed"] = since
            self.begin(key, version, since)
            self.moves.append((target, since))
        elif kind == 2:
            reply["marker"] = self.add(key, {"kind": "marker"}, since)
        else:
            self.drop_upload(name, since)
        return reply

    # ---- meters

    def meters(self, month, now):
        start, end = window(month)
        found = []
        for it in CLASSES:
            used = sum(size * max(0, min(now if to is None else to, end) - max(begun, start))
                       for _, lines, begun, to in self.stays for line, size in lines if line == it)
            early = sum(amount for owner, amount, at in self.early if owner == it and start <= at < end)
            moved = sum(1 for target, at in self.moves if target == it and start <= at < end)
            found.append({"class": it, "byte_ms": str(used), "early_byte_ms": str(early), "moves": moved})
        return found
