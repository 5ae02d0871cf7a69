"""What the program refuses of a lifecycle configuration, in words, for lifecycle."""
import typing

from office_tools.asking import reason

CONDITIONS = {
    20: "there are more than 1,000 rules",
    21: "its id has more than 255 characters",
    22: "an earlier rule has the same id",
    23: "it has no action",
    24: "its prefix has more than 1,024 bytes, or its tags are no tags of an object",
    25: "a bound on sizes is above 5 TiB, or the lower one is not below the upper",
    26: "a number of days is above 2,147,483,647, or 0 where something is removed",
    27: "a number of newer noncurrent versions is not 1 to 100",
    28: "a transition to STANDARD_IA or ONEZONE_IA has fewer than 30 days",
    29: "what expires does so no later than a transition of the same rule",
    30: "its transitions have both days and dates",
    31: "its transitions do not come in the order of the classes, or one goes to STANDARD",
    32: "the removal of lone delete markers stands with days, a date, a tag or a bound on sizes",
    33: "the abort of uploads stands with a tag or a bound on sizes",
    34: "its expiration has both days and a date, or nothing",
}


def words_of(found):
    """A refusal that names no rule."""
    number, name, field = found.get("number"), found.get("name"), found.get("field")
    return {
        2: "a date is none; dates are midnights in UTC from 1970-01-01 to 2099-12-31",
        3: "a date has a time that is not midnight in UTC",
        40: "it is not JSON text",
        41: f"there is no field {name!r}",
        42: f"the field {field!r} is missing, or of another kind or range" if field else "it is not an object",
        43: f"there is no class {name!r}",
        81: "there is no bucket of this name", 82: "the bucket has no configuration",
        90: f"the limit {found.get('what')} ({found.get('limit')}) is reached",
        91: "the clock is at its end", 113: "the journal is full", 114: "the disk failed; the configuration may be set or not",
    }.get(number)


def refused(number: int) -> str:
    """A refusal of which only the number is known, in words."""
    why = {41: "there is a field that the program does not have", 42: "a field is missing, or of another kind or range",
           43: "there is a class that the program does not have", 90: "a limit is reached", 124: "the configuration has more than 1,048,576 bytes",
           140: "the day is past"}.get(number) or CONDITIONS.get(number) or words_of({"number": number})
    return f"{f'a rule: {why}' if number in CONDITIONS and number != 20 else why or 'for another reason'} (number {number})"


def has(found, name, is_field):
    """Whether a rule has a field of this name, or else this text as a value."""
    if isinstance(found, list):
        return any(has(it, name, is_field) for it in found)
    return isinstance(found, dict) and any((field if is_field else it) == name or has(it, name, is_field)
                                           for field, it in found.items())


def whose(found, rules):
    """The ids of the rules that a refusal is about, as far as its name says."""
    name = found.get("name")
    if found.get("number") not in (41, 43) or not name:
        return []
    return [rule.get("ID") or f"rule-{place}" for place, rule in enumerate(rules, 1) if has(rule, name, found["number"] == 41)]


def in_words(status: int, found: dict, document: typing.Optional[dict]) -> str:
    """A refusal, with the id of the rule that it is about."""
    if not isinstance(found.get("number"), int):
        return f"refused: {reason(status, found)}"
    code = f"({reason(status, found)}, number {found['number']})"
    rules, place = (document or {}).get("Rules", []), found.get("rule")
    if found["number"] in CONDITIONS:
        why = CONDITIONS[found["number"]]
        if isinstance(place, int) and 0 < place <= len(rules):
            return f"refused: rule {rules[place - 1].get('ID') or f'rule-{place}'!r}, the {place}. of {len(rules)}: {why} {code}"
        return f"refused: {why} {code}"
    ids = ", ".join(map(repr, whose(found, rules)))
    why = words_of(found)
    return f"refused: {f'in rule {ids}: ' if ids else ''}{why + ' ' if why else ''}{code}"
