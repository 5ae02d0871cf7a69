"""Which answers a call has beside the good one, by the type of its result."""
import re
import typing

import sources

MEMORY = "NoMemory"
# Types of errors with one answer, and the name that the table gives it.
SINGLE = {"NoMemory": MEMORY, "AllocError": MEMORY, "Failed": "Failed", "NoRoom": "NoRoom"}


class Types(typing.NamedTuple):
    """The enums of all crates by their names; of those that are also good answers, the variants that are; and those in whose place
    the table has each variant."""
    enums: dict[str, dict[str, list[str]]]
    good: dict[str, set[str]]
    expanded: set[str]

    def variants(self, name: str, crate: str) -> list[str]:
        """The variants of an enum: this crate's own, if several crates have one of that name."""
        owners = self.enums.get(name, {})
        return owners.get(crate) or next(iter(owners.values()), [])


def inner(answer: str) -> str:
    """The variant that an answer ends with: `BadHead` of `Framing(BadHead)`."""
    return answer.rstrip(")").rpartition("(")[2]


def is_named(answer: str, text: str) -> bool:
    """Whether a text speaks of an answer by its name, and not only of its absence. Definitions have the same names in small letters."""
    name = inner(answer)
    if name in ("Failed", "NoRoom"):
        return bool(re.search(r"\b(?:OnErr|IfErr|IsErr)\b", text)) or bool(re.search(rf"\b{name}\b", text))
    if name == "None":
        return bool(re.search(r"\b(?:None|IfNone)\b", text))
    if name.isdigit():
        return bool(re.search(rf"\b{name}\b", text))
    small = re.sub(r"(?<=[A-Za-z])(?=[A-Z])", "_", name).lower()
    names = f"{name}|{small}" if "_" in small else name
    return bool(re.search(rf"\b(?:{names})\b(?!\)? → ⊥)", text))


def arguments(text: str) -> list[str]:
    """The arguments of a generic type."""
    return [it.strip() for it in sources.parts(text[text.index("<") + 1:text.rindex(">")])]


def answers(result: str, crate: str, types: Types) -> list[str]:
    """The answers of a result beside the good one, each once."""
    if result.startswith("&"):
        return []
    if result.startswith("("):
        return once(it for part in sources.parts(result[1:-1]) for it in answers(part.strip(), crate, types))
    if result.startswith("Result<"):
        good, bad = [*arguments(result), "Error"][:2]
        return once([*answers(good, crate, types), *errors(bad, crate, types)])
    if result.startswith("Option<"):
        return once(["None", *answers(arguments(result)[0], crate, types)])
    good = types.good.get(result)
    return [it for it in expand(result, crate, types) if it not in good] if good else []


def errors(text: str, crate: str, types: Types) -> list[str]:
    """The answers of a type of errors. What comes back beside one counts for nothing; a value that comes back by itself does so for
    want of memory."""
    if text.startswith("("):
        text = sources.parts(text[1:-1])[0]
    if text in SINGLE or len(text) == 1:
        return [SINGLE.get(text, MEMORY)]
    return expand(text, crate, types) or [text]


def expand(name: str, crate: str, types: Types, outer: str = "") -> list[str]:
    """The variants of an enum; in place of one that holds an expanded enum that one's, each as `OUTER(INNER)`."""
    found = []
    for variant in types.variants(name, crate):
        own = re.match(r"\w+", variant).group()
        held = [it for it in re.findall(r"\w+", variant[len(own):]) if it in types.expanded]
        if held:
            found += expand(held[0], crate, types, own)
        else:
            found.append(MEMORY if own == MEMORY else f"{outer}({own})" if outer else own)
    return once(found)


def once(found: typing.Iterable[str]) -> list[str]:
    return list(dict.fromkeys(found))
