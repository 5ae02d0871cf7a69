"""What the sources of Rattle say: the public calls of a crate with their clauses, its enums, and its definitions."""
import pathlib
import re
import typing

ROOT = pathlib.Path(__file__).resolve().parent.parent
ENDS = {"{": "}", "(": ")", "[": "]"}
CLAUSE = re.compile(r"\s*(requires|ensures)\*?\s+(?:(\w+)\s*)?\{")
WHERE = re.compile(r"\s*where\b[^{;]*?(?=\b(?:requires|ensures)\b|\{|;)")
HEADER_END = re.compile(r"\s*(?:\{|;|\b(?:where|requires|ensures)\b)")
BLOCK = re.compile(r"^impl\b([^{;]*)\{|^pub trait (\w+)[^{;]*\{", re.MULTILINE)
TYPE = re.compile(r"^pub type (\w+)[^=;]*= (\w+)", re.MULTILINE)
BLANKED = re.compile(r"""//[^\n]*|"(?:[^"\\]|\\.)*"|'(?:[^'\\\n]|\\.)'""", re.DOTALL)


class Call(typing.NamedTuple):
    """A public call: its type or trait if it has one, its result as it is written, its `ensures` clauses by name, and whether it may
    wait."""
    crate: str
    owner: str
    name: str
    result: str
    clauses: dict[str, str]
    waits: bool
    path: pathlib.Path
    line: int

    @property
    def label(self) -> str:
        return f"{self.owner}::{self.name}" if self.owner else self.name


class Source(typing.NamedTuple):
    """A file of Rattle, as it is and without comments and the contents of strings; places are the same in both."""
    path: pathlib.Path
    text: str
    bare: str


def read_source(path: pathlib.Path) -> Source:
    text = path.read_text("utf-8")
    return Source(path, text, BLANKED.sub(lambda it: "".join(c if c == "\n" else " " for c in it.group()), text))


def closing(text: str, at: int) -> int:
    """The place of the bracket that closes the one at this place."""
    opened, close, depth = text[at], ENDS[text[at]], 0
    for place in range(at, len(text)):
        depth += (text[place] == opened) - (text[place] == close)
        if depth == 0:
            return place
    raise ValueError(f"nothing closes the bracket at {at}")


def behind_generics(text: str, at: int) -> int:
    """The place behind the generic parameters, if some begin at this place."""
    depth = 0
    for place in range(at, len(text)):
        depth += (text[place] == "<") - (text[place] == ">" and text[place - 1] != "-")
        if depth == 0:
            return place + (place > at)
    raise ValueError(f"nothing closes the generic parameters at {at}")


def result_of(text: str, at: int) -> tuple[str, int]:
    """The result of the function whose name ends at this place, and the place at which its header goes on."""
    place = closing(text, text.index("(", behind_generics(text, at))) + 1
    arrow = re.compile(r"\s*->\s*").match(text, place)
    if not arrow:
        return "", place
    end = arrow.end()
    while not HEADER_END.match(text, end):
        end = closing(text, end) + 1 if text[end] in "[(" else end + 1
    return " ".join(text[arrow.end():end].split()), end


def clauses_of(text: str, at: int) -> dict[str, str]:
    """The `ensures` clauses of a header that goes on at this place; one without a name is called `ensures`."""
    found = {}
    while True:
        where = WHERE.match(text, at)
        clause = CLAUSE.match(text, where.end() if where else at)
        if not clause:
            return found
        end = closing(text, clause.end() - 1)
        if clause.group(1) == "ensures":
            found[clause.group(2) or "ensures"] = " ".join(text[clause.end():end].split())
        at = end + 1


def calls_in(crate: str, source: Source, owner: str, words: str, span: tuple[int, int]) -> typing.Iterator[Call]:
    """The functions that begin with these words in this range of a source."""
    for found in re.compile(rf"^[ ]*{words}fn (\w+)", re.MULTILINE).finditer(source.bare, *span):
        result, at = result_of(source.bare, found.end())
        where = WHERE.match(source.bare, at)
        waits = "Wait" in re.findall(r"\w+", source.bare[found.end():where.end() if where else at])
        line = source.bare.count("\n", 0, found.end()) + 1
        yield Call(crate, owner, found.group(1), result, clauses_of(source.bare, at), waits, source.path, line)


def exported(crate: pathlib.Path) -> set[str]:
    """The names that a crate gives out of its own modules."""
    text = read_source(crate / "src/lib.rt").bare
    modules = set(re.findall(r"^mod (\w+);", text, re.MULTILINE))
    found = set(re.findall(r"^pub fn (\w+)", text, re.MULTILINE))
    for module, names in re.findall(r"^pub use (\w+)::(\{[^}]*\}|\w+);", text, re.MULTILINE):
        if module in modules:
            found |= set(re.findall(r"\w+", names))
    return found


def sources_of(crate: pathlib.Path) -> list[Source]:
    return [read_source(path) for path in sorted((crate / "src").rglob("*.rt"))]


def public_calls(crate: pathlib.Path) -> typing.Iterator[Call]:
    """The calls of the names that a crate gives out: functions, calls of types, and calls of traits."""
    names, all_sources = exported(crate), sources_of(crate)
    shorter = {long: short for it in all_sources for short, long in TYPE.findall(it.bare) if short in names}
    for source in all_sources:
        whole = (0, len(source.bare))
        yield from (it for it in calls_in(crate.name, source, "", "pub ", whole) if is_outside(source, it) and it.name in names)
        for head in BLOCK.finditer(source.bare):
            owner = head.group(2) or type_of(head.group(1))
            if owner in names:
                span = (head.end(), closing(source.bare, head.end() - 1))
                yield from calls_in(crate.name, source, shorter.get(owner, owner), "" if head.group(2) else "pub ", span)


def is_outside(source: Source, call: Call) -> bool:
    """Whether a function begins a line, so that it belongs to no type."""
    return source.bare.split("\n")[call.line - 1].startswith("pub fn")


def type_of(header: str) -> str:
    """The type of a block of its own calls; nothing for a block that meets a trait."""
    rest = header[behind_generics(header, 0):]
    return "" if re.search(r"\bfor\b", rest) else re.match(r"\s*(\w+)", rest).group(1)


def enums_of(crate: pathlib.Path) -> dict[str, list[str]]:
    """The variants of each enum of a crate, in order, each with its fields as they are written."""
    found = {}
    for source in sources_of(crate):
        for head in re.compile(r"^pub enum (\w+)[^{;]*\{", re.MULTILINE).finditer(source.bare):
            body = source.bare[head.end():closing(source.bare, head.end() - 1)]
            found[head.group(1)] = [" ".join(it.split()) for it in parts(body) if it.strip()]
    return found


def parts(text: str) -> list[str]:
    """What commas part, outside brackets of every kind."""
    found, depth = [""], 0
    for c in text:
        depth += (c in "{([<") - (c in "})]>")
        if c == "," and depth == 0:
            found.append("")
        else:
            found[-1] += c
    return found
