"""The file that is kept by hand beside the sources: what shows each answer, and the clause if no name tells it.

The head of calls.txt says its form.
"""
import re
import typing

NOTHING = "-"
NEVER, AFTER = "never", "after"


class Showing(typing.NamedTuple):
    """What shows an answer: its kind, its name, and what it says in place of the answer's name."""
    kind: str
    name: str
    word: str


class Row(typing.NamedTuple):
    """A line of a call: answers, the clauses that tell where they come, each with the definitions that name them, and what shows
    them. Without clauses, those that name an answer are meant. Of a line `after`, `answers` are words."""
    kind: str
    answers: list[str]
    clauses: tuple[tuple[str, tuple[str, ...]], ...]
    shown: list[Showing]
    line: int


class Kept(typing.NamedTuple):
    left_out: set[str]
    good: dict[str, set[str]]
    expanded: set[str]
    rows: dict[tuple[str, str], list[Row]]


def read_kept(text: str) -> Kept:
    kept, rows = Kept(set(), {}, set(), {}), []
    for number, line in enumerate(text.splitlines(), 1):
        words = line.split()
        if not words or words[0].startswith("#"):
            continue
        if line.startswith(" "):
            rows.append(read_row(line, number))
        elif words[0] == "left-out":
            kept.left_out.update(words[1:])
        elif words[0] == "good":
            kept.good[words[1]] = set(words[2:])
        elif words[0] == "expand":
            kept.expanded.update(words[1:])
        else:
            rows = kept.rows.setdefault((words[0], words[1]), [])
    return kept


def read_row(line: str, number: int) -> Row:
    told, clauses, shown = [*(it.strip() for it in line.split("|")), "", ""][:3]
    words = told.split()
    kind = words.pop(0) if words[0] in (NEVER, AFTER) else ""
    named = re.findall(r"([\w-]+)(?: \(([^)]*)\))?(?:, |$)", clauses)
    return Row(kind, words, tuple((name, tuple(definitions.split())) for name, definitions in named),
               [read_showing(it.strip()) for it in shown.split(" & ") if it], number)


def read_showing(text: str) -> Showing:
    kind, name, word = re.fullmatch(r"(\S+)(?: (.*?))?(?: \[(.*)\])?", text).groups("")
    return Showing(kind, name, word)
