"""The page of the table of public calls."""
import itertools
import textwrap
import typing

import answers
import kept
import sources
import table

PLACE = "docs/CALLS.md"
WIDTH = 150
CASE_WIDTH = 56  # so long is the name of a case in the page at most

INTRODUCTION = """\
# What each public call answers

For verification researchers who ask which answers a call has and what the contract says of each, and for contributors who add a call or an answer. You
need to know how to read a clause ([PROOFS](PROOFS.md)).

Each public function returns, for any bytes, numbers and faults; that is part of its proof. The tables have every answer of a public call other than
its good one: an error, `None`, the end of a session, an exit code of the program. Functions that only state a law have no other answer.

| Column | Meaning |
|---|---|
| Call | a function, or a call of a type or a trait; implementations of a trait meet its clauses and are not listed |
| Answer | a variant of its error; `OUTER`: `INNER` if one enum is inside another |
| | "never": the type of its result has these answers, and the clause says that the call does not give them |
| | "then": what holds after any of these answers |
| Clause | the `ensures` clauses that say when the answer comes; in brackets the definitions of `specs/` by which they do |
| | `ensures` is a clause without a name |
| Shown by | a wrong body that the contract refuses (`CRATE/NAME.edit`, in its folder `must-fail`), a test (`FILE::NAME`), |
| | a case of office_cases or office_faults (in quotes), or a live test |

`NoMemory` may come wherever a call allocates. No clause says when, so its cells may be empty. `tests-live/refused_memory.sh` refuses each allocation
of the program in turn. "**no clause**" and "**no row**" are gaps: nothing says when the answer comes, or nothing shows it; the reason follows. A
clause about the contents of a disk, a source, a sink, a port or a keeper holds if the object reports them ([premises](PROOFS.md#premises)).

`checks/calls` writes this page from the sources and from `checks/calls.txt`, which has what no source says: what shows an answer, and by which
definition a clause names it. The gate compares it ([TESTING](TESTING.md#keep-the-page-of-public-calls-right)).
"""


def text(entries: list[table.Entry]) -> str:
    """The page."""
    by_crate = {crate: list(found) for crate, found in itertools.groupby(entries, lambda it: it.call.crate)}
    told = {crate: found for crate, found in by_crate.items() if any(map(has_rows, found))}
    lines = [INTRODUCTION, *paragraph(f"Counted: {summary(entries)}."),
             *paragraph(f"These calls may wait, and their clauses hold if they return: {labels(it.call for it in entries if it.call.waits)}. "
                        "So may `ask` and `answered` of a `Teller` that takes turns (`Seated`).")]
    for crate, found in told.items():
        lines += [f"## {crate}", "", "| Call | Answer | Clause | Shown by |", "|---|---|---|---|",
                  *(row for it in found if has_rows(it) for row in rows(it)), "", *paragraph(without_rows(found))]
    lines += ["## Crates without such answers", ""]
    for crate in sorted(by_crate.keys() - told.keys()):
        lines += paragraph(f"**{crate}.** {without_rows(by_crate[crate])}")
    return "\n".join(lines).rstrip("\n") + "\n"


def paragraph(words: str) -> list[str]:
    return [*textwrap.wrap(words, WIDTH, break_on_hyphens=False, break_long_words=False), ""] if words else []


def labels(calls: typing.Iterable[sources.Call]) -> str:
    return ", ".join(f"`{it.label}`" for it in calls)


def has_rows(entry: table.Entry) -> bool:
    return any(cell.answer != answers.MEMORY for cell in entry.cells)


def without_rows(entries: list[table.Entry]) -> str:
    """The calls that have no rows: those that can only run out of memory, and those without another answer."""
    memory = labels(it.call for it in entries if it.cells and not has_rows(it))
    silent = labels(it.call for it in entries if not it.cells)
    return " ".join(([f"Only `NoMemory`: {memory}."] if memory else []) + ([f"No other answer: {silent}."] if silent else []))


def rows(entry: table.Entry) -> typing.Iterator[str]:
    """The lines of a call. Answers of which the same is said share one."""
    name = f"`{entry.call.label}`"
    for same, cells in itertools.groupby(entry.cells, lambda it: it[1:]):
        kind, pattern, clauses, shown = same
        cells = list(cells)
        shower = ", ".join(map(showing, shown)) or ("the proof" if kind else "")
        yield f"| {name} | {before(entry, cells[0])}{named(cells, pattern)} | {', '.join(map(clause, clauses))} | {shower} |"
        name = ""


def before(entry: table.Entry, cell: table.Cell) -> str:
    """The words before the answers of a line."""
    word = {kept.AFTER: "then", kept.NEVER: "never"}.get(cell.kind)
    disk = table.disk_of(entry, cell)
    return (f"{word}, {disk}: " if disk else f"{word}: ") if word else ""


def named(cells: list[table.Cell], pattern: str) -> str:
    """The answers of a line. A pattern stands for many."""
    outer = {it.answer.partition("(")[0] for it in cells}
    if pattern == "*" and len(cells) > 3:
        return "any other answer of its type"
    if pattern.endswith("(*)"):
        return f"`{pattern.removesuffix('(*)')}`: all others" if len(cells) < 15 else f"`{pattern.removesuffix('(*)')}`: each"
    if len(outer) == 1 and all("(" in it.answer for it in cells):
        return f"`{outer.pop()}`: {', '.join(f'`{answers.inner(it.answer)}`' for it in cells)}"
    return ", ".join(map(answer, cells))


def answer(cell: table.Cell) -> str:
    if cell.answer.isdigit():
        return f"status {cell.answer}"
    return cell.answer.replace("_", " ") if "_" in cell.answer or " " in cell.answer else f"`{cell.answer}`"


def clause(it: tuple[str, tuple[str, ...]]) -> str:
    name, definitions = it
    if name == kept.NOTHING:
        return f"**no clause**: {' '.join(definitions)}"
    behind = ", ".join(f"`{one}`" for one in definitions if one != table.RESULT)
    return f"`{name}`" + (f" ({behind})" if behind else "")


def showing(it: tuple[str, str]) -> str:
    kind, name = it
    short = textwrap.shorten(name, CASE_WIDTH, placeholder=" ..")
    return {"test": f"`{name}`", "case": f"“{short}”", "edit": f"`{name}.edit`", "script": f"`{name}`"}.get(kind, f"**no row**: {name}")


def summary(entries: list[table.Entry]) -> str:
    """What the page counts."""
    cells = [cell for it in entries for cell in it.cells if cell.is_answer]
    return (f"{len(entries)} public calls with {len(cells)} answers other than the good one and `NoMemory`; "
            f"{sum(it.lacks_clause for it in cells)} of these have no clause, {sum(it.lacks_row for it in cells)} no row")
