"""The table of public calls: what each answers beside the good answer, the clause that tells where, and what shows it."""
import fnmatch
import itertools
import pathlib
import re
import typing

import answers
import definitions
import kept
import shown
import sources

KEPT = "checks/calls.txt"
RESULT = "result"  # in place of a definition: the clause is about the whole result
# How tests spell answers that are no variants.
SPELLED = {"None": "None|is_none|is_some", "Failed": "Failed|Err|is_err", "NoRoom": "NoRoom|Err|is_err"}

# Where a contract lists the exit codes of a command, and how it says that one does not come.
LISTS, EXITS = ("statuses", "causes"), re.compile(r"(?:Exit|_exit|IsCaused)$")
CODE = re.compile(r"(?:\bstatus|\bresult(?:\.status)?) ≡ (\d+)|^\s*\w+_exit\b[^=\n]* = (\d+)", re.MULTILINE)
NO_CODE = re.compile(r"result(?:\.status)? ≡ (\d+) → ⊥")

Clauses = tuple[tuple[str, tuple[str, ...]], ...]


class Cell(typing.NamedTuple):
    """What the table says of one answer of a call: its line's kind and pattern, the clauses with the definitions that name it, and
    what shows it by kind and name."""
    answer: str
    kind: str
    pattern: str
    clauses: Clauses
    shown: tuple[tuple[str, str], ...]

    @property
    def is_answer(self) -> bool:
        return not self.kind and self.answer != answers.MEMORY

    @property
    def lacks_clause(self) -> bool:
        return [name for name, _ in self.clauses] == [kept.NOTHING]

    @property
    def lacks_row(self) -> bool:
        return [kind for kind, _ in self.shown] == [kept.NOTHING]


class Entry(typing.NamedTuple):
    call: sources.Call
    cells: list[Cell]


class Repository(typing.NamedTuple):
    """All that the table is made of."""
    root: pathlib.Path
    calls: list[sources.Call]
    types: answers.Types
    kept: kept.Kept
    definitions: definitions.Definitions
    shown: shown.Shown
    files: dict[pathlib.Path, definitions.File]


def read(root: pathlib.Path) -> Repository:
    by_hand = kept.read_kept((root / KEPT).read_text("utf-8"))
    crates = [it for it in sorted((root / "crates").iterdir()) if (it / "src/lib.rt").exists() and not it.name.endswith("_tests")]
    enums = {}
    for crate in crates:
        for name, variants in sources.enums_of(crate).items():
            enums.setdefault(name, {})[crate.name] = variants
    calls = [call for crate in crates if crate.name not in by_hand.left_out for call in sources.public_calls(crate)]
    files = {path: definitions.imports(path.read_text("utf-8")) for path in {it.path for it in calls}}
    return Repository(root, calls, answers.Types(enums, by_hand.good, by_hand.expanded), by_hand,
                      definitions.read_definitions(root), shown.read_shown(root), files)


def entries(of: Repository) -> tuple[list[Entry], list[str]]:
    """The table, and what is wrong with it."""
    found, wrong = [], []
    for call in of.calls:
        told = answers.answers(call.result, call.crate, of.types) + statuses(of, call)
        cells = [it for row in of.kept.rows.get((call.crate, call.label), []) for it in cells_of(of, call, told, row, wrong)]
        named = {it.answer for it in cells}
        wrong += [unlisted(of, call, it) for it in told if it not in named and it != answers.MEMORY]
        if answers.MEMORY in told and answers.MEMORY not in named:
            cells.insert(sum(it.kind == "" for it in cells), Cell(answers.MEMORY, "", "", by_name(call, answers.MEMORY), ()))
        found.append(Entry(call, cells))
    known = {(it.crate, it.label) for it in of.calls}
    wrong += [f"{KEPT}: there is no public call {' '.join(it)}" for it in of.kept.rows if it not in known]
    return found, wrong


def statuses(of: Repository, call: sources.Call) -> list[str]:
    """The exit codes other than 0 that the clauses of a command list, but for those that a clause excludes without a premise."""
    found, excluded = set(), {"0"}
    for name, text in call.clauses.items():
        if name in LISTS:
            reached = of.definitions.reached(text, of.files[call.path])
            texts = [text, *(one for it, all_of_name in reached.items() if EXITS.search(it) for one in all_of_name)]
            found |= {code for one in texts for pair in CODE.findall(one) for code in pair if code}
        if not re.search(r"\w", NO_CODE.sub("", text)):
            excluded |= set(NO_CODE.findall(text))
    return sorted(found - excluded, key=int)


def meant(row: kept.Row, rows: list[kept.Row], told: list[str]) -> typing.Iterator[tuple[str, str]]:
    """The answers of a row, each with the row's pattern: `*` is each that no other row names, `OUTER(*)` each of that kind."""
    if row.kind == kept.AFTER:
        yield " ".join(row.answers), ""
        return
    others = {it for other in rows if other is not row for it in other.answers}
    pattern = next((it for it in row.answers if "*" in it), "")
    for name in row.answers:
        named = [it for it in told if fnmatch.fnmatchcase(it, name) and it not in others and it != answers.MEMORY]
        yield from ((it, pattern) for it in (named if "*" in name else [name]))


def unlisted(of: Repository, call: sources.Call, answer: str) -> str:
    """That an answer has no line, with the clauses that name it or the nearest definitions that do."""
    perhaps = []
    for name, text in call.clauses.items():
        reached = of.definitions.reached(text, of.files[call.path])
        nearest = [it for it, texts in reached.items() if any(answers.is_named(answer, one) for one in texts)][:3]
        if answers.is_named(answer, text) or nearest:
            perhaps.append(name if answers.is_named(answer, text) else f"{name} ({' '.join(nearest)})")
    place = f"{call.path.relative_to(of.root)}:{call.line}"
    return f"{KEPT}: no line for {answer} of {call.crate} {call.label}, {place}; named by: {', '.join(perhaps) or 'no clause'}"


def by_name(call: sources.Call, answer: str) -> Clauses:
    """The clauses of a call that name an answer."""
    return tuple((name, ()) for name, text in call.clauses.items() if answers.is_named(answer, text))


def cells_of(of: Repository, call: sources.Call, told: list[str], row: kept.Row, wrong: list[str]) -> typing.Iterator[Cell]:
    """What a row says of its answers. Adds to what is wrong if a clause, a definition or what shows it does not speak of an answer."""
    for given, pattern in meant(row, of.kept.rows[call.crate, call.label], told):
        answer = given.removeprefix("+")
        place = f"{KEPT}:{row.line}: {call.crate} {call.label}, {answer}"
        if given == answer and answer not in told and row.kind != kept.AFTER:
            wrong.append(f"{place}: its result has no such answer")
        found = Cell(answer, row.kind, pattern, row.clauses or by_name(call, answer),
                     tuple((it.kind, of.shown.named(it.kind, it.name) or it.name) for it in row.shown))
        wrong += [f"{place}: {it}" for it in unsaid(of, call, found)]
        wrong += [f"{place}: {it}" for it in unshown(of, found, row.shown)]
        yield found


def disk_of(entry: Entry, cell: Cell) -> str:
    """Of which disk alone the clauses speak; empty if of any."""
    clauses = [entry.call.clauses.get(name, "") for name, _ in cell.clauses]
    if any("honest →" in it for it in clauses):
        return "on an honest disk"
    return "on a disk that tells" if any("tells →" in it for it in clauses) else ""


def unsaid(of: Repository, call: sources.Call, cell: Cell) -> typing.Iterator[str]:
    """Why the clauses do not speak of an answer, by themselves or by their definitions."""
    if not cell.clauses:
        yield "no clause names it; write the clause, or - (WHY) if there is none"
    if cell.lacks_clause and not cell.clauses[0][1]:
        yield "write why no clause names it, as - (WHY)"
    for name, named in () if cell.lacks_clause else cell.clauses:
        if name not in call.clauses:
            yield f"there is no clause '{name}'"
            continue
        texts = {it: texts_of(of, call, name, it) for it in named} or {name: [call.clauses[name]]}
        yield from (f"clause '{name}' leads to no definition '{it}'" for it in texts if not texts[it])
        if not cell.kind and not any(is_told_by(cell.answer, it) for it in itertools.chain(*texts.values())):
            yield f"clause '{name}' does not name it; write the definition that does behind it, as CLAUSE (DEFINITION)"


def texts_of(of: Repository, call: sources.Call, clause: str, definition: str) -> list[str]:
    """The texts of a definition that a clause leads to, or of a field of it, RECORD.FIELD; of `result` that word, if the clause has it."""
    text, (whole, _, field) = call.clauses[clause], definition.partition(".")
    if definition == RESULT:
        return re.findall(r"\bresult\b", text)
    found = of.definitions.reached(text, of.files[call.path]).get(whole, [])
    return [it for it in (definitions.field_of(part, field) if field else part for part in found) if it]


def is_told_by(answer: str, text: str) -> bool:
    """Whether a text names an answer. Of None an equation is enough, and words of ours are looked for nowhere."""
    return text == RESULT or "_" in answer or answers.is_named(answer, text) or (answer == "None" and "≡" in text)


def unshown(of: Repository, cell: Cell, rows: list[kept.Showing]) -> typing.Iterator[str]:
    """Why what is named does not show an answer."""
    if not rows and cell.is_answer:
        yield "nothing is named that shows it; write it, or - WHY if there is nothing"
    if cell.lacks_row and not rows[0].name:
        yield "write why nothing shows it, as - WHY"
    word = answers.inner(cell.answer)
    for kind, given, said in rows:
        name = of.shown.named(kind, given)
        spelled = said or (f"status {word}" if word.isdigit() else SPELLED.get(word, word))
        looks = kind == "test" or kind == "case" and (said or word != "None") or kind == "script" and said
        if kind != kept.NOTHING and name is None:
            yield f"there is no {kind} '{given}'"
        elif looks and not re.search(rf"\b(?:{spelled})\b", of.shown.text(kind, name)):
            yield f"the {kind} '{name}' does not say '{spelled}'"
