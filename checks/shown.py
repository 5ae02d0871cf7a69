"""What shows an answer: a test, a case of office_cases or office_faults, a wrong body that a contract refuses, or a live test."""
import pathlib
import re
import typing

CASES = ("crates/office_cases/stdout", "crates/office_faults/stdout")
ITEM = re.compile(r"^[ ]*(?:pub |pub\(crate\) )?(?:fn|const|static) (\w+)", re.MULTILINE)
TEST = re.compile(r"#\[test\]\s*(?:#\[[^\n]*\]\s*)*fn (\w+)")


class Shown(typing.NamedTuple):
    """The text of each by which it shows what it shows: by `FILE::NAME`, by its name, by `CRATE/NAME`, by its file."""
    tests: dict[str, str]
    cases: dict[str, str]
    edits: dict[str, str]
    scripts: dict[str, str]

    def named(self, kind: str, name: str) -> typing.Optional[str]:
        """The whole name; one that ends with `..` is the beginning of just one."""
        known = {"test": self.tests, "case": self.cases, "edit": self.edits, "script": self.scripts}.get(kind, {})
        if not name.endswith(".."):
            return name if name in known else None
        found = [it for it in known if it.startswith(name.removesuffix("..").rstrip())]
        return found[0] if len(found) == 1 else None

    def text(self, kind: str, name: str) -> str:
        return {"test": self.tests, "case": self.cases, "edit": self.edits, "script": self.scripts}[kind][name]


def items_of(text: str) -> dict[str, str]:
    """The functions and constants of a file of tests, each with its text."""
    heads = list(ITEM.finditer(text))
    return {head.group(1): text[head.start():after.start() if after else len(text)] for head, after in zip(heads, [*heads[1:], None])}


def reached(items: dict[str, str], name: str) -> str:
    """The text of a function, and of all that it leads to."""
    seen, left = {}, [name]
    while left:
        here = left.pop()
        if here in items and here not in seen:
            seen[here] = items[here]
            left += re.findall(r"\b\w+\b", items[here])
    return "\n".join(seen.values())


def tests_of(crate: pathlib.Path) -> typing.Iterator[tuple[str, str]]:
    """The tests of a crate by `FILE::NAME`, each with what it leads to in its file and in those that the file takes items from."""
    texts = {path.stem: path.read_text("utf-8") for path in sorted((crate / "src").rglob("*.rt"))}
    for stem, text in texts.items():
        if "#[test]" in text:
            taken = [texts[it] for it in re.findall(r"^use crate::(\w+)::", text, re.MULTILINE) if it in texts]
            items = {name: it for one in [*taken, text] for name, it in items_of(one).items()}
            for name in TEST.findall(text):
                yield f"{crate.name if stem == 'tests' else stem}::{name}", reached(items, name)


def read_shown(root: pathlib.Path) -> Shown:
    texts = [path.read_text("utf-8") for path in map(root.joinpath, CASES) if path.exists()]
    cases = [it for text in texts for it in re.split(r"^case: ", text, flags=re.MULTILINE)[1:]]
    return Shown(
        {name: text for crate in sorted((root / "crates").iterdir()) for name, text in tests_of(crate)},
        {name: text for name, _, text in (it.partition("\n") for it in cases)},
        {f"{it.parts[-3]}/{it.stem}": it.read_text("utf-8") for it in root.glob("crates/*/must-fail/*.edit")},
        {f"{it.parts[-2]}/{it.name}": it.read_text("utf-8") for it in root.glob("tests-live/*") if it.is_file()},
    )
