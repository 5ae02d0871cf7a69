"""The definitions of specs/, and which of them the clauses of a function lead to."""
import collections
import pathlib
import re
import typing

BEGINS = re.compile(r"^[ ]*(?:(?:abbrev|unfoldable|record|data) (?:pub )?|pub (?:record|data|abbrev) )(?!pub\b)(\w+)", re.MULTILINE)
IMPORT = re.compile(r"^[ ]*(?:ghost )?use Rattle\.(\w+)\.specs\.([\w.]+?)(?:\.\{([^}]*)\}| as (\w+));?$", re.MULTILINE)

Place = tuple[str, str]  # a crate, and a module of its specs/ with dots


class File(typing.NamedTuple):
    """What a file defines, which names it takes from which places, and its other names for modules."""
    own: dict[str, str]
    taken: dict[str, tuple[Place, str]]
    modules: dict[str, Place]


Definition = tuple[Place, str]


class Definitions(typing.NamedTuple):
    """All definitions by their places, and of those that were asked for what each names."""
    files: dict[Place, File]
    links: dict[Definition, list[Definition]]

    def text(self, it: Definition) -> str:
        """The text of a definition; nothing if there is none."""
        place, name = it
        return self.files[place].own.get(name, "") if place in self.files else ""

    def named_in(self, text: str, file: File, place: typing.Optional[Place] = None) -> list[Definition]:
        """The definitions that a text of this file names, each once; those of the file itself too, if its place is given."""
        found = {}
        for module, name in re.findall(r"(?:\b(\w+)\.)?\b(\w+)\b", text):
            if module in file.modules:
                found[file.modules[module], name] = None
                continue
            for word in filter(None, (module, name)):
                if word in file.own and place:
                    found[place, word] = None
                elif word in file.taken:
                    found[file.taken[word]] = None
        return [it for it in found if self.text(it)]

    def led_to(self, it: Definition) -> list[Definition]:
        if it not in self.links:
            place, _ = it
            self.links[it] = self.named_in(self.text(it), self.files[place], place)
        return self.links[it]

    def reached(self, text: str, file: File) -> dict[str, list[str]]:
        """The definitions that a text leads to, by their names, with their texts, the nearest first."""
        seen = dict.fromkeys(self.named_in(text, file))
        left = collections.deque(seen)
        while left:
            for it in self.led_to(left.popleft()):
                if it not in seen:
                    seen[it] = None
                    left.append(it)
        found = {}
        for it in seen:
            found.setdefault(it[1], []).append(self.text(it))
        return found


def imports(text: str) -> File:
    """What the `use` lines of a file take."""
    file = File({}, {}, {})
    for crate, module, names, alias in IMPORT.findall(text):
        if alias:
            file.modules[alias] = (crate, module)
        for name in filter(None, map(str.strip, names.split(","))):
            first, _, last = name.partition(" as ")
            file.taken[last or first] = ((crate, module), first)
    return file


def read_definitions(root: pathlib.Path) -> Definitions:
    files = {}
    for path in sorted(root.glob("crates/*/specs/**/*.antt")):
        crate = path.relative_to(root / "crates").parts[0]
        module = ".".join(path.relative_to(root / "crates" / crate / "specs").with_suffix("").parts)
        text = re.sub(r"--[^\n]*", "", path.read_text("utf-8"))
        file, heads = imports(text), list(BEGINS.finditer(text))
        for head, after in zip(heads, [*heads[1:], None]):
            file.own[head.group(1)] = text[head.start():after.start() if after else len(text)]
        files[crate, module] = file
    return Definitions(files, {})


def field_of(text: str, field: str) -> str:
    """The part of a record's definition that is about one of its fields; nothing if it has none of that name."""
    found = re.search(rf"^\s*pub {field} :.*?(?=^\s*pub \w+ :|\Z)", text, re.MULTILINE | re.DOTALL)
    return found.group() if found else ""
