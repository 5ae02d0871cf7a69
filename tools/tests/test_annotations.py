"""Each function that one module of the tools takes from another says what it takes and what it returns."""
import ast
import importlib
import inspect
import pathlib
import sys
import typing
import unittest

TOOLS = pathlib.Path(__file__).resolve().parent.parent
sys.path.insert(0, str(TOOLS))
FILES = sorted(it for it in (TOOLS / "office_tools").rglob("*.py") if it.name != "__init__.py")


def name_of(path):
    return ".".join(path.relative_to(TOOLS).with_suffix("").parts)


def taken():
    """The names that modules take from one another, by module."""
    for path in FILES:
        for node in ast.walk(ast.parse(path.read_text("utf-8"))):
            if isinstance(node, ast.ImportFrom) and (node.module or "").startswith("office_tools."):
                yield from ((node.module, it.name) for it in node.names)


def is_annotated(function):
    found = inspect.signature(function)
    return found.return_annotation is not found.empty and all(it.annotation is not it.empty for it in found.parameters.values())


class Annotations(unittest.TestCase):
    def test_functions_of_other_modules(self):
        functions = {(module, name): getattr(importlib.import_module(module), name) for module, name in taken()}
        functions = {it: function for it, function in functions.items() if inspect.isfunction(function)}
        self.assertGreater(len(functions), 80)
        self.assertEqual([], sorted(it for it, function in functions.items() if not is_annotated(function)))

    def test_commands(self):
        for path in (TOOLS / "office_tools" / "commands").glob("[a-z]*.py"):
            with self.subTest(path.stem):
                self.assertTrue(is_annotated(importlib.import_module(name_of(path)).command))
                self.assertIn(f"from {name_of(path)} import command", (TOOLS / path.stem.replace("_", "-")).read_text("utf-8"))

    def test_names_in_annotations(self):
        """Each annotation names types that are there."""
        for path in FILES:
            module = importlib.import_module(name_of(path))
            for it in [*vars(module).values(), *(method for kind in vars(module).values() if inspect.isclass(kind) for method in vars(kind).values())]:
                if inspect.isfunction(it) and it.__module__ == module.__name__:
                    typing.get_type_hints(it)


if __name__ == "__main__":
    unittest.main()
