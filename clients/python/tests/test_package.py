"""What the package says of itself: hints, a version, and options by name."""

import contextlib
import inspect
import io
import pathlib
import re
import typing
import unittest

from support import ROOT, Case, decl, main

OPTIONS = {"bs", "log2", "digits", "width", "mwidth", "make", "rules"}
FOLDER = pathlib.Path(decl.__file__).parent
PYTHON = ROOT / "clients" / "python"


def public():
    """Each public function, and each public method of a class, with its name."""
    for name in sorted(set(decl.__all__) - {"__version__"}):
        it = getattr(decl, name)
        if inspect.isfunction(it):
            yield name, it
        for part, method in vars(it).items() if inspect.isclass(it) else ():
            method = method.fget if isinstance(method, property) else method
            if inspect.isfunction(method) and not part.startswith("_"):
                yield f"{name}.{part}", method


class Package(Case):
    def test_every_public_function_has_hints(self):
        self.assertGreater(len(list(public())), 12)
        for name, function in public():
            signature = inspect.signature(function)
            parts = [part for part in signature.parameters.values() if part.name != "self"]
            for part in parts:
                self.assertIsNot(part.annotation, part.empty, f"{name}: {part.name}")
            self.assertIsNot(signature.return_annotation, signature.empty, name)

    def test_hints_name_types(self):
        for name, function in public():
            if name not in ("Report.to_frame", "Table.to_frame", "Book.plot", "Between.plot", "Tower.net"):  # named where hints are checked
                typing.get_type_hints(function)

    def test_options_are_named(self):
        for name, function in public():
            kinds = {part.kind for part in inspect.signature(function).parameters.values()}
            self.assertNotIn(inspect.Parameter.VAR_KEYWORD, kinds, name)
        for name in ("run", "report"):
            self.assertLessEqual(OPTIONS, set(inspect.signature(getattr(decl, name)).parameters), name)

    def test_options_are_those_of_the_program(self):
        page = (ROOT / "docs" / "USAGE.md").read_text(encoding="utf-8")
        self.assertEqual({name for name in re.findall(r"(?m)^\| `--(\w+) ", page)}, OPTIONS | {"format"})

    def test_the_package_is_typed(self):
        self.assertTrue((FOLDER / "py.typed").exists())

    def test_the_page_in_money(self):
        """The block of the page under "In money" prints what stands behind its `#`."""
        self.prints_what_stands("In money")

    def test_the_page_on_books(self):
        """So does the block under "Books in money"."""
        self.prints_what_stands("Books in money")

    def test_the_page_on_translations(self):
        """So does the block under "Programs of `aggregate`"."""
        self.prints_what_stands("Programs of `aggregate`")

    def test_the_page_on_rows_tables_and_towers(self):
        """So do the blocks under these headings."""
        for heading in ("Rows as numbers", "Books from tables", "Towers"):
            self.prints_what_stands(heading)

    def prints_what_stands(self, heading):
        page = (PYTHON / "README.md").read_text(encoding="utf-8")
        block = page.split(f"## {heading}\n")[1].split("\n## ")[0]
        lines = [line[4:].partition("# ") for line in block.splitlines() if line.startswith("    ")]
        written = io.StringIO()
        with contextlib.redirect_stdout(written):
            exec("\n".join(code.strip() for code, _, _ in lines), {"decl": decl})
        self.assertEqual(written.getvalue().split(), " ".join(told for _, _, told in lines).split())

    def test_one_version(self):
        written = (PYTHON / "pyproject.toml").read_text(encoding="utf-8")
        self.assertEqual(re.search(r'(?m)^version = "(.*)"$', written)[1], decl.__version__)


if __name__ == "__main__":
    main()
