"""The cell magic, in a shell of IPython where it is installed, else in one that keeps what it is given."""

import contextlib
import html
import io
import os
import tempfile
import unittest
from decimal import Decimal
from fractions import Fraction

from support import BOOK, Case, decl, main


class Shell:
    """As much of a shell as the magic asks of it."""

    def __init__(self):
        self.user_ns = {}
        self.magics = {}

    def register_magic_function(self, function, kind, name):
        self.magics[kind, name] = function

    def push(self, names):
        self.user_ns.update(names)

    def run_cell_magic(self, name, line, cell):
        return self.magics["cell", name](line, cell)


class Magic(Case):
    def check_book(self, shell):
        asks = ["mean", "q:0.99", "tail:0.99", "joint:Motor:200", "kappa:Motor:200"]
        shown = shell.run_cell_magic("decl", "--log2 10 --digits 4 --into book " + " ".join(asks), BOOK)
        report = shell.user_ns["book"]
        self.assertEqual((report["mean"].low, report["mean"].high), (Decimal("214.7812"), Decimal("214.7813")))
        if hasattr(shown, "columns"):
            self.assertEqual(list(shown.columns), ["ask", "low", "high"])
            self.assertEqual(list(shown["ask"]), asks)
            self.assertEqual(list(shown["low"]), [row.low for row in report])
            self.assertEqual(list(shown["high"]), [row.high for row in report])
        else:
            self.assertIs(shown, report)

    def test_a_book_in_any_shell(self):
        shell = Shell()
        decl.load_ipython_extension(shell)
        self.check_book(shell)
        shell.run_cell_magic("decl", "--log2 10 --rules extended --into book cotail:Motor:.99999", BOOK)
        self.assertEqual((shell.user_ns["book"][0].state, shell.user_ns["book"][0].rules), ("closed", "extended"))

    def test_a_cell_of_a_notebook(self):
        try:
            from IPython.core.interactiveshell import InteractiveShell
            from traitlets.config import Config
        except ImportError:
            raise unittest.SkipTest("IPython is not installed") from None
        folder = tempfile.TemporaryDirectory()
        self.addCleanup(folder.cleanup)
        os.environ["IPYTHONDIR"] = folder.name
        config = Config()
        config.HistoryManager.enabled = False
        shell = InteractiveShell.instance(config=config)
        done = shell.run_cell("%load_ext decl")
        self.assertTrue(done.success)
        self.check_book(shell)
        with contextlib.redirect_stdout(io.StringIO()):
            done = shell.run_cell("%%decl --log2 10 --digits 4 mean\n" + BOOK)
        self.assertTrue(done.success)
        self.assertIsNotNone(done.result)
        written = io.StringIO()
        with contextlib.redirect_stdout(written):
            done = shell.run_cell("%%decl mean\nport P\nagg A 2 claims dsev [1;6] poisson")
        self.assertIsInstance(done.error_in_exec, decl.BadByte)
        lines = written.getvalue().splitlines()
        at = lines.index("  agg A 2 claims dsev [1;6] poisson")
        self.assertEqual(lines[at + 1].index("^"), lines[at].index(";"))

    def test_options_with_their_values_and_flags(self):
        shell = Shell()
        decl.load_ipython_extension(shell)
        shell.run_cell_magic("decl", "--log2=4 --into die mean", "agg D dfreq [1] dsev [1:6]")
        self.assertEqual(str(shell.user_ns["die"]["mean"].low), "3.500000")
        self.assertEqual(shell.user_ns["die"].cells, 16)
        shell.run_cell_magic("decl", "--fractions --into die mean", "agg D dfreq [1] dsev [1:6]")
        self.assertIsInstance(shell.user_ns["die"]["mean"].low, Fraction)

    def test_faults_come_through(self):
        shell = Shell()
        decl.load_ipython_extension(shell)
        fault = self.raises(decl.UsageFault, shell.run_cell_magic, "decl", "mean pmf", "agg D dfreq [1] dsev [1]")
        self.assertEqual(fault.ask, 1)
        self.assertEqual(fault._render_traceback_(), [f"UsageFault: {fault}"])

    def test_a_caret_stands_under_the_place(self):
        """In text, and in HTML, where signs of HTML are written out; the text has bytes of two to a sign before the place."""
        shell = Shell()
        decl.load_ipython_extension(shell)
        cell = "port P note{é}\nagg A 2 claims dsev [1:6] note{a < b, ö} poisson <"
        fault = self.raises(decl.BadByte, shell.run_cell_magic, "decl", "mean", cell)
        self.assertEqual((fault.line, fault.column), (2, 51))
        (shown,) = fault._render_traceback_()
        page = fault._repr_html_()
        self.assertRegex(page, r"(?s)\A<pre style=[^>]*>BadByte: [^<>]*</pre>\Z")
        for text in (shown, html.unescape(page)):
            lines = text.splitlines()
            at = lines.index("  " + cell.splitlines()[1])
            self.assertEqual(lines[at + 1].partition("^")[0], " " * lines[at].rindex("<"))


if __name__ == "__main__":
    main()
