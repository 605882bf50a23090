"""Books side by side. Values are worked by `apart`, or over all outcomes, without the client."""

import contextlib
import io
import pathlib
import tempfile
import unittest
from fractions import Fraction

from apart import Year
from support import Case, decl, main

try:
    import openpyxl
except ImportError:
    openpyxl = None
try:
    import pandas
except ImportError:
    pandas = None

CLAIM = {10: 50, 20: 25, 50: 15, 100: 8, 300: 2}
START, END = "agg Fire 3 claims dsev [10 20 50 100 300] [0.5 0.25 0.15 0.08 0.02]", "poisson"
NETS = {"gross": "", "80 xs 20": "occurrence net of 80 xs 20", "quota": "occurrence net of 0.4 so inf xs 0"}
KEPT = {"gross": lambda x: x, "80 xs 20": lambda x: x - min(max(x - 20, 0), 80), "quota": lambda x: 6 * x // 10}
TEXTS = {name: f"{START} {clause} {END}" for name, clause in NETS.items()}


def year(name):
    """A year that is left, in twos."""
    severity = {}
    for amount, weight in CLAIM.items():
        severity[KEPT[name](amount) // 2] = severity.get(KEPT[name](amount) // 2, 0) + weight
    return Year.poisson(3, severity, 1024)


class Compared(Case):
    @classmethod
    def setUpClass(cls):
        cls.years = {name: year(name) for name in NETS}
        cls.asks = {"mean": "mean", "VaR 99": "q:0.99", "TVaR 99": "tail:0.99"}
        cls.table = decl.compare({**TEXTS, "80 xs 20": decl.Book(TEXTS["80 xs 20"])}, cls.asks)

    def values(self, name):
        found, p = self.years[name], Fraction(99, 100)
        return [2 * found.mean, 2 * found.q(p), 2 * found.tail(p)]

    def test_answers_and_differences(self):
        self.assertEqual(self.table.columns, ("book", *self.asks, *(f"{name} less gross" for name in self.asks)))
        gross = self.values("gross")
        for line in self.table:
            values = self.values(line[0])
            self.assertTrue(all(row.holds(value) for row, value in zip(line[1:4], values)), line)
            if line[0] == "gross":
                self.assertEqual(line[4:], ("", "", ""))
            else:
                self.assertTrue(all(row.holds(value - first) for row, value, first in zip(line[4:], values, gross)), line)
        self.assertEqual((int(self.table[1][5]), self.table[1][5].ask), (290 - 440, "q:0.99 less gross"))

    def test_one_ask_and_one_book(self):
        table = decl.compare({"gross": TEXTS["gross"]}, "mean")
        self.assertEqual((table.columns, len(table)), (("book", "mean"), 1))
        self.assertRaises(ValueError, decl.compare, {}, "mean")

    def test_ends_that_are_not_there(self):
        """Two losses of 1 or 80,000, on the largest grid: a quantile beyond it."""
        with self.assertWarns(decl.DeclWarning):
            table = decl.compare({"wide": "agg W dfreq [2] dsev [1 80000]", "one": "agg W dfreq [2] dsev [1]"}, ["q:0.9"])
        self.assertEqual((table[1][2].state, table[1][2].low, table[1][1].low), ("beyond", None, 2))

    def test_a_book_between_two_programs(self):
        table = decl.compare({"exact": TEXTS["gross"], "held": decl.coarser(TEXTS["gross"], 30)}, ["mean", "q:0.99"])
        self.assertTrue(table[1][1].low <= Fraction(189, 2) <= table[1][1].high)
        self.assertTrue(table[1][4].holds(0))

    def test_a_book_that_is_refused(self):
        fault = self.raises(decl.SyntaxFault, decl.compare, {"good": TEXTS["gross"], "bad": "agg"}, "mean")
        self.assertTrue(str(fault).startswith("book bad: decl: 1:4: syntax"))

    def test_few_calls(self):
        with tempfile.TemporaryDirectory() as folder:
            log = pathlib.Path(folder) / "log"
            self.instead(f'echo "$1" >> {log}; exec "$BUILT" "$@"')
            decl.compare({"held": decl.Book(TEXTS["gross"], bs=10, log2=7)}, ["mean", "q:0.99", "tail:0.99", "sf:100", "layer:80xs20"])
            self.assertLessEqual(log.read_text().split().count("run"), 3)

    def test_html(self):
        self.assertIn("<td>80 xs 20</td>", self.table.to_html())
        self.assertEqual(self.table.to_html(), self.table._repr_html_())

    @unittest.skipUnless(pandas, "pandas is not installed")
    def test_a_frame(self):
        frame = self.table.to_frame(floats=True)
        self.assertEqual(frame["VaR 99 low"].tolist(), [440.0, 290.0, 264.0])

    @unittest.skipUnless(openpyxl, "openpyxl is not installed")
    def test_a_file_of_excel(self):
        with tempfile.TemporaryDirectory() as folder:
            path = pathlib.Path(folder) / "table.xlsx"
            self.table.to_excel(path, "Nets")
            page = openpyxl.load_workbook(path)["Nets"]
            rows = [[cell.value for cell in row] for row in page.iter_rows()]
            self.assertEqual(rows[0][:5], ["book", "mean low", "mean high", "VaR 99 low", "VaR 99 high"])
            self.assertEqual([row[3] for row in rows[1:]], [440, 290, 264])
            low, high = (Fraction(rows[2][at]) for at in (5, 6))
            self.assertTrue(low <= self.values("80 xs 20")[2] <= high)


class Many(Case):
    def test_many_books(self):
        texts = {f"{at}": f"agg A dfreq [{at}] dsev [10]" for at in range(1, 40)}
        with contextlib.redirect_stderr(io.StringIO()) as bar:
            table = decl.run_many(texts, ["mean", "q:0.5"], progress=True, processes=3)
        self.assertEqual([int(line[1]) for line in table], [10 * at for at in range(1, 40)])
        self.assertEqual([int(line[2]) for line in table], [10 * at for at in range(1, 40)])
        self.assertIn("] 39 of 39, ", bar.getvalue())
        with contextlib.redirect_stderr(io.StringIO()) as bar:
            table = decl.run_many(list(texts.values()), "mean")
        self.assertEqual(([line[0] for line in table], bar.getvalue()), ([str(at) for at in range(39)], ""))
        self.assertEqual(len(decl.run_many([], "mean")), 0)

    def test_faults(self):
        texts = {"good": "agg A dfreq [1] dsev [10]", "bad": "agg A dfreq [1] dsev [1 2] [1]"}
        fault = self.raises(decl.RuleFault, decl.run_many, texts, "mean")
        self.assertTrue(str(fault).startswith("book bad: "))
        table = decl.run_many(texts, "mean", keep_faults=True)
        self.assertTrue(table[0][1].holds(10))
        self.assertEqual(table[1][1], "decl: 1:28: unit 0: rule 5 LengthsDiffer")


if __name__ == "__main__":
    main()
