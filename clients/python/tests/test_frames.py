"""Books from tables. Values are added up over all outcomes in exact fractions, or worked by `apart`, without the client."""

import csv
import itertools
import pathlib
import tempfile
import unittest
import warnings
from fractions import Fraction

from apart import ONE, Year
from support import Case, decl, main

try:
    import openpyxl
except ImportError:
    openpyxl = None
try:
    import pandas
except ImportError:
    pandas = None

ROWS = [
    {"name": "Fire", "claims": 2, "count": "fixed", "amounts": [100, 200], "weights": [0.25, 0.75], "remark": "old"},
    {"name": "Motor (UK)", "claims": 0.5, "count": "bernoulli", "amounts": "300 500", "weights": "0.5 0.5", "remark": None},
]
LINES = [
    {"name": "Fire", "claims": 3, "limit": 4, "attachment": 1},
    {"name": "Motor", "claims": 2, "limit": float("nan"), "attachment": None},
]
AMOUNTS = [
    {"name": "Fire", "amount": 1, "weight": 0.5},
    {"name": "Motor", "amount": 2, "weight": 1},
    {"name": "Fire", "amount": 3, "weight": 0.3},
    {"name": "Fire", "amount": 9, "weight": 0.2},
]


def outcomes():
    """The distribution of ROWS: two claims, and at most one."""
    found = {}
    fire, motor = {100: Fraction(1, 4), 200: Fraction(3, 4)}, {0: Fraction(1, 2), 300: Fraction(1, 4), 500: Fraction(1, 4)}
    for (a, p), (b, q), (c, r) in itertools.product(fire.items(), fire.items(), motor.items()):
        found[a + b + c] = found.get(a + b + c, 0) + p * q * r
    return found


def without_warnings(call, *words, **settings):
    """What the call returns, where it warns of nothing."""
    with warnings.catch_warnings():
        warnings.simplefilter("error")
        return call(*words, **settings)


class Read(Case):
    def is_the_book(self, book):
        """Whether the book is that of ROWS."""
        self.assertEqual((book.bs, book.units, book.lines), (100, ("Fire", "Motor-UK"), ("Fire", "Motor (UK)")))
        self.assertEqual((book.changed, book.pooled), (0, ()))
        for total, part in outcomes().items():
            self.assertTrue(book.pmf(total).holds(part), total)
        self.assertTrue(book.mean_of("Motor (UK)").holds(200))
        self.assertTrue(book.mean_of("Motor-UK").holds(200))
        self.assertEqual(decl.Book(book.text).q(0.9).low, book.q(0.9).low)

    def test_rows_of_dicts(self):
        with warnings.catch_warnings(record=True) as told:
            warnings.simplefilter("always")
            book = decl.from_frame(ROWS, name="My book")
        self.is_the_book(book)
        self.assertEqual((book.name, len(told)), ("My-book", 1))
        self.assertIs(told[0].category, decl.DeclWarning)
        self.assertIn("column `remark` is not read", str(told[0].message))
        self.assertEqual(told[0].filename, __file__)

    def test_a_file_of_csv(self):
        with tempfile.TemporaryDirectory() as folder:
            for sign, mark in ((",", ""), (";", "\ufeff")):
                path = pathlib.Path(folder) / "book.csv"
                with open(path, "w", newline="", encoding="utf-8") as file:
                    file.write(mark)
                    writer = csv.writer(file, delimiter=sign)
                    writer.writerow(["Name", "CLAIMS", "Count", "Amounts", "Weights"])
                    writer.writerow(["Fire", "2", "fixed", "[100, 200]", "25% 75%"])
                    writer.writerow([])
                    writer.writerow(["Motor (UK)", "5e-1", "bernoulli", "300 500", "1/2 0.50"])
                self.is_the_book(without_warnings(decl.from_frame, path))
                self.is_the_book(without_warnings(decl.from_frame, str(path)))
            path.write_text("name,claims,count,amounts\nFire,2,fixed,100 200\n\nMotor,1,fixd,300\n")
            fault = self.raises(decl.TableFault, decl.from_frame, path)
            self.assertEqual((fault.row, fault.column), (4, "count"))
            path.write_text("name,claims\nFire,2,3\n")
            self.assertEqual(self.raises(decl.TableFault, decl.from_frame, path).row, 2)
            path.write_text("\n")
            self.assertIn("is empty", str(self.raises(decl.TableFault, decl.from_frame, path)))
            path.write_text("name,claims\n")
            self.assertIn("no rows", str(self.raises(decl.TableFault, decl.from_frame, path)))

    @unittest.skipUnless(openpyxl, "openpyxl is not installed")
    def test_a_file_of_excel(self):
        with tempfile.TemporaryDirectory() as folder:
            path = pathlib.Path(folder) / "book.xlsx"
            book = openpyxl.Workbook()
            book.active.append(["Name", "Claims", "Count", "Severity"])
            book.active.append(["Fire", 2, "fixed", "A"])
            book.active.append(["Motor (UK)", 0.5, "bernoulli", "B"])
            page = book.create_sheet("Amounts")
            for row in (["severity", "amount", "weight"], ["A", 100, 0.25], ["A", 200, 0.75], ["B", 300, 0.5], ["B", 500, 0.5]):
                page.append(row)
            book.save(path)
            self.is_the_book(without_warnings(decl.from_frame, path, "Amounts"))
            page["B4"] = -1
            book.save(path)
            fault = self.raises(decl.TableFault, decl.from_frame, path, "Amounts")
            self.assertEqual((fault.row, fault.column), (4, "amount"))
            self.assertIn("there is Sheet, Amounts", str(self.raises(decl.TableFault, decl.from_frame, path, sheet="Other")))

    @unittest.skipUnless(pandas, "pandas is not installed")
    def test_a_frame(self):
        frame = pandas.DataFrame(ROWS)
        self.is_the_book(without_warnings(decl.from_frame, frame[[name for name in frame.columns if name != "remark"]]))
        lines, amounts = pandas.DataFrame(LINES), pandas.DataFrame(AMOUNTS)
        book = without_warnings(decl.from_frame, lines, amounts)
        self.assertTrue(book.mean().holds(2 * 2 + 3 * (Fraction(3, 5) * 2 + Fraction(2, 5) * 4)))
        frame = pandas.DataFrame({"name": ["A"], "claims": [pandas.NA], "amounts": [[1]]})
        self.assertIn("row 1, column `claims`: the cell is empty", str(self.raises(decl.TableFault, decl.from_frame, frame)))
        arrays = pandas.DataFrame({"name": ["A"], "claims": [3], "count": ["fixed"], "amounts": [pandas.Series([5, 7]).to_numpy()]})
        self.assertTrue(without_warnings(decl.from_frame, arrays).mean().holds(18))

    def test_severities_by_their_key(self):
        """Of fire only claims above 1 are counted: 3 less 1 with 3/5, and 4 with 2/5, unless they count from the ground up."""
        book = without_warnings(decl.from_frame, LINES, AMOUNTS)
        self.assertTrue(book.mean().holds(2 * 2 + 3 * (Fraction(3, 5) * 2 + Fraction(2, 5) * 4)))
        book = without_warnings(decl.from_frame, LINES, AMOUNTS, ground_up=True)
        self.assertTrue(book.mean().holds(2 * 2 + 3 * (Fraction(3, 10) * 2 + Fraction(1, 5) * 4)))

    def test_names_of_columns_that_are_given(self):
        rows = [{"Line of business": "A", "n": 2, "x": "5", "count": "fixed"}]
        names = {"name": "Line of business", "claims": "n", "amounts": "x"}
        self.assertTrue(without_warnings(decl.from_frame, rows, columns=names).mean().holds(10))
        fault = self.raises(decl.TableFault, decl.from_frame, rows, columns={**names, "count": "counts"})
        self.assertIn("column `counts`: it is missing; did you mean `count`?", str(fault))
        self.assertRaisesRegex(ValueError, "did you mean `claims`", decl.from_frame, rows, columns={"claim": "n"})

    def test_exposures_and_counts(self):
        """Each expected loss is 12: a claim costs 3 in the mean."""
        rows = [
            {"name": "A", "claims": 4, "count": "poisson", "parameter": None},
            {"name": "B", "loss": "12", "count": "Mixed_Gamma", "parameter": 0.5},
            {"name": "C", "premium": 20, "loss_ratio": "60%", "count": "binomial", "parameter": "1/2"},
            {"name": "D", "premium": 20, "loss_ratio": 0.6, "count": "geometric", "parameter": ""},
            {"name": "E", "claims": 4, "count": "mixed gamma 0.5"},
        ]
        book = without_warnings(decl.from_frame, [{**row, "amounts": [2, 4]} for row in rows])
        self.assertTrue(book.mean().holds(60))
        self.assertTrue(all(book.mean_of(row["name"]).holds(12) for row in rows))
        counts = {"A": 4, "B": 4 + 16 / 4, "C": 2, "D": 4 + 16, "E": 4 + 16 / 4}
        for name, variance in counts.items():
            self.assertEqual(book.moments(name).variance, 4 * 1 + variance * 9, name)

    def test_clauses_and_a_common_factor(self):
        rows = [{"name": "A", "claims": 2, "count": "fixed", "amounts": [50], "occurrence": "ceded to 20 xs 10", "aggregate": "aggregate net of 5 xs 0"}]
        self.assertTrue(without_warnings(decl.from_frame, rows).mean().holds(35))
        rows = [{"name": name, "claims": 2, "amounts": [1, 3]} for name in "AB"]
        book = without_warnings(decl.from_frame, rows, common=0.5)
        self.assertEqual(book.moments().variance, 2 * 2 * 5 + Fraction(1, 4) * 64)


class Weights(Case):
    def test_weights_that_do_not_add_up_to_1(self):
        """Three of 0.333333 become billionths: one more for the first."""
        rows = [{"name": "A", "claims": 1, "count": "fixed", "amounts": [1, 2, 4], "weights": [0.333333] * 3}]
        book = without_warnings(decl.from_frame, rows)
        self.assertEqual(book.changed, Fraction(334, 10**9))
        self.assertIn("[0.333333334 0.333333333 0.333333333]", book.text)
        self.assertIn("note{numbers of the table changed by at most 0.000000334", book.text)
        self.assertTrue(book.pmf(1).holds(Fraction(333333334, 10**9)))

    def test_floats_and_weights_that_are_kept(self):
        rows = [{"name": "A", "claims": 0.1 + 0.2, "amounts": [10.0, 20.0], "weights": [0.1 + 0.2, 0.7]}]
        book = without_warnings(decl.from_frame, rows)
        self.assertIn("agg A 0.3 claims dsev [10 20] [0.3 0.7] poisson", book.text)
        self.assertTrue(0 < book.changed < Fraction(1, 10**15))
        book = without_warnings(decl.from_frame, [{"name": "A", "claims": 1, "amounts": [1, 2], "weights": [Fraction(1, 3), "2/3"]}])
        self.assertEqual(book.changed, 0)
        self.assertIn("[1/3 2/3]", book.text)

    def test_weights_too_far_from_1(self):
        rows = [{"name": "A", "claims": 1, "amounts": [1, 2], "weights": [0.5, 0.4]}]
        fault = self.raises(decl.TableFault, decl.from_frame, rows)
        self.assertEqual((fault.row, fault.column), (1, "weights"))
        self.assertIn("add up to 0.9", str(fault))
        self.assertEqual(without_warnings(decl.from_frame, rows, tolerance=0.2).changed, Fraction(5, 9) - Fraction(1, 2) + Fraction(4, 9 * 10**9))

    def test_the_rules_take_no_finer_ones(self):
        """A Poisson unit of 1,234.5678 claims of which some are 0: millionths, since billionths are too fine."""
        rows = [{"name": "A", "claims": 1234.5678, "amounts": [0, 1], "weights": [0.123456789, 0.876543212]}]
        book = without_warnings(decl.from_frame, rows, digits=3)
        self.assertIn("[0.123457 0.876543]", book.text)
        self.assertTrue(book.mean().holds(Fraction("1234.5678") * Fraction("0.876543")))


class Names(Case):
    def test_names_are_units(self):
        names = ["Motor (UK)", "Motor-UK", "net", "1st layer", "Größe", "a b", "***", "poisson"]
        rows = [{"name": name, "claims": 1, "count": "fixed", "amounts": [at + 1]} for at, name in enumerate(names)]
        book = without_warnings(decl.from_frame, rows)
        self.assertEqual(book.units, ("Motor-UK-2", "Motor-UK", "net-2", "Unit-1st-layer", "Gr-e", "a-b", "Unit", "poisson-2"))
        self.assertEqual(book.lines, tuple(names))
        self.assertEqual([line[0] for line in book.by_unit(0.5)], [*names, "total"])
        for at, name in enumerate(names):
            self.assertTrue(book.mean_of(name).holds(at + 1), name)
        self.assertIn("did you mean `net`?", str(self.raises(KeyError, book.mean_of, "nett")))


class Refused(Case):
    def refused(self, row, column, told, rows, *words, **settings):
        fault = self.raises(decl.TableFault, decl.from_frame, rows, *words, **settings)
        self.assertEqual((fault.row, fault.column), (row, column), str(fault))
        self.assertIn(told, str(fault))

    def test_cells(self):
        good = {"name": "A", "claims": 2, "amounts": [1, 2], "weights": [0.5, 0.5], "count": "poisson", "limit": 5, "attachment": 0}
        bad = [
            ("claims", "", "the cell is empty"),
            ("claims", float("nan"), "the cell is empty"),
            ("claims", -1, "is below 0"),
            ("claims", "two", "`two` is no number"),
            ("claims", "1,000", "a number has no comma in it: `1000`"),
            ("claims", "1,5", "a decimal has a point: `1.5`"),
            ("claims", float("inf"), "is no number"),
            ("claims", True, "is no number"),
            ("name", " ", "the cell is empty"),
            ("amounts", "", "is empty"),
            ("amounts", [1, -2], "is below 0"),
            ("amounts", [1, None], "is no number"),
            ("amounts", "10,000 20,000", "is no number"),
            ("amounts", "10,000", "is no number"),
            ("amounts", "10,500", "and a list has blanks between its numbers"),
            ("weights", "0,5 0,5", "a decimal has a point: `0.5`"),
            ("weights", [0.5], "there are 2 amounts and 1 weights"),
            ("weights", None, "the cell is empty"),
            ("count", "poison", "did you mean `poisson`?"),
            ("count", "", "the cell is empty"),
            ("count", "negative binomial", "`mixed gamma`"),
            ("count", "binomial", "needs a parameter"),
            ("limit", None, "`inf` is no limit"),
            ("attachment", "", "write 0"),
            ("attachment", "x", "is no number"),
        ]
        for column, cell, told in bad:
            self.refused(2, column, told, [good, {**good, "name": "B", column: cell}])

    def test_what_the_rules_refuse(self):
        good = {"name": "A", "claims": 2, "amounts": [1, 2], "count": "poisson", "parameter": "", "occurrence": "", "limit": "", "attachment": ""}
        rows = [
            ({"count": "fixed", "claims": 2.5}, "claims", "has to be whole"),
            ({"count": "mixed gamma", "parameter": 0}, "count", "mixed gamma c needs"),
            ({"limit": "inf", "attachment": 5}, "limit", "No claim can exceed"),
            ({"occurrence": "net of 5 xs 0 and 5 xs 2"}, "occurrence", "overlap"),
            ({"occurrence": "net 5 xs 0"}, "occurrence", "is no clause"),
            ({"occurrence": "net of 5"}, "occurrence", "A program goes on here with"),
            ({"occurrence": "net of 1 xs 0 poisson agg B 1 claims dsev [1]"}, "occurrence", "is no clause"),
        ]
        for change, column, told in rows:
            self.refused(2, column, told, [good, {**good, "name": "B", **change}])
        rows = [good, {**good, "name": "B", "count": "mixed gamma", "parameter": 0.3}]
        self.refused(2, "count", "by the standard rules 1 / c^2 has to be whole", rows, rules="standard")
        rows = [{**good, "name": f"L{at}", "count": "poisson zt"} for at in range(17)]
        self.assertEqual(self.raises(decl.RuleFault, decl.from_frame, rows).rule, 30)

    def test_columns(self):
        self.refused(None, "name", "is missing", [{"nam": "A", "claims": 1, "amounts": [1]}])
        self.refused(None, "claims", "is missing", [{"name": "A", "claim": 1, "amounts": [1]}])
        self.refused(None, "loss_ratio", "is missing", [{"name": "A", "premium": 1, "amounts": [1]}])
        self.refused(None, "amounts", "is missing", [{"name": "A", "claims": 1}])
        self.refused(None, "severity", "is missing", LINES, [{"key": "Fire", "amount": 1}])
        self.refused(None, "amount", "is missing", LINES, [{"name": "Fire", "amt": 1}])
        self.refused(None, "Name", "two columns", [{"name": "A", "Name": "B", "claims": 1, "amounts": [1]}])

    def test_lines(self):
        row = {"name": "A", "claims": 1, "amounts": [1]}
        self.refused(3, "name", "`A` is the name of row 1, too", [row, {**row, "name": "B"}, row])
        self.refused(1, "name", "no severity `Fire`; did you mean `Fir`?", LINES, [{"name": "Fir", "amount": 1}])
        self.refused(1, "claims", "claims and loss", [{**row, "loss": 5}])
        self.refused(None, None, "no rows", [])

    def test_what_is_not_meant(self):
        rows = [{"name": "A", "premium": 2, "loss_ratio": 65, "amounts": [1], "atachment": 5}]
        with warnings.catch_warnings(record=True) as told:
            warnings.simplefilter("always")
            decl.from_frame(rows, [{"name": "B", "amount": 1}])
        found = [str(each.message) for each in told]
        self.assertEqual(len(found), 3)
        self.assertIn("column `atachment` is not read; did you mean `attachment`?", found[0])
        self.assertIn("no line has the severity `B`", found[1])
        self.assertIn("row 1, column `loss_ratio`: the loss ratio is 6500%: is it `65%`?", found[2])


class Wider(Case):
    """Tables that the extended rules take, and the standard ones do not."""

    def test_forty_lines(self):
        rows = [{"name": f"L{at}", "claims": Fraction(1 + at, 8), "amounts": [1, 2], "count": "poisson"} for at in range(39)]
        rows.append({"name": "Whole", "claims": 2, "amounts": [3], "count": "fixed"})
        book = decl.from_frame(rows, log2=8)
        self.assertEqual((book.rules, len(book.units), book.pooled, book.changed), ("extended", 40, (), 0))
        year = Year.poisson(Fraction(sum(range(1, 40)), 8), {1: 1, 2: 1}, 256)
        self.assertTrue(book.mean().holds(year.mean + 6))
        self.assertEqual(int(book.q(0.9)), year.q(Fraction(9, 10)) + 6)
        row = book.share_of_tail("Whole", 0.9)
        self.assertTrue(row.holds(6))
        self.assertEqual((row.rules, book.kappa("L0", 150).rules, book.unit("L3").rules), ("extended",) * 3)
        self.assertEqual(book.ask("cotail:Whole:.123456789"), book.share_of_tail("Whole", "0.123456789"))

    def test_shapes_lists_and_factors(self):
        """By the standard rules where these take the table, else by the extended ones."""
        good = {"name": "A", "claims": 2, "amounts": [1, 2]}
        for rules, change, settings in (
            ("standard", {}, {}),
            ("standard", {}, {"common": 0.5}),
            ("extended", {"count": "mixed gamma 0.3"}, {}),
            ("extended", {"amounts": [*range(1, 1026)]}, {}),
            ("extended", {}, {"common": 0.3}),
            ("extended", {"weights": [Fraction(1, 2**31), 1 - Fraction(1, 2**31)]}, {"rules": "extended"}),
        ):
            book = without_warnings(decl.from_frame, [{**good, **change}], log2=4, **settings)
            self.assertEqual((book.rules, book.changed), (rules, 0), change)
        rows = [{**good, "weights": [Fraction(1, 2**31), 1 - Fraction(1, 2**31)]}]
        self.assertTrue(without_warnings(decl.from_frame, rows, log2=4).changed > 0)

    def test_more_lines_than_units(self):
        """Of 300 lines that are alike 299 are pooled, by the extended rules."""
        rows = [{"name": f"L{at}", "claims": Fraction(1, 2), "amounts": [1, 2]} for at in range(299)]
        book = decl.from_frame([*rows, {"name": "Whole", "claims": 2, "amounts": [3]}], log2=9)
        self.assertEqual((book.rules, book.units, len(book.pooled)), ("extended", ("Pool",), 300))
        self.assertTrue(book.mean().holds(299 * Fraction(3, 4) + 6))
        self.assertTrue(book.kappa("L7", 230).holds(book.kappa("L298", 230).mid))


class Pooled(Case):
    """Twenty Poisson lines and a fixed one: 21 units, of which a program has 16 by the standard rules."""

    CELLS = 256

    @classmethod
    def setUpClass(cls):
        cls.rows = [{"name": f"Line {at}", "claims": round(0.25 + at / 100, 2), "amounts": [1 + at % 3, 2 + at % 5, 0]} for at in range(20)]
        for at, row in enumerate(cls.rows):
            row.update(count="poisson", weights=[0.5, 0.25, 0.25], limit=4 if at == 7 else "", attachment=1 if at == 7 else "")
        cls.rows.append({"name": "Whole", "claims": 2, "count": "fixed", "amounts": [3, 5, 0], "weights": [0.25, 0.25, 0.5]})
        cls.years = [Year.poisson(Fraction(str(row["claims"])), cls.severity(at), cls.CELLS) for at, row in enumerate(cls.rows[:20])]
        fixed = [0] * cls.CELLS
        for (a, p), (b, q) in itertools.product([(0, 2), (3, 1), (5, 1)], repeat=2):
            fixed[a + b] += p * q * ONE // 16
        cls.years.append(Year(fixed, 4))
        cls.book = decl.from_frame(cls.rows, digits=9, rules="standard")

    @staticmethod
    def severity(at):
        """The amounts of a claim with their quarters; of line 7 those above 1, less 1, which are 2 - 1 and 4 - 1, two to one."""
        if at == 7:
            return {1: 2, 3: 1}
        found = {}
        for amount, part in ((1 + at % 3, 2), (2 + at % 5, 1), (0, 1)):
            found[amount] = found.get(amount, 0) + part
        return found

    def rest(self, at):
        """The sum of all other lines."""
        others = [year for other, year in enumerate(self.years) if other != at]
        total = others[0]
        for year in others[1:]:
            total = total + year
        return total

    def test_the_total(self):
        book, total = self.book, self.rest(None)
        self.assertEqual((book.units, book.changed), (("Whole", "Pool"), 0))
        self.assertEqual(book.pooled, tuple(row["name"] for row in self.rows[:20]))
        self.assertIn("note{Poisson lines in one unit: Line 0, Line 1,", book.text)
        self.assertTrue(book.mean().holds(total.mean))
        for p in (Fraction(1, 2), Fraction(9, 10), Fraction(99, 100)):
            self.assertEqual(int(book.q(p)), total.q(p))
            self.assertTrue(book.tail(p).holds(total.tail(p)), p)
        for x in range(0, 60, 7):
            self.assertTrue(book.cdf(x).holds(total.cdf(x)), x)

    def test_each_line(self):
        book, p = self.book, Fraction(95, 100)
        table, total = book.by_unit(p), self.rest(None)
        self.assertEqual([line[0] for line in table], [*(row["name"] for row in self.rows), "total"])
        lines = table[:-1]
        for at, (_, mean, share) in enumerate(lines):
            self.assertTrue(mean.holds(self.years[at].mean), at)
            if at in (0, 7, 13, 20):
                self.assertTrue(share.holds(self.years[at].share_of_tail(self.rest(at), p)), at)
        self.assertLessEqual(sum(share.low for _, _, share in lines), total.tail(p))
        self.assertGreaterEqual(sum(share.high for _, _, share in lines), total.tail(p))
        self.assertTrue(table[-1][2].holds(total.tail(p)))
        x = total.q(p)
        rest = self.rest(3)
        self.assertTrue(book.joint("Line 3", x).holds(self.years[3].joint(rest, x)))
        self.assertTrue(book.unit("Line 3").q(0.99).holds(self.years[3].q(0.99)))
        self.assertEqual(book.moments("Line 3").mean, self.years[3].mean)
        self.assertEqual(book.moments().mean, total.mean)

    def test_its_page(self):
        """The page has the units of the program, and the mean of each line."""
        page = self.book.page([10, 50])
        self.assertIn('data-unit="Pool"', page)
        self.assertIn("mean of Line 19", page)
        self.assertTrue(dict(self.book.describe())["mean of Line 7"].holds(self.years[7].mean))
        self.assertTrue(self.book.share_of_tail("Pool", 0.9).low > 0)

    def test_the_program_is_read_again(self):
        again = decl.Book(self.book.text)
        self.assertEqual((again.name, again.units, again.q(0.9).low), ("Book", ("Whole", "Pool"), self.book.q(0.9).low))

    def test_numbers_that_have_to_change(self):
        """Expected numbers of claims of seven digits: written as whole numbers of a part, and told."""
        rows = [{"name": f"L{at}", "claims": 1.234567 + at, "amounts": [1, 2, 3], "weights": [0.333333, 0.333333, 0.333334]} for at in range(17)]
        book = decl.from_frame(rows, rules="standard")
        self.assertTrue(0 < book.changed < Fraction(1, 10**6), book.changed)
        mean = sum(Fraction(str(row["claims"])) for row in rows) * Fraction("2.000001")
        self.assertTrue(abs(book.mean().mid - mean) < mean / 10**6)

    def test_lines_under_a_common_factor(self):
        """Seventeen lines that are alike: each has a seventeenth of the TVaR and of a year."""
        rows = [{"name": f"L{at}", "claims": 0.25, "amounts": [1, 2]} for at in range(17)]
        book = decl.from_frame(rows, common=1, rules="standard")
        self.assertEqual((book.units, book.changed), (("Pool",), 0))
        page = book.page([10])
        self.assertIn('data-ask="cotail:L16:0.9"', page)
        self.assertNotIn("each unit&#x27;s share", page)
        self.assertTrue(book.text.startswith("port Book common 1 note{Poisson lines in one unit: L0, L1,"))
        year = Year.gamma(Fraction(17, 4), 1, {1: 1, 2: 1}, 256)
        for name in ("L0", "L16"):
            self.assertTrue(book.share_of_tail(name, 0.9).holds(year.tail(Fraction(9, 10)) / 17))
            self.assertTrue(book.kappa(name, 17).holds(1))
            self.assertTrue(book.unit(name).q(0.99).holds(Year.gamma(Fraction(1, 4), 1, {1: 1, 2: 1}, 64).q(Fraction(99, 100))))

    def test_more_claims_than_one_unit_has(self):
        """Of 5,100 expected claims a unit takes 4,096: two pools."""
        rows = [{"name": f"L{at}", "claims": 300, "amounts": [1000], "count": "poisson"} for at in range(17)]
        book = decl.from_frame(rows, rules="standard")
        self.assertEqual((book.units, book.bs), (("Pool", "Pool-2"), 1000))
        self.assertTrue(book.mean().holds(5_100_000))
        self.assertTrue(book.mean_of("L3").holds(300_000))

    def test_lines_that_cannot_be_pooled(self):
        rows = [{"name": f"L{at}", "claims": 1, "count": "fixed", "amounts": [1]} for at in range(17)]
        fault = self.raises(decl.TableFault, decl.from_frame, rows, rules="standard")
        self.assertIn("17 lines, of which 17 cannot be pooled", str(fault))


if __name__ == "__main__":
    main()
