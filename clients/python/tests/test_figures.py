"""Rows as numbers, levels of many digits, lists of levels and amounts, and books between two programs with all that a book has."""

import re
import unittest
from fractions import Fraction

from apart import Year
from support import Case, decl, main
from decl.levels import around

try:
    import numpy
except ImportError:
    numpy = None

DICE = "agg Dice dfreq [2] dsev [1:6]"
TWO = {total: Fraction(6 - abs(7 - total), 36) for total in range(2, 13)}
CLAIM = {10: 50, 20: 25, 50: 15, 100: 8, 300: 2}
FIRE = "agg Fire 3 claims dsev [10 20 50 100 300] [0.5 0.25 0.15 0.08 0.02] poisson"


def row(low, high, ask="mean"):
    """A row in money."""
    return decl.Row(ask, Fraction(low), Fraction(high), (low, high), True)


class Formats(Case):
    def test_both_ends_outward(self):
        each = row("94499.99501", "94500.006")
        rows = [
            ("", "mean 94499.99501 94500.006"),
            (",.2f", "94,499.99 to 94,500.01"),
            ("_.1f", "94_499.9 to 94_500.1"),
            (".0f", "94499 to 94501"),
            (",d", "94,499 to 94,501"),
            ("f", "94499.995010 to 94500.006000"),
            (".3%", "9449999.501% to 9450000.600%"),
            (">30,.2f", "        94,499.99 to 94,500.01"),
            ("<26.2f|", None),
            ("e", None),
            (".2d", None),
        ]
        for spec, written in rows:
            if written is None:
                self.assertRaises(ValueError, format, each, spec)
            else:
                self.assertEqual(format(each, spec), written, spec)
        self.assertEqual(f"{row('-2.555', '-2.5'):.2f}", "-2.56 to -2.50")
        self.assertEqual((f"{row('440', '440'):,.0f}", f"{row('7/3', '7/3'):.2f}"), ("440", "2.33 to 2.34"))

    def test_an_end_that_is_not_there(self):
        beyond = decl.Row("q:0.9", 7, None, ("7", "beyond"))
        absent = decl.Row("kappa:A:3", None, None, ("-", "-"))
        self.assertEqual((f"{beyond:.1f}", f"{absent:.1f}"), ("7.0 to beyond", "-"))
        self.assertIn("take a larger log2", beyond.why)
        self.assertIn("cannot occur", absent.why)
        self.assertIn("The quantile is not sure", decl.Row("cotail:A:0.9", None, None, ("-", "-")).why)
        self.assertEqual(row("1", "2").why, "")
        for each in (beyond, absent):
            self.assertRaises(ValueError, lambda: each.mid)
            self.assertRaises(TypeError, int, each)

    def test_numbers(self):
        each = row("94499", "94501")
        self.assertEqual((each.mid, float(each.mid)), (94500, 94500.0))
        with self.assertRaisesRegex(TypeError, r"take low or high, or float\(row.mid\)"):
            float(each)
        self.assertRaises(TypeError, int, each)
        self.assertRaises(TypeError, int, row("1/2", "1/2"))
        self.assertEqual((int(row("440", "440")), int(decl.Row("q:0.9", 10, 10, ("10", "10")))), (440, 10))

    def test_fractions_are_printed_as_decimals(self):
        """A loss of 1/3 or 2/3: no decimal is equal to its mean of 1/2 less a sixth of a half, or to its quantile."""
        book = decl.Book("agg T dfreq [1] dsev [1/3 2/3] [3/4 1/4]")
        self.assertEqual(str(book.q(0.5)), "q:0.5 0.333333333 0.333333334")
        self.assertEqual((book.q(0.5).low, book.q(0.5).high), (Fraction(1, 3), Fraction(1, 3)))
        self.assertNotIn("/", str(book.mean()))
        self.assertTrue(Fraction(book.mean().written[0]) <= Fraction(5, 12) <= Fraction(book.mean().written[1]))

    def test_html(self):
        self.assertEqual(row("1", "2", "kappa:A:<")._repr_html_(), "<table><tr><td>kappa:A:&lt;</td><td>1</td><td>2</td></tr></table>")
        self.assertIn("<th>VaR</th>", decl.Book(DICE)._repr_html_())


class Levels(Case):
    def test_the_nearest_levels(self):
        """No fraction of at most so many digits lies between the two: their parts cross-multiply to 1 apart."""
        for level in (Fraction("0.6666666666666666"), Fraction("0.9966666666666667"), Fraction(1, 10**9 + 7), Fraction("0.12345678912")):
            for digits in (4, 9):
                low, high = around(level, digits)
                self.assertTrue(low < level < high)
                self.assertEqual(high.numerator * low.denominator - low.numerator * high.denominator, 1)
                self.assertTrue(max(low.denominator, high.denominator) < 10**digits <= low.denominator + high.denominator)
        for level in (Fraction(299, 300), Fraction("0.995"), Fraction(0), Fraction(1999, 2000)):
            self.assertEqual(around(level, 4), (level, level))

    def test_levels_as_python_numbers(self):
        book = decl.Book(FIRE)
        year = Year.poisson(3, {amount // 10: weight for amount, weight in CLAIM.items()}, 256)
        for level in (2 / 3, 1 - 1 / 300, 0.1 + 0.2, Fraction(10**9 + 6, 10**9 + 7 + 10**8)):
            exact = Fraction(repr(level)) if isinstance(level, float) else level
            self.assertEqual(int(book.q(level)), 10 * year.q(exact), level)
            self.assertTrue(book.tail(level).holds(10 * year.tail(exact)), level)
            self.assertTrue(book.tail(level).high - book.tail(level).low < Fraction(1, 1000))
            self.assertTrue(decl.coarser(FIRE, 10).tail(level).holds(10 * year.tail(exact)))
        at = 10 * year.q(Fraction(2, 3))
        self.assertEqual(str(book.q(2 / 3)), f"q:0.6666666666666666 {at} {at}")

    def test_levels_that_are_refused(self):
        book = decl.Book("port P agg A dfreq [1] dsev [1:6] agg B dfreq [1] dsev [1:6]")
        fault = self.raises(decl.NumberFault, book.price, [(1, 1 - 1 / 300)])
        self.assertIn("299/300 lies below it, and ", str(fault))  # the float is a little above 299/300
        self.assertTrue(book.share_of_tail("A", 1 - 1 / 300).holds(6))
        self.assertTrue(decl.Book(book.text, log2=2).share_of_tail("A", 1 - 1 / 300).state == "beyond")
        for level in (1, 1 - Fraction(1, 10**12)):
            self.raises(decl.NumberFault, book.share_of_tail, "A", level)
        fault = self.raises(decl.NumberFault, book.q, 99)
        self.assertIn("did you mean 99%, which is 0.99?", str(fault))
        fault = self.raises(decl.NumberFault, book.tail, "99,5%")
        self.assertIn("'99,5%' is no number; a decimal has a point: 99.5%", str(fault))
        self.assertIsInstance(fault, ValueError)
        for level in (1, -0.5, "x", 1 - Fraction(1, 10**12), "1/0"):
            self.raises(decl.NumberFault, book.q, level)


class Several(Case):
    def test_lists(self):
        book = decl.Book(DICE)
        report = book.q([0.5, "90%", Fraction(23, 24)])
        self.assertEqual([int(each) for each in report], [7, 10, 11])
        self.assertEqual([each.ask for each in report], ["q:0.5", "q:0.9", "q:23/24"])
        self.assertEqual([int(each) for each in book.q((0.5, 0.9))], [7, 10])
        for x, each in zip((2, 7, 12.5), book.cdf([2, 7, 12.5])):
            self.assertTrue(each.holds(sum(part for total, part in TWO.items() if total <= x)))
        for x, each in zip((2, 7), book.sf([2, 7])):
            self.assertTrue(each.holds(sum(part for total, part in TWO.items() if total > x)))
        self.assertTrue(all(each.holds(TWO[x]) for x, each in zip((2, 7), book.pmf([2, 7]))))
        self.assertEqual(len(book.tail([])), 0)
        self.assertEqual(int(book.q(p=0.9)), 10)
        held = decl.coarser(DICE, 1)
        self.assertEqual([int(each) for each in held.q([0.5, 0.9])], [7, 10])
        self.assertEqual(len(held.sf([1, 2])), 2)

    @unittest.skipUnless(numpy, "numpy is not installed")
    def test_arrays(self):
        book = decl.Book(DICE)
        self.assertEqual([int(each) for each in book.q(numpy.array([0.5, 0.9]))], [7, 10])
        self.assertEqual(int(book.q(numpy.float64(0.9))), 10)
        self.assertEqual([each.ask for each in book.cdf(numpy.arange(2, 4))], ["cdf:2", "cdf:3"])


class Held(Case):
    """Two dice with a coin of 0 or 1/2, on buckets of 1: between two programs."""

    TEXT = "port T agg Dice dfreq [2] dsev [1:6] agg Coin dfreq [1] dsev [0 1/2]"
    TOTALS = {}
    for total, part in TWO.items():
        for more in (Fraction(0), Fraction(1, 2)):
            TOTALS[total + more] = part / 2

    def test_what_a_book_has(self):
        held = decl.coarser(self.TEXT, 1)
        self.assertEqual((held.name, held.units, held.cells), ("T", ("Dice", "Coin"), 16))
        self.assertIn("<th>VaR</th>", held._repr_html_())
        table = dict(held.describe())
        self.assertTrue(table["mean"].holds(Fraction(29, 4)))
        self.assertTrue(table["mean of Coin"].holds(Fraction(1, 4)))
        self.assertTrue(table["no loss"].holds(0))
        self.assertEqual(held.moments().variance, Fraction(35, 6) + Fraction(1, 16))
        self.assertEqual(held.moments("Coin").variance, Fraction(1, 16))
        self.assertEqual(held.unit("Coin").moments().mean, Fraction(1, 4))
        self.assertTrue(held.unit("Dice").q(0.9).holds(10))
        self.assertRaises(KeyError, held.unit, "X")
        self.assertRaises(KeyError, held.moments, "X")

    def test_its_curve_holds_up_to_the_next_total(self):
        for most in (4096, 5):
            curve = decl.coarser(self.TEXT, 1).curve(most)
            ends = [amount for amount, _, _ in curve][1:] + [16]
            for (amount, low, high), end in zip(curve, ends):
                for quarter in range(int(4 * amount), int(4 * end)):
                    more = sum(part for total, part in self.TOTALS.items() if total > Fraction(quarter, 4))
                    self.assertTrue(low <= more <= high, (amount, quarter))

    def test_its_page(self):
        page = decl.coarser(self.TEXT, 1).page([2, 10], title="Held")
        for told in ("<title>Held</title>", "Return periods", "Layers of the year", "From below: 16 buckets of 1.", "mean of Coin"):
            self.assertIn(told, page)
        self.assertNotIn("share of the TVaR", page)
        self.assertEqual(re.findall(r"<h2>(.*?)</h2>", page)[-2:], ["The two programs", "What the figures rest on"])

    def test_a_continuous_severity(self):
        held = decl.between("agg C 2 claims 500 xs 0 sev gamma 50 cv 0.5 poisson", 10)
        self.assertTrue(held.describe()[0][1].low < 100 < held.describe()[0][1].high)
        self.raises(decl.NoMoments, held.moments)
        self.assertIn("<title>C</title>", held.page([10]))
        self.assertTrue(held.unit("C").mean().holds(100))


if __name__ == "__main__":
    main()
