"""Each form of answer, and a program of each kind of the examples; values worked by hand in exact fractions."""

import math
import unittest
from decimal import Decimal
from fractions import Fraction

from support import BOOK, ROOT, Case, decl, main

from decl.reports import float_above, float_below

DICE = "agg Dice dfreq [2] dsev [1:6]"
PAIR = "port T agg A dfreq [1] dsev [1:3] agg B dfreq [1] dsev [1:3] [1/2 1/6 1/3]"


class Forms(Case):
    def test_ends_are_fractions(self):
        row = decl.run(DICE, ["pmf:2"])[0]
        self.assertEqual((row.low, row.high), (Fraction(27777, 10**6), Fraction(27778, 10**6)))
        self.assertTrue(row.holds(Fraction(1, 36)))
        self.assertEqual((row.unit, row.state, row.kind), ("probability", "closed", "pmf"))

    def test_ends_are_decimals_where_asked(self):
        row = decl.run(DICE, ["pmf:2"], ends=Decimal)["pmf:2"]
        self.assertEqual((row.low, row.high), (Decimal("0.027777"), Decimal("0.027778")))
        self.assertIsInstance(row.low, Decimal)

    def test_means_layers_and_tails(self):
        report = decl.run(DICE, ["mean", "layer:5xs5", "layer:infxs10", "tail:0.9"], log2=4)
        for row, value in zip(report, (7, Fraction(13, 6), Fraction(1, 9), Fraction(100, 9))):
            self.assertTrue(row.holds(value), row)
            self.assertEqual(row.unit, "buckets")

    def test_a_bracket_has_whole_ends(self):
        row = decl.run(DICE, ["q:0.9"])[0]
        self.assertEqual((row.low, row.high), (10, 10))
        self.assertIsInstance(row.low, int)

    def test_a_bracket_beyond_the_grid(self):
        report = decl.run("agg P 10 claims dsev [1] poisson", ["q:0.5", "tail:0.5"], log2=2)
        self.assertEqual((report[0].low, report[0].high, report[0].state), (4, None, "beyond"))
        self.assertEqual((report[1].low, report[1].high, report[1].state), (None, None, "beyond"))
        self.assertFalse(report[0].holds(3))
        self.assertIsNone(report[0].holds(10))

    def test_shares_of_a_total(self):
        report = decl.run(PAIR, ["joint:A:4", "kappa:A:4", "kappa:A:1"], log2=4)
        self.assertTrue(report[0].holds(Fraction(13, 18)))
        self.assertTrue(report[1].holds(Fraction(13, 6)))
        self.assertEqual((report[2].low, report[2].high, report[2].state), (None, None, "absent"))

    def test_shares_of_the_tail_mean(self):
        """73/27 and 77/27 add up to the tail mean, 50/9; a third of the years come to 1, so that the quantile at 1/3 is not sure."""
        report = decl.run(PAIR, ["cotail:A:0.8", "cotail:B:0.8", "tail:0.8"], log2=4)
        self.assertTrue(report[0].holds(Fraction(73, 27)) and report[1].holds(Fraction(77, 27)) and report[2].holds(Fraction(50, 9)))
        rare = decl.run(PAIR, ["cotail:A:0.99999", "cotail:A:0", "mean"], log2=4, rules="extended")
        self.assertTrue(rare[0].holds(3) and rare[1].holds(2), rare)
        self.assertEqual([(row.state, row.rules, row.in_money(2).rules) for row in rare], [("closed", "extended", "extended")] * 3)
        self.assertEqual(decl.report(PAIR, ["cotail:A:0"], log2=4, rules="standard"), "cotail:A:0 - -\n")
        self.assertEqual(decl.report(PAIR, ["cotail:A:0"], log2=4, rules="extended"), "cotail:A:0 2.000000 2.000000\n")
        decl.check(PAIR, rules="extended")
        third = decl.run("agg A dfreq [1] dsev [1 3 5]", ["cotail:A:1/3", "cotail:A:0.6"], log2=4)
        self.assertEqual((third[0].written, third[0].state, third[0].low), (("-", "-"), "absent", None))
        self.assertTrue(third[1].holds(Fraction(14, 3)))
        fault = self.raises(decl.AskFault, decl.run, PAIR, ["cotail:C:0.8"], log2=4)
        self.assertEqual(fault.reason, "no such unit")
        self.assertIn("joint, kappa and cotail name a unit", str(fault))

    def test_text_csv_and_json(self):
        self.assertEqual(decl.report(DICE, ["pmf:2"], log2=4), "pmf:2 0.027777 0.027778\n")
        self.assertEqual(decl.report(DICE, "pmf:2", "csv", log2=4), "ask,low,high\npmf:2,0.027777,0.027778\n")
        wanted = '{"bs":"1","cells":16,"rows":[{"ask":"pmf:2","high":"0.027778","low":"0.027777"}]}\n'
        self.assertEqual(decl.report(DICE, ["pmf:2"], "json", log2=4), wanted)
        self.assertEqual(str(decl.run(DICE, ["pmf:2"], log2=4)), "pmf:2 0.027777 0.027778\n")

    def test_money(self):
        report = decl.run("agg H dfreq [1] dsev [0.5 1 1.5]", ["mean", "pmf:3"], bs=Fraction(1, 2), log2=4)
        self.assertEqual((report.bs, report.cells), (Fraction(1, 2), 16))
        money = report.in_money()
        self.assertTrue(money["mean"].holds(1))
        self.assertEqual((money["pmf:1.5"].low, money["pmf:1.5"].high), (report["pmf:3"].low, report["pmf:3"].high))

    def test_a_row_in_money_prints_money(self):
        """Two dice in thousands: the mean is 7,000, and of the layer 5,000 xs 5,000 it is 13/6 thousand."""
        text = "agg Dice dfreq [2] dsev [1000:6000:1000]"
        money = decl.run(text, ["mean", "layer:5xs5", "layer:infxs10", "q:0.9"], bs=1000, log2=4).in_money()
        self.assertEqual([row.unit for row in money], ["money"] * 4)
        self.assertEqual([row.ask for row in money], ["mean", "layer:5000xs5000", "layer:infxs10000", "q:0.9"])
        self.assertEqual(str(money).splitlines()[0], "mean 7000 7000")
        self.assertEqual(money["layer:5000xs5000"].written, ("2166.666", "2166.667"))
        self.assertTrue(money["layer:infxs10000"].holds(Fraction(1000, 9)))
        self.assertEqual((money["q:0.9"].low, money["q:0.9"].high), (10000, 10000))
        self.assertEqual(money["q:0.9"].written, ("10000", "10000"))
        self.assertIn("<td>layer:5000xs5000</td><td>2166.666</td><td>2166.667</td>", money._repr_html_())
        self.assertIn("in money", repr(money))

    def test_money_stays_money(self):
        report = decl.run("agg Dice dfreq [2] dsev [1000:6000:1000]", ["mean", "cdf:9", "q:0.9"], bs=1000, log2=4)
        money = report.in_money()
        again = money.in_money()
        self.assertEqual(list(again), list(money))
        self.assertEqual(str(again), str(money))
        self.assertEqual(money[0].in_money(1000), money[0])
        self.assertEqual([row.unit for row in report], ["buckets", "probability", "buckets"])

    def test_asks_in_money(self):
        """A probability stays as it is, and the amount that it is asked at is in money."""
        text = "port T agg A dfreq [1] dsev [1/3:1:1/3] agg B dfreq [1] dsev [1/3 2/3 1] [1/2 1/6 1/3]"
        asks = ["cdf:4", "pmf:4", "tail:0.5", "joint:A:4", "kappa:A:4", "kappa:A:1", "cotail:A:0.8", "price:1@0.8"]
        money = decl.run(text, asks, bs=Fraction(1, 3), log2=4).in_money()
        wanted = ["cdf:4/3", "pmf:4/3", "tail:0.5", "joint:A:4/3", "kappa:A:4/3", "kappa:A:1/3", "cotail:A:0.8", "price:1@0.8"]
        self.assertEqual([row.ask for row in money], wanted)
        self.assertEqual(money["pmf:4/3"].unit, "probability")
        self.assertTrue(money["pmf:4/3"].holds(Fraction(1, 3)))
        self.assertTrue(money["kappa:A:4/3"].holds(Fraction(13, 18)))
        self.assertEqual((money["kappa:A:1/3"].state, money["kappa:A:1/3"].written), ("absent", ("-", "-")))
        self.assertEqual(money["kappa:A:4/3"].written, ("0.722222", "0.722222334"))
        self.assertTrue(money["cotail:A:0.8"].holds(Fraction(73, 81)) and money["price:1@0.8"].holds(Fraction(50, 27)))

    def test_beyond_the_grid_in_money(self):
        money = decl.run("agg P 10 claims dsev [250] poisson", ["q:0.5"], bs=250, log2=2).in_money()
        self.assertEqual((money[0].written, money[0].low, money[0].high), (("1000", "beyond"), 1000, None))
        self.assertEqual(money[0].state, "beyond")

    def test_a_table_in_a_notebook(self):
        shown = decl.run(DICE, ["pmf:2"])._repr_html_()
        self.assertIn("<td>pmf:2</td><td>0.027777</td><td>0.027778</td>", shown)

    def test_fmt_and_made(self):
        spelled = decl.fmt("agg  D dfreq [1,2] [50% 1/2] # c\nsev dhistogram xps [0 1] [.5 0.5] note{x}")
        self.assertEqual(spelled, "agg D dfreq [1 2] [50% 1/2] dsev [0 1] [.5 0.5] note{x}\n")
        made = decl.made(0)
        self.assertTrue(made.startswith("port Made\nagg U1 34 claims dsev [1:9] poisson\nagg U2 31 claims"), made)
        self.assertEqual(str(decl.run("", "mean", make=0)), str(decl.run(made, "mean")))

    def test_a_float_lies_on_the_side_of_its_end(self):
        """The nearest float to 1/3 is below it, those to 1/10 and to 1 - 2**-60 / 3 are above, and 1/4 is a float."""
        third, tenth = Fraction(6004799503160661, 2**54), Fraction(7205759403792793, 2**56)
        rows = [(Fraction(1, 3), third, third + Fraction(1, 2**54)), (Fraction(1, 10), tenth, tenth + Fraction(1, 2**56))]
        rows += [(1 - Fraction(1, 3 * 2**60), 1 - Fraction(1, 2**53), Fraction(1)), (Fraction(1, 4), Fraction(1, 4), Fraction(1, 4))]
        rows += [(4 * 10**7 + Fraction(1, 10**9), Fraction(4 * 10**7), 4 * 10**7 + Fraction(1, 2**27)), (0, Fraction(0), Fraction(0))]
        for end, below, above in rows:
            self.assertEqual((Fraction(float_below(end)), Fraction(float_above(end))), (below, above), end)

    def test_levels_that_print_their_type(self):
        """As the numbers of numpy 2 do: each is the decimal of the float."""
        class Scalar(float):
            def __repr__(self):
                return f"np.float64({float(self)!r})"

        book = decl.Book(DICE)
        self.assertEqual((str(book.q(Scalar(0.9))), str(book.tail(Scalar(0.9)))), (str(book.q("0.9")), str(book.tail("0.9"))))
        self.assertEqual(str(book.price([(Scalar(1), Scalar(0.9))])), str(book.price([(1, "0.9")])))
        self.assertEqual(book.return_periods([Scalar(10)])[0][0], "10")
        self.assertEqual(decl.run("agg H dfreq [1] dsev [0.5 1]", "mean", bs=Scalar(0.5), log2=4).bs, Fraction(1, 2))

    def test_bytes_are_taken_as_utf_8(self):
        self.assertIsNone(decl.check("agg D dfreq [1] dsev [1] # é".encode()))


class Frames(Case):
    def setUp(self):
        super().setUp()
        try:
            import pandas  # noqa: F401
        except ImportError:
            raise unittest.SkipTest("pandas is not installed") from None

    def test_a_frame_has_exact_ends(self):
        frame = decl.run(DICE, ["pmf:2", "q:0.9"]).to_frame()
        self.assertEqual(list(frame.columns), ["ask", "low", "high"])
        self.assertEqual(list(frame["low"]), [Fraction(27777, 10**6), 10])

    def test_floats_are_rounded_outward(self):
        report = decl.run(DICE, ["pmf:2", "tail:0.9", "mean"])
        frame = report.to_frame(floats=True)
        self.assertEqual(str(frame["low"].dtype), "float64")
        for row, low, high in zip(report, frame["low"], frame["high"]):
            self.assertLessEqual(Fraction(low), row.low)
            self.assertGreaterEqual(Fraction(high), row.high)

    def test_a_frame_in_money(self):
        """One claim of 250, 500 or 750: the mean is 500, and of the layer 250 xs 250 it is 250 * 2/3."""
        report = decl.run("agg D dfreq [1] dsev [250 500 750]", ["mean", "layer:1xs1"], bs=250, log2=4, digits=2)
        frame = report.in_money().to_frame()
        self.assertEqual(list(frame["ask"]), ["mean", "layer:250xs250"])
        self.assertEqual(list(frame["low"]), [500, 165])
        self.assertEqual(list(frame["high"]), [500, Fraction(335, 2)])

    def test_what_is_not_there(self):
        frame = decl.run(PAIR, ["kappa:A:1"], log2=4).to_frame(floats=True)
        self.assertTrue(math.isnan(frame["low"][0]) and math.isnan(frame["high"][0]))
        frame = decl.run("agg P 10 claims dsev [1] poisson", ["q:0.5"], log2=2).to_frame(floats=True)
        self.assertEqual((frame["low"][0], frame["high"][0]), (4.0, math.inf))


class Programs(Case):
    """One of each kind; the value of each is told in exact fractions, or between decimals."""

    def holds(self, text, ask, value, **settings):
        row = decl.run(text, [ask], **{"log2": 6, **settings})[0]
        self.assertTrue(row.holds(value), row)

    def test_listed_counts(self):
        self.holds("agg D dfreq [0 1 2] [0.5 0.3 0.2] dsev [1:6]", "mean", Fraction(49, 20))

    def test_poisson(self):
        self.holds("agg P 2 claims dsev [1] poisson", "pmf:0", Fraction("0.1353352832366127"))

    def test_mixed_gamma(self):
        self.holds("agg G 2 claims dsev [1] mixed gamma 0.5", "pmf:0", Fraction(16, 81))

    def test_binomial_bernoulli_and_fixed(self):
        self.holds("agg B 3 claims dsev [1 2] binomial 0.5", "pmf:0", Fraction(1, 64))
        self.holds("agg B 1/3 claims dsev [1] bernoulli", "pmf:1", Fraction(1, 3))
        self.holds("agg F 3 claims dsev [0 1 1] fixed", "pmf:3", Fraction(8, 27))

    def test_loss_premium_and_layer(self):
        self.holds("agg L 9 loss 3 xs 2 dsev [1:6] poisson", "mean", 9)
        self.holds("agg R 10 premium at 70% lr dsev [1:6] poisson", "mean", 7)
        self.holds("agg L 2 claims 3 xs 2 dsev [1:6] ! poisson", "mean", 3)

    def test_mixture_and_clauses(self):
        self.holds("agg M dfreq [1] dsev [1 2] dsev [2 3 4] wts [1/2 1/2]", "pmf:2", Fraction(5, 12))
        self.holds("agg N dfreq [1] dsev [2 4 6] occurrence net of 0.5 so 4 xs 2", "pmf:3", Fraction(1, 3))
        self.holds("agg C dfreq [2] dsev [1:6] aggregate ceded to 5 xs 5", "pmf:5", Fraction(1, 6))

    def test_a_book(self):
        report = decl.run(BOOK, ["mean", "q:0.99", "tail:0.99", "joint:Motor:200", "kappa:Motor:200"], digits=4)
        self.assertTrue(report["mean"].holds(Fraction("214.78125")))
        self.assertEqual(report["mean"].written, ("214.7812", "214.7813"))
        self.assertLess(report["q:0.99"].high, report["tail:0.99"].high)
        self.assertLess(report["joint:Motor:200"].high, report["kappa:Motor:200"].low)

    def test_the_examples(self):
        texts = sorted((ROOT / "examples").glob("*.decl"))
        self.assertGreater(len(texts), 4)
        for path in texts:
            text = path.read_text()
            size = decl.bucket(text)
            report = decl.run(text, ["mean", "cdf:0"], bs=size, digits=2, log2=8, width=10**9, mwidth=10**12)
            self.assertGreater(report["mean"].high, 0, path.name)
            self.assertEqual(decl.fmt(decl.fmt(text)), decl.fmt(text), path.name)


if __name__ == "__main__":
    main()
