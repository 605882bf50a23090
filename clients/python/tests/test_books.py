"""Books in money. Values are worked by hand, or by adding up all outcomes in exact fractions, apart from the client's modules."""

import itertools
import math
import os
import pathlib
import re
import sys
import tempfile
import unittest
import unittest.mock
from fractions import Fraction
from xml.etree import ElementTree

from apart import Year
from support import BOOK, ROOT, Case, decl, main

DICE = "agg Dice dfreq [2] dsev [1000:6000:1000]"
PAIR = "port T agg A dfreq [1] dsev [100:300:100] agg B dfreq [1] dsev [100 200 300] [1/2 1/6 1/3]"
FIRE = "agg Fire 3 claims dsev [10000 20000 50000 100000 300000] [0.5 0.25 0.15 0.08 0.02] poisson"
FACTOR = "port C common 0.5 agg A 1 claims dsev [1000 3000] poisson agg B 2 claims dsev [2000 5000] poisson"
#: Each total of two dice in thousands, with its probability.
TWO = {total: Fraction(6 - abs(7 - total), 36) for total in range(2, 13)}


def band(limit, attachment):
    """What of two dice in money lies in a band, in the mean, over all outcomes."""
    return sum(part * min(max(1000 * total - attachment, 0), limit) for total, part in TWO.items())


def spread_of(counts, claim):
    """Mean, variance and third central moment of a sum of claims, over all outcomes of a number of at most a few claims."""
    totals = {}
    for count, chance in counts.items():
        for claims in itertools.product(claim.items(), repeat=count):
            part = chance * math.prod((part for _, part in claims), start=Fraction(1))
            total = sum((amount for amount, _ in claims), Fraction(0))
            totals[total] = totals.get(total, 0) + part
    mean = sum(total * part for total, part in totals.items())
    return (mean, *(sum(part * (total - mean) ** power for total, part in totals.items()) for power in (2, 3)))


class Choices(Case):
    def test_bucket_and_grid_are_chosen(self):
        book = decl.Book(DICE)
        self.assertEqual((book.bs, book.log2, book.cells, book.units), (1000, 4, 16, ("Dice",)))
        self.assertEqual(repr(book), "<decl book of Dice: 16 buckets of 1000>")
        self.assertEqual(decl.Book(DICE.encode()).bs, 1000)
        self.assertEqual((decl.Book(DICE, bs="1/2", log2=12).bs, decl.Book(DICE, log2=9).cells), (Fraction(1, 2), 512))

    def test_the_largest_grid_is_too_small(self):
        """Two claims of 1 or 80,000: what lies past the grid has no end there, and the mean is whole."""
        book = decl.Book("agg Wide dfreq [2] dsev [1 80000]")
        self.assertEqual((book.log2, book.q(0.9).state, book.tail(0.9).state), (16, "beyond", "beyond"))
        self.assertTrue(book.mean().holds(80001))
        self.assertTrue(book.inside().holds(Fraction(1, 4)))
        self.assertEqual((book.cdf(79999).low, book.cdf(79999).high), (book.inside().low, 1))
        for total in (1, 2, 65535, 65536, 80000, 80001, 160000, 10**9):
            row = book.pmf(total)
            self.assertTrue(row.holds({2: Fraction(1, 4), 80001: Fraction(1, 2), 160000: Fraction(1, 4)}.get(total, 0)), row)
            self.assertTrue(total < 65536 or (row.low == 0 and row.holds(Fraction(3, 4))), row)
        for call in (book.kappa, book.joint):
            fault = self.raises(decl.AskFault, call, "Wide", 80001)
            self.assertIn("take a larger log2", str(fault))
        self.assertTrue(book.layer(900, 65600).holds(Fraction(3, 4) * 900))
        self.assertTrue(book.layer("inf", 80000).holds(Fraction(80002, 4)))
        self.assertTrue(book.layer(10, 159980).holds(Fraction(10, 4)))
        self.assertTrue(book.layer(90000, 48000).holds(Fraction(1, 2) * 32001 + Fraction(1, 4) * 90000))

    def test_a_long_grid(self):
        """Two units, each with no loss, one of 1 or a large one: the largest total of 7,999 asks for 8,192 buckets."""
        book = decl.Book("port Long agg A dfreq [0 1] dsev [1 2999] agg B dfreq [0 1] dsev [1 5000]")
        self.assertEqual((book.bs, book.log2, book.cells), (1, 13, 8192))
        self.assertTrue(book.pmf(7999).holds(Fraction(1, 16)))
        self.assertTrue(book.cdf(5000).holds(Fraction(3, 4) + Fraction(1, 8)))
        self.assertTrue(dict(book.describe())["mean of B"].holds(Fraction(5001, 4)))

    def test_a_curve_over_several_buckets(self):
        """Two dice on 16 buckets, at every fourth total: the ends hold the probability of more up to the next one."""
        curve = decl.Book(DICE).curve(4)
        self.assertEqual([amount for amount, _, _ in curve], [0, 4000, 8000, 12000])
        for amount, low, high in curve:
            for total in range(int(amount) // 1000, int(amount) // 1000 + 4):
                more = sum(part for value, part in TWO.items() if value > total)
                self.assertTrue(low <= more <= high, total)
        self.assertEqual(len(decl.Book(DICE).curve()), 16)

    def test_fewer_digits_where_the_widest_is_too_narrow(self):
        """A program that refuses six and five digits, as for a share in many large units on a long grid."""
        book = decl.Book(DICE)
        refuses = 'case "$*" in *"digits 6"*|*"digits 5"*) echo "decl: ask 0: needs width 2600000000000" >&2; exit 4;; esac'
        self.instead(refuses + '\nexec "$BUILT" "$@"')
        self.assertEqual(book.tail(0.9).written, ("11111.1", "11111.2"))

    def test_amounts_that_long_grids_alone_take(self):
        """Nothing or 2,000,000 buckets: a grid of 8,192 or more takes it, and none reaches it."""
        book = decl.Book("port Far agg A dfreq [1] dsev [0 2000001] agg B dfreq [1] dsev [1]")
        self.assertEqual((book.bs, book.log2), (1, 16))
        self.assertTrue(book.mean().holds(1 + Fraction(2000001, 2)))
        self.assertTrue(dict(book.describe())["mean of A"].holds(Fraction(2000001, 2)))
        self.assertTrue(book.inside().holds(Fraction(1, 2)))

    def test_a_text_that_is_refused(self):
        self.raises(decl.SyntaxFault, decl.Book, "agg")
        self.raises(decl.RuleFault, decl.Book, "agg D dfreq [1] dsev [1 2] [1/3 1/3]")

    def test_an_amount_between_two_of_the_buckets_that_were_given(self):
        """One loss of 1/3 with buckets of 1: no probability is 0 for that, the text is refused."""
        book = decl.Book("agg D dfreq [1] dsev [1/3]", bs=1, log2=4)
        for amount in ("1/3", 1, 100):
            self.raises(decl.RuleFault, book.pmf, amount)


class Answers(Case):
    def setUp(self):
        super().setUp()
        self.book = decl.Book(DICE)

    def test_mean_and_quantiles(self):
        book = self.book
        self.assertTrue(book.mean().holds(7000))
        for p in (0.9, "0.9", "90%", Fraction(9, 10)):
            self.assertEqual((book.q(p).low, book.q(p).high, book.q(p).unit), (10000, 10000, "money"))
            self.assertTrue(book.tail(p).holds(Fraction(100000, 9)))
        self.assertEqual((book.q(0.9).ask, book.tail("199/200").ask), ("q:0.9", "tail:0.995"))

    def test_probabilities_at_any_amount(self):
        for total in range(-1, 17):
            below = sum(part for value, part in TWO.items() if value <= total)
            for amount in (1000 * total, 1000 * total + Fraction(999, 2)):
                self.assertTrue(self.book.cdf(amount).holds(below), amount)
                self.assertTrue(self.book.sf(amount).holds(1 - below), amount)
            row = self.book.pmf(1000 * total)
            self.assertTrue(row.holds(TWO.get(total, 0)), row)
            self.assertLess(row.high - row.low, Fraction(1, 10**5))
            self.assertEqual(self.book.pmf(1000 * total + 1).high, 0)
        row = self.book.sf("9000")
        self.assertEqual((row.ask, row.unit, row.kind), ("sf:9000", "probability", "sf"))
        self.assertLess(row.high - row.low, Fraction(1, 10**5))

    def test_layers_at_any_amounts(self):
        for limit, attachment in itertools.product((0, 1, 999, 1000, 1500, 4000, 7300, 50000), (0, 500, 1000, 1999, 9250, 13000)):
            row = self.book.layer(limit, attachment)
            self.assertTrue(row.holds(band(limit, attachment)), row)
            self.assertLess(row.high - row.low, Fraction(1, 10) if limit + attachment < 16000 else 1, row)
            self.assertEqual(row.unit, "money")
        for unlimited in (None, "inf", math.inf):
            self.assertTrue(self.book.layer(unlimited, 9500).holds(band(10**9, 9500)))
        self.assertTrue(self.book.layer(7000).holds(band(7000, 0)))
        self.raises(ValueError, self.book.layer, 5, -1)
        self.raises(ValueError, self.book.layer, -5, 1)

    def test_shares_of_a_total(self):
        book = decl.Book(PAIR)
        self.assertTrue(book.kappa("A", 400).holds(Fraction(1300, 6)))
        self.assertTrue(book.kappa("B", 400).holds(400 - Fraction(1300, 6)))
        for amount in (100, 450, -100):
            self.assertEqual((book.kappa("A", amount).state, book.kappa("A", amount).low), ("absent", None))
        for amount in (400, 450):
            self.assertEqual(self.raises(decl.AskFault, book.kappa, "C", amount).reason, "no such unit")

    def test_shares_of_the_tail_mean(self):
        """Of a total of 2 to 6 hundred: 1/9 of it is 600, and 7/18 of the 500 with 1/6 + 1/9 of the probability are in the worst fifth."""
        book = decl.Book(PAIR)
        shares = [book.share_of_tail(name, 0.8) for name in "AB"]
        for row, value in zip(shares, (Fraction(7300, 27), Fraction(7700, 27))):
            self.assertTrue(row.holds(value), row)
            self.assertLess(row.high - row.low, Fraction(1, 10**3))
        self.assertEqual((shares[0].ask, shares[0].unit, shares[0].state), ("cotail:A:0.8", "money", "closed"))
        self.assertTrue(book.tail(0.8).holds(Fraction(5000, 9)))
        for level in ("4/5", "80%", Fraction(4, 5)):
            self.assertEqual(book.share_of_tail("A", level), shares[0])
        self.assertEqual(book.ask("cotail:A:80%"), shares[0])
        for level in (0.25, Fraction(1, 3), "0.9995"):
            low, high = (sum(getattr(book.share_of_tail(name, level), end) for name in "AB") for end in ("low", "high"))
            tail = book.tail(level)
            self.assertTrue(low <= tail.high and tail.low <= high and high - low < Fraction(1, 100), level)
        self.assertEqual(book.share_of_tail("A", "0.9995").ask, "cotail:A:1999/2000")
        self.assertEqual([(row.rules, row.in_money(1)) for row in shares], [("standard", row) for row in shares])
        self.assertEqual(self.raises(decl.AskFault, book.share_of_tail, "C", 0.8).reason, "no such unit")
        self.raises(decl.NumberFault, book.share_of_tail, "A", 1)

    def test_a_common_factor(self):
        """One claim of 1,000 or 3,000 expected of A, two of 2,000 or 5,000 of B, under a factor of shape 4: no claim has (4/7)^4. A total
        of 3,000 is one claim of A with 1/6 of one claim, or two of 1,000 and 2,000, or three of 1,000."""
        book = decl.Book(FACTOR)
        self.assertEqual((book.bs, book.name, book.units, book.plan.common), (1000, "C", ("A", "B"), Fraction(1, 2)))
        one, two, three = (math.comb(3 + n, n) * Fraction(3, 7) ** n for n in (1, 2, 3))
        parts = {1: one / 6 + three / 6**3, 2: two * 2 / 6 / 3}
        chance = (parts[1] + parts[2]) * Fraction(4, 7) ** 4
        self.assertTrue(book.pmf(0).holds(Fraction(4, 7) ** 4))
        self.assertTrue(book.pmf(3000).holds(chance))
        self.assertTrue(book.joint("A", 3000).holds((3000 * parts[1] + 1000 * parts[2]) * Fraction(4, 7) ** 4))
        share = (3000 * parts[1] + 1000 * parts[2]) / (parts[1] + parts[2])
        self.assertTrue(book.kappa("A", 3000).holds(share))
        self.assertTrue(book.kappa("B", 3000).holds(3000 - share))
        self.assertTrue(book.mean().holds(9000))
        self.assertGreater(book.tail(0.99).low, decl.Book(FACTOR.replace(" common 0.5", "")).tail(0.99).high)

    def test_shares_of_the_tail_mean_under_a_factor(self):
        """Beside a claim of A the rest of the year is that of a factor whose shape is larger by 1: 5 in place of 4."""
        book, p, units = decl.Book(FACTOR), Fraction(9, 10), {"A": {1: 1, 3: 1}, "B": {2: 2, 5: 2}}
        year = Year.gamma(3, 4, {1: 1, 3: 1, 2: 2, 5: 2}, 96)
        larger = Year.gamma(3 * Fraction(5, 4), 5, {1: 1, 3: 1, 2: 2, 5: 2}, 96)
        at, shares = year.q(p), {}
        for name, parts in units.items():
            joints = [sum(x * part * larger.at(total - x) for x, part in parts.items()) / 2 for total in range(at + 1)]
            left = (year.cdf(at) - p) / year.at(at)
            shares[name] = 1000 * (Fraction(sum(x * part for x, part in parts.items()), 2) - sum(joints) + left * joints[at]) / (1 - p)
            row = book.share_of_tail(name, 0.9)
            self.assertTrue(row.holds(shares[name]), row)
            self.assertLess(row.high - row.low, Fraction(1, 100))
            self.assertEqual((row.ask, row.rules, row.money), (f"cotail:{name}:0.9", "extended", True))
        self.assertTrue(book.tail(0.9).holds(sum(shares.values())))
        fault = self.raises(decl.AskFault, decl.run, FACTOR, ["cotail:A:0.9"], bs=1000)
        self.assertEqual(fault.reason, "no share under a common factor")
        self.assertIn('by rules="extended" alone', str(fault))
        self.assertEqual(book.each(["cotail:A:0.9", "mean", "cotail:B:0.9"])[::2], [book.share_of_tail(name, 0.9) for name in "AB"])
        self.assertEqual([line[2].rules for line in book.by_unit(0.9)], ["extended", "extended", "standard"])
        self.assertEqual(decl.Book(FACTOR, log2=2).share_of_tail("A", 0.9).state, "beyond")
        page = book.page()
        self.assertIn("each unit&#x27;s share of the total", page)
        self.assertIn("each unit&#x27;s share of the TVaR", page)
        self.assertIn("At 2 to 250 years the shares are those of the program&#x27;s extended rules", page)
        for name, share in shares.items():
            low, high = re.search(rf'data-ask="cotail:{name}:0.9" data-rules="extended" data-low="(.*?)" data-high="(.*?)"', page).groups()
            self.assertTrue(Fraction(low) <= share <= Fraction(high) < Fraction(low) + Fraction(1, 100), name)
        self.assertIn("port C common 0.5", page)

    def test_a_unit_under_a_factor(self):
        """A unit alone keeps the factor: its count is mixed gamma, and not Poisson."""
        one = decl.Book(FACTOR).unit("A")
        self.assertTrue(one.pmf(0).holds(Fraction(4, 5) ** 4))
        self.assertEqual((one.bs, one.text), (1000, "port C common 1/2\nagg A 1 claims dsev [1000 3000] poisson"))
        named = decl.Book("sev S dsev [1000 3000] port C common 0.5 agg A 1 claims sev.S poisson agg B 2 claims sev.S poisson").unit("A")
        self.assertEqual(named.mean(), one.mean())

    def test_shares_of_a_tail_mean_by_the_extended_rules(self):
        """A third of the years come to 1 exactly, so that the quantile there is not sure: the standard rules have no number. They ask for none
        at a level of more than 4 digits, and one of more than 9 lies between two. Beyond a grid of four buckets there is none."""
        book = decl.Book("port P agg A dfreq [1] dsev [1 3 5] agg B dfreq [1] dsev [0]")
        absent = decl.run(book.text, ["cotail:A:1/3"])[0]
        self.assertEqual((absent.state, absent.rules), ("absent", "standard"))
        self.assertIn('by rules="extended" there is a share', absent.why)
        shares = {"1/3": (4, "extended"), "0.33333": (Fraction(9 - 3 * Fraction("0.33333"), 3) / (1 - Fraction("0.33333")), "extended")}
        shares.update({"0": (3, "extended"), "0.6": (Fraction(14, 3), "standard"), "0.25": (Fraction(11, 3), "standard")})
        shares["0.6000000000001"] = (Fraction(5 + 3 * 2 - 9 * Fraction("0.6000000000001"), 3) / Fraction("0.3999999999999"), "extended")
        for level, (value, rules) in shares.items():
            row = book.share_of_tail("A", level)
            self.assertTrue(row.holds(value) and row.high - row.low < Fraction(1, 10**4), (row, value))
            self.assertEqual(row.rules, rules, level)
        self.assertEqual(book.share_of_tail("A", "0.6000000000001").ask, "cotail:A:0.6000000000001")
        far = decl.Book("agg P 10 claims dsev [1] poisson", log2=2)
        self.assertEqual((far.share_of_tail("P", 0.5).state, far.price("1@0.5").state), ("beyond", "beyond"))

    def test_prices(self):
        """Half the mean, 7,000, and half the tail mean at 0.9, 100,000/9."""
        value = Fraction(163000, 18)
        rows = [self.book.price([("1/2", 0), (0.5, 0.9)]), self.book.price("1/2@0+1/2@0.9"), self.book.ask("price:50%@0+50%@90%")]
        rows += [self.book.price([(Fraction(1, 2), 0), (Fraction(1, 2), "90%")])]
        for row in rows:
            self.assertTrue(row.holds(value), row)
            self.assertLess(row.high - row.low, Fraction(1, 10**2))
            self.assertEqual((row.kind, row.unit), ("price", "money"))
        self.assertEqual([row.ask for row in rows[:2]], ["price:0.5@0+0.5@0.9", "price:1/2@0+1/2@0.9"])
        three = self.book.price([("1/1024", 0), ("1/512", "1/2"), ("1021/1024", "35/36")])
        # the mean of the worst half: 9 to 12 have 10/36, and 8/36 of 7 and 8 are left for it
        half = 2 * (sum(total * TWO[total] for total in range(8, 13)) + 7 * Fraction(3, 36))
        self.assertTrue(three.holds(1000 * (Fraction(7) + 2 * half + 1021 * 12) / 1024), three)
        for terms in ([("1/2", 0)], [], "1", [("1/9", 0)] * 9):
            self.assertIn("there are 1 to 8 terms", str(self.raises(decl.UsageFault, self.book.price, terms)))
        self.raises(decl.NumberFault, self.book.price, [(1, 1)])

    def test_levels_of_many_digits(self):
        """A return period of 512 years is a level of ten digits, and so asked for as a fraction."""
        self.assertEqual(self.book.q(1 - Fraction(1, 512)).ask, "q:511/512")
        self.assertEqual(self.book.return_periods([512])[0][1].low, 12000)

    def test_asks_in_money(self):
        """Several asks at once, some past the grid, below 0 and between two buckets."""
        book = decl.Book(PAIR)
        asks = ["mean", "pmf:400", "pmf:450", "pmf:100000", "cdf:100000", "cdf:-5", "sf:400", "layer:100xs350", "joint:A:400", "kappa:A:400"]
        rows = book.each(asks)
        self.assertEqual([row.ask for row in rows], asks)
        third = Fraction(1, 3)
        values = [200 + Fraction(1100, 6), third, 0, 0, 1, 0, Fraction(5, 18), Fraction(400, 9), Fraction(1300, 18), Fraction(1300, 6)]
        for row, value in zip(rows, values):
            self.assertTrue(row.holds(value), row)
        self.assertEqual(str(book.ask("q:0.5")), "q:0.5 400 400")
        for word in ("wat", "q:2", "layer:5", "pmf:x", "kappa:A"):
            self.raises(decl.UsageFault, book.ask, word)

    def test_several_asks_are_one_call(self):
        asks = ["mean", "q:0.9", "tail:90%", "price:1/2@0+1/2@0.9", "cotail:Dice:0.9", "cdf:4000"]
        self.instead("\"$BUILT\" \"$@\" && echo once >> \"$0.calls\"")
        calls = pathlib.Path(f"{os.environ['DECL']}.calls")
        self.book.each(asks)
        self.assertEqual(calls.exists() and len(calls.read_text().split()), 1)

    def test_each_ask_is_asked_once(self):
        first = self.book.return_periods([10])
        self.instead("exit 7")
        self.assertEqual(str(self.book.return_periods([10])), str(first))

    def test_units_alone(self):
        book = decl.Book(BOOK.replace("0.02] poisson", "0.02] poisson note{one\nagg Property of two}"))
        self.assertTrue(book.unit("Property").mean().holds(130))
        self.assertEqual(book.unit("Motor").units, ("Motor",))
        self.raises(KeyError, book.unit, "Nowhere")

    def test_units_of_named_severities(self):
        """Two units that refer to one severity, of 1 to 6; of a claim of the second one the part above 2 is left, at most 4."""
        book = decl.Book((ROOT / "examples" / "named.decl").read_text())
        self.assertEqual((book.name, book.units), ("Book", ("Cars", "Vans")))
        self.assertTrue(book.unit("Cars").mean().holds(7))
        self.assertTrue(book.mean_of("Vans").holds(Fraction(10, 4)))
        self.assertEqual(dict(book.describe())["mean of Vans"], book.mean_of("Vans"))
        alone = decl.Book("sev A dsev [5] agg One dfreq [2] sev.A")
        self.assertEqual((alone.name, alone.unit("One").q(0.5).low), ("One", 10))


class Extended(Case):
    """Books by the extended rules, which the standard ones refuse."""

    TEXT = "agg G 2 claims dsev [100 300] mixed gamma 0.3"

    def test_a_shape_that_is_not_whole(self):
        """No claim comes with a probability of (1 + 2 * 0.09)^(-100/9)."""
        none = Fraction("0.15896848301882428")
        for call in (decl.Book, decl.bucket, decl.grid):
            fault = self.raises(decl.RuleFault, call, self.TEXT)
            self.assertIn("the extended rules take any", str(fault))
        book = decl.Book(self.TEXT, rules="extended")
        self.assertEqual((book.rules, book.bs, decl.bucket(self.TEXT, rules="extended")), ("extended", 100, 100))
        self.assertEqual(book.log2, decl.grid(self.TEXT, bs=100, rules="extended"))
        self.assertTrue(book.pmf(0).holds(none))
        self.assertTrue(book.mean().holds(400))
        self.assertEqual(book.moments().variance, 2 * 10000 + (2 + 4 * Fraction(9, 100)) * 40000)
        self.assertEqual({row.rules for row in (book.mean(), book.q(0.99), book.tail(0.9), book.share_of_tail("G", 0.9))}, {"extended"})
        self.assertEqual(book.share_of_tail("G", "0.999999").written, book.tail("0.999999").written)
        self.assertEqual(book.each(["cotail:G:0.9", "mean"]), [book.share_of_tail("G", 0.9), book.mean()])
        page = book.page()
        self.assertIn("--rules extended", page)
        self.assertNotIn("those of the program&#x27;s extended rules", page)
        changed = decl.Book(f"{self.TEXT} zt", rules="extended")
        self.assertIn("whose shape 1 / c^2 is not whole", str(self.raises(decl.NoMoments, changed.moments)))
        self.assertTrue(changed.mean().holds(400 / (1 - none)))

    def test_a_factor_and_many_units(self):
        text = "port C common 0.3 agg A 1 claims dsev [100 300] poisson agg B 1 claims dsev [100 300] poisson"
        book, one = decl.Book(text, rules="extended"), decl.Book(self.TEXT, rules="extended")
        self.assertEqual(book.q(0.99), one.q(0.99))
        self.assertTrue(book.share_of_tail("A", 0.9).holds(book.tail(0.9).mid / 2))
        self.assertEqual(book.moments().variance, one.moments().variance)
        self.assertEqual(book.unit("A").text.splitlines()[0], "port C common 3/10")
        self.raises(decl.RuleFault, decl.Book, text, bs=100, log2=4)
        book = decl.Book("port P " + " ".join(f"agg U{at} dfreq [1] dsev [5 10 15]" for at in range(17)), rules="extended")
        self.assertEqual((book.bs, len(book.units)), (5, 17))
        self.assertTrue(all(line[1].holds(10) for line in book.by_unit(0.9)[:-1]))
        self.raises(decl.RuleFault, decl.Book, book.text)

    def test_two_programs_and_books_side_by_side(self):
        pair = decl.coarser("agg G 2 claims dsev [101 298] mixed gamma 0.3", 100, rules="extended")
        self.assertTrue(pair.mean().holds(399) and pair.rules == pair.book(True).rules == "extended")
        self.assertEqual(pair.unit("G").mean(), pair.mean())
        pair = decl.between("port C common 0.3 agg A 2 claims 100 xs 0 sev 40 * expon poisson agg B 1 claims dsev [7] poisson", 10, rules="extended")
        self.assertTrue(pair.mean().low < 2 * 40 * (1 - math.exp(-2.5)) + 7 < pair.mean().high)
        books = {"one": self.TEXT, "two": self.TEXT.replace("0.3", "0.25")}
        table = decl.compare(books, ["mean", "pmf:0"], rules="extended")
        self.assertTrue(table[1][2].holds(Fraction(8, 9) ** 16))
        self.assertEqual(decl.run_many(books, "mean", processes=1, rules="extended")[0][1].written, table[0][1].written)
        self.assertIn("mixed gamma 0.25", decl.compare_page(books, [10], rules="extended"))


class Tables(Case):
    def test_return_periods(self):
        table = decl.Book(DICE).return_periods([10, 100])
        self.assertEqual(table.columns, ("years", "VaR", "TVaR"))
        self.assertEqual([line[0] for line in table], ["10", "100"])
        self.assertEqual((table[0][1].low, table[1][1].high), (10000, 12000))
        self.assertTrue(table[0][2].holds(Fraction(100000, 9)))
        self.assertEqual(str(table).split(), "years VaR TVaR 10 10000 11111.11 to 11111.12 100 12000 12000.00 to 12000.01".split())
        self.assertIn("<td>11,111.11 to 11,111.12</td>", table._repr_html_())
        self.raises(ValueError, decl.Book(DICE).return_periods, [Fraction(1, 2)])
        self.assertEqual(len(decl.Book(DICE).return_periods()), 5)

    def test_the_distribution(self):
        book = decl.Book(BOOK)
        rows = book.distribution()
        self.assertEqual((len(rows), rows[1].ask, rows[0].unit), (256, "cdf:4", "probability"))
        self.assertEqual(len(book.distribution(cells=True)), 1024)
        self.assertEqual(len(book.distribution(10)), 10)
        self.raises(ValueError, book.distribution, 257)
        dice = decl.Book(DICE).distribution()
        self.assertEqual([row.ask for row in dice], [f"cdf:{1000 * at}" for at in range(16)])
        self.assertTrue(dice["cdf:4000"].holds(Fraction(1, 6)))

    def test_what_a_book_is_worth(self):
        lines = dict(decl.Book(PAIR).describe())
        self.assertTrue(lines["mean"].holds(200 + Fraction(1100, 6)))
        self.assertTrue(lines["mean of B"].holds(Fraction(1100, 6)))
        self.assertEqual((lines["no loss"].low, lines["VaR 90%"].high, lines["VaR 99.5%"].high), (0, 600, 600))
        self.assertGreater(lines["deviation"].low, 0)
        self.assertNotIn("deviation", dict(decl.Book(BOOK).describe()))
        self.assertIn("TVaR 99.5%", str(decl.Book(BOOK).describe()))

    def test_a_frame(self):
        try:
            import pandas  # noqa: F401
        except ImportError:
            raise unittest.SkipTest("pandas is not installed") from None
        frame = decl.Book(DICE).return_periods([10]).to_frame()
        self.assertEqual(list(frame.columns), ["years", "VaR low", "VaR high", "TVaR low", "TVaR high"])
        self.assertEqual((frame["VaR low"][0], frame["years"][0]), (10000, "10"))
        floats = decl.Book(DICE).return_periods([10]).to_frame(floats=True)
        self.assertEqual([str(floats[name].dtype) for name in floats.columns], ["object"] + ["float64"] * 4)
        mixed = decl.Table(["a"], [[""], [decl.Book(DICE).q(0.9)]]).to_frame(floats=True)
        self.assertTrue(str(mixed["a low"].dtype) == "float64" and math.isnan(mixed["a low"][0]) and mixed["a low"][1] == 10000)
        self.assertLessEqual(floats["TVaR low"][0], 100000 / 9)

    def test_a_plot(self):
        try:
            import matplotlib
        except ImportError:
            raise unittest.SkipTest("matplotlib is not installed") from None
        matplotlib.use("Agg")
        axes = decl.Book(FIRE).plot()
        self.assertEqual(axes.get_yscale(), "log")
        self.assertIs(decl.Book(FIRE).plot(axes), axes)

    def test_a_picture_without_matplotlib(self):
        with unittest.mock.patch.dict(sys.modules, {"matplotlib": None}):
            picture = decl.Book(FIRE).plot(years=[10, 100])
        self.assertEqual(len(re.findall('class="mark', picture._repr_svg_())), 4)
        with tempfile.TemporaryDirectory() as folder:
            picture.save(f"{folder}/fire.svg")
            self.assertEqual(ElementTree.parse(f"{folder}/fire.svg").getroot().tag, "{http://www.w3.org/2000/svg}svg")


class Moments(Case):
    def of(self, text, unit=None):
        """The three moments; the mean that the program proves has to hold the first, and the ends the roots."""
        book = decl.Book(text)
        found = book.moments(unit)
        if unit is None:
            self.assertTrue(book.mean().holds(found.mean), text)
        low, high = found.deviation
        self.assertTrue(low**2 <= found.variance <= high**2 and high - low <= Fraction(2, 10**12), text)
        return found.mean, found.variance, found.third

    def test_counts(self):
        """One claim of 1 and of 3: cumulants of the textbooks, and sums over all outcomes."""
        one, two = {Fraction(1): Fraction(1)}, {Fraction(1): Fraction(1, 2), Fraction(3): Fraction(1, 2)}
        self.assertEqual(self.of("agg P 2 claims dsev [1 3] poisson"), (4, 10, 28))
        self.assertEqual(self.of("agg G 2 claims dsev [1] mixed gamma 0.5"), (2, 3, 6))
        self.assertEqual(self.of("agg F 3 claims dsev [1 3] fixed"), spread_of({3: Fraction(1)}, two))
        listed = {0: Fraction(1, 2), 1: Fraction(3, 10), 2: Fraction(1, 5)}
        self.assertEqual(self.of("agg L dfreq [0 1 2] [0.5 0.3 0.2] dsev [1 3]"), spread_of(listed, two))
        third = {0: Fraction(2, 3), 1: Fraction(1, 3)}
        self.assertEqual(self.of("agg B 1/3 claims dsev [1 3] bernoulli"), spread_of(third, two))
        trials = {k: math.comb(3, k) * Fraction(1, 3) ** k * Fraction(2, 3) ** (3 - k) for k in range(4)}
        self.assertEqual(self.of("agg B 1 claims dsev [1 3] binomial 1/3"), spread_of(trials, two))
        self.assertEqual(self.of("agg B 1 claims dsev [1] binomial 1/3"), spread_of(trials, one))

    def test_claims(self):
        """What a layer, a clause and a mixture make of a claim, by hand."""
        half = Fraction(1, 2)
        once = {1: Fraction(1)}
        # above 2 of 1 to 4: 3 and 4, so 1 and 2 in the layer
        self.assertEqual(self.of("agg L dfreq [1] 5 xs 2 dsev [1:4]"), spread_of(once, {1: half, 2: half}))
        self.assertEqual(self.of("agg L dfreq [1] 1 xs 2 dsev [1:4] !"), spread_of(once, {0: half, 1: half}))
        self.assertEqual(self.of("agg L dfreq [1] inf xs 0 dsev [1 3]"), spread_of(once, {1: half, 3: half}))
        net, ceded = {2: half, 4: half}, {0: half, 2: half}
        self.assertEqual(self.of("agg N dfreq [1] dsev [2 6] occurrence net of 0.5 so 4 xs 2"), spread_of(once, net))
        self.assertEqual(self.of("agg N dfreq [1] dsev [2 6] occurrence ceded to 2 po 4 xs 2"), spread_of(once, ceded))
        both = "agg N dfreq [1] dsev [2 6] occurrence ceded to 1 xs 0 and inf xs 5"
        self.assertEqual(self.of(both), spread_of(once, {1: half, 2: half}))
        mixed = {1: Fraction(1, 8), 2: Fraction(1, 8) + Fraction(1, 4), 3: Fraction(1, 4), 4: Fraction(1, 4)}
        self.assertEqual(self.of("agg M dfreq [1] dsev [1 2] dsev [2 3 4] wts [1/4 3/4]"), spread_of(once, mixed))
        self.assertEqual(self.of("agg R dfreq [1] dsev [0:10:5, 1] [1/4 1/4 1/4 1/4]"), spread_of(once, dict.fromkeys((0, 5, 10, 1), Fraction(1, 4))))

    def test_exposures(self):
        """9 of expected loss over a mean claim of 9/4 in 3 xs 2, where 1 and 2 are left out; the same as a premium."""
        claim = dict.fromkeys((1, 2, 3), Fraction(1, 4))
        claim[3] = Fraction(1, 2)
        mean = Fraction(9, 4)
        powers = [4 * sum(part * amount**power for amount, part in claim.items()) for power in (1, 2, 3)]
        self.assertEqual(self.of("agg L 9 loss 3 xs 2 dsev [1:6] poisson"), tuple(powers))
        self.assertEqual(4 * mean, 9)
        self.assertEqual(self.of("agg L 18 premium at 50% lr 3 xs 2 dsev [1:6] poisson"), tuple(powers))
        # a loss is gross of the occurrence clause: 3 claims of 2 or 4, of which 2 each stay
        self.assertEqual(self.of("agg L 9 loss dsev [2 4] occurrence net of 2 xs 2 fixed"), (6, 0, 0))

    def test_sums_of_units(self):
        pair = self.of(PAIR)
        parts = [self.of(PAIR, name) for name in "AB"]
        self.assertEqual(pair, tuple(sum(values) for values in zip(*parts)))
        self.assertEqual(parts[0], (200, Fraction(20000, 3), 0))

    def test_skewness_and_variation(self):
        found = decl.Book("agg S dfreq [1] dsev [0 1] [0.1 0.9]").moments()
        low, high = found.skewness
        self.assertTrue(low < high < 0 and high**2 <= Fraction(64, 9) <= low**2)
        self.assertEqual(decl.Book("agg S dfreq [1] dsev [1 3]").moments().variation, (Fraction(1, 2), Fraction(1, 2)))
        self.raises(decl.NoMoments, getattr, decl.Book("agg S dfreq [1] dsev [1]").moments(), "skewness")
        self.raises(decl.NoMoments, getattr, decl.Book("agg S dfreq [1] dsev [0]").moments(), "variation")

    def test_a_changed_probability_of_no_claim(self):
        """One claim of 1 or 3: the chances of each number above 0 keep their proportions, over all outcomes."""
        claim = {Fraction(1): Fraction(1, 2), Fraction(3): Fraction(1, 2)}
        trials = {k: math.comb(3, k) * Fraction(1, 3) ** k * Fraction(2, 3) ** (3 - k) for k in range(4)}
        for name, counts in (("1/3 claims dsev [1 3] bernoulli", {0: Fraction(2, 3), 1: Fraction(1, 3)}), ("1 claims dsev [1 3] binomial 1/3", trials)):
            for change, zero in (("zt", Fraction(0)), ("zm 0", Fraction(0)), ("zm 1/4", Fraction(1, 4)), ("zm 90%", Fraction(9, 10))):
                part = (1 - zero) / (1 - counts[0])
                changed = {0: zero, **{count: chance * part for count, chance in counts.items() if count}}
                self.assertEqual(self.of(f"agg Z {name} {change}"), spread_of(changed, claim), (name, change))
        self.assertEqual(self.of("agg F 3 claims dsev [1 3] fixed zt"), self.of("agg F 3 claims dsev [1 3] fixed"))
        self.assertEqual(self.of("agg F 3 claims dsev [2] fixed zm 1/3"), spread_of({0: Fraction(1, 3), 1: Fraction(2, 3)}, {Fraction(6): 1}))
        # a geometric count of mean 1 without 0 is one more than such a count: mean 2, variance 2, third central moment 6
        self.assertEqual(self.of("agg G 1 claims dsev [1] geometric zt"), (2, 2, 6))
        self.assertEqual(self.of("agg G 1 claims dsev [1] geometric zm 1/3")[0], Fraction(4, 3))
        # of shape 2 and mean 2 no claim has the probability 1/4, so of at least one the mean is 8/3 and that of squares 10 * 4/3
        self.assertEqual(self.of("agg G 2 claims dsev [1] mixed gamma 1/2 zm 1/16")[0], 2 * Fraction(15, 16) / (1 - Fraction(2, 3) ** 4))

    def test_a_poisson_count_without_its_zero(self):
        """Its mean, 2 / (1 - exp(-2)) = 2.3130352854.., is no fraction: it is there by two ends, and the moments are not."""
        book = decl.Book("agg Z 2 claims dsev [1000] poisson zt")
        told = str(self.raises(decl.NoMoments, book.moments))
        self.assertIn("unit Z has a poisson count", told)
        self.assertTrue(book.mean().low <= Fraction("2313.0352855") and Fraction("2313.0352854") <= book.mean().high)
        lines = dict(book.describe())
        self.assertNotIn("deviation", lines)
        self.assertEqual((lines["mean"], lines["no loss"].low), (book.mean(), 0))
        both = decl.Book("port P agg Z 2 claims dsev [1] poisson zt agg G 1 claims dsev [1] geometric zt")
        self.assertEqual((both.moments("G").mean, both.unit("G").mean().holds(2)), (2, True))
        self.raises(decl.NoMoments, both.moments)

    def test_a_common_factor(self):
        """The moments of the one unit that has the claims of both; each two units have the factor's variance times their means as
        covariance, and each unit alone is that of a mixed gamma count."""
        both = self.of(FACTOR)
        self.assertEqual(both, self.of("agg One 3 claims dsev [1000 3000 2000 5000] [1/6 1/6 1/3 1/3] mixed gamma 0.5"))
        one, two = self.of(FACTOR, "A"), self.of(FACTOR, "B")
        self.assertEqual(one, self.of("agg A 1 claims dsev [1000 3000] mixed gamma 0.5"))
        self.assertEqual((one[0], two[0], both[0]), (2000, 7000, 9000))
        self.assertEqual(both[1], one[1] + two[1] + 2 * Fraction(1, 4) * 2000 * 7000)
        # a shape that grows without end is no factor: with 1/10,000 in place of 1/4 little is left of it
        alone = self.of(FACTOR.replace(" common 0.5", ""))
        near = self.of(FACTOR.replace("0.5", "1/99"))
        self.assertEqual((near[0], near[1] - alone[1]), (9000, Fraction(9000**2, 9801)))

    def test_an_aggregate_clause(self):
        book = decl.Book(BOOK)
        self.assertIn("Liability", str(self.raises(decl.NoMoments, book.moments)))
        self.assertEqual(book.moments("Property").mean, 130)
        self.raises(KeyError, book.moments, "Nowhere")

    def test_the_examples(self):
        """The mean that the program proves holds the exact one, in each example without an aggregate clause."""
        seen = 0
        for path in sorted(ROOT.glob("examples/*.decl")) + sorted(ROOT.glob("examples/gallery/*.decl")):
            text = path.read_text()
            try:
                self.of(text)
            except decl.NoMoments:
                self.assertRegex(text, r"aggregate|poisson z[tm]\b")
            else:
                seen += 1
        self.assertGreater(seen, 5)


if __name__ == "__main__":
    main()
