"""A book between two programs on a coarser bucket: random books, each worked by the second opinion, apart from the client."""

import os
import random
import sys
from fractions import Fraction

from support import BOOK, ROOT, Case, decl, main

sys.path.insert(0, str(ROOT / "clients"))
import opinion  # noqa: E402

BOOKS = int(os.environ.get("BOOKS", "40"))
#: The second opinion counts in quarters of 1, up to 2,048.
PART, CELLS = 4, 8192


def treaty(rng, word, top, unlimited_shares):
    """Random layers of a clause that do not overlap."""
    cuts = sorted(rng.sample(range(1, top), rng.choice([2, 4])))
    layers = []
    for low, high in zip(cuts[::2], cuts[1::2]):
        limit = None if high == cuts[-1] and rng.random() < 0.3 else high - low
        share = Fraction(1) if rng.random() < 0.6 or (limit is None and not unlimited_shares) else Fraction(1, 2)
        spelled = {0: f"{share} so ", 1: f"{limit and share * limit} po ", 2: ""}[rng.choice([0, 1]) if share < 1 and limit else 0 if share < 1 else 2]
        layers.append(f"{spelled}{'inf' if limit is None else limit} xs {low}")
    return f"{word} {rng.choice(['net of', 'ceded to'])} {' and '.join(layers)}"


def severity(rng):
    """A random severity, and its greatest amount."""
    def atom():
        amounts = rng.sample(range(0, 25), rng.randint(1, 5))
        weights = [rng.randint(1, 6) for _ in amounts]
        return f"dsev {amounts} [{' '.join(f'{weight}/{sum(weights)}' for weight in weights)}]", max(amounts)

    (one, top), (other, more) = atom(), atom()
    return (one, top) if rng.random() < 0.7 else (f"{one} {other} wts [1/3 2/3]", max(top, more))


def exposure(rng):
    """A random number of claims: its text before and behind the severity."""
    kind = rng.choice(["listed", "fixed", "poisson", "mixed gamma 1/2", "binomial 1/2", "bernoulli", "loss", "premium"])
    if kind == "listed":
        return "dfreq [0 1 3] [1/4 1/4 1/2]", ""
    if kind in ("loss", "premium"):
        loss = Fraction(rng.randint(1, 40), 2)
        return f"{loss} loss" if kind == "loss" else f"{2 * loss} premium at 50% lr", "poisson"
    claims = {"fixed": rng.randint(0, 4), "binomial 1/2": "3/2", "bernoulli": "2/7"}.get(kind, Fraction(rng.randint(1, 8), 3))
    return f"{claims} claims", kind


def unit(rng, name):
    """A random unit."""
    (text, top), (front, behind) = severity(rng), exposure(rng)
    layer = kept = ""
    if rng.random() < 0.5:
        kept = "!" if rng.random() < 0.4 else ""
        layer = f"{'inf' if rng.random() < 0.3 else rng.randint(1, 20)} xs {rng.choice([0, *range(0, top)])}"
    occurrence = treaty(rng, "occurrence", 25, True) if rng.random() < 0.5 else ""
    aggregate = treaty(rng, "aggregate", 40, False) if rng.random() < 0.4 else ""
    return " ".join(word for word in (f"agg {name}", front, layer, text, kept, occurrence, behind, aggregate) if word)


def book(rng):
    """A random book, and what it declares; one that breaks a rule, as a loss of claims of 0, is drawn again."""
    text = unit(rng, "One") if rng.random() < 0.75 else f"port Two {unit(rng, 'One')} {unit(rng, 'Two')}"
    try:
        return text, opinion.Book(text, Fraction(1, PART), CELLS)
    except opinion.Fault:
        return book(rng)


class Random(Case):
    def holds(self, row, ends, told, part=PART):
        """The row meets the two ends of the second opinion, which counts in parts."""
        self.assertLessEqual(Fraction(row.low), Fraction(ends[1]) / part, (told, row))
        if row.high is not None:
            self.assertLessEqual(Fraction(ends[0]) / part, Fraction(row.high), (told, row))

    def test_random_books(self):
        """Each monotone answer lies between the two programs; at most a few books cannot be written so."""
        rng = random.Random(20261128)
        left, seen = 0, set()
        for number in range(BOOKS):
            text, own = book(rng)
            bs = rng.choice(["3", "4", "7", "5/2"])
            told = f"{number}: {text} on {bs}"
            try:
                between = decl.coarser(text, bs)
            except decl.NotBetween:
                left += 1
                continue
            self.holds(between.mean(), own.mean, told)
            for x in (0, 5, Fraction(17, 2), 30):
                ends = own.total.cdf(int(PART * x))
                self.holds(between.cdf(x), ends, told, 1)
                self.holds(between.sf(x), (1 - ends.high, 1 - ends.low), told, 1)
                self.holds(between.layer(8, x), own.total.layer_mean(8 * PART, int(PART * x)), told)
            self.holds(between.layer(None, 11), own.total.layer_mean(None, 11 * PART), told)
            for p in (Fraction("0.513"), Fraction("0.9137")):
                self.holds(between.q(p), own.total.bracket(p, CELLS), told)
                self.holds(between.tail(p), own.total.tail(p, CELLS), told)
            seen |= {word for word in ("loss", "premium", "!", "xs", "aggregate", "occurrence", "port") if f" {word} " in f" {text} "}
        self.assertLess(left, BOOKS / 8)
        self.assertEqual(len(seen), 7)


class Written(Case):
    """The two programs, by hand."""

    def programs(self, text, bs):
        between = decl.coarser(text, bs)
        return between.low, between.high

    def test_amounts(self):
        low, high = self.programs("agg A 4 claims dsev [17 230 1150] [0.5 0.3 0.2] poisson", 50)
        self.assertEqual(low, "agg A 4 claims dsev [0 200 1150] [0.5 0.3 0.2] poisson")
        self.assertEqual(high, "agg A 4 claims dsev [50 250 1150] [0.5 0.3 0.2] poisson")

    def test_final_amounts_are_rounded(self):
        """Above 3 lie 4 and 9, of which 1 and 6 are in the layer; half of what lies above 2 is ceded: 1 and 4."""
        low, high = self.programs("agg A dfreq [1] inf xs 3 dsev [1 4 9] occurrence net of 0.5 so inf xs 2", 3)
        self.assertEqual(low, "agg A dfreq [1] [1] dsev [0 3] [0.5 0.5]")
        self.assertEqual(high, "agg A dfreq [1] [1] dsev [3 6] [0.5 0.5]")

    def test_a_loss_keeps_its_number_of_claims(self):
        """9 over a mean of 7/2 is 18/7, whatever the amounts are rounded to."""
        for text in self.programs("agg A 9 loss dsev [1:6] poisson", 4):
            self.assertTrue(text.startswith("agg A 18/7 claims dsev ["), text)

    def test_a_number_of_claims_that_is_no_numeral(self):
        """A loss of 12,345,678.901 times 67.123457 percent over a mean of 100,000.2 / 3, rounded down and up by at most 1e-6; and
        9 claims in 99,999,999,977 times 12,345,678,901, which are 9 trials and cannot be rounded."""
        text = "agg A 12345678.901 premium at 67.123457% lr dsev [33333.1 1.7 66665.4] poisson"
        low, high = (each.split()[2] for each in self.programs(text, 1000))
        exact = Fraction("12345678.901") * Fraction("0.67123457") / (Fraction("100000.2") / 3)
        self.assertTrue(Fraction(low) < exact < Fraction(high) and Fraction(high) - Fraction(low) <= Fraction(1, 10**6), (low, high))
        fault = self.raises(decl.NotBetween, decl.coarser, "agg A 12345678901/99999999977 loss dsev [1/9] binomial 12345678901/99999999977", 1)
        self.assertIn("cannot be rounded", str(fault))

    def test_an_aggregate_clause_goes_outward(self):
        net = "agg A dfreq [3] dsev [10 20] aggregate net of 20 xs 30"
        self.assertEqual([text.split("aggregate ")[1] for text in self.programs(net, 4)], ["net of 20 xs 28", "net of 20 xs 32"])
        ceded = "agg A dfreq [3] dsev [10 20] aggregate ceded to 21 xs 30"
        self.assertEqual([text.split("aggregate ")[1] for text in self.programs(ceded, 4)], ["ceded to 20 xs 32", "ceded to 24 xs 28"])
        tower = "agg A dfreq [3] dsev [10 20] aggregate ceded to 10 xs 10 and inf xs 20"
        self.assertEqual([text.split("aggregate ")[1] for text in self.programs(tower, 4)], ["ceded to inf xs 12", "ceded to inf xs 8"])
        fits = "agg A dfreq [3] dsev [10 21] aggregate ceded to 1/2 so 20 xs 20"
        self.assertIn("ceded to 0.5 so 20 xs 20", self.programs(fits, Fraction(1, 2))[0])
        self.raises(decl.NotBetween, decl.coarser, "agg A dfreq [3] dsev [10 20] aggregate ceded to 0.3 so inf xs 7", 4)

    def test_many_amounts(self):
        """More than 1,024 amounts are several severities with weights, and nothing of their mean is lost."""
        first = "dsev [1:999:2] dsev [1000:1999] dsev [0:1998:2] wts [1/4 1/2 1/4]"
        between = decl.coarser(f"agg A dfreq [1] {first}", 1)
        self.assertIn(" wts [", between.low)
        self.assertEqual(between.low, between.high)
        mean = Fraction(500, 4) + Fraction(2999, 4) + Fraction(999, 4)
        self.assertTrue(between.mean().holds(mean))

    def test_amounts_past_every_bucket(self):
        """Amounts that no bucket of the program fits: 17.23 and five million, with a bucket of 5,000."""
        text = "agg A 2 claims dsev [17.23 5000000] [0.9 0.1] poisson"
        self.assertEqual(self.raises(decl.RuleFault, decl.bucket, text).rule, 8)
        between = decl.coarser(text, 5000)
        self.assertTrue(between.mean().holds(2 * (Fraction("17.23") * Fraction(9, 10) + 500000)))
        self.assertIn("two programs on buckets of 5000", repr(between))

    def test_rules_are_kept(self):
        """A text that breaks a rule is refused, also where one on its buckets would be told first."""
        far = "agg B dfreq [1] dsev [0.01 5000000] "
        rows = [("dsev [1 2] [1/3 1/3]", 6), ("dsev [1 2] [1]", 5), ("dsev [1] dsev [2] wts [1]", 9), ("2 xs 6 dsev [1:6]", 10)]
        rows += [("dsev [5:1]", 3), ("dsev [1:5000]", 4), ("dsev [1/0]", 2), ("dsev [123456789012]", 2)]
        rows += [("dsev [1] occurrence net of 3 xs 0 and 3 xs 2", 11), ("dsev [1] occurrence net of 1.5 so 2 xs 2", 12)]
        for rest, rule in rows:
            fault = self.raises(decl.RuleFault, decl.coarser, f"port P {far} agg D dfreq [1] {rest}", 10)
            self.assertEqual((fault.rule, fault.unit), (rule, 1), rest)
        self.assertEqual(self.raises(decl.RuleFault, decl.coarser, f"port P {far} agg Z 5 loss dsev [0] fixed", 10).rule, 14)
        self.assertEqual(self.raises(decl.RuleFault, decl.coarser, f"port P {far} {far}", 10).rule, 1)
        self.raises(decl.SyntaxFault, decl.coarser, "agg", 10)
        self.raises(ValueError, decl.coarser, BOOK, 0)

    def test_below_the_reach_of_the_high_program(self):
        """A claim of 5 to 6, or of 10 or more, of which the high program knows 10 alone: what depends on that has no high end."""
        two = decl.Between("agg A dfreq [1] dsev [5 10]", "agg A dfreq [1] dsev [6 10]", Fraction(1), reach=Fraction(10), log2=4)
        self.assertEqual([two.q(p).high for p in (0.4, 0.9)], [6, None])
        self.assertEqual((two.layer(5, 5).low, two.layer(5, 5).high, two.layer(6, 5).high), (Fraction(5, 2), 3, None))
        for row in (two.mean(), two.tail(0.4), two.price([(1, 0)]), two.layer(None, 5)):
            self.assertEqual((row.high, row.state), (None, "beyond"), row)
        for x, below, most in ((9, Fraction(1, 2), Fraction(1, 2)), (10, Fraction(1, 2), 1), (9.5, Fraction(1, 2), Fraction(1, 2))):
            self.assertEqual((two.cdf(x).low, two.cdf(x).high, two.sf(x).low, two.sf(x).high), (below, most, 1 - most, 1 - below), x)
        half = decl.Between(two.low, two.high, Fraction(1), reach=Fraction("9.5"), log2=4)
        self.assertEqual((half.layer(5, 5).high, half.layer(4, 5).high, half.q(0.4).high), (None, Fraction(5, 2), 6))

    def test_other_asks_are_not_held(self):
        between = decl.coarser(BOOK, 5)
        for word in ("pmf:10", "kappa:Motor:100", "joint:Motor:100", "cotail:Motor:0.9"):
            self.raises(decl.NotBetween, between.ask, word)
        self.assertEqual(between.return_periods([10]).columns, ("years", "VaR", "TVaR"))

    def test_prices_are_held(self):
        """Two dice of 7 to 42 by 7 on buckets of 5: a price is 7 times that of two dice, 163/18."""
        between = decl.coarser("agg D dfreq [2] dsev [7:42:7]", 5)
        row = between.price([(0.5, 0), (0.5, 0.9)])
        self.assertTrue(row.holds(Fraction(7 * 163, 18)) and row.high - row.low < 11, row)
        self.assertEqual(between.each(["price:0.5@0+0.5@0.9"]), [row])

    def test_named_severities(self):
        """Units that refer to one severity, of 1 to 6: rounded to 2 they are 0 to 6 and 2 to 6, and above 2 they are 1 to 4."""
        two = decl.coarser((ROOT / "examples" / "named.decl").read_text(), 2)
        self.assertEqual(two.low.splitlines()[0], "port Book")
        self.assertTrue(two.mean().low <= 2 * Fraction(9, 3) + 2 and two.mean().high == 8 + 3, two.mean())
        for text, rule in (("agg D dfreq [1] sev.A", 24), ("agg D dfreq [1] 5 xs 0 sev.A", 24), ("sev A dsev [1] sev A dsev [2] agg D dfreq [1] sev.A", 23)):
            self.assertEqual(self.raises(decl.RuleFault, decl.coarser, text, 2).rule, rule, text)

    def test_a_common_factor(self):
        """Both programs keep the factor: claims of 17 or 230 and of 100, on buckets of 50, and their mean of 2 * 123.5 + 300."""
        text = "port C common 50% agg A 2 claims dsev [17 230] poisson agg B 3 claims dsev [100] poisson"
        two = decl.coarser(text, 50)
        self.assertEqual(two.low, "port C common 1/2\nagg A 2 claims dsev [0 200] [0.5 0.5] poisson\nagg B 3 claims dsev [100] [1] poisson")
        self.assertTrue(two.mean().low <= 547 <= two.mean().high == 2 * 150 + 300, two.mean())
        exact = decl.Book(text)
        for p in ("0.5", "0.9", "0.99"):
            self.assertTrue(two.q(p).low <= exact.q(p).low and exact.q(p).high <= two.q(p).high, p)
            self.assertTrue(two.tail(p).low <= exact.tail(p).high and exact.tail(p).low <= two.tail(p).high, p)
        for number in ("1/0", "0.3", "0"):
            self.assertEqual(self.raises(decl.RuleFault, decl.coarser, text.replace("50%", number), 50).rule, 27, number)

    def test_a_changed_probability_of_no_claim(self):
        """It stays as it is, and a number of claims that is no numeral is rounded as ever."""
        between = decl.coarser("agg D 1 claims dsev [7] geometric zm 1/4", 5)
        self.assertEqual(between.low, "agg D 1 claims dsev [5] [1] mixed gamma 1 zm 0.25")
        # of mean 2 without 0, and so of 3/2 with it
        self.assertTrue(between.mean().holds(Fraction(21, 2)))
        fine = decl.coarser("agg L 1 loss dsev [3 4] poisson zt", 2)
        self.assertRegex(fine.low, r"agg L 2/7 claims .* poisson zt$")


if __name__ == "__main__":
    main()
