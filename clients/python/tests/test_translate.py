"""Programs of the package `aggregate`: how each is written here, worked by hand, or the place of what has no counterpart."""

import random
import warnings
from fractions import Fraction

from support import ROOT, Case, decl, main
from decl.plan import Clause, Layer, plan_of

CLAIMS = "agg A 2 claims dsev [1 2]"
#: What the package writes, and what it is here, each unit on a line of its own.
WRITTEN = [
    # towers: the layers between their numbers
    (
        "agg T dfreq [1] dsev [5 15 30] occurrence ceded to tower [0 10 20 40]",
        "agg T dfreq [1] dsev [5 15 30] occurrence ceded to 10 xs 0 and 10 xs 10 and 20 xs 20",
    ),
    (f"{CLAIMS} occurrence net of tower [1:3] poisson", f"{CLAIMS} occurrence net of 1 xs 1 and 1 xs 2 poisson"),
    (f"{CLAIMS} poisson aggregate ceded to tower [5 10 inf]", f"{CLAIMS} poisson aggregate ceded to 5 xs 5 and inf xs 10"),
    (
        f"{CLAIMS} occurrence net of 0.5 so 1 xs 0 and tower [1 2] poisson",
        f"{CLAIMS} occurrence net of 0.5 so 1 xs 0 and 1 xs 1 poisson",
    ),
    # limit profiles: a unit for each entry
    (
        "agg P [2 3] claims [10 20] xs 0 dsev [5 15 30] poisson",
        "port P\nagg P-1 2 claims 10 xs 0 dsev [5 15 30] poisson\nagg P-2 3 claims 20 xs 0 dsev [5 15 30] poisson",
    ),
    (
        "agg P 6 claims [5 inf] xs [0, 5] dsev [5 15] ! poisson note{two}",
        "port P\nagg P-1 6 claims 5 xs 0 dsev [5 15] ! poisson note{two}\nagg P-2 6 claims inf xs 5 dsev [5 15] ! poisson note{two}",
    ),
    (
        "port Q note{both} agg P [10:30:10] loss dsev [1] poisson agg D dfreq [1] dsev [2]",
        "port Q note{both}\nagg P-1 10 loss dsev [1] poisson\nagg P-2 20 loss dsev [1] poisson\nagg P-3 30 loss dsev [1] poisson\n"
        "agg D dfreq [1] dsev [2]",
    ),
    (
        "agg P [100 200] premium at [65% 0.7] lr dsev [1] poisson",
        "port P\nagg P-1 100 premium at 65% lr dsev [1] poisson\nagg P-2 200 premium at 0.7 lr dsev [1] poisson",
    ),
    # limit profiles whose entries share a count: one unit, with the amounts of each entry in its layer
    (
        "agg P [2 3] claims [10 20] xs 0 dsev [5 15 30] mixed gamma 0.5 note{n}",
        "agg P 5 claims dsev [5 10] [1/3 2/3] dsev [5 15 20] [1/3 1/3 1/3] wts [0.4 0.6] mixed gamma 0.5 note{n}",
    ),
    (
        "agg P [2 3] claims [10 20] xs [0 10] dsev [5 15 30] occurrence net of 5 xs 0 fixed",
        "agg P 5 claims dsev [5 10] [1/3 2/3] dsev [5 20] [0.5 0.5] wts [0.4 0.6] occurrence net of 5 xs 0 fixed",
    ),
    (
        "agg P [2 3] claims [10 20] xs [0 10] dsev [5 15 30] ! poisson aggregate net of tower [0 5 10]",
        "agg P 5 claims dsev [5 10] [1/3 2/3] dsev [0 5 20] [1/3 1/3 1/3] wts [0.4 0.6] poisson aggregate net of 5 xs 0 and 5 xs 5",
    ),
    (  # 10 of loss at 25/3 a claim, and 20 at 40/3, are 6/5 and 3/2 claims
        "port Q agg P [10 20] loss [10 20] xs 0 dsev [5 15 30] geometric",
        "port Q\nagg P 2.7 claims dsev [5 10] [1/3 2/3] dsev [5 15 20] [1/3 1/3 1/3] wts [4/9 5/9] geometric",
    ),
    ("agg P [2] claims [10] xs [0] dsev [5 15] fixed", "agg P 2 claims 10 xs 0 dsev [5 15] fixed"),
    # exponents, signs and arithmetic
    ("agg E 1e6 loss dsev [1e3 5E+3] poisson", "agg E 1000000 loss dsev [1000 5000] poisson"),
    ("agg E 2.5E-1 claims 1.5e3 xs +5 dsev [1e1 .5e2] poisson", "agg E 0.25 claims 1500 xs 5 dsev [10 50] poisson"),
    ("agg E 10 * 5 + 2 claims dsev [1] poisson", "agg E 52 claims dsev [1] poisson"),
    ("agg E 20 - 3 * (4 - 2) claims dsev [1] poisson", "agg E 14 claims dsev [1] poisson"),
    ("agg E 10 claims dsev [2**3 3^2 (1+2)*7 - -1:4/2*10] poisson", None),
    ("agg E 10 claims dsev [2**3 3^2 (1+2)*7 4/2*10:1e2:(5 + 5)] poisson", "agg E 10 claims dsev [8 9 21 20:100:10] poisson"),
    ("agg E 1 claim dsev [1 2 3] [1/ 3, 2/6 1/3,] fixed", "agg E 1 claims dsev [1 2 3] [1/3 2/6 1/3] fixed"),
    ("agg E 1 claim dsev [1 2] [2/6 4/6] fixed", "agg E 1 claims dsev [1 2] [2/6 4/6] fixed"),
    ("agg E 1 claim dsev [1 2] [1/3 1 - 1/3] fixed", None),
    ("agg E 1 claim dsev [1 2] [1/3 (1 - 1/3)] fixed", "agg E 1 claims dsev [1 2] [1/3 2/3] fixed"),
    ("agg E 100 prem at 50 % + 15% lr dsev [1] poisson", "agg E 100 premium at 0.65 lr dsev [1] poisson"),
    ("agg E 2**-1 claims dsev [0.250000000000] bernoulli", "agg E 0.5 claims dsev [0.25] bernoulli"),
    # claim counts, exposures at a rate, and listed severities that are scaled or shifted
    ("agg G 3 claims dsev [1] geometric", "agg G 3 claims dsev [1] geometric"),
    ("sev Die dsev [1:6] agg D dfreq [1] sev.Die", "sev Die dsev [1:6]\nagg D dfreq [1] sev.Die"),
    (
        "sev a.b dsev [1] dsev [2] wts [.5 .5] sev c sev 2 * dhistogram xps [1 2] [.5 .5] port P agg A 2 claims 1 xs 0 sev.a.b ! fixed",
        "sev a-b dsev [1] dsev [2] wts [.5 .5]\nsev c dsev [2 4] [.5 .5]\nport P\nagg A 2 claims 1 xs 0 sev.a-b ! fixed",
    ),
    (
        "sev S dsev [5 15 30] agg P [2 3] claims [10 20] xs 0 sev.S mixed gamma 0.5",
        "sev S dsev [5 15 30]\nagg P 5 claims dsev [5 10] [1/3 2/3] dsev [5 15 20] [1/3 1/3 1/3] wts [0.4 0.6] mixed gamma 0.5",
    ),
    ("agg G 3 claims dsev [1] mixed gamma 1/2 aggregate net of 5 xs 0", "agg G 3 claims dsev [1] mixed gamma 1/2 aggregate net of 5 xs 0"),
    ("agg Z 3 claims dsev [1] poisson zt aggregate net of 5 xs 0", "agg Z 3 claims dsev [1] poisson zt aggregate net of 5 xs 0"),
    ("agg Z 3 claims dsev [1] mixed gamma 1/2 zm 3e-1", "agg Z 3 claims dsev [1] mixed gamma 1/2 zm 0.3"),
    ("agg Z 3 claims dsev [1] binomial .5 zm 30%", "agg Z 3 claims dsev [1] binomial .5 zm 30%"),
    (
        "agg P [2 3] claims [10 20] xs 0 dsev [5 15 30] poisson zt",
        "agg P 5 claims dsev [5 10] [1/3 2/3] dsev [5 15 20] [1/3 1/3 1/3] wts [0.4 0.6] poisson zt",
    ),
    ("agg G 3 claims dsev [1] binomial 3/10", "agg G 3 claims dsev [1] binomial 3/10"),
    ("agg R 20 exposure at 1.5 rate dsev [1] poisson", "agg R 30 loss dsev [1] poisson"),
    (
        "agg R [20 10] exposure at 1.5 rate dsev [1] poisson",
        "port R\nagg R-1 30 loss dsev [1] poisson\nagg R-2 15 loss dsev [1] poisson",
    ),
    (
        "agg S dfreq [1] sev 10 * dhistogram xps [1 2 5:7] [.5 .2 .1 .1 .1] + 5",
        "agg S dfreq [1] dsev [15 25 55:75:10] [.5 .2 .1 .1 .1]",
    ),
    ("agg S dfreq [1] sev 1/2 * dhistogram xps [1:5:2] - 1/2 !", "agg S dfreq [1] dsev [0:2:1] !"),
    ("agg S dfreq [1] sev dhistogram xps [1 2:4] - 1", "agg S dfreq [1] dsev [0 1:3]"),
    ("agg M dfreq [1] dsev [1 2] dsev [3] wts=2", "agg M dfreq [1] dsev [1 2] dsev [3] wts [1/2 1/2]"),
    ("agg M dfreq [1] dsev [1 2] dsev [3] wts=[1/4 3/4]", "agg M dfreq [1] dsev [1 2] dsev [3] wts [1/4 3/4]"),
    # names, blanks and comments
    ("agg My.Unit:1 dfreq [1] dsev [1]", "agg My-Unit-1 dfreq [1] dsev [1]"),
    ("agg norm dfreq [1] dsev [1]", "agg norm_ dfreq [1] dsev [1]"),
    ("# a book\nport B // of one\n\tagg A dfreq [1] \\\n    dsev [1] ;", "port B\nagg A dfreq [1] dsev [1]"),
    ("agg U 2 claims unlimited xs 5 dsev [5 15], poisson", "agg U 2 claims inf xs 5 dsev [5 15] poisson"),
]
#: What is refused, with the column of its place in line 1, and words of the sentence.
REFUSED = [
    ("agg C 10 claims 500 xs 0 sev lognorm 50 cv 1.75 poisson", 30, "`lognorm` is continuous."),
    ("agg C 10 claims sev 50 * gamma 2 poisson", 26, "`gamma` is continuous."),
    ("agg C 10 claims sev [lognorm gamma] [5 6] cv 1 wts=2 poisson", 21, "A list of severities is continuous."),
    ("agg C 10 claims sev chistogram xps [1 2] [1] poisson", 21, "`chistogram` is continuous."),
    ("agg C tweedie 10 1 0.5", 7, "tweedie"),
    ("agg C 10 claims dsev [1] splice [0 5] poisson", 26, "A splice"),
    ("agg C 10 claims dsev [1] picks [0 5] [1 2] poisson", 26, "Picks change"),
    (f"{CLAIMS} poisson zm", 37, "A number"),
    (f"{CLAIMS} poisson zm inf", 38, "This number is finite"),
    (f"{CLAIMS} poisson zm 0.3 0.1", 42, "A second number"),
    (f"{CLAIMS} poisson zt zt", 38, "does not go on like this"),
    (f"{CLAIMS} pascal 2 3", 27, "The count pascal has no counterpart"),
    (f"{CLAIMS} logarithmic", 27, "The count logarithmic has no counterpart"),
    (f"{CLAIMS} mixed delaporte 0.3 0.1", 27, "only `mixed gamma`"),
    (f"{CLAIMS} mixed gamma 0.3 0.1", 43, "A second number"),
    (CLAIMS, 26, "The distribution of the number of claims"),
    ("agg D dfreq [1] dsev [1 2 3] [0.333 0.333 0.333]", 30, "these to 0.999"),
    ("agg D dfreq [1] dsev [1:3] [1/2 1/2]", 28, "This list has 2 values"),
    ("agg D dfreq [1] dsev [1 2] wts [1/2 1/2]", 32, "This list has 2 values"),
    ("agg D dfreq [1] dsev [1:65537]", 22, "at most 65,536 values"),
    ("agg D dfreq [1] dsev [1:99999999999]", 22, "at most 65,536 values"),
    ("agg D dfreq [1] dsev [3:1]", 22, "runs upward"),
    ("agg D dfreq [1] dsev [1:3:0]", 22, "a step above 0"),
    ("agg P [3:1] claims dsev [1] poisson", 8, "runs upward"),
    ("agg D dfreq [1] dsev [1] dsev [2] wts [1 1]", 39, "these to 2"),
    ("agg D dfreq [1] dsev [1] dsev [2]", 34, "have their weights behind them"),
    ("agg D dfreq [1] dsev [1] dsev [2] wts=3", 39, "There are 2 severities"),
    ("agg D dfreq [1] dsev [-1 2]", 23, "below 0"),
    ("agg D dfreq [1] dsev [1 -2]", 25, "below 0"),
    ("agg D dfreq [1] dsev [1 + 2]", 25, "in parentheses"),
    ("agg D dfreq [1] sev dhistogram xps [1 2] - 2", 37, "below 0"),
    ("agg D dfreq [1] dsev [0.333333333333]", 23, "at most 11 digits"),
    ("agg D 1e12 loss dsev [1] poisson", 7, "at most 11 digits"),
    ("agg D 1e999999999 loss dsev [1] poisson", 7, "at most 11 digits"),
    ("agg D 9**9**9 loss dsev [1] poisson", 8, "A power is whole"),
    ("agg D 4**(1/2) loss dsev [1] poisson", 8, "A power is whole"),
    ("agg D exp(2) loss dsev [1] poisson", 7, "gives no fraction"),
    ("agg D 1/(2-2) loss dsev [1] poisson", 8, "divides by 0"),
    ("agg D (1 + 2 loss dsev [1] poisson", 14, "`)` is expected"),
    ("agg D " + "(" * 60 + "1" + ")" * 60 + " loss dsev [1] poisson", 58, "too deep"),
    ("agg D 1,000 loss dsev [1] poisson", 8, "no comma in it"),
    ("agg D inf loss dsev [1] poisson", 7, "An exposure is finite"),
    ("agg D dfreq [1] dsev [1 inf]", 25, "are finite"),
    ("agg D dfreq [1] dsev []", 23, "at least one value"),
    ("agg D dfreq [1] tower [0 10 20] dsev [1]", 17, "behind the severity"),
    (f"{CLAIMS} occurrence net of tower [0 10 5] poisson", 57, "rise"),
    (f"{CLAIMS} occurrence net of tower [10] poisson", 51, "two numbers or more"),
    ("agg P dfreq [1] [1] [10 20] xs 0 dsev [1]", 5, "and no listed count"),
    ("port Q agg P [2 3] claims 20 xs 30 dsev [5 15 30] fixed", 8, "No claim can exceed the attachment"),
    ("agg P [2 3] loss dsev [0] geometric", 1, "cannot tell how many claims"),
    ("agg P [0 0] claims dsev [1] geometric", 1, "has no claims"),
    ("agg P [0.1:6.5:0.1] claims dsev [1] geometric", 1, "at most 64 entries"),
    ("agg P [1/99999999977 1/99999999947] claims dsev [1] geometric", 1, "a number that is too long"),
    ("agg P [2 3] claims [10 20 30] xs 0 dsev [1] poisson", 20, "the same number of entries"),
    ("agg P [2 3] claims [10 20] xs [0 1 2] dsev [1] poisson", 28, "the same number of entries"),
    ("agg P [1:257] claims dsev [1] poisson", 1, "at most 256 units"),
    ("port Q agg P-1 dfreq [1] dsev [1] agg P [1 2] claims dsev [1] poisson", 39, "the name P-1"),
    ("port Q agg A.B dfreq [1] dsev [1] agg A:B dfreq [1] dsev [1]", 39, "the name A-B"),
    ("agg A 10 claims sev.One poisson", 17, "a stored program"),
    ("port Q agg.A agg.B", 8, "a stored program"),
    ("agg.A", 1, "a stored program"),
    ("sev One dsev [1:6]", 1, "begins with `agg` or `port`"),
    ("distortion D wang 0.3", 1, "an ask can mix tail means"),
    ("agg A dfreq [1] dsev [1] agg B dfreq [1] dsev [1]", 26, "one program"),
    ("agg A dfreq [1] dsev [1] poisson", 26, "does not go on like this"),
    ("agg A dfreq [1] dsev [1] note{a{b}}", 26, "no braces"),
    ("agg A dfreq [1] dsev [1] $", 26, "begins here"),
    ("agg claims dfreq [1] dsev [1]", 5, "A name is expected"),
    ("", 1, "begins with `agg` or `port`"),
]


class Translations(Case):
    def test_what_is_written(self):
        for given, written in WRITTEN:
            if written is None:
                self.raises(decl.Untranslated, decl.translate, given)
            else:
                self.assertEqual(decl.translate(given), written + "\n", given)

    def test_what_is_written_is_in_the_one_spelling(self):
        for _, written in WRITTEN:
            if written is not None:
                self.assertEqual(decl.fmt(written), written + "\n")
                self.assertEqual(decl.translate(written), written + "\n")

    def test_what_is_written_keeps_the_rules(self):
        for _, written in WRITTEN:
            if written is not None:
                decl.check(written, bs=decl.bucket(written))

    def test_what_is_refused(self):
        for given, column, words in REFUSED:
            fault = self.raises(decl.Untranslated, decl.translate, given)
            self.assertEqual((fault.line, fault.column, fault.status), (1, column, None), given)
            self.assertIn(words, fault.reason, given)

    def test_what_needs_the_extended_rules(self):
        """It is written, keeps these rules, and is told once with its place; a book by these rules takes it."""
        many = "agg P [1:17] claims 5 xs 0 dsev [2 9] poisson"
        given = {
            "agg G 2 claims dsev [1:6] mixed gamma 0.3": (27, "`mixed gamma 0.3`, whose shape 1 / c^2 is not whole,"),
            "agg G 2 claims dsev [1:6] mixed gamma 1.25": (27, "`mixed gamma 1.25`"),
            "port C common 2/3 agg A 1 claims dsev [1] poisson": (15, "`common 2/3`, whose shape"),
            "agg D dfreq [1] dsev [1:1025]": (22, "A list of more than 1,024 values"),
            many: (1, "A portfolio of more than 16 units"),
            "agg G 2 claims dsev [1:6] mixed gamma 0.25": (None, None),
        }
        for text, (column, words) in given.items():
            with warnings.catch_warnings(record=True) as told:
                warnings.simplefilter("always")
                written = decl.translate(text)
            self.assertEqual(len(told), words is not None, text)
            for each in told:
                self.assertEqual((each.category, each.message.column, each.filename), (decl.DeclWarning, column, __file__))
                self.assertIn(f"{words}", str(each.message))
                self.assertIn('needs the extended rules: rules="extended"', str(each.message))
                self.raises(decl.RuleFault, decl.check, written)
            decl.check(written, rules="extended")
            if text == many:
                self.assertTrue(decl.Book(written, rules="extended", log2=6).mean().holds(17 * 9 * Fraction(7, 2)))

    def test_the_message_shows_the_place(self):
        given = "agg A note{\u00e9}\ndfreq [1]"
        self.assertEqual(self.raises(decl.Untranslated, decl.translate, given).column, 7)
        given = "# \u00e9\nport B note{\u00e9} agg C 10 claims sev weibull 2 poisson"
        fault = self.raises(decl.Untranslated, decl.translate, given)
        self.assertEqual((fault.line, fault.column), (2, 37))
        self.assertIn(f"2:37: not translated\n  {given[4:]}\n{' ' * 37}^\n`weibull` is continuous.", str(fault))

    def test_bytes_are_taken(self):
        self.assertEqual(decl.translate(b"agg A dfreq [1] dsev [1e1]"), "agg A dfreq [1] dsev [10]\n")
        self.raises(decl.NotText, decl.translate, b"agg \xff")


class Meanings(Case):
    def test_a_tower_is_the_layers_of_one_claim(self):
        (unit,) = plan_of(decl.translate("agg T dfreq [1] dsev [5 15 30] occurrence ceded to tower [0 10 20 40]")).units
        layers = (Layer(Fraction(10), Fraction(0)), Layer(Fraction(10), Fraction(10)), Layer(Fraction(20), Fraction(20)))
        self.assertEqual(unit.occurrence, Clause(False, layers))
        self.assertEqual(unit.of_a_claim(), {Fraction(x): Fraction(1, 3) for x in (5, 15, 30)})

    def test_numbers_with_arithmetic(self):
        (unit,) = plan_of(decl.translate("agg E 1.2e3 loss 2*10 xs 1e1 dsev [5 1.5e1 60/2 1e-1] [.25 25 % 1/4 2**-2] geometric")).units
        self.assertEqual((unit.loss, unit.shape), (1200, 1))
        self.assertEqual(unit.layer, Layer(Fraction(20), Fraction(10)))
        self.assertEqual(unit.amounts, {x: Fraction(1, 4) for x in map(Fraction, ("5", "15", "30", "1/10"))})
        self.assertEqual(unit.in_layer(), {Fraction(5): Fraction(1, 2), Fraction(20): Fraction(1, 2)})

    def test_a_limit_profile_is_one_poisson_count_over_all_policies(self):
        """Two claims limited to 10 and three to 20 are five, each of them limited to 10 with the probability 2/5."""
        profile = decl.translate("agg P [2 3] claims [10 20] xs 0 dsev [5 15 30] poisson")
        one = "agg P 5 claims dsev [5 10] [1/3 2/3] dsev [5 15 20] wts [2/5 3/5] poisson"
        asks = ["mean", "tail:0.99", *(f"cdf:{x}" for x in range(0, 256, 5))]
        for first, second in zip(decl.run(profile, asks, log2=8), decl.run(one, asks, log2=8)):
            self.assertLessEqual(max(first.low, second.low), min(first.high, second.high), first.ask)

    def test_a_limit_profile_of_one_count(self):
        """The mean of a profile is that of its entries: 2 claims of 25/3 and 3 of 40/3 in the mean; its variance with a gamma of
        variation 1/2 is 2 E[X^2 of the first] + 3 E[X^2 of the second] + the square of the mean over 4."""
        text = decl.translate("agg P [2 3] claims [10 20] xs 0 dsev [5 15 30] mixed gamma 0.5")
        moments = decl.Book(text).moments()
        mean = Fraction(2 * 25 + 3 * 40, 3)
        self.assertEqual(moments.mean, mean)
        self.assertEqual(moments.variance, Fraction(2 * (25 + 100 + 100) + 3 * (25 + 225 + 400), 3) + mean**2 / 4)

    def test_the_profile_of_the_examples(self):
        text = (ROOT / "examples" / "profile.decl").read_text(encoding="utf-8")
        given = "agg P [2 3] claims [10 20] xs 0 dsev [5 15 30] poisson"
        asks = ["mean", "q:0.9", "tail:0.9", "cdf:50"]
        self.assertEqual(str(decl.run(decl.translate(given), asks)), str(decl.run(text, asks)))


class Laws(Case):
    def test_a_program_of_this_language_is_its_own_translation(self):
        texts = [path.read_text(encoding="utf-8") for path in sorted(ROOT.glob("examples/**/*.decl"))]
        self.assertGreater(len(texts), 10)
        for text in texts + [decl.made(number) for number in range(100)]:
            self.assertEqual(decl.translate(text), decl.fmt(text))

    def test_a_common_factor_is_kept(self):
        text = "port P common 50% note{one}\nagg A 1 claims dsev [1] poisson\nagg B 2 claims dsev [2] poisson\n"
        self.assertEqual(decl.translate(text), text)
        for number in ("0", "inf", "-1/2", "x"):
            self.raises(decl.Untranslated, decl.translate, text.replace("50%", number))

    def test_any_text_is_refused_or_written_in_the_one_spelling(self):
        """Programs with a few words dropped, put in or put in another's place."""
        chance = random.Random(51)
        words = [*" ".join(given for given, _ in WRITTEN).split(), "inf", "-5", "0", "exp", "note{", "//", "\u00e9", "1e99"]
        written = 0
        for _ in range(1500):
            text = chance.choice(WRITTEN)[0].split(" ")
            for _ in range(chance.randint(1, 2)):
                at = chance.randrange(len(text))
                text[at : at + chance.randint(0, 1)] = chance.choices(words, k=chance.randint(0, 1))
                text = text or ["agg"]
            try:
                found = decl.translate(" ".join(text))
            except decl.Untranslated:
                continue
            written += 1
            if written % 5 == 0:
                self.assertEqual(decl.fmt(found), found)
        self.assertGreater(written, 100)


if __name__ == "__main__":
    main()
