"""Continuous severities between two programs: random books, each worked apart from the client by numeric integration or by series.

`BOOKS=500` in the environment takes so many random books of each kind in place of a few.
"""

import math
import os
import random
from fractions import Fraction

from support import Case, decl, main

from decl.continuous import Grid, source_of
from decl.plan import plan_of
from decl.pooled import Pool
from decl.severities import CONTINUOUS, severity_of

BOOKS = int(os.environ.get("BOOKS", "20"))
#: What floats are wrong at most, here.
FLOATS = 1e-9
#: What the rule of trapezoids is wrong at most in a mean, and so in an expected number of claims.
NUMERIC = 1e-5
#: Into so many parts an integral is cut.
CUTS = 300


def normal(z):
    """The normal distribution function."""
    return 0.5 * math.erfc(-z / math.sqrt(2))


def gamma_below(a, x):
    """The distribution function of a gamma variable of scale 1, by its series, or by the continued fraction where x is large."""
    if x <= 0:
        return 0.0
    front = math.exp(a * math.log(x) - x - math.lgamma(a))
    if x < a + 5:
        total = term = 1 / a
        n = a
        while term > total * 1e-17:
            n += 1
            term *= x / n
            total += term
        return front * total
    value = x + 1 - a + 2 * 200
    for n in range(200, 0, -1):
        value = x + 2 * n - 1 - a - n * (n - a) / value
    return 1 - front / value


class Smooth:
    """A continuous severity by floats: its text, and its distribution function."""

    def __init__(self, rng):
        mean, cv = rng.choice([4, 7.5, 12]), rng.choice([0.5, 1, 1.75])
        shape = rng.choice([0.7, 1.5, 3])
        variance = math.log1p(cv * cv)
        kinds = {
            "cv": (f"lognorm {mean} cv {cv}", lambda x: normal((math.log(x / mean) + variance / 2) / math.sqrt(variance))),
            "lognorm": (f"{mean} * lognorm {shape}", lambda x: normal(math.log(x / mean) / shape)),
            "gamma": (f"gamma {mean} cv {cv}", lambda x: gamma_below(1 / cv**2, x / mean / cv**2)),
            "shape": (f"{mean} * gamma {shape} + 1.5", lambda x: gamma_below(shape, (x - 1.5) / mean) if x > 1.5 else 0.0),
            "expon": (f"{mean} * expon", lambda x: -math.expm1(-x / mean)),
            "weibull": (f"{mean} * weibull {shape}", lambda x: -math.expm1(-((x / mean) ** shape))),
            "pareto": (f"{mean} * pareto {shape} - {mean}", lambda x: 1 - (1 + x / mean) ** -shape),
            "above": (f"{mean} * pareto {shape}", lambda x: 1 - (x / mean) ** -shape if x > mean else 0.0),
        }
        self.kind = rng.choice([*kinds])
        self.text, self.function = kinds[self.kind]
        self.text = f"sev {self.text}"

    def at_most(self, x):
        return self.function(x) if x > 0 else 0.0

    def in_layer(self, low, limit):
        """The mean of what lies in a layer."""
        step = limit / 4000
        over = [1 - self.at_most(low + step * n) for n in range(4001)]
        return step * (sum(over) - (over[0] + over[-1]) / 2)


class Listed:
    """A listed severity."""

    def __init__(self, rng):
        self.kind = "listed"
        self.amounts = rng.sample([0, 1.25, 3, 8.6, 20, 33.3], 3)
        self.text = f"dsev {self.amounts} [1/4 1/4 1/2]"

    def at_most(self, x):
        return sum(part for amount, part in zip(self.amounts, (0.25, 0.25, 0.5)) if amount <= x)

    def in_layer(self, low, limit):
        """The mean of what lies in a layer."""
        return sum(part * min(max(amount - low, 0), limit) for amount, part in zip(self.amounts, (0.25, 0.25, 0.5)))


def taken(x, parts, net):
    """What a clause makes of an amount."""
    ceded = sum(share * min(max(x - low, 0), limit) for share, limit, low in parts)
    return x - ceded if net else ceded


def clause(rng, word, top):
    """A random clause: its text, and what it makes of an amount."""
    net, share, cut = rng.random() < 0.5, rng.choice([1, 0.5, 0.25]), rng.randint(1, top)
    parts = [(share, rng.choice([2, 5.5, 9]), 0), (1, rng.choice([3, 8, math.inf]), 9 + cut)]
    told = " and ".join(f"{share} so {limit} xs {low}" for share, limit, low in parts)
    return f"{word} {'net of' if net else 'ceded to'} {told}", lambda x: taken(x, parts, net)


class Amounts:
    """The final amount of a claim: `at_most` is its distribution function, worked at 4,000 amounts before the layer."""

    def __init__(self, rng):
        atoms = [Smooth(rng)] if rng.random() < 0.6 else [Smooth(rng), rng.choice([Smooth, Listed])(rng)]
        weights = [1.0] if len(atoms) == 1 else [0.25, 0.75]
        self.kinds = [atom.kind for atom in atoms]
        self.atoms = [*zip(weights, atoms)]
        self.raw = lambda x: sum(weight * atom.at_most(x) for weight, atom in self.atoms)
        self.limit, self.low, self.kept = math.inf, 0.0, ""
        layer = ""
        if rng.random() < 0.75:
            self.limit, self.low = rng.choice([20, 31, math.inf]), rng.choice([0, 2, 5.25])
            self.kept = "!" if rng.random() < 0.4 else ""
            layer = f"{self.limit} xs {self.low}"
        self.clause_text, self.clause = clause(rng, "occurrence", 6) if rng.random() < 0.4 else ("", lambda x: x)
        texts = [atom.text.replace(",", "") for atom in atoms]
        self.text = " ".join(filter(None, [layer, *texts, "wts [1/4 3/4]" if len(atoms) > 1 else "", self.kept, self.clause_text]))
        self.conditional = bool(self.low and not self.kept)
        self.exceeding = 1 - self.raw(self.low) if self.conditional else 1.0

    def outcome(self, x):
        return self.clause(min(max(x - self.low, 0.0), self.limit))

    def inverse(self, y):
        """The greatest amount whose outcome is at most y; infinite where all are."""
        low, high = 0.0, 1e7
        if self.outcome(high) <= y:
            return math.inf
        for _ in range(70):
            middle = (low + high) / 2
            low, high = (middle, high) if self.outcome(middle) <= y else (low, middle)
        return low

    def before(self, x):
        """The probability of at most x before the layer, where it is conditioned."""
        if x == math.inf:
            return 1.0
        if self.conditional:
            return max(0.0, self.raw(x) - self.raw(self.low)) / self.exceeding
        return self.raw(x)

    def at_most(self, y):
        return self.before(self.inverse(y)) if y >= 0 else 0.0

    def layer_mean(self):
        """The mean in the layer before the occurrence clause, which has a limit: up to NUMERIC, by the rule of trapezoids."""
        return sum(weight * atom.in_layer(self.low, self.limit) for weight, atom in self.atoms) / self.exceeding


class Two:
    """The total of at most two claims, behind an aggregate clause: ends of its distribution function by sums over the first claim."""

    def __init__(self, claim, counts, after, slack):
        self.claim, self.counts, self.after, self.slack = claim, counts, after, slack
        top = next(x for x in (2.0**n for n in range(60)) if claim.raw(x) > 1 - 1e-7)
        cuts = sorted({0.0, claim.low, *(claim.low + top * (n / CUTS) ** 3 for n in range(CUTS + 1))})
        self.cuts = [(claim.outcome(x), claim.before(x)) for x in cuts]
        self.known = {}

    def single(self, y):
        if y not in self.known:
            self.known[y] = self.claim.at_most(y)
        return self.known[y]

    def ends(self, y):
        """Two ends of the probability of a total of at most y."""
        low, high = 0.0, 1e7
        if self.after(high) <= y:
            return 1.0, 1.0
        for _ in range(60):
            middle = (low + high) / 2
            low, high = (middle, high) if self.after(middle) <= y else (low, middle)
        return self.sum_ends(low + 1e-9 if low > 1e-6 else low)  # an atom there is counted

    def sum_ends(self, s):
        none, one, two = self.counts
        first, last = [self.single(s - outcome) for outcome, _ in self.cuts], [chance for _, chance in self.cuts]
        steps = [last[0], *(after - before for before, after in zip(last, last[1:]))]
        least = sum(step * value for step, value in zip(steps, first))
        most = steps[0] * first[0] + sum(step * value for step, value in zip(steps[1:], first)) + (1 - last[-1]) * first[-1]
        once = self.single(s)
        return none + one * once + two * least - self.slack, none + one * once + two * most + self.slack


class Erlang:
    """A compound of gamma severities of a whole shape, some of them 0, with a Poisson or a negative binomial count, in series."""

    def __init__(self, weights, shape, scale, added):
        self.weights, self.shape, self.scale, self.added = weights, shape, scale, added

    def ends(self, y):
        found = 0.0
        for chance, amount in self.added:
            left = (y - amount) / self.scale
            if left < 0:
                continue
            term, within, needed = math.exp(-left), [], len(self.weights) * self.shape
            whole = 0.0
            for k in range(needed):
                within.append(whole)  # the probability of fewer than k events
                whole += term
                term *= left / (k + 1)
            found += chance * sum(part * (1 - (within[n * self.shape] if n else 0.0)) for n, part in enumerate(self.weights))
        return found - FLOATS, found + FLOATS


def counts_of(mean, gamma):
    """The probabilities of 0, 1, .. claims of a Poisson count, or of a negative binomial one of shape 4."""
    found = [math.exp(-mean) if not gamma else (1 + mean / 4) ** -4.0]
    while len(found) < 10 or found[-1] > 1e-14:
        n = len(found)
        found.append(found[-1] * (mean / n if not gamma else (3 + n) / n * mean / (4 + mean)))
    return found


class Random(Case):
    def holds(self, between, total, told, points):
        """The two programs hold the total: its distribution function, layers up to a limit, and quantiles."""
        for y in points:
            low, high = total.ends(float(y))
            row, above = between.cdf(y), between.sf(y)
            self.assertTrue(row.low <= high and low <= row.high, (told, str(row), low, high))
            self.assertTrue(above.low <= 1 - low and 1 - high <= above.high, (told, str(above), low, high))
        for p in ("0.6", "0.9"):
            row = between.q(p)
            self.assertLessEqual(total.ends(float(row.low) - 1e-6)[0] if row.low else 0, float(p), (told, str(row)))
            if row.high is not None:
                self.assertGreaterEqual(total.ends(float(row.high) + 1e-6)[1], float(p), (told, str(row)))
        for limit, attachment in ((6, 3), (12, 10)):
            over = [[1 - end for end in total.ends(attachment + limit * n / 12)] for n in range(13)]
            least = sum(ends[1] for ends in over[1:]) * limit / 12
            most = sum(ends[0] for ends in over[:-1]) * limit / 12
            row = between.layer(limit, attachment)
            self.assertTrue(row.low <= most and (row.high is None or least <= row.high), (told, str(row), least, most))

    def test_two_claims(self):
        """Books of at most two claims: each severity, mixtures, layers with and without `!`, clauses, losses and premiums."""
        rng = random.Random(17)
        seen, written = set(), 0
        for number in range(BOOKS):
            claim = Amounts(rng)
            text, after = clause(rng, "aggregate", 20) if rng.random() < 0.4 else ("", lambda x: x)
            kind = rng.choice(["listed", "fixed", "binomial", "bernoulli", "loss", "premium"])
            if kind in ("loss", "premium"):
                kind = kind if claim.limit < math.inf else "fixed"
            front, behind, counts = {
                "listed": ("dfreq [0 1 2] [1/2 1/4 1/4]", "", (0.5, 0.25, 0.25)),
                "fixed": ("2 claims", "fixed", (0.0, 0.0, 1.0)),
                "binomial": ("1/2 claims", "binomial 1/4", (9 / 16, 6 / 16, 1 / 16)),
                "bernoulli": ("2/3 claims", "bernoulli", (1 / 3, 2 / 3, 0.0)),
            }.get(kind, ("", "bernoulli", None))
            if counts is None:
                mean = claim.layer_mean()
                loss = round(mean / 3, 4)
                expected = loss / mean
                front = f"{loss} loss" if kind == "loss" else f"{2 * loss:.4f} premium at 50% lr"
                counts = (1 - expected, expected, 0.0)
            program = " ".join(filter(None, ["agg One", front, claim.text, behind, text]))
            told = f"{number}: {program}"
            bs = rng.choice(["1", "1/2", "2"])
            try:
                between = decl.between(program, bs, log2=8)
            except decl.NotBetween as fault:
                self.assertRegex(str(fault), "its aggregate clause|a share of a layer", told)
                continue
            written += 1
            seen |= {*claim.kinds, kind, claim.kept or "xs" * (claim.low > 0), claim.clause_text[:10], text[:9]}
            slack = NUMERIC if kind in ("loss", "premium") else FLOATS
            self.holds(between, Two(claim, counts, after, slack), told, (0, 2, 4.25, 9, 17, 30))
        self.assertGreater(written, BOOKS * 3 / 4)
        if BOOKS >= 100:
            self.assertLessEqual({"cv", "lognorm", "gamma", "shape", "expon", "weibull", "pareto", "above", "listed"}, seen)
            self.assertLessEqual({"fixed", "binomial", "bernoulli", "loss", "premium", "!", "xs", "occurrence", "aggregate"}, seen)

    def test_units_under_a_factor(self):
        """Exponential claims of several units, with claims, losses or premiums: together they are as many as one unit with `mixed gamma` has."""
        rng = random.Random(29)
        for number in range(BOOKS):
            scale, whole, units = rng.choice([3, 5, 8]), 0.0, []
            for name in "ABCD"[: rng.randint(2, 4)]:
                claims = Fraction(rng.randint(1, 3000), rng.choice([1000, 700]))
                low = rng.choice([0, 0, 2.5])
                front = rng.choice([f"{claims} claims", f"{claims * scale} loss", f"{claims * scale * 2} premium at 50% lr"])
                units.append(f"agg {name} {front} {f'inf xs {low}' if low else ''} sev {scale} * expon poisson")
                whole += float(claims)
            program = f"port P common 1/2 {' '.join(' '.join(units).split())}"
            between = decl.between(program, rng.choice(["1", "1/2"]), log2=8)
            total = Erlang(counts_of(whole, True), 1, scale, [(1.0, 0.0)])
            self.holds(between, total, f"{number}: {program}", (0, 1, 2.5, 8, 20, 45))

    def test_many_claims(self):
        """Poisson and mixed gamma counts of exponential claims above an attachment and of gamma ones, with claims, a loss or a
        premium, alone and beside a listed unit."""
        rng = random.Random(23)
        for number in range(BOOKS):
            gamma, scale, shape = rng.random() < 0.5, rng.choice([3, 5, 8]), rng.choice([1, 1, 2, 4])
            low = rng.choice([0, 2, 4.5]) if shape == 1 else 0
            kept = low and rng.random() < 0.5
            spelled = {1: [f"{scale} * expon", f"gamma {scale} cv 1", f"{scale} * weibull 1"], 4: [f"gamma {4 * scale} cv 0.5"]}
            text = rng.choice(spelled.get(shape, [f"{scale} * gamma {shape}"]))
            passing = math.exp(-low / scale) if kept else 1.0
            expected = rng.choice([0.5, 1.5, 3])
            front = f"{expected} claims"
            if rng.random() < 0.6:
                loss = rng.choice([4, 7.5, 20])
                front = rng.choice([f"{loss} loss", f"{4 * loss} premium at 1/4 lr"])
                expected = loss / (scale * shape * passing)
            layer = f"inf xs {low}" if low or rng.random() < 0.3 else ""
            unit = f"{front} {layer} sev {text} {'!' if kept else ''} {'mixed gamma 1/2' if gamma else 'poisson'}"
            added, head, tail = [(1.0, 0.0)], "", ""
            if rng.random() < 0.4:
                added, head, tail = [(0.75, 0.0), (0.25, 7.3)], "port P ", " agg Two dfreq [0 1] [3/4 1/4] dsev [7.3]"
            program = " ".join(f"{head}agg One {unit}{tail}".split())
            between = decl.between(program, rng.choice(["1", "1/2"]), log2=8)
            total = Erlang(counts_of(expected * passing, gamma), shape, scale, added)
            self.holds(between, total, f"{number}: {program}", (0, 1, 6.5, 15, 40))
            mean = expected * passing * shape * scale + sum(chance * amount for chance, amount in added)
            row = between.mean()
            self.assertTrue(row.low <= mean + 1e-6 and row.high is None, (program, str(row), mean))
            self.assertGreater(row.low, mean - 2 * expected * passing - 2, program)


class Severities(Case):
    """Distribution functions and limited means of each severity, against floats."""

    def severity(self, text):
        return severity_of(CONTINUOUS.fullmatch(text))

    def test_distribution_functions(self):
        rng = random.Random(5)
        for _ in range(60):
            smooth = Smooth(rng)
            severity = self.severity(smooth.text)
            for x in (Fraction(1, 100), 1, Fraction(5, 3), 8, 21, 400):
                found = severity.at_most(Fraction(x))
                self.assertLess(abs(float(found.lower) - smooth.at_most(float(x))), 1e-12, (smooth.text, x))
                self.assertLess(found.upper - found.lower, Fraction(1, 10**25))

    def test_limited_means(self):
        """The mean of the lesser one of an amount and x is the integral of the probability above, by sums from above and below."""
        rng = random.Random(6)
        for _ in range(40):
            smooth = Smooth(rng)
            severity = self.severity(smooth.text)
            for x in (1, 10, 60):
                over = [1 - smooth.at_most(x * n / 2000) for n in range(2001)]
                found = severity.limited(Fraction(x))
                told = (smooth.text, x, float(found.lower))
                self.assertTrue(sum(over[1:]) * x / 2000 - 1e-9 <= found.lower, told)
                self.assertTrue(found.upper <= sum(over[:-1]) * x / 2000 + 1e-9, told)
                self.assertLess(found.upper - found.lower, Fraction(1, 10**20))

    def test_limited_means_of_a_wide_lognormal(self):
        """Its mean is above e**72, and the limited ones are at most their limits, and between sums from above and below."""
        for sigma in (12, 15, 20):
            severity = self.severity(f"sev lognorm {sigma}")
            for x in (1, 100, 10**6):
                cuts = [x * math.exp(-n / 50) for n in range(2001)]
                over = [normal(-math.log(cut) / sigma) for cut in cuts]
                steps = [above - below for above, below in zip(cuts, cuts[1:])]
                found = severity.limited(Fraction(x))
                told = (sigma, x, float(found.lower), float(found.upper))
                self.assertLessEqual(found.upper, x, told)
                self.assertLessEqual(sum(step * part for step, part in zip(steps, over)), found.upper, told)
                self.assertLessEqual(found.lower, sum(step * part for step, part in zip(steps, over[1:])) + cuts[-1], told)
                self.assertLess(found.upper - found.lower, found.upper / 100, told)
        # hardly ever below 10**15, and its probability below 20 is known to 2**-90
        self.assertTrue(Fraction(19) < self.severity("sev 1e15 * gamma 100").limited(Fraction(20)).upper <= 20)

    def test_the_mean_in_a_layer_is_at_most_its_limit(self):
        """So a loss is at least as many claims as it has limits."""
        for smooth in ("lognorm 14", "lognorm 20", "5 * pareto 0.01 - 5", "1e9 * expon"):
            two = decl.between(f"agg L 5 loss 20 xs 3 sev {smooth} poisson", 1, log2=6)
            low, high = (Fraction(text.split()[2]) for text in (two.low, two.high))
            self.assertTrue(Fraction(1, 4) <= low <= high, (smooth, low, high))

    def test_means(self):
        worked = [("sev lognorm 50 cv 1.75", 50), ("sev gamma 50 cv 0.3", 50), ("sev 50 * expon", 50), ("sev 3 * gamma 2.5 + 1", 8.5)]
        worked += [("sev 100 * pareto 3 - 100", 50), ("sev 10 * pareto 3", 15), ("sev 2 * weibull 1/2", 4), ("sev 1e1 * expon", 10)]
        worked += [("sev 2 * lognorm 1", 2 * math.exp(0.5)), ("sev 2 * weibull 2", math.sqrt(math.pi)), ("sev 50% * expon", 0.5)]
        for text, mean in worked:
            found = self.severity(text).mean()
            self.assertLess(abs(float(found.lower) - mean), 1e-12 * mean, text)
            self.assertLess(found.upper - found.lower, Fraction(1, 10**20), text)
        self.assertIsNone(self.severity("sev pareto 1").mean())


class Written(Case):
    """What comes of a text, by hand."""

    def test_exponential_claims(self):
        """On buckets of 1 an exponential claim of mean 1/log 2, nearly, is below 1 with half the probability."""
        between = decl.between("agg E dfreq [1] 3 xs 0 sev 1.4426950408 * expon", 1)
        low = {1: "0.500000000", 2: "0.75", 3: "0.875"}
        reached = Fraction(0)
        amounts, chances = (word.split() for word in between.low.split("dsev [")[1].replace("]", "").split(" ["))
        for amount, chance in zip(amounts, chances):
            reached += Fraction(chance)
            if int(amount) < 3:
                self.assertLess(abs(reached - Fraction(low[int(amount) + 1])), Fraction(2, 10**6))
        self.assertEqual((amounts, reached), (["0", "1", "2", "3"], 1))
        self.assertTrue(between.high.startswith("agg E dfreq [1] [1] dsev [1 2 3] [0."))
        self.assertIsNone(between.reach)

    def test_a_loss_is_rounded_outward(self):
        """9 over the mean of an exponential variable of mean 7, at most 20, is no numeral."""
        between = decl.between("agg E 9 loss 20 xs 0 sev 7 * expon poisson", 1)
        low, high = (Fraction(text.split()[2]) for text in (between.low, between.high))
        claims = 9 / (7 * (1 - math.exp(-20 / 7)))
        self.assertTrue(low < claims < high and high - low <= Fraction(1, 10**6), (low, high))

    def test_no_limit(self):
        """Claims past the grid have a place, and what depends on them has no high end."""
        between = decl.between("agg E 2 claims sev 10 * expon poisson", 1, log2=6)
        for row in (between.mean(), between.tail("0.5"), between.layer(None, 5), between.q("0.999999")):
            self.assertEqual((row.high, row.state), (None, "beyond"))
        for row in (between.q("0.9"), between.layer(20, 10), between.cdf(50), between.sf(50)):
            self.assertIsNotNone(row.high, str(row))
        self.assertEqual(between.cdf(10**9).high, 1)
        self.assertEqual(between.reach, 2**20)

    def test_a_limit_of_the_sum(self):
        """An aggregate clause that ends below the grid makes all ends finite."""
        between = decl.between("agg E 2 claims sev 10 * expon poisson aggregate ceded to 30 xs 10", 1, log2=6)
        self.assertIsNone(between.reach)
        mean = sum(
            (1 - Erlang(counts_of(2, False), 1, 10, [(1.0, 0.0)]).ends(10 + n / 10)[0]) / 10 for n in range(300)
        )
        row = between.mean()
        self.assertTrue(row.low <= mean and mean - 0.1 <= row.high, (str(row), mean))

    def test_a_bucket_is_chosen(self):
        between = decl.between("agg E 2 claims 30 xs 0 sev 10 * expon poisson")
        self.assertIn(between.bs, (Fraction(1, 50), Fraction(1, 20)))
        self.assertTrue(between.mean().holds(20 * (1 - math.exp(-3))))

    def test_places_and_aside(self):
        """A severity in a note or a comment is none; faults have their places in the text that was given."""
        text = "agg E 1 claims # sev lognorm 1\n30 xs 0 sev 10 * expon poisson note{sev 5 * expon}"
        self.assertIn("agg E 1 claims dsev", decl.between(text, 5).low)
        fault = self.raises(decl.SyntaxFault, decl.between, "agg E 1 claims\nsev lognorm 50 cv 1.75 poison", 1)
        self.assertEqual((fault.line, fault.column), (2, 24))
        self.assertIn("sev lognorm 50 cv 1.75 poison\n", str(fault))
        fault = self.raises(decl.ContinuousSeverity, decl.between, "agg E 1 claims sev norm 50 cv 1 poisson", 1)
        self.assertEqual((fault.word, fault.column), ("norm", 20))
        self.assertEqual(self.raises(decl.RuleFault, decl.between, "agg E dfreq [1] 0 xs 5 sev expon aggregate net of 2 so 1 xs 0", 1).rule, 12)
        self.assertEqual(self.raises(decl.RuleFault, decl.between, "agg E 5 loss 0 xs 5 sev expon poisson", 1).rule, 14)

    def test_a_common_factor(self):
        """Two exponential units, of 2 and 3 of 5 expected claims: probabilities are parts of 10^8, so that the units can be pooled. The mean
        and the probability of no loss above 0, (4/9)^4, lie between."""
        text = "port C common 0.5 agg A 2 claims 400 xs 0 sev 100 * expon poisson agg B 3 claims 400 xs 0 sev 100 * expon poisson"
        two = decl.between(text, 20)
        for side in (two.low, two.high):
            self.assertEqual(side.splitlines()[0], "port C common 1/2")
            self.assertEqual(plan_of(side).units[0].claims, 2)
            self.assertEqual(max(part.denominator for unit in plan_of(side).units for part in unit.amounts.values()), 10**8)
        mean = 500 * (1 - math.exp(-4))
        self.assertTrue(two.mean().low < mean < two.mean().high and two.mean().high - two.mean().low < 101, two.mean())
        self.assertTrue(two.cdf(0).low <= Fraction(4, 9) ** 4 <= two.cdf(0).high, two.cdf(0))

    def test_numbers_of_claims_under_a_factor(self):
        """Shares of 4.401 claims are too fine to be pooled: each unit has 5 claims, of which some are 0. Losses are worth what they say."""
        claims = "agg A 1.73 claims 400 xs 0 sev 100 * expon poisson agg B 2.3 claims sev 100 * expon poisson agg D 0.371 claims dsev [17] poisson"
        two = decl.between(f"port C common 0.5 {claims}", 20)
        for side in (two.low, two.high):
            self.assertEqual([unit.claims for unit in plan_of(side).units], [5, 5, 5])
        none = float((1 + Fraction("4.401") / 4) ** -4)
        self.assertTrue(none - 1e-5 < two.cdf(0).low <= none <= two.cdf(0).high, two.cdf(0))
        losses = "agg A 500 loss 400 xs 0 sev lognorm 50 cv 1.75 poisson agg B 1000 premium at 70% lr 900 xs 10 sev 80 * expon poisson"
        two = decl.between(f"port C common 0.1 {losses} agg D 80 loss dsev [17 230] [2/3 1/3] poisson", 20)
        self.assertTrue(1280 - 500 < two.mean().low < 1280 < two.mean().high < 1280 + 500, two.mean())

    def test_a_number_of_claims_between_two_ends(self):
        """That of a loss of wide claims is known to a part in a thousand: in the high program it is the greater one, and no amount is 0."""
        text = "port C common 0.5 agg A 5 loss 100 xs 0 sev lognorm 12 poisson agg B 3 claims dsev [7] poisson"
        low, high = source_of(text, "standard", None).units[0].expected_claims()
        unit = plan_of(decl.between(text, 1, log2=6).high).units[0]
        self.assertTrue(low + Fraction(1, 10**5) < high <= unit.claims * (1 - unit.amounts[Fraction(0)]) < high + Fraction(1, 10**6))

    def test_probabilities_in_parts(self):
        """Thirds in tenths, for a unit that keeps its claims and for one of 1 claim that is written with 2: half of them are 0."""
        claim, tenth = {Fraction(5): Fraction(1, 3), Fraction(7): Fraction(2, 3)}, Fraction(1, 10)
        self.assertEqual(Pool(None, 10, 10).written(claim, Fraction(1), False), {5: 4 * tenth, 7: 6 * tenth})
        self.assertEqual(Pool(None, 10, 10).written(claim, Fraction(1), True), {5: 3 * tenth, 7: 7 * tenth})
        self.assertEqual(Pool(Fraction(2), 10, 10).written(claim, Fraction(1), False), {0: 5 * tenth, 5: 2 * tenth, 7: 3 * tenth})
        self.assertEqual(Pool(Fraction(2), 10, 10).written(claim, Fraction(1), True), {0: 5 * tenth, 5: tenth, 7: 4 * tenth})
        self.assertEqual(Pool(Fraction(2), 100, 10).written(claim, Fraction(3, 4), True), {0: 6 * tenth, 5: Fraction(15, 100), 7: Fraction(25, 100)})

    def test_a_factor_that_the_units_do_not_take(self):
        """The fault names a unit of the text, and shows no other text."""
        one, two = "agg A 2000 claims sev expon poisson", "agg B 3000 claims sev expon poisson"
        fault = self.raises(decl.NotBetween, decl.between, f"port C common 0.5 {one} {two}", 1)
        self.assertIn("unit B: Under common claims have to be expected, at most 4,096", str(fault))
        self.assertEqual(str(self.raises(decl.NotBetween, decl.between, f"port C common 0.01 {one}")), str(fault).replace("unit B", "unit A"))
        fault = self.raises(decl.NotBetween, decl.between, "port C common 1 agg A 0 claims sev expon poisson agg B 0 loss sev expon poisson", 1)
        self.assertIn("unit A: ", str(fault))
        for rest in ("3 claims sev expon fixed", "3 claims sev expon poisson zt", "3 claims sev expon poisson aggregate net of 1 xs 1", "dfreq [1] sev expon"):
            fault = self.raises(decl.RuleFault, decl.between, f"port C common 0.5 agg A 1 claims sev expon poisson agg B {rest}", 1)
            self.assertEqual((fault.rule, fault.unit, fault.name), (26, 1, "CommonUnit"), rest)
            self.assertNotIn("dsev", str(fault))
        fault = self.raises(decl.RuleFault, decl.between, "agg E 5000 claims sev 9 * expon poisson", 1)
        self.assertEqual((fault.rule, fault.unit, fault.line), (20, 0, None))
        self.assertTrue(str(fault).startswith("unit E breaks rule 20 TooManyClaims\nToo many claims"), fault)

    def test_words_directly_behind_numerals(self):
        """As the language reads them: a severity begins there, and inside of a word none does."""
        two = decl.between("agg D dfreq [1] 5 xs 0dsev [1 2]", 1)
        self.assertEqual((two.low, two.high), ("agg D dfreq [1] [1] dsev [1 2] [0.5 0.5]",) * 2)
        spaced = decl.between("agg dsev-sev 3 claims 30 xs 0 sev lognorm 5 cv 1.75 dsev [4] wts [0.5 0.5] poisson", 1)
        close = decl.between("agg dsev-sev 3claims 30 xs 0sev lognorm 5 cv 1.75dsev [4]wts [0.5 0.5]poisson", 1)
        self.assertEqual((close.low, close.high), (spaced.low, spaced.high))

    def test_how_far_the_high_program_reaches(self):
        """Amounts of a claim end at 2**20 buckets: a limit past it is not reached, what a clause leaves of it is, and of two units the lower."""
        reached = [("3000000 xs 0 sev 100 * expon poisson", 2**20), ("30 xs 0 sev 100 * expon poisson", None)]
        reached += [("sev 100 * expon poisson aggregate net of 10 xs 0", 2**20 - 10), ("sev 9 * expon poisson aggregate ceded to 30 xs 5", None)]
        reached += [("sev 100 * expon poisson aggregate ceded to inf xs 12", 2**20 - 12)]
        for rest, reach in reached:
            self.assertEqual(decl.between(f"agg E 1 claims {rest}", 1, log2=6).reach, reach, rest)
        far = "agg E 1 claims sev 100 * expon poisson aggregate ceded to 2000000 xs 0"
        listed = "port P agg E 1 claims 30 xs 0 sev expon poisson agg L 1 claims dsev [7] poisson"
        self.assertIsNone(decl.between(listed, 1, log2=6).reach)
        self.assertEqual([source_of(far, "standard", None).units[0].reach(Grid(size, 6)) for size in (Fraction(1), Fraction(2))], [2**20, None])
        both = " ".join(f"agg {name} 1 claims {rest}" for name, (rest, _) in zip("ABC", reached))
        self.assertEqual(decl.between(f"port P {both} agg L 1 claims dsev [7 2000000] poisson", 2, log2=6).reach, 2**21 - 10)

    def test_named_severities(self):
        """A listed severity with a name that two units refer to, and one that none does: each unit has its own amounts."""
        named = "sev Spare dsev [900] sev Two dsev [50 100] port B agg A 2 claims sev.Two poisson agg E 1 claims sev.Two poisson"
        two = decl.between(f"{named} agg D 3 claims 500 xs 0 sev 100 * expon poisson", 5)
        self.assertEqual(two.low.splitlines()[:2], ["port B", "agg A 2 claims dsev [50 100] [0.5 0.5] poisson"])
        self.assertEqual(two.high.splitlines()[2], "agg E 1 claims dsev [50 100] [0.5 0.5] poisson")
        mean = 3 * 75 + 300 * (1 - math.exp(-5))
        self.assertTrue(two.mean().low < mean < two.mean().high and two.mean().high - two.mean().low < 16, two.mean())
        for text, rule in (("agg D dfreq [1] sev.A", 24), ("sev A dsev [1] sev A dsev [2] agg D dfreq [1] sev.A", 23)):
            self.assertEqual(self.raises(decl.RuleFault, decl.between, text, 2).rule, rule, text)

    def test_refused(self):
        rows = [
            ("sev expon 50", "50 * expon"),
            ("sev lognorm", "has a shape"),
            ("sev lognorm [10 20] cv 1", "has a shape"),
            ("sev weibull 50 cv 1", "a mean and a cv"),
            ("sev pareto 1/0", "over 0"),
            ("sev 0 * expon", "factor"),
            ("sev gamma 5 cv 0", "shape of gamma"),
            ("sev lognorm 5 cv 0", "cv of lognorm"),
            ("sev lognorm 5 cv 0.5 - 1", "begins at -1"),
            ("sev 1e999 * expon", "exponent"),
        ]
        for severity, told in rows:
            fault = self.raises(decl.NotBetween, decl.between, f"agg E 1 claims {severity} poisson", 1)
            self.assertIn(told, str(fault), severity)
            self.assertIn("1:16", str(fault), severity)
        rows = [
            ("5 loss sev pareto 1 poisson", "infinite"),
            ("5 loss 9 xs 0 sev 10 * expon fixed", "cannot be rounded"),
            ("1 claims inf xs 5000 sev expon poisson", "hardly any claim"),
        ]
        for rest, told in rows:
            self.assertIn(told, str(self.raises(decl.NotBetween, decl.between, f"agg E {rest}", 1)), rest)
        self.raises(ValueError, decl.between, "agg E 1 claims sev expon poisson", 0)


if __name__ == "__main__":
    main()
