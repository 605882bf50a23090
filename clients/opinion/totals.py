"""What a program declares (docs/DEFINITIONS.md): the outcomes of its units, their total, and the value of each ask, between two ends."""

import math
from bisect import bisect_left
from fractions import Fraction
from functools import cached_property
from itertools import accumulate

from . import cells as sums, rules, severities, text as texts
from .cells import ONE, Cells, Ends, TooLarge

RAREST = Fraction(1, 1 << 16)  # of a total at which a share has numbers


class Aggregate:
    """A unit of a plan on so many cells: its count (a kind and numbers), its final severity, its aggregate clause and its changed
    probability of no claim, or None."""

    def __init__(self, cells, count, severity, clause=None, zero=None):
        self.cells, self.count, self.severity, self.clause, self.zero = cells, count, severity, clause, zero

    @property
    def expected_count(self):
        """The mean of the count before its zero is changed."""
        kind, *numbers = self.count
        if kind == "listed":
            return sum(count * chance for count, chance in numbers[0].items())
        return Fraction(math.prod(numbers) if kind == "binomial" else numbers[0])

    def compound(self, cells):
        """The sum of the claims, before the clause and before the zero is changed, over multiples of the common divisor of the amounts.
        Poisson and gamma counts are thinned: claims of amount 0 are left out, and the mean is that of those above 0."""
        (kind, *numbers), step = self.count, math.gcd(*self.severity) or 1
        severity, few = {amount // step: chance for amount, chance in self.severity.items()}, -(-cells // step)
        if kind in ("poisson", "gamma"):
            mean = numbers[0] * (1 - severity.get(0, 0))
            found = getattr(sums, kind)(mean, *numbers[1:], severities.above(0, severity), few) if mean else Cells([ONE], 0)
        else:
            found = getattr(sums, kind)(*numbers, severity, few)
        low = [0] * ((len(found.low) - 1) * step + 1)
        low[::step] = found.low
        return Cells(low, found.slack)

    @cached_property
    def before(self):
        """The sum of the claims, as far as the clause asks for it."""
        return self.compound(severities.horizon(self.clause, self.cells))

    @cached_property
    def none(self):
        """The two ends of the probability of no claim, before it is changed."""
        cell = Aggregate(1, self.count, {1: Fraction(1)}).compound(1)
        return cell.low[0], min(ONE, cell.low[0] + cell.slack)

    @property
    def mapped(self):
        """The outcomes after the aggregate clause. Past the horizon all sums have one outcome, or none inside the grid: what the sums
        before it leave of 1."""
        length, found = severities.horizon(self.clause, self.cells), [0] * self.cells
        for s, cell in enumerate(self.before.low):
            outcome = severities.kept(self.clause, s) if cell else self.cells
            if outcome < self.cells:
                found[int(outcome)] += cell
        slack = length * (self.before.slack + 1)
        rest = severities.kept(self.clause, length)
        if rest < self.cells and sum(self.before.low) + slack < ONE:
            found[int(rest)] += ONE - sum(self.before.low) - slack
        return Cells(sums.trimmed(found), 2 * slack)

    def with_none(self, outcomes):
        """The outcomes after the probability of no claim is changed: `(1 - p) * (cell - none) / (1 - none)`, and `p`, at the outcome 0,
        and `(1 - p) * cell / (1 - none)` at others."""
        least, most = self.none
        lows, highs, kept = [], [], 1 - self.zero
        for y, low in enumerate(outcomes.low):
            high, p = low + outcomes.slack, 0 if y else self.zero
            off = (0, 0) if y else self.none
            lows.append(math.floor(kept * max(low - off[1], 0) * ONE / (ONE - least) + p * ONE))
            highs.append(math.ceil(kept * (high - off[0]) * ONE / (ONE - most) + p * ONE))
        past = math.ceil(kept * outcomes.slack * ONE / (ONE - most))
        return Cells(lows, max(past, sums.between(lows, highs).slack))

    @property
    def outcomes(self):
        """The probability of each outcome."""
        found = self.mapped if self.clause else self.compound(self.cells)
        return found if self.zero is None else self.with_none(found)

    @property
    def mean(self):
        """The mean of the outcome. What is ceded has as its mean the sum over the layers of share times layer mean."""
        whole = self.expected_count * severities.mean_of(self.severity)
        low = high = whole
        if self.clause:
            side, cessions = self.clause
            total = Total(self.before, Ends(whole, whole))
            layers = [(share, total.layer_mean(limit, attachment)) for limit, attachment, share in cessions]
            low, high = (sum(share * mean[end] for share, mean in layers) for end in (0, 1))
            low, high = (whole - high, whole - low) if side == "net" else (low, high)
        if self.zero is not None:
            kept = (1 - self.zero) * ONE
            low, high = kept * low / (ONE - self.none[0]), kept * high / (ONE - self.none[1])
        return Ends(low, high)


class Total:
    """A distribution with its mean: what is asked of it, each between two ends."""

    def __init__(self, cells, mean):
        self.cells, self.mean = cells, mean

    @cached_property
    def sums(self):
        """The sums of the low ends, and the sums of these."""
        first = list(accumulate(self.cells.low))
        return first, list(accumulate(first, initial=0))

    def cdf(self, x):
        """The distribution function."""
        low = self.sums[0][min(x, len(self.cells.low) - 1)]
        return Ends(Fraction(low, ONE), min(Fraction(low + (x + 1) * self.cells.slack, ONE), Fraction(1)))

    def below(self, x):
        """The distribution function summed over the totals below `x`."""
        inside = min(x, len(self.cells.low))
        low = self.sums[1][inside] + (x - inside) * self.sums[0][-1]
        return Ends(Fraction(low, ONE), Fraction(low + self.cells.slack * x * (x + 1) // 2, ONE))

    def layer_mean(self, limit, attachment):
        """The mean of a layer: its limit, or the mean less the attachment, and what the distribution function sums up to."""
        below = self.below(attachment)
        if limit is None:
            return Ends(self.mean.low - attachment + below.low, self.mean.high - attachment + below.high)
        end = self.below(attachment + limit)
        return Ends(limit - (end.high - below.low), limit - (end.low - below.high))

    def bracket(self, p, cells):
        """The least total at which the distribution may reach `p`, and the least at which it is sure to; None past the grid."""
        low = next((x for x in self.candidates(p, cells) if self.cdf(x).high >= p), None)
        high = next((x for x in self.candidates(p, cells) if self.cdf(x).low >= p), None)
        return low, high

    def candidates(self, p, cells):
        """The totals from a little before the low sums reach `p`."""
        return range(bisect_left(self.sums[0], p * ONE - cells * self.cells.slack), cells)

    def tail(self, p, cells):
        """The tail mean at the quantile, or None past the grid. At another total of the bracket it differs by at most what the
        distribution does from `p`, times the length of the bracket over `1 - p`."""
        low, high = self.bracket(p, cells)
        if low is None:
            return None
        if high is None:
            raise TooLarge(f"it is not sure that the grid reaches the quantile at {p}")
        above, cdf = self.layer_mean(None, low), self.cdf(low)
        more = (high - low) * (cdf.high - cdf.low) / (1 - p)
        return Ends(low + above.low / (1 - p) - more, low + above.high / (1 - p) + more)

    def price(self, terms, cells):
        """A weighted sum of tail means, or None where one of them is past the grid."""
        means = [(weight, self.tail(p, cells)) for weight, p in terms]
        if any(mean is None for _, mean in means):
            return None
        return Ends(*(sum(weight * mean[end] for weight, mean in means) for end in (0, 1)))


def aggregate_of(part):
    """The unit of a plan that a unit of a text declares."""
    mean = part.expected_count
    count = {
        "listed": lambda: ("listed", part.counts),
        "fixed": lambda: ("fixed", int(mean)),
        "bernoulli": lambda: ("binomial", 1, mean),
        "binomial": lambda: ("binomial", int(mean / part.number_of_count), part.number_of_count),
        "poisson": lambda: ("poisson", mean),
        "gamma": lambda: ("gamma", mean, part.shape),
    }[part.kind]()
    clause = part.clause(part.unit.aggregate)
    whole = clause and (clause[0], [(limit if limit is None else int(limit), int(start), share) for limit, start, share in clause[1]])
    return Aggregate(part.cells, count, part.final_severity, whole, part.zero)


class Book:
    """A program on a grid of so many cells. `Fault` is raised for a text that spells no program, or breaks one of the rules."""

    def __init__(self, text, bs=1, cells=1024, by="standard"):
        program, bounds = texts.spells(text), rules.BOUNDS[by]
        self.bs, self.cells, self.kept = Fraction(bs), cells, {}
        parts = rules.first_fault(text, program, self.bs, cells, bounds)
        self.names = [part.unit.name.text for part in parts]
        self.units = [aggregate_of(part) for part in parts]
        self.shape = program.common and rules.shape_of(texts.value(program.common.text), bounds)

    def pooled_unit(self, shape):
        """The one unit for all under a common factor: a gamma count, and the mixture of their severities by their expected counts. With
        one more in its shape its mean is raised with it."""
        whole = sum(unit.expected_count for unit in self.units)
        shares = [unit.expected_count / whole for unit in self.units]
        severity = severities.mix([unit.severity for unit in self.units], shares)
        return Aggregate(self.cells, ("gamma", whole * shape / self.shape, shape), severity)

    @cached_property
    def grids(self):
        """The outcomes of each unit, where the units are independent."""
        return [unit.outcomes for unit in self.units]

    @cached_property
    def means(self):
        """The mean of each unit."""
        return [unit.mean for unit in self.units]

    @cached_property
    def raised(self):
        """The outcomes of the pooled unit with one more in its shape."""
        return self.pooled_unit(self.shape + 1).outcomes

    @property
    def mean(self):
        """The mean of the total."""
        return Ends(*(sum(mean[end] for mean in self.means) for end in (0, 1)))

    @cached_property
    def total(self):
        """The distribution of the total."""
        return Total(self.pooled_unit(self.shape).outcomes if self.shape else self.sum_of(self.grids), self.mean)

    def sum_of(self, grids):
        """The sum of independent outcomes."""
        found = Cells([ONE], 0)
        reach = min(self.cells, sum(len(grid.low) for grid in grids))
        sums.within_steps(len(grids) * reach * sums.OF_PRODUCT if len(grids) > 2 else 0, "the sum of the units")
        for grid in grids:
            found = sums.convolve(found, grid, self.cells)
        return found

    def others(self, i):
        """The sum of all units but one."""
        if i not in self.kept:
            self.kept[i] = self.sum_of(self.grids[:i] + self.grids[i + 1 :])
        return self.kept[i]

    def joint(self, name, x, up_to=False):
        """The mean of a unit's outcome where the total is `x`, or at most `x`, and of 0 elsewhere. Under a common factor it is the expected
        count of the unit times the mean amount of one claim, where the rest of the total comes from the raised unit."""
        i = self.names.index(name)
        unit, rest = self.units[i], self.raised if self.shape else self.others(i)
        claims = {amount: unit.expected_count * chance for amount, chance in unit.severity.items()} if self.shape else {}
        own, rest = sums.claim(claims, self.cells) if claims else self.grids[i], rest.up_to(self.cells) if up_to else rest
        low = high = 0
        for y in range(1, x + 1):
            least, most = own.at(y), rest.at(x - y)
            low, high = low + y * least * most, high + y * (least + own.slack) * (most + rest.slack)
        return Ends(Fraction(low, ONE * ONE), Fraction(high, ONE * ONE))

    def kappa(self, name, x):
        """The joint mean over the probability of the total; no outcome is above it."""
        joint, at = self.joint(name, x), self.total.cells.ends(x)
        return Ends(joint.low / at.high, min(joint.high / at.low, x)) if at.low else None

    def cotail(self, name, p):
        """The share of a unit in the tail mean, or None past the grid: the mean of its outcome above the total `x`, the low end of the
        bracket, and kappa times what the distribution at `x` is above `p`, over `1 - p`. Where the bracket has two ends, what the
        distribution differs from `p` is of totals up to its high end, and no outcome is above that."""
        x, end = self.total.bracket(p, self.cells)
        if x is None:
            return None
        if end is None:
            raise TooLarge(f"it is not sure that the grid reaches the quantile at {p}")
        kappa = (x == end and self.kappa(name, x)) or Ends(0, end)
        below, mean = self.joint(name, x, True), self.means[self.names.index(name)]
        atom = [(part - p) * each for part in self.total.cdf(x) for each in kappa]
        return Ends((mean.low - below.high + min(atom)) / (1 - p), (mean.high - below.low + max(atom)) / (1 - p))

    def value(self, ask):
        """The two ends of an ask in its parts (words.py), None past the grid; of a quantile its bracket."""
        kind, *rest = ask
        if kind in ("joint", "kappa", "cotail", "share"):
            return getattr(self, kind.replace("share", "cotail"))(*rest)
        if kind == "mean":
            return self.mean
        if kind == "pmf":
            return self.total.cells.ends(*rest)
        if kind in ("q", "tail", "price"):
            return getattr(self.total, kind.replace("q", "bracket"))(*rest, self.cells)
        return (self.total.cdf if kind == "cdf" else self.total.layer_mean)(*rest)
