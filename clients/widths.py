#!/usr/bin/env python3
"""Works how much width the asks need for which clients/calls.txt has a refusal, apart from the program.

The rule of widths of docs/DEFINITIONS.md, with budgets in units of 2^-56 up to 4,096 cells and of 2^-48 above. Where a width is met
by the unit, clients/calls.txt has two calls: one with a width that is 1 too small, and one with just this width, which has its row. The
last line is 'N passed, M failed'.
"""

import sys
from fractions import Fraction
from math import ceil

from calls import TOO_WIDE, table

DIGITS = 9  # of the words of each call


class Widths:
    """The rule of widths on a plan of so many cells, whose number gives the scale."""

    def __init__(self, cells):
        self.cells, self.scale = cells, 1 << (56 if cells <= 4096 else 48)

    def before_clause(self, cells):
        """The same on more cells, at the scale of the plan: for the sum before an aggregate clause."""
        longer = Widths(self.cells)
        longer.cells = cells
        return longer

    def joined(self, x, y):
        """Two independent amounts."""
        return x + y + ceil(Fraction(x * y, self.scale)) + 2 * self.cells

    def power(self, base, times):
        """So many claims of one distribution."""
        if times < 2:
            return base * times
        half = self.power(base, times // 2)
        even = self.joined(half, half)
        return self.joined(even, base) if times % 2 else even

    def equal(self, unit, many):
        """So many units of one budget."""
        spread = unit
        for _ in range(1, many):
            spread = self.joined(spread, unit)
        return spread

    def listed(self, items, greatest):
        """A listed number of claims."""
        spread = 1
        for _ in range(greatest):
            spread = self.joined(items, spread) + 2
        return spread

    def poisson(self, mean):
        """A Poisson number of claims above 0: halved until the mean is at most 1/2, and doubled as often."""
        halvings = next(h for h in range(14) if Fraction(mean, 1 << h) <= Fraction(1, 2))
        spread = 8 * self.cells + 128
        for _ in range(halvings):
            spread = self.joined(spread, spread)
        return spread

    def gamma(self, mean, shape):
        """A gamma number of claims above 0: as many geometric numbers as the whole part of its shape says, and one of the rest."""
        more, whole = 1 + Fraction(mean) / shape, int(shape)
        geometric, rest = self.power(ceil((4 * self.cells + 1) * more), whole), ceil((6 * self.cells + 2) * more)
        return geometric if shape == whole else self.joined(geometric, rest) if whole else rest

    def binomial(self, items, trials):
        """A binomial number of claims."""
        return self.power(3 * (items + 1), trials)

    def needs(self, budget, digits=DIGITS):
        """The units of the last digit that a budget comes to, and one more."""
        return 1 + ceil(Fraction(budget * 10**digits, self.scale))

    def joint(self, own, others):
        """The mean of a unit where the total is given."""
        return self.cells * self.joined(own, others)

    def shared_joint(self, expected, shape, claims):
        """The same under a common factor: of so many claims above 0 of the unit, where so many are expected of all units."""
        raised = self.gamma(Fraction(expected) * (shape + 1) / shape, shape + 1)
        return (self.cells * raised + 2) * ceil(claims) + 2

    def share(self, total, joint):
        """That mean over the probability of the total, which is at least 2^-16."""
        return (1 << 16) * (self.cells * total + joint) + 2

    def tail(self, total, mean, p):
        """The mean above a quantile."""
        return ceil((2 * mean + 3 * self.cells * total) / (1 - Fraction(p))) + 4

    def price(self, total, mean, terms):
        """A sum of such means, each with its weight."""
        return sum(ceil(Fraction(weight) * self.tail(total, mean, p)) + 2 for weight, p in terms)

    def tail_share(self, total, mean, joint, p):
        """What a unit has of such a mean: its own mean, less those up to the quantile, and the part of the quantile itself."""
        below = joint + 2 * self.cells + self.cells * (total + 2)
        return ceil((mean + below + self.share(total, joint) + 4) / (1 - Fraction(p))) + 4

    def whole_share(self, total, mean, joint, p, factor=False):
        """By the extended rules, what a unit has of the mean above a quantile: its own mean, less those up to the quantile, and of the
        quantile itself no more than there is of it; under a common factor the sums are rounded once."""
        sums = 4 * joint + 6 * self.cells * total + (4 if factor else 8) * self.cells + 4
        return ceil((mean + sums) / (1 - Fraction(p))) + 4

    def changed(self, own, none):
        """A unit whose probability of no claim, of this budget, is changed: at least 1/18 is left to divide by."""
        return 18 * (own + 2 * none) + 4 * self.cells + 2

    def changed_mean(self, own, most, none):
        """The mean of such a unit, which was at most so many buckets."""
        return 18 * (own + 2) + 306 * most * none + 2


def short_calls():
    """Calls on 4,096 cells, each with its budget."""
    plan, none = Widths(4096), Widths(4096).before_clause(1)
    hedged = plan.before_clause(16000).binomial(2, 65536)  # up to the last attachment of its clause, which lies past the grid
    hedged_mean = 1 + (8000 * hedged + 3) + (16000 * hedged + 4)
    listed, trials = plan.listed(6, 256), plan.binomial(2, 65536)
    gamma, poisson = plan.gamma(20, 4), plan.poisson(20)
    changed = plan.changed(2 * plan.before_clause(4099).gamma(20, 4), none.gamma(20, 4))  # after a clause that takes 3 of each sum
    return plan, {
        "--width 1 cdf:4000": plan.joined(listed, trials),
        "--width 1 cdf:4001": plan.equal(2 * plan.before_clause(16384).binomial(2, 65536), 16),
        "--mwidth 1 mean": hedged_mean,
        "--mwidth 1 layer:4000xs10": 4000 * 2 * hedged,
        "--mwidth 1 layer:infxs4000": hedged_mean + 4000 * 2 * hedged,
        "--mwidth 1 tail:.999999999": plan.tail(poisson, 1, ".999999999"),
        "--mwidth 1 joint:B:4000": plan.joint(trials, listed),
        "--mwidth 1 kappa:G:0": plan.share(gamma, plan.joint(gamma, 0)),
        "--mwidth 1 kappa:P:0": plan.share(plan.joined(gamma, poisson), plan.joint(poisson, gamma)),
        "--mwidth 1 price:1/3@.5+2/3@.999999999": plan.price(poisson, 1, [("1/3", ".5"), ("2/3", ".999999999")]),
        "--mwidth 1 cotail:B:.9999": plan.tail_share(plan.joined(listed, trials), 1, plan.joint(trials, listed), ".9999"),
        "--mwidth 1 joint:A:4000": plan.shared_joint(20, 4, 10),
        "--mwidth 1 kappa:B:0": plan.share(gamma, plan.shared_joint(20, 4, 10)),
        "--mwidth 1 mean pmf:0": plan.changed_mean(1, 4000, none.poisson(4000)),
        "--mwidth 1 mean pmf:1": plan.changed_mean(1, 4096000, none.power(1, 4096)),
        "--mwidth 1 mean pmf:2": plan.changed_mean(1, 65536, none.binomial(1, 1)),
        "--mwidth 1 kappa:Z:0": plan.share(changed, plan.joint(changed, 0)),
    }


def long_calls():
    """Calls on 65,536 cells, each with its budget."""
    plan = Widths(65536)
    hedged = plan.before_clause(65000).binomial(2, 65536)
    poisson = plan.poisson(4096)
    return plan, {
        "--width 1 cdf:65535": plan.joined(plan.listed(6, 256), plan.binomial(2, 65536)),
        "--width 1 q:0.99": poisson,
        "--width 1 q:0.9": plan.changed(poisson, plan.before_clause(1).poisson(4096)),
        "--mwidth 1 layer:60000xs10": 60000 * poisson,
        "--mwidth 1 mean": 1 + (8000 * hedged + 3) + (65000 * hedged + 4),
    }


def just_met():
    """Asks, each with the option of its width and its budget, that are refused by 1 and admitted by the width that they need."""
    short, long, none = Widths(4096), Widths(65536), Widths(4096).before_clause(1)
    dice, die = short.listed(6, 2), short.listed(3, 1)
    shared, pair = short.gamma(3, 4), short.joined(die, die)
    yield short, "--mwidth", "price:1/2@0+1/2@0.9", short.price(dice, 1, [("1/2", "0"), ("1/2", "0.9")])
    yield short, "--mwidth", "cotail:A:0.8", short.tail_share(pair, 1, short.joint(die, die), "0.8")
    yield short, "--rules extended --mwidth", "cotail:A:0.8", short.whole_share(pair, 1, short.joint(die, die), "0.8")
    yield short, "--mwidth", "joint:A:2", short.shared_joint(3, 4, 1)
    yield short, "--rules extended --mwidth", "cotail:A:0.9", short.whole_share(shared, 1, short.shared_joint(3, 4, 1), "0.9", True)
    yield short, "--mwidth", "kappa:A:2", short.share(shared, short.shared_joint(3, 4, 1))
    yield short, "--mwidth", "mean", short.changed_mean(1, 4096, none.binomial(1, 8192))
    yield long, "--width", "pmf:0", long.gamma(3, 4)
    yield long, "--width", "pmf:1", long.changed(long.binomial(1, 4), long.before_clause(1).binomial(1, 4))
    yield long, "--width", "cdf:0", long.changed(long.gamma(1, 1), long.before_clause(1).gamma(1, 1))


def by_extended_rules():
    """The same of units of the shapes 100/9 and 16/25, of a factor of shape 100/9, and of 256 units."""
    short, long, middle, shape, ask = Widths(4096), Widths(65536), Widths(8192), Fraction(100, 9), "--rules extended "
    shared, joint, none = short.gamma(3, shape), short.shared_joint(3, shape, 1), long.before_clause(1)
    yield long, ask + "--width", "pmf:0", long.gamma(2, shape)
    yield long, ask + "--width", "pmf:4", long.gamma(3, Fraction(16, 25))
    yield long, ask + "--width", "pmf:1", long.changed(long.gamma(2, shape), none.gamma(2, shape))
    yield middle, ask + "--width", "pmf:128", middle.equal(middle.listed(2, 1), 256)
    yield short, ask + "--mwidth", "joint:A:2", joint
    yield short, ask + "--mwidth", "kappa:A:2", short.share(shared, joint)
    yield short, ask + "--mwidth", "cotail:A:0.8", short.whole_share(shared, 1, joint, "0.8", True)


def without_options():
    """Asks without a width among the words, each with its budget and whether it is refused: a width of 10, and of 1,000,000, is met."""
    plan, short = Widths(4096), Widths(1024)
    claims, half = plan.power(1, 65536), short.poisson(Fraction(1, 2))
    yield plan, "cdf:4000", plan.joined(claims, plan.poisson(1024)), False
    yield plan, "cdf:4002", plan.joined(claims, plan.poisson(2048)), True
    yield short, "tail:2819256/2819257", short.tail(half, 1, "2819256/2819257"), False
    yield short, "tail:2819257/2819258", short.tail(half, 1, "2819257/2819258"), True


def at_a_rare_quantile():
    """The words of a call with the width that it needs, in units of 3 digits: the share of one of two units of 1,000 values each, where
    the total at the quantile is rarer than 1 in 65,536. It is refused for less, and its own width is met."""
    plan, words = Widths(2048), "run --rules extended --log2 11 --digits 3"
    own = plan.listed(1000, 1)
    pair = plan.joined(own, own)
    needed = plan.needs(plan.whole_share(pair, 1, plan.joint(own, own), ".999993"), 3)
    yield f"{words} --mwidth {needed - 1} cotail:A:.999993", needed, True
    yield f"{words} cotail:A:.999993", needed, False


def expected():
    """The words of each call of calls.txt that these widths decide, with the width that its ask needs; and whether it is refused."""
    yield from at_a_rare_quantile()
    for plan, budgets in (short_calls(), long_calls()):
        for words, budget in budgets.items():
            yield words_of(plan, words), plan.needs(budget), True
    for plan, option, ask, budget in (*just_met(), *by_extended_rules()):
        needed = plan.needs(budget)
        yield words_of(plan, f"{option} {needed - 1} {ask}"), needed, True
        yield words_of(plan, f"{option} {needed} {ask}"), needed, False
    for plan, words, budget, refused in without_options():
        yield words_of(plan, words), plan.needs(budget), refused


def words_of(plan, words):
    """The words of a call on the cells of a plan."""
    return f"run --log2 {plan.cells.bit_length() - 1} --digits {DIGITS} {words}"


def main():
    """Compares each call with the width that its ask needs."""
    calls = {" ".join(call.words): call for call in table()}
    passed = failed = 0
    for words, needed, refused in expected():
        call, due = calls.get(words), f"decl: ask 0: needs width {needed}\n"
        fault = not call and "clients/calls.txt has no such call"
        fault = fault or (refused and (call.status != TOO_WIDE or call.err != due) and f"it writes {call.err}")
        fault = fault or (not refused and call.status != 0 and "it is refused")
        passed, failed = passed + (not fault), failed + bool(fault)
        if fault:
            print(f"FAILED: {words}, which needs {needed}: {fault.strip()}")
    print(f"{passed} passed, {failed} failed")
    return 1 if failed else 0


if __name__ == "__main__":
    sys.exit(main())
