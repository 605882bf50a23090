#!/usr/bin/env python3
"""Works the recipes apart from the program, and looks whether each value lies within the two ends that the page shows.

A recipe is worked from its treaty: what is paid of a claim or of a year is a function of an amount of money, and not read from
the DecL text. Each command of docs/RECIPES.md that writes rows must have its recipe here; so have the towers of
docs/FROM-AGGREGATE.md, and the coarser buckets of docs/USAGE.md. The figures in the sentences of docs/RECIPES.md are worked, and
the rows that its examples and its ten tasks in Python print.
Probabilities are whole numbers of which ONE make 1, the low ends of clients/opinion/cells.py. That the pages show what the program writes is checked by
examples/check.py. The last line is 'N passed, M failed'.
"""

import csv
import math
import pathlib
import re
import sys
from fractions import Fraction

from opinion.cells import ONE, Cells, convolve, gamma, poisson
from opinion.words import asked

ROOT = pathlib.Path(__file__).resolve().parent.parent
sys.path[:0] = [str(ROOT / "examples"), str(ROOT / "clients" / "python" / "tests")]
from apart import Year as Worked  # noqa: E402
from check import commands  # noqa: E402

MOST = 10_000  # amounts of a year are worked up to here; a year above it has a probability below 2^-240
SLACK = Fraction(1, 1 << 100)
INF = 1 << 60

FIRE = {10: 50, 20: 25, 50: 15, 100: 8, 300: 2}
MOTOR = {10: 60, 20: 30, 40: 10}
EVEN = {5: 1, 15: 1, 30: 1}
TEXTS = {
    "FIRE": "dsev [10 20 50 100 300] [0.5 0.25 0.15 0.08 0.02]",
    "MOTOR": "dsev [10 20 40] [0.6 0.3 0.1]",
    "EVEN": "dsev [5 15 30]",
}


def layer(limit, attachment):
    """What of an amount lies above the attachment, and within the limit."""
    return lambda amount: min(max(amount - attachment, 0), limit)


def share(part, treaty):
    """This part of what a treaty pays."""
    return lambda amount: Fraction(part) * treaty(amount)


def plus(*treaties):
    """What several treaties pay together."""
    return lambda amount: sum(treaty(amount) for treaty in treaties)


def net(treaty):
    """What is left of an amount."""
    return lambda amount: amount - treaty(amount)


def whole(amount):
    """All of an amount."""
    return amount


class Year:
    """What a year costs: the probability of each amount of money."""

    def __init__(self, parts):
        self.parts = {amount: part for amount, part in parts.items() if part}

    @classmethod
    def of_claims(cls, mean, severity, treaty=whole):
        """A Poisson number of claims, each after the treaty."""
        paid, total = {}, sum(severity.values())
        for amount, weight in severity.items():
            paid[treaty(amount)] = paid.get(treaty(amount), 0) + weight
        above = total - paid.pop(0, 0)
        step = math.gcd(*map(int, paid))
        assert all(amount == int(amount) for amount in paid)
        chances = {int(amount) // step: Fraction(weight, above) for amount, weight in paid.items()}
        cells = poisson(Fraction(mean) * above / total, chances, MOST // step).low
        return cls({step * place: cell for place, cell in enumerate(cells)})

    @classmethod
    def of_two(cls, severity, treaty=whole):
        """Two claims, each after the treaty."""
        claim = cls({})
        for amount, weight in severity.items():
            claim.parts[treaty(amount)] = claim.parts.get(treaty(amount), 0) + weight * ONE // sum(severity.values())
        return claim + claim

    def __add__(self, other):
        """The sum of two independent years."""
        step = math.gcd(*map(int, self.parts), *map(int, other.parts))
        sides = [[0] * (MOST // step) for _ in range(2)]
        for side, year in zip(sides, (self, other), strict=True):
            for amount, part in year.parts.items():
                side[int(amount) // step] = part
        cells = convolve(*(Cells(side, 1) for side in sides), MOST // step).low
        return Year({step * place: cell for place, cell in enumerate(cells)})

    def after(self, treaty):
        """The year after a treaty on its sum."""
        parts = {}
        for amount, part in self.parts.items():
            parts[treaty(amount)] = parts.get(treaty(amount), 0) + part
        return Year(parts)

    def expected(self, treaty):
        """The mean of what the treaty pays of the year."""
        return sum(Fraction(treaty(amount)) * part for amount, part in self.parts.items()) / ONE

    def within(self, most):
        """The probability of at most so much."""
        return Fraction(sum(part for amount, part in self.parts.items() if amount <= most), ONE)

    def quantile(self, p):
        """The least amount that is not exceeded with probability p or more."""
        return next(amount for amount in sorted(self.parts) if self.within(amount) >= p)

    def tail(self, p):
        """The mean of the worst 1 - p."""
        at = self.quantile(p)
        return at + self.expected(layer(INF, at)) / (1 - p)

    def value(self, ask):
        """What an ask declares."""
        if ask.startswith("sf:"):
            return 1 - self.value(ask.replace("sf", "cdf"))
        kind, *rest = asked(ask)
        return {
            "mean": lambda: self.expected(whole),
            "pmf": lambda x: Fraction(self.parts.get(x, 0), ONE),
            "cdf": self.within,
            "layer": lambda limit, attachment: self.expected(layer(INF if limit is None else limit, attachment)),
            "price": lambda terms: sum(weight * self.tail(p) for weight, p in terms),
            "q": self.quantile,
            "tail": self.tail,
        }[kind](*rest)


class Port(Year):
    """The sum of two named years, which also knows their shares."""

    def __init__(self, **units):
        one, other = units.values()
        super().__init__((one + other).parts)
        self.units = units

    def joint(self, name, total):
        """The mean of a unit where the total is this, and 0 elsewhere."""
        own = self.units[name].parts
        rest = next(year for other, year in self.units.items() if other != name).parts
        return Fraction(sum(amount * part * rest.get(total - amount, 0) for amount, part in own.items()), ONE * ONE)

    def share_of_tail(self, name, p):
        """The mean of a unit in the worst 1 - p of the total: of the years at the quantile, as much as is left for them."""
        at = self.quantile(p)
        left = self.within(at) - p
        below = sum(self.joint(name, total) for total in range(at + 1))
        return (self.units[name].value("mean") - below + left * self.joint(name, at) * ONE / self.parts[at]) / (1 - p)

    def value(self, ask):
        """What an ask declares."""
        kind, *rest = ask.split(":")
        if kind == "kappa":
            return self.joint(rest[0], int(rest[1])) * ONE / self.parts[int(rest[1])]
        return self.share_of_tail(rest[0], Fraction(rest[1])) if kind == "cotail" else super().value(ask)


class UnderFactor:
    """Lines whose claims one gamma factor of a whole shape scales: of each line the expected claims of each amount. Under the factor with
    one claim of a line, the rest of the year is that of a factor of a shape larger by 1."""

    def __init__(self, shape, lines, cells):
        self.lines, mixed = lines, {}
        for claims in lines.values():
            for amount, expected in claims.items():
                mixed[amount] = mixed.get(amount, Fraction(0)) + expected
        parts = math.lcm(*(expected.denominator for expected in mixed.values()))
        weights, mean = {amount: int(parts * expected) for amount, expected in mixed.items()}, sum(mixed.values())
        self.year = Worked.gamma(mean, shape, weights, cells)
        self.larger = Worked.gamma(mean * Fraction(shape + 1, shape), shape + 1, weights, cells)

    def mean_of(self, line):
        """The mean of a line."""
        return sum(amount * expected for amount, expected in self.lines[line].items())

    def joint(self, line, total):
        """The mean of a line where the total is this, and 0 elsewhere."""
        rest = self.larger.cells
        return sum(x * part * Fraction(rest[total - x], ONE) for x, part in self.lines[line].items() if x <= total)

    def share_of_tail(self, line, p):
        """The mean of a line in the worst 1 - p of the total."""
        at = self.year.q(p)
        left = (self.year.cdf(at) - p) * ONE / self.year.cells[at]
        below = sum(x * part * Fraction(sum(self.larger.cells[: max(at - x + 1, 0)]), ONE) for x, part in self.lines[line].items())
        return (self.mean_of(line) - below + left * self.joint(line, at)) / (1 - p)

    def value(self, ask):
        """What an ask declares."""
        kind, *rest = ask.split(":")
        if kind == "mean":
            return self.year.mean
        p = Fraction(rest[-1])
        return self.share_of_tail(rest[0], p) if kind == "cotail" else {"q": self.year.q, "tail": self.year.tail}[kind](p)


class Lines:
    """The lines of a table, each a gamma count of any shape, on multiples of 5; totals are worked up to so many of them."""

    STEP, CELLS = 5, 820

    def __init__(self, path):
        self.lines, self.means = {}, {}
        for row in csv.DictReader(path.read_text(encoding="utf-8").splitlines()):
            amounts, weights = (list(map(Fraction, row[column].split())) for column in ("amounts", "weights"))
            severity = {int(amount / self.STEP): weight for amount, weight in zip(amounts, weights, strict=True)}
            self.lines[row["name"]] = gamma(Fraction(row["claims"]), 1 / Fraction(row["parameter"]) ** 2, severity, self.CELLS)
            self.means[row["name"]] = Fraction(row["claims"]) * sum(map(math.prod, zip(amounts, weights)))
        self.cells = self.sum_of(self.lines)
        self.mean = sum(self.means.values())

    def sum_of(self, names):
        """The probabilities of the sum of some lines."""
        found = Cells([ONE], 0)
        for name in names:
            found = convolve(found, self.lines[name], self.CELLS)
        return found.low

    def quantile(self, p):
        """The least total that is not exceeded with probability p or more, as a number of cells."""
        return next(at for at in range(self.CELLS) if sum(self.cells[: at + 1]) >= p * ONE)

    def tail(self, p):
        """The mean of the worst 1 - p."""
        at = self.quantile(p)
        below = sum((at - x) * cell for x, cell in enumerate(self.cells[:at])) * self.STEP
        return at * self.STEP + (self.mean - at * self.STEP + Fraction(below, ONE)) / (1 - p)

    def share_of_tail(self, name, p):
        """The mean of a line in the worst 1 - p of the total: of the years at the quantile, as much as is left for them."""
        at, own, rest = self.quantile(p), self.lines[name].low, self.sum_of(set(self.lines) - {name})
        joint = [sum(x * own[x] * rest[total - x] for x in range(total + 1)) * self.STEP for total in range(at + 1)]
        left = (Fraction(sum(self.cells[: at + 1]), ONE) - p) * ONE / self.cells[at]
        return (self.means[name] - Fraction(sum(joint), ONE * ONE) + left * Fraction(joint[at], ONE * ONE)) / (1 - p)

    def value(self, ask):
        """What an ask declares."""
        kind, *rest = ask.split(":")
        if kind == "mean":
            return self.mean
        if kind == "cotail":
            return self.share_of_tail(rest[0], Fraction(rest[1]))
        return self.quantile(Fraction(rest[0])) * self.STEP if kind == "q" else self.tail(Fraction(rest[0]))


XL = layer(80, 20)
CAT = layer(100, 100)
QUOTA = share("0.4", whole)
BANDS = (("3/2", 50), ("1", 100), ("1/2", 300))


def fire(treaty=whole):
    """A year of the fire book, each claim after the treaty."""
    return Year.of_claims(3, FIRE, treaty)


def profile(treaty=whole):
    """Policies of three limits, each claim after its limit and then after the treaty."""
    small, middle, large = (
        Year.of_claims(mean, FIRE, lambda amount, limit=limit: treaty(min(amount, limit))) for mean, limit in BANDS
    )
    return small + middle + large


GROSS = fire()
CEDED = fire(XL)
NET = fire(net(XL))
QUOTED = fire(QUOTA)
PROFILED = profile(XL)
BOOK = Port(Fire=GROSS, Motor=Year.of_claims(2, MOTOR))
CORRIDOR = plus(layer(60, 0), share("0.5", layer(40, 60)), layer(INF, 100))


def corridor_net(gross):
    """What of a gross year is left after the quota share with its corridor."""
    return gross - CORRIDOR(Fraction("0.4") * gross)


BOTH = net(plus(QUOTA, lambda amount: layer(60, 60)(Fraction("0.6") * amount)))
QUOTA_AFTER_CAT = share("0.4", net(CAT))

SCALED = UnderFactor(
    4,
    {
        name: {amount: Fraction(claims * part, 100) for amount, part in chances.items()}
        for name, claims, chances in (
            ("Fire", 15, {95: 50, 210: 25, 520: 15, 1040: 8, 3100: 2}),
            ("Motor", 60, {11: 50, 23: 30, 42: 15, 90: 5}),
            ("Liability", 6, {50: 60, 240: 30, 810: 10}),
        )
    },
    1 << 15,
)

TABLE = Lines(ROOT / "examples" / "lines.csv")

# Each program of the pages, or the table from which it is made, with the year that it is about; where a program is run several times, with those in order.
RECIPES = {
    "agg Fire 3 claims FIRE poisson": GROSS,
    "agg Fire 150 premium at 63% lr FIRE poisson": GROSS,
    "agg Fire 3 claims FIRE occurrence ceded to inf xs $x poisson": [fire(layer(INF, x)) for x in (20, 50, 100)],
    "agg Fire 3 claims FIRE occurrence ceded to 80 xs 20 poisson": CEDED,
    "agg Fire 3 claims 80 xs 20 FIRE ! poisson": CEDED,
    "agg Fire 3 claims 80 xs 20 FIRE poisson": Year.of_claims(3, {30: 15, 80: 10}),
    "agg Fire 3 claims FIRE occurrence net of 80 xs 20 poisson": NET,
    "agg Fire 3 claims FIRE occurrence net of 80 xs 20 and 150 xs 100 poisson": fire(net(plus(XL, layer(150, 100)))),
    "agg Fire 3 claims FIRE occurrence ceded to 80 xs 20 poisson aggregate ceded to inf xs 80": CEDED.after(layer(INF, 80)),
    "agg Fire 3 claims FIRE occurrence ceded to 80 xs 20 poisson aggregate ceded to 160 xs 0": CEDED.after(layer(160, 0)),
    "agg Fire 3 claims FIRE poisson aggregate ceded to 150 xs 150": GROSS.after(layer(150, 150)),
    "agg Fire 3 claims FIRE poisson aggregate net of 150 xs 150": GROSS.after(net(layer(150, 150))),
    "agg Fire 3 claims FIRE occurrence net of 80 xs 20 poisson aggregate ceded to 100 xs 100": NET.after(layer(100, 100)),
    "agg Fire 3 claims FIRE occurrence net of 0.4 so inf xs 0 poisson": fire(net(QUOTA)),
    "agg Fire 3 claims FIRE occurrence ceded to 0.4 so inf xs 0 poisson": QUOTED,
    "agg Fire 3 claims FIRE occurrence net of 0.4 so 100 xs 0 and 1 so 100 xs 100 and 0.4 so inf xs 200 poisson": fire(BOTH),
    "agg Fire 3 claims FIRE occurrence ceded to 0.6 so 100 xs 100 poisson": fire(lambda x: layer(60, 60)(x - QUOTA(x))),
    "agg Fire 3 claims FIRE occurrence ceded to 0.4 so 100 xs 0 and 0.4 so inf xs 200 poisson": fire(QUOTA_AFTER_CAT),
    "agg Fire 3 claims FIRE occurrence ceded to 100 xs 100 poisson": fire(CAT),
    "agg Fire 3 claims FIRE occurrence ceded to 0.4 so inf xs 0 poisson "
    "aggregate ceded to 60 xs 0 and 0.5 so 40 xs 60 and inf xs 100": QUOTED.after(CORRIDOR),
    "agg Fire 3 claims FIRE poisson "
    "aggregate net of 0.4 so 150 xs 0 and 0.2 so 100 xs 150 and 0.4 so inf xs 250": GROSS.after(corridor_net),
    "port Profile agg To50 1.5 claims 50 xs 0 FIRE poisson agg To100 1 claims 100 xs 0 FIRE poisson "
    "agg To300 0.5 claims 300 xs 0 FIRE poisson": profile(),
    "port Ceded agg To50 1.5 claims 50 xs 0 FIRE occurrence ceded to 80 xs 20 poisson "
    "agg To100 1 claims 100 xs 0 FIRE occurrence ceded to 80 xs 20 poisson "
    "agg To300 0.5 claims 300 xs 0 FIRE occurrence ceded to 80 xs 20 poisson": PROFILED,
    "port Book agg Fire 3 claims FIRE poisson agg Motor 2 claims MOTOR poisson": BOOK,
    "port Book common 0.5 agg Fire 15 claims dsev [95 210 520 1040 3100] [0.5 0.25 0.15 0.08 0.02] poisson "
    "agg Motor 60 claims dsev [11 23 42 90] [0.5 0.3 0.15 0.05] poisson "
    "agg Liability 6 claims dsev [50 240 810] [0.6 0.3 0.1] poisson": SCALED,
    "agg Book 5 claims FIRE MOTOR wts [3/5 2/5] poisson aggregate ceded to 150 xs 150": BOOK.after(layer(150, 150)),
    "examples/lines.csv": TABLE,
}
TOWER = [layer(10, 0), layer(10, 10), layer(20, 20)]
FIRST, SECOND, THIRD = (Year.of_two(EVEN, part) for part in TOWER)
TOWERS = {
    "agg T dfreq [2] EVEN occurrence ceded to 10 xs 0 and 10 xs 10 and 20 xs 20": Year.of_two(EVEN, plus(*TOWER)),
    "port Wrong agg T1 dfreq [2] 10 xs 0 EVEN ! agg T2 dfreq [2] 10 xs 10 EVEN ! "
    "agg T3 dfreq [2] 20 xs 20 EVEN !": FIRST + SECOND + THIRD,
    "agg P 2 claims EVEN poisson": Year.of_claims(2, EVEN),
    "port P agg Small 4/3 claims dsev [5 15] poisson agg Large 2/3 claims dsev [30] poisson": Year.of_claims(2, EVEN),
}
# Four claims on a coarser bucket, counted in buckets of 500: each amount moved down, and up.
LOW = Year.of_claims(4, {0: 50, 4: 30, 23: 15, 96: 5})
HIGH = Year.of_claims(4, {1: 50, 5: 30, 23: 15, 96: 5})
COARSE = {
    "agg Low 4 claims dsev [0 2000 11500 48000] [0.5 0.3 0.15 0.05] poisson": LOW,
    "agg High 4 claims dsev [500 2500 11500 48000] [0.5 0.3 0.15 0.05] poisson": HIGH,
}


def coarse():
    """Whether the quantile of the amounts as they are lies between the two, in money, and so does their mean."""
    chances = {17: "0.5", 2_300: "0.3", 11_500: "0.15", 48_000: "0.05"}
    cells = poisson(Fraction(4), {amount: Fraction(chance) for amount, chance in chances.items()}, 105_000).low
    reached = [sum(cells[:most]) >= ONE * Fraction(99, 100) for most in (100_000, 102_501)]
    yield reached == [False, True], "the quantile lies outside those of the two programs of docs/USAGE.md"
    yield LOW.value("mean") * 500 <= 19_294 <= HIGH.value("mean") * 500, "the mean lies outside those of docs/USAGE.md"


def reinstated(limits, paid):
    """The pure premium of 80 xs 20 with so many limits a year; up to so much of the year is reinstated at 100 percent."""
    return CEDED.expected(layer(80 * limits, 0)) / (1 + CEDED.expected(layer(paid, 0)) / 80)


def net_quantile(p, paid):
    """The quantile of the net of 80 xs 20 where so much is paid of the year's cessions, in floating point: the counts of the
    amounts are independent, since the number of claims is Poisson."""
    small = Year.of_claims(Fraction(9, 4), {10: 50, 20: 25}).parts
    chances = {}
    for fifty in range(14):
        for hundred in range(12):
            for three in range(9):
                counts = {50: fifty, 100: hundred, 300: three}
                chance = math.prod(
                    math.exp(-3 * FIRE[x] / 100) * (3 * FIRE[x] / 100) ** n / math.factorial(n) for x, n in counts.items()
                )
                ceded = sum(XL(x) * n for x, n in counts.items())
                kept = sum(x * n for x, n in counts.items()) - paid(ceded)
                chances[kept] = chances.get(kept, 0) + chance
    totals = {}
    for kept, chance in chances.items():
        for amount, part in small.items():
            if amount <= 600:
                totals[kept + amount] = totals.get(kept + amount, 0) + chance * (part / ONE)
    reached = 0
    for amount in sorted(totals):
        reached += totals[amount]
        if reached >= p:
            return amount


def money(value):
    """An amount of thousands, in full."""
    return f"{round(value * 1000):,}"


def percent(value):
    """A probability in percent, with one digit."""
    return f"{float(100 * value):.1f}"


def sentences():
    """The figures in the sentences of the page, worked out: each has to stand there."""
    p99, p90 = Fraction(99, 100), Fraction(9, 10)
    q99 = GROSS.quantile(p99)
    tail = GROSS.expected(layer(INF, q99)) / (1 - GROSS.within(q99))
    total = BOOK.quantile(p90)
    left = BOOK.tail(p90) - BOOK.after(layer(150, 150)).tail(p90)
    yield f"The year costs {money(GROSS.value('mean'))} in the mean. The VaR at 99 percent is {money(q99)}"
    yield f"The TVaR is {money(GROSS.tail(p99))}"
    yield f"is {round(q99 + tail)}, so {round(q99 + tail)},000 to three digits, where the TVaR is {money(GROSS.tail(p99))}"
    yield "The loss of 10 years is {}, of 100 years {}, of 200 years {}".format(
        *(money(GROSS.quantile(1 - Fraction(1, years))) for years in (10, 100, 200))
    )
    yield f"so {float(100 - 100 * GROSS.within(400)):.2f} percent: once in {round(1 / (1 - GROSS.within(400)))} years"
    above = [1 - fire(layer(INF, x)).within(0) for x in (20, 50, 100)]
    yield (
        f"above 20,000 with {percent(above[0])} percent, above 50,000 with {percent(above[1])} percent, and above 100,000 with "
        f"{percent(above[2])} percent, which is once in {round(1 / above[2])} years"
    )
    once = Fraction(199, 200)
    largest = min(x for x in FIRE if x == max(FIRE) or fire(layer(INF, x)).within(0) >= once)
    yield f"so the occurrence loss of 200 years is {money(largest)}"
    yield f"would be {q99 - CEDED.quantile(p99)}. Nothing is ceded in {percent(CEDED.within(0))} percent of the years"
    yield f"{CEDED.quantile(p99)} and {NET.quantile(p99)} are more than {GROSS.quantile(p99)}"
    deducted = CEDED.after(layer(INF, 80))
    yield f"from {money(CEDED.value('mean'))} to {money(deducted.value('mean'))}, and {percent(deducted.within(0))} percent of"
    limited = CEDED.expected(layer(160, 0))
    yield f"The layer pays {money(limited)} in the mean, and all of both limits in {percent(1 - CEDED.within(159))} percent"
    yield f"the pure premium P is {money(reinstated(2, 80))}; with a free reinstatement it is {money(limited)}"
    yield f"so {money(GROSS.value('mean') - CEDED.expected(layer(240, 0)))}."
    assert 1 - CEDED.within(240) < Fraction(19, 10000) and 290 <= net_quantile(0.99, layer(240, 0)) <= 300
    yield f"lies from {NET.quantile(p99)} to {NET.quantile(p99) + 80}."
    assert NET.quantile(p99) <= net_quantile(0.99, layer(INF, 80)) <= NET.quantile(p99) + 80
    stop = [money(GROSS.expected(layer(limit, 150))) for limit in (150, INF)]
    yield "The stop loss premium is {} with the limit, and {} without".format(*stop)
    yield f"in {percent(1 - GROSS.within(150))} percent of the years (1 - 0.831569)"
    yield f"and in full in {percent(1 - GROSS.within(299))} percent (1 - 0.936203"
    yield "{} and {} are the gross VaR of {}".format(
        *(GROSS.after(treaty).quantile(p90) for treaty in (layer(150, 150), net(layer(150, 150)), whole))
    )
    nets = [fire(treaty).value("mean") for treaty in (BOTH, QUOTA, lambda x: layer(60, 60)(x - QUOTA(x)))]
    yield "{}, {} and {} are the gross {}".format(*map(money, [*nets, sum(nets)]))
    others = [fire(treaty).value("mean") for treaty in (QUOTA_AFTER_CAT, CAT)]
    yield "{} and {}, and again {} net".format(*map(money, [*others, GROSS.value("mean") - sum(others)]))
    yield f"from {money(QUOTED.value('mean'))} to {money(QUOTED.after(CORRIDOR).value('mean'))}"
    ratio = GROSS.expected(layer(75, 150))
    yield f"The loss ratio is above 100 percent in {percent(1 - GROSS.within(150))} percent of the years."
    yield f"a pure premium of {money(ratio)}, which is {percent(ratio / 150)} percent of the premium"
    yield f"at most {GROSS.quantile(p90)} / 150, which is {round(100 * Fraction(GROSS.quantile(p90), 150))} percent"
    treaty = PROFILED.expected(layer(160, 0))
    yield f"costs {money(PROFILED.value('mean'))} without that limit and {money(treaty)} with it"
    yield f"and reaches it in {percent(1 - PROFILED.within(159))} percent of the years"
    shares = [money(BOOK.value(f"kappa:{name}:480")) for name in BOOK.units]
    yield f"The VaR at 99 percent is {money(BOOK.quantile(p99))}. Of a year of exactly that size, "
    yield "{} come from fire in the mean and {} from motor".format(*shares)
    parts = [BOOK.share_of_tail(name, p99) for name in BOOK.units]
    yield f"The TVaR at 99 percent is {money(BOOK.tail(p99))}. Of it {money(parts[0])} come from fire and {money(parts[1])} from motor"
    motor = BOOK.units["Motor"].value("mean") / BOOK.value("mean")
    yield f"Motor has {percent(motor)} percent of the pure premium, and {percent(parts[1] / BOOK.tail(p99))} percent of the TVaR."
    yield f"half the TVaR is {money((BOOK.value('mean') + BOOK.tail(p99)) / 2)}."
    shares = [(TABLE.means[name] / TABLE.mean, TABLE.share_of_tail(name, p99) / TABLE.tail(p99)) for name in ("Hail-DE", "Motor-DE")]
    yield "Hail in Germany has {} percent of the mean and {} percent of the TVaR, motor {} and {}".format(*map(percent, sum(shares, ())))
    yield f"The pure premium is {money(BOOK.expected(layer(150, 150)))}."
    yield f"The cover pays in {percent(1 - BOOK.within(150))} percent of the years"
    yield f"and in full in {percent(1 - BOOK.within(299))} percent. -"
    yield f"{total} - 150, so {layer(150, 150)(total)}, which is within the limit."
    yield f"The VaR of what it leaves is the rest of it, {net(layer(150, 150))(total)}."
    yield f"90 + {float(BOOK.expected(layer(60, 240))):.4f} / 0.1, so {money(BOOK.after(layer(150, 150)).tail(p90))}. Where"
    assert left == BOOK.after(net(layer(150, 150))).tail(p90)
    yield f"{money(BOOK.tail(p90))} - {money(BOOK.after(layer(150, 150)).tail(p90))}"


#: The ten books in Python, each by the first words of the line above it, and the year of each row that it prints.
PYTHON = {
    "VaR and TVaR": [GROSS] * 3,
    "Return periods": [GROSS] * 4,
    "OEP": [fire(layer(INF, x)) for x in (20, 50, 100)],
    "An excess of loss": [CEDED, CEDED, NET, NET],
    "An annual aggregate deductible": [CEDED.after(layer(INF, 80))] * 3,
    "The pure premium": [],
    "A stop loss": [GROSS] * 4,
    "A quota share": [fire(net(QUOTA))] * 2,
    "A loss ratio": [GROSS] * 3,
    "How a year": [BOOK] * 6,
}
#: A row as it is printed, and a line of a table of return periods.
PRINTED = re.compile(r"(?:\d+ )?((?:mean|pmf|sf|q|tail|layer|kappa|price|cotail)\S*) ([\d.]+) ([\d.]+)")
PERIOD = re.compile(r" *(\d+) +(\d+) +([\d.]+) to ([\d.]+)")


def python_books():
    """Each row and figure of the ten books in Python, of at most five lines each."""
    page = (ROOT / "docs/RECIPES.md").read_text(encoding="utf-8").split("## The same books in Python\n")[1].split("\n## ")[0]
    parts = page.split("\n\n")
    books = {head: body.splitlines() for head, body in zip(parts, parts[1:]) if head.endswith(":") and body.startswith("    >>>")}
    books = {head: [line[4:] for line in body] for head, body in books.items() if "import decl" not in body[0]}
    yield len(books) == len(PYTHON) == 10, "docs/RECIPES.md has not ten books in Python"
    for (head, lines), (name, years) in zip(books.items(), PYTHON.items()):
        code = [line for line in lines if line.startswith((">>>", "..."))]
        yield head.startswith(name) and len(code) <= 5, f"the book in Python is not {name}, or has more than five lines"
        left = list(years)
        for line in lines[len(code) :]:
            row, period = PRINTED.fullmatch(line), PERIOD.fullmatch(line)
            if row:
                yield holds(" ".join(row.groups()), left.pop(0)), f"the book in Python has another value: {name}: {line}"
            elif period:
                year, p = left.pop(0), 1 - Fraction(1, int(period[1]))
                right = year.quantile(p) == int(period[2]) and Fraction(period[3]) <= year.tail(p) <= Fraction(period[4])
                yield right, f"the book in Python has another value: {name}: {line}"
        yield not left, f"the book in Python prints too few rows: {name}"
    low, high = map(int, books[next(head for head in books if head.startswith("The pure premium"))][-1].split())
    yield low <= 1000 * reinstated(2, 80) <= high <= low + 2, "the pure premium in Python is another one"
    ratio = books[next(head for head in books if head.startswith("A loss ratio"))][-1]
    yield int(ratio) == Fraction(100 * GROSS.quantile(Fraction(9, 10)), 150), "the loss ratio in Python is another one"


def tower():
    """Each layer of the tower: what it costs a year, that it pays, that both limits are used up, and the premium for reinstatements."""
    events = [1, 2, 3, 4, 5, 6, 7, 8, 10, 12, 14, 16, 18, 20, 24, 28, 32, 36, 40, 48, 56, 64, 72, 80, 100, 120, 140, 160, 180, 200]
    for limit, attachment in ((20, 20), (40, 40), (100, 100)):
        paid = {}
        for amount in events:  # in units of 500
            part = layer(limit, attachment)(amount)
            paid[part] = paid.get(part, 0) + 1
        year = Worked.poisson(Fraction(5, 2), paid, 2 * limit + 1)
        loss, again = 500 * year.layer(2 * limit), year.layer(limit) / limit
        yield [loss, 1 - year.cdf(0), 1 - year.cdf(2 * limit - 1), again, loss / (1 + again) * again, loss / (1 + again)]


def share_then_stop_loss():
    """The year that is gross, ceded and net of the quota share and of the stop loss on what it leaves."""
    stop = layer(20, 60)
    for treaty in (whole, lambda x: Fraction(2, 5) * x + stop(Fraction(3, 5) * x), lambda x: net(stop)(Fraction(3, 5) * x)):
        year = GROSS.after(treaty)
        yield [year.value(ask) for ask in ("mean", "q:0.99", "tail:0.99")]


def changed_zeros():
    """No claim, the mean and the VaR of a Poisson count, and of those whose probability of no claim is another one."""
    base = Worked.poisson(2, {amount: 1 for amount in range(1, 7)}, 128)
    none = base.cells[0]
    for chance in (None, 0, Fraction(3, 10)):
        part = 1 if chance is None else (1 - chance) / (1 - Fraction(none, ONE))
        first = none if chance is None else int(chance * ONE)
        year = Worked([first, *(int(part * cell) for cell in base.cells[1:])], part * base.mean)
        yield [year.cdf(0), year.mean, year.q(Fraction(99, 100))]


def common_factor():
    """VaR and TVaR; and of each line its mean, its share of the TVaR and of a year of 60."""
    amounts = [[1, 2, 5], [1, 2, 4], [1, 2, 3], [1, 2, 2], [1, 2]]
    lines = {at: {x: Fraction((at + 1) * line.count(x), len(line)) for x in line} for at, line in enumerate(amounts)}
    book = UnderFactor(4, lines, 192)
    p = Fraction(199, 200)
    yield [book.year.q(p)]
    yield [book.year.tail(p)]
    for line in lines:
        yield [book.mean_of(line), book.share_of_tail(line, p), book.joint(line, 60) * ONE / book.year.cells[60]]
    yield [book.year.mean, book.year.tail(p), 60]


def six_lines():
    """The mean of each line and its share of the TVaR, and those of the total; twice, since they are the same on both grids."""
    years = [Worked.poisson(at, {5 * at: 1, 10 + at: 1, 40: 1}, 1024) for at in range(1, 7)]
    p, lines = Fraction(99, 100), []
    for year in years:
        others = [other for other in years if other is not year]
        rest = sum(others[1:], others[0])
        lines.append([year.mean, year.share_of_tail(rest, p)])
    total = sum(years[1:], years[0])
    return 2 * [*lines, [total.mean, total.tail(p)]]


def lognormal_layer():
    """What 20 claims cost in 5,000,000 xs 1,000,000, by the limited means of a lognormal amount; in floating point."""
    variance = math.log(1 + 2**2)
    mu, sigma = math.log(400_000) - variance / 2, math.sqrt(variance)

    def normal(x):
        return (1 + math.erf(x / math.sqrt(2))) / 2

    def limited(x):
        z = (math.log(x) - mu) / sigma
        return 400_000 * normal(z - sigma) + x * (1 - normal(z))

    yield [Fraction(20 * (limited(6_000_000) - limited(1_000_000)))]


def apportioned(values, parts):
    """Whole numbers in proportion that add up to so many parts: rounded down, and one more for the largest remainders."""
    shares = [value * parts / sum(values) for value in values]
    found = [math.floor(each) for each in shares]
    for at in sorted(range(len(shares)), key=lambda at: found[at] - shares[at])[: parts - sum(found)]:
        found[at] += 1
    return found


def spreadsheet():
    """VaR and TVaR of the 40 lines, the mean of line 7 and its share of the TVaR, and those of the total. As the page of the client says,
    weights are billionths."""
    years, p = [], Fraction(99, 100)
    weights = apportioned([Fraction("0.333333")] * 3, 10**9)
    for at in range(40):
        treaty, claims = layer(12 + at % 5, at % 3), 1 + Fraction(at, 20)
        chances = {}
        for step, weight in zip((1, 2, 3), weights, strict=True):
            amount = treaty(5 * step + at % 4)
            chances[amount] = chances.get(amount, 0) + weight
        years.append(Worked.poisson(claims, chances, 1500))
    rest = sum([year for at, year in enumerate(years) if at != 7][1:], years[0])
    total = rest + years[7]
    yield [total.q(p)]
    yield [total.tail(p)]
    yield [years[7].mean]
    yield [years[7].share_of_tail(rest, p)]
    yield [total.mean]
    yield [total.tail(p)]


def structures():
    """Mean, VaR and TVaR of the five books, and these less those of the gross one."""
    asks = ("mean", "q:0.99", "tail:0.99")
    gross = [GROSS.value(ask) for ask in asks]
    for year in (GROSS, NET, fire(net(QUOTA)), GROSS.after(net(layer(150, 150))), NET.after(net(layer(100, 100)))):
        values = [year.value(ask) for ask in asks]
        yield values if year is GROSS else [*values, *(value - first for value, first in zip(values, gross))]


#: The ten tasks, each by the first words of its paragraph, with the values of each line that it prints.
TASKS = {
    "A catastrophe tower": tower,
    "A quota share, then a stop loss": share_then_stop_loss,
    "Changed zeros": changed_zeros,
    "A common factor": common_factor,
    "Capital of six lines": six_lines,
    "A price": lambda: [[GROSS.value("price:1/2@0+3/10@9/10+1/5@99/100")]],
    "A layer of a lognormal severity": lognormal_layer,
    "A spreadsheet of 40 lines": spreadsheet,
    "Five structures of one book": structures,
    "A page for the chief actuary": lambda: [[1000], [GROSS.value("mean")], [GROSS.value("q:0.99")]],
}
CELL = re.compile(r"(-?[\d.]+)(?: to (-?[\d.]+))?")


def ends_in(line):
    """The two ends of each figure of a line that is printed: those of a row, or of the cells of a table."""
    line = line.replace(",", "")
    row = re.fullmatch(r"\S+ (-?[\d.]+) (-?[\d.]+)", line)
    if row and ":" in line.split(" ")[0] or line.startswith("mean "):
        return [row.groups()]
    cells = (CELL.fullmatch(cell) for cell in re.split(r"  +", line.strip()))
    return [(cell[1], cell[2] or cell[1]) for cell in cells if cell]


def ten_tasks():
    """Each figure that the ten tasks print, and that each takes at most three lines beyond its data."""
    page = (ROOT / "docs/RECIPES.md").read_text(encoding="utf-8").split("## Ten tasks of a desk\n")[1]
    parts = page.split("\n\n")
    blocks = {head.split("**")[1].rstrip("."): body for head, body in zip(parts, parts[1:]) if body.startswith("    >>>")}
    yield list(blocks) == list(TASKS), f"docs/RECIPES.md has other tasks: {', '.join(blocks)}"
    for (name, body), values in zip(blocks.items(), TASKS.values()):
        lines = [line[4:] for line in body.strip("\n").splitlines()]
        code = [line for line in lines if line.startswith((">>>", "..."))]
        begun = [at for at, line in enumerate(code) if line.startswith(">>>")]
        data = [at for at in begun if re.match(r">>> [A-Z]+ = ", code[at])]
        after = [next((end for end in begun if end > at), len(code)) for at in data]
        yield len(code) - sum(end - at for at, end in zip(data, after)) <= 3, f"{name} takes more than three lines beyond its data"
        printed = [ends for ends in map(ends_in, lines[len(code) :]) if ends]
        worked = [list(each) for each in values()]
        yield [len(ends) for ends in printed] == [len(each) for each in worked], f"{name} prints another number of figures"
        for ends, each in zip(printed, worked):
            for (low, high), value in zip(ends, each):
                right = Fraction(low) - SLACK <= value <= Fraction(high) + SLACK
                yield right, f"{name} has another value: {low} to {high} do not hold {float(value)}"


def text_of(command):
    """The program of a command, with its severities by name, or its table; none where the command names another file."""
    found, table = re.search(r"echo (['\"])(.*?)\1", command, re.DOTALL), re.search(r"\S+\.csv", command)
    if table:
        return table[0]
    text = " ".join(found[2].replace("\\\n", "" if found[1] == '"' else "\\\n").split()) if found else ""
    for name, severity in TEXTS.items():
        text = text.replace(severity, name)
    return text


def holds(row, year):
    """Whether the two ends of the row hold the value."""
    ask, low, high = row.split(" ")
    value = year.value(ask)
    return Fraction(low) - SLACK <= value <= Fraction(high) + SLACK


def looked_at(page, recipes, all_of_it):
    """For each row of the page, whether it holds its value, and what is wrong."""
    left = set(recipes)
    for command, stored in commands(ROOT / page):
        text = text_of(command)
        if text in recipes and not stored[0].startswith("decl:"):
            left.discard(text)
            years = recipes[text]
            for row, year in zip(stored, years if isinstance(years, list) else [years] * len(stored), strict=True):
                value = float(year.value(row.split(" ")[0]))
                yield holds(row, year), f"{page}: {text}: {row}: the value is {value}"
        elif all_of_it and not (text in recipes and stored[0].startswith("decl:")):
            yield False, f"{page} has a command with no recipe: {text or command}"
    for text in left:
        yield False, f"{page} has no command with {text}"


def main():
    """Looks at each row and each figure."""
    found = [*looked_at("docs/RECIPES.md", RECIPES, True), *looked_at("docs/FROM-AGGREGATE.md", TOWERS, False)]
    found += [*looked_at("docs/USAGE.md", COARSE, False), *coarse(), *python_books(), *ten_tasks()]
    page = " ".join((ROOT / "docs/RECIPES.md").read_text(encoding="utf-8").split())
    found += [(sentence in page, f"docs/RECIPES.md does not say: {sentence}") for sentence in sentences()]
    for passes, wrong in found:
        if not passes:
            print("FAILED:", wrong)
    failed = sum(not passes for passes, _ in found)
    print(f"{len(found) - failed} passed, {failed} failed")
    return 1 if failed else 0


if __name__ == "__main__":
    sys.exit(main())
