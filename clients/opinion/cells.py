"""Probabilities of the amounts 0, 1, .. in whole numbers rounded outward, of which ONE make 1 (docs/DEFINITIONS.md, "Compound sums").

Sums of independent amounts are products of two long numbers, in whose digits the cells stand one behind the other.
"""

import decimal
import math
from collections import namedtuple
from fractions import Fraction
from itertools import accumulate
from typing import NamedTuple

DIGITS = 80
ONE = 10**DIGITS
WIDE = 2 * DIGITS + 2  # digits of a cell in a long number: room for sums of products of two cells
WHOLE = decimal.Context(decimal.MAX_PREC, Emin=decimal.MIN_EMIN, Emax=decimal.MAX_EMAX, traps=[decimal.Inexact])
MOST_STEPS = 30_000_000  # products of cells that a unit may take
OF_PRODUCT = 30  # such steps that a cell of a long product takes


class TooLarge(Exception):
    """A program takes more steps than are done here, or an answer comes out too wide."""


Ends = namedtuple("Ends", "low high")  # two fractions, between which a number lies


class Cells(NamedTuple):
    """The probability of amount k lies from `low[k]` to `low[k] + slack`, in units of 1 / ONE; past the list `low` is 0."""

    low: list
    slack: int

    def at(self, k):
        """The low end of a cell."""
        return self.low[k] if k < len(self.low) else 0

    def ends(self, k):
        """The probability of an amount."""
        return Ends(Fraction(self.at(k), ONE), Fraction(self.at(k) + self.slack, ONE))

    def up_to(self, cells):
        """For each amount on so many cells the probability of at most it."""
        sums = list(accumulate(self.low))
        return Cells(sums + sums[-1:] * (cells - len(sums)), cells * self.slack)


def exact(part):
    """A probability as the low end of a cell, which is at most a unit too low."""
    return part.numerator * ONE // part.denominator


def between(lows, highs):
    """The cells with these ends; past its end the first list has zeros."""
    return Cells(lows, max([high - low for low, high in zip(lows, highs)] + highs[len(lows) :]))


def trimmed(low):
    """A list without the zeros at its end, but for one cell."""
    end = len(low)
    while end > 1 and not low[end - 1]:
        end -= 1
    return low[:end]


def claim(severity, cells):
    """The cells of one claim."""
    low = [0] * min(cells, max(severity) + 1)
    for amount, chance in severity.items():
        if amount < cells:
            low[amount] = exact(chance)
    return Cells(low, 1)


def packed(low):
    """The cells of a list one behind the other, the first one last."""
    return decimal.Decimal("".join([f"{cell:0{WIDE}}" for cell in reversed(low)]))


def convolve(x, y, cells):
    """The first cells of the sum of two independent amounts. The low ends of each add up to at most ONE, so that a cell is too low by
    at most both slacks, their product for each cell, and one rounding."""
    length = min(cells, len(x.low) + len(y.low) - 1)
    end = (len(x.low) + len(y.low)) * WIDE
    data = f"{WHOLE.multiply(packed(x.low), packed(y.low)):f}".zfill(end)
    low = [int(data[end - (k + 1) * WIDE : end - k * WIDE - DIGITS]) for k in range(length)]
    return Cells(trimmed(low), x.slack + y.slack + cells * x.slack * y.slack // ONE + 2)


def within_steps(steps, what):
    """Raises TooLarge where so many steps are too many."""
    if steps > MOST_STEPS:
        raise TooLarge(f"{what} takes {int(steps):,} steps")


def power(x, times, cells):
    """The sum of so many independent amounts, by squaring."""
    reach = min(cells, times * (len(x.low) - 1) + 1)
    within_steps((len(bin(times)) + bin(times).count("1") - 4) * reach * OF_PRODUCT, f"the sum of {times} claims")
    found = None if times else Cells([ONE], 0)
    while times:
        found = (convolve(found, x, cells) if found else x) if times % 2 else found
        times //= 2
        x = convolve(x, x, cells) if times else x
    return found


def listed(chances, severity, cells):
    """The sum of a listed number of claims: Horner's rule over the counts, which are dictionary keys with their probabilities."""
    x, most = claim(severity, cells), max(chances)
    reach = min(cells, most * (len(x.low) - 1) + 1)
    within_steps(most * reach * OF_PRODUCT, f"the sum of {most} listed claims")
    found = Cells([exact(chances[most])], 1)
    for count in range(most - 1, -1, -1):
        found = convolve(found, x, cells)
        found.low[0] += exact(chances.get(count, Fraction(0)))
        found = Cells(found.low, found.slack + 1)
    return found


def recursion(a, b, severity, cells, up):
    """Panjer's recursion from 1 for amounts above 0, each cell rounded down, or up: `r(s)` is the sum over the amounts `j` up to `s` of
    `(a + b * j / s) * f(j) * r(s - j)`."""
    over, whole = math.lcm(a.denominator, b.denominator), math.lcm(*(chance.denominator for chance in severity.values()))
    parts = [(j, int(a * over) * int(f * whole), int(b * over) * j * int(f * whole)) for j, f in severity.items()]
    over *= whole
    within_steps(cells * len(parts) * 4, f"a recursion of {cells} cells over {len(parts)} amounts")
    found = [ONE]
    for s in range(1, cells):
        some = sum((s * of_a + of_b) * found[s - j] for j, of_a, of_b in parts if j <= s)
        found.append(-(-some // (s * over)) if up else some // (s * over))
    return found


def poisson_whole(mean):
    """The two ends of the sum of the weights `v^n / n!` of a Poisson count, in units of 1 / ONE: past the twofold of `v` each weight is
    less than half of the one before it, so that the last one bounds the rest."""
    low = high = least = most = ONE
    n = 0
    while n < 2 * mean or most > 1:
        n += 1
        least = least * mean.numerator // (mean.denominator * n)
        most = -(-most * mean.numerator // (mean.denominator * n))
        low, high = low + least, high + most
    return low, high + most


def gamma_whole(mean, shape):
    """The two ends of the sum of the weights of a gamma count, each the product of the `(r + i) / (i + 1)` over `i` from 0 to `n - 1`, times
    `(v / (r + v))^n`, in units of 1 / ONE. It is `(1 + v / r)^r`: a power by the whole part of `r`, and for each binary digit of the rest,
    from the last one on, a root, before it times `1 + v / r` where the digit is 1; past the last digit the rest lies from 0 to 1."""
    base, fine = 1 + mean / shape, ONE * ONE
    low, high = fine, math.ceil(base * fine)
    for place in range(8 * DIGITS, 0, -1):
        factor = base if int(shape * 2**place) % 2 else 1
        low, high = math.isqrt(math.floor(factor * low) * fine), math.isqrt(math.ceil(factor * high) * fine) + 1
    whole = base ** int(shape) / ONE
    return math.floor(whole * low), math.ceil(whole * high)


def compounded(a, b, whole, severity, cells):
    """The compound sum of claims above 0 by the recursion, divided by the whole weight."""
    lows = [cell * ONE // whole[1] for cell in recursion(a, b, severity, cells, False)]
    highs = [-(-cell * ONE // whole[0]) for cell in recursion(a, b, severity, cells, True)]
    return between(trimmed(lows), highs)


def poisson(mean, severity, cells):
    """The sum of a Poisson number of claims above 0."""
    return compounded(Fraction(0), mean, poisson_whole(mean), severity, cells)


def gamma(mean, shape, severity, cells):
    """The sum of a negative binomial number of claims above 0."""
    a = mean / (shape + mean)
    return compounded(a, (shape - 1) * a, gamma_whole(mean, shape), severity, cells)


def binomial(trials, q, severity, cells):
    """The sum of a binomial number of claims."""
    trial = {amount: q * chance for amount, chance in severity.items()}
    trial[0] = trial.get(0, 0) + 1 - q
    return power(claim(trial, cells), trials, cells)


def fixed(count, severity, cells):
    """The sum of a fixed number of claims."""
    return power(claim(severity, cells), count, cells)
