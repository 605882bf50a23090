"""The mean, the variance and the third central moment of a book, in fractions, worked out from its text.

They come from the client's own arithmetic, in exact fractions, and are not proved: the program proves the mean that it
answers, and a test holds the two together.
"""

from dataclasses import dataclass
from fractions import Fraction
from math import isqrt
from typing import Optional, Tuple

from .faults import NoMoments
from .plan import Chances, Plan, Unit, mean_of

#: Ends of roots lie this far apart at most.
FINE = 10**12

Ends = Tuple[Fraction, Fraction]


def root(value: Fraction) -> Ends:
    """Two ends of the square root of a value of at least 0, at most 1 / FINE apart; equal where the root is so fine."""
    over = value.denominator
    least = isqrt(value.numerator * over * FINE**2)
    whole = least**2 == value.numerator * over * FINE**2
    low = Fraction(least, over * FINE)
    return low, low if whole else Fraction(least + 1, over * FINE)


def outward(ends: Ends, places: int = 12) -> Ends:
    """The ends, rounded outward to so many places."""
    scale = 10**places
    low, high = ends
    return Fraction(low * scale // 1, scale), Fraction(-(-high * scale // 1), scale)


@dataclass(frozen=True)
class Moments:
    """The mean, the variance and the third central moment, exact."""

    mean: Fraction
    variance: Fraction
    third: Fraction

    @property
    def deviation(self) -> Ends:
        """Two ends of the standard deviation."""
        return outward(root(self.variance))

    @property
    def variation(self) -> Ends:
        """Two ends of the deviation over the mean, which is above 0."""
        if not self.mean:
            raise NoMoments("the coefficient of variation needs a mean above 0")
        return outward(root(self.variance / self.mean**2))

    @property
    def skewness(self) -> Ends:
        """Two ends of the skewness, where the variance is above 0."""
        if not self.variance:
            raise NoMoments("the skewness needs a variance above 0")
        low, high = root(self.third**2 / self.variance**3)
        return outward((low, high) if self.third >= 0 else (-high, -low))

    def __add__(self, other: "Moments") -> "Moments":
        return Moments(self.mean + other.mean, self.variance + other.variance, self.third + other.third)


def of_chances(chances: Chances) -> Moments:
    """The moments of amounts with their probabilities."""
    mean = mean_of(chances)
    second, third = (sum(part * (amount - mean) ** power for amount, part in chances.items()) for power in (2, 3))
    return Moments(mean, Fraction(second), Fraction(third))


def of_count(unit: Unit) -> Moments:
    """The moments of the number of claims of a unit."""
    before = before_change(unit)
    if unit.zero is None:
        return before
    none = no_claim(unit)
    if none == 1:
        raise NoMoments(f"unit {unit.name} has no claim before its count is changed, so none is left")
    part = (1 - unit.zero) / (1 - none)
    first, second, third = (part * power for power in powers(before))
    return Moments(first, second - first**2, third - 3 * first * second + 2 * first**3)


def powers(moments: Moments) -> Tuple[Fraction, Fraction, Fraction]:
    """The means of a variable, of its square and of its cube."""
    mean, variance, third = moments.mean, moments.variance, moments.third
    return mean, variance + mean**2, third + 3 * mean * variance + mean**3


def no_claim(unit: Unit) -> Fraction:
    """The probability of no claim of a unit, before `zt` or `zm` changes it."""
    mean, shape = unit.expected_claims(), unit.shape
    if unit.count == "poisson":
        raise NoMoments(
            f"unit {unit.name} has a poisson count with another probability of no claim, so its moments are no fractions;"
            " mean() has two ends of its mean"
        )
    if unit.count == "fixed":
        return Fraction(not mean)
    if unit.count == "mixed":
        if (1 / shape**2).denominator > 1:
            raise NoMoments(
                f"unit {unit.name} has a mixed gamma count whose shape 1 / c^2 is not whole, with another probability of no claim, so"
                " its moments are no fractions; mean() has two ends of its mean"
            )
        return 1 / (1 + mean * shape**2) ** int(1 / shape**2)
    return 1 - mean if unit.count == "bernoulli" else (1 - shape) ** int(mean / shape)


def before_change(unit: Unit) -> Moments:
    """The moments of the number of claims of a unit, before `zt` or `zm` changes it."""
    if unit.counts is not None:
        return of_chances(unit.counts)
    mean, shape = unit.expected_claims(), unit.shape
    if unit.count == "fixed":
        return Moments(mean, Fraction(0), Fraction(0))
    if unit.count == "poisson":
        return Moments(mean, mean, mean)
    if unit.count == "mixed":
        mixing = shape**2  # the variance of the gamma variable of mean 1; its third central moment is twice the square of it
        return Moments(mean, mean + mean**2 * mixing, mean + 3 * mean**2 * mixing + 2 * mean**3 * mixing**2)
    chance = mean if unit.count == "bernoulli" else shape
    variance = mean * (1 - chance)
    return Moments(mean, variance, variance * (1 - 2 * chance))


def of_unit(unit: Unit) -> Moments:
    """The moments of the sum of the claims of a unit, which has no aggregate clause."""
    if unit.aggregate is not None:
        raise NoMoments(f"unit {unit.name} has an aggregate clause, so its moments do not follow from those of its claims")
    count, claim = of_count(unit), of_chances(unit.of_a_claim())
    mean = count.mean * claim.mean
    variance = count.mean * claim.variance + count.variance * claim.mean**2
    third = count.mean * claim.third + 3 * count.variance * claim.mean * claim.variance + count.third * claim.mean**3
    return Moments(mean, variance, third)


def under_factor(given: Moments, common: Optional[Fraction]) -> Moments:
    """The moments of a sum of compound Poisson sums whose expected claims one gamma factor of mean 1 scales alike, from those without
    it; `common` is the coefficient of variation of the factor, and None is no factor.

    Given the factor all three moments are its multiples, since they are cumulants. So the variance is that without the factor, and the
    factor's variance times the product of the means of each two units.
    """
    if common is None:
        return given
    mixing = common**2  # the variance of the factor; its third central moment is twice the square of it
    mean, variance = given.mean, given.variance
    third = given.third + 3 * mixing * mean * variance + 2 * mixing**2 * mean**3
    return Moments(mean, variance + mixing * mean**2, third)


def of_plan(plan: Plan, unit: Optional[str] = None) -> Moments:
    """The moments of the total, or of the unit with this name. Units are independent, or so given their factor."""
    nothing = Moments(Fraction(0), Fraction(0), Fraction(0))
    found = [of_unit(each) for each in plan.units if unit in (None, each.name)]
    return under_factor(sum(found, nothing), plan.common)
