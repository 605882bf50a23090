"""Continuous severities as the package `aggregate` writes them, with distribution functions that are rounded outward.

A severity is a factor times a base, plus a shift: `lognorm 50 cv 1.75`, `10 * lognorm 1.75`, `gamma 50 cv 0.5`, `10 * gamma 2.5`,
`50 * expon`, `100 * weibull 1.5`, `100 * pareto 2.3 - 100`. Each answer is an interval that holds the value.
"""

import re
from dataclasses import dataclass
from fractions import Fraction
from functools import lru_cache
from typing import Callable, Dict, NoReturn, Optional, Tuple, Union

from .choose import value_of
from .intervals import (
    FAR_NORMAL, HALF, NOTHING, ONE, ROOT_2_PI, UNITY, Interval, exp, gamma_below, interval, log, log_gamma, normal, root,
)  # fmt: skip
from .numerals import number_of

NUMBER = r"(?:\d+/\d+|(?:\d+\.?\d*|\.\d+)(?:[eE][+-]?\d+)?%?)(?![\d.])"
#: A continuous severity: factor, name, shape or mean, cv, sign and size of the shift.
CONTINUOUS = re.compile(
    rf"sev\s+(?:({NUMBER})\s*\*\s*)?(lognorm|gamma|expon|weibull|pareto)(?![\w.:~-])"
    rf"(?:\s+({NUMBER})(?:\s+cv\s+({NUMBER}))?)?(?:\s*([+-])\s*({NUMBER}))?"
)
#: A factor, a mean and a shift lie below the second of these, and factor and mean from the first on.
SIZES = (Fraction(1, 10**9), Fraction(10**15))
#: Shapes lie from the first to the second of these.
SHAPES: Dict[str, Tuple[Fraction, Fraction]] = {
    "lognorm": (Fraction(1, 1000), Fraction(20)),
    "gamma": (Fraction(1, 1000), Fraction(10**4)),
    "weibull": (Fraction(1, 100), Fraction(100)),
    "pareto": (Fraction(1, 100), Fraction(1000)),
}
#: Above e**20 nothing is left of an exponential distribution.
FAR_EXPONENT = interval(20)


class NotRead(ValueError):
    """A severity whose numbers have no meaning; the text is a sentence on it."""


@dataclass(frozen=True)
class Lognormal:
    """The exponential of a normal variable with this mean and deviation."""

    mu: Interval
    sigma: Interval
    least = 0

    def at_most(self, z: Interval) -> Interval:
        """The probability of at most z, which is above 0."""
        return normal((log(z) - self.mu) / self.sigma)

    def limited(self, z: Interval) -> Interval:
        """The mean of the lesser one of the variable and z."""
        place = (log(z) - self.mu) / self.sigma
        return self.below(z, place, self.sigma - place) + z * (UNITY - normal(place))

    def below(self, z: Interval, place: Interval, short: Interval) -> Interval:
        """The mean of the variable where it is at most z, and 0 else: the mean times the normal distribution function at `-short`.

        The mean is so large where `short` is above FAR_NORMAL, that this is worked out by the density d at `place`: the mean times the
        density at `short` is z d, and the distribution function at -s lies from 1 / s - 1 / s**3 to 1 / s times the density there.
        """
        if short.low <= FAR_NORMAL * ONE:
            return self.mean() * normal(-short)
        most = z * exp(-(place * place * HALF)) / ROOT_2_PI / short
        return Interval((most * (UNITY - UNITY / (short * short))).low, most.high)

    def mean(self) -> Interval:
        """The mean."""
        return exp(self.mu + self.sigma * self.sigma * HALF)


@dataclass(frozen=True)
class Gamma:
    """A gamma variable of this shape, and of scale 1."""

    shape: Fraction
    least = 0

    def at_most(self, z: Interval) -> Interval:
        """The probability of at most z, which is above 0."""
        return gamma_below(self.shape, z)

    def limited(self, z: Interval) -> Interval:
        """The mean of the lesser one of the variable and z."""
        return interval(self.shape) * gamma_below(self.shape + 1, z) + z * (UNITY - self.at_most(z))

    def mean(self) -> Optional[Interval]:
        """The mean."""
        return interval(self.shape)


@dataclass(frozen=True)
class Weibull:
    """A variable that is above z with the probability exp(-z**shape). With the shape 1 it is exponential."""

    shape: Fraction
    least = 0

    def powered(self, z: Interval) -> Interval:
        """z to the power of the shape; a high end alone, where the power is far."""
        if self.shape == 1:
            return z
        exponent = interval(self.shape) * log(z)
        return exp(Interval(min(exponent.low, FAR_EXPONENT.low), min(exponent.high, FAR_EXPONENT.high)))

    def at_most(self, z: Interval) -> Interval:
        """The probability of at most z, which is above 0."""
        power = self.powered(z)
        reached = UNITY - exp(-power)
        return Interval(reached.low, UNITY.high) if power.high >= exp(FAR_EXPONENT).low else reached

    def limited(self, z: Interval) -> Interval:
        """The mean of the lesser one of the variable and z: the integral of exp(-t**shape) from 0 to z."""
        inverse = 1 / self.shape
        below = gamma_below(inverse, self.powered(z))
        far = exp(FAR_EXPONENT).low
        if self.powered(z).high >= far:
            below = Interval(below.low, UNITY.high)
        return exp(log_gamma(1 + inverse)) * below

    def mean(self) -> Optional[Interval]:
        """The mean."""
        return exp(log_gamma(1 + 1 / self.shape))


@dataclass(frozen=True)
class Pareto:
    """A variable of at least 1 that is above z with the probability z**-shape."""

    shape: Fraction
    least = 1

    def at_most(self, z: Interval) -> Interval:
        """The probability of at most z, which is above 1."""
        return UNITY - exp(-(interval(self.shape) * log(z)))

    def limited(self, z: Interval) -> Interval:
        """The mean of the lesser one of the variable and z: 1 and the integral of t**-shape from 1 to z."""
        if self.shape == 1:
            return UNITY + log(z)
        more = self.shape - 1
        moved = exp(-(interval(more) * log(z)))
        return UNITY + (UNITY - moved if more > 0 else moved - UNITY) / interval(abs(more))

    def mean(self) -> Optional[Interval]:
        """The mean; None where it is infinite."""
        return interval(self.shape / (self.shape - 1)) if self.shape > 1 else None


Base = Union[Lognormal, Gamma, Weibull, Pareto]


@dataclass(frozen=True)
class Severity:
    """`factor` times the base, plus `shift`: at least 0, in money."""

    base: Base
    factor: Fraction
    shift: Fraction

    @property
    def least(self) -> Fraction:
        """The least amount."""
        return self.base.least * self.factor + self.shift

    @lru_cache(maxsize=2**16)
    def at_most(self, x: Fraction) -> Interval:
        """The probability of at most x; it is that of less than x too."""
        if x <= self.least:
            return NOTHING
        return self.base.at_most(interval((x - self.shift) / self.factor)).within(0, 1)

    def limited(self, x: Fraction) -> Interval:
        """The mean of the lesser one of the amount and x, so at most x."""
        if x <= self.least:
            return interval(x)
        found = interval(self.factor) * self.base.limited(interval((x - self.shift) / self.factor)) + interval(self.shift)
        return Interval(found.low, min(found.high, interval(x).high))

    def mean(self) -> Optional[Interval]:
        """The mean; None where it is infinite."""
        mean = self.base.mean()
        return None if mean is None else interval(self.factor) * mean + interval(self.shift)


def refuse(reason: str) -> NoReturn:
    """Raises the fault of a severity."""
    raise NotRead(reason)


def number(word: str) -> Fraction:
    """The number that a word spells: a decimal, with an exponent or as a percent too, or a fraction."""
    if "/" in word:
        return value_of(word) if int(word.split("/")[1]) else refuse("A fraction over 0 is no number.")
    found = number_of(word.rstrip("%"))
    if found is None:
        refuse("A number has at most 64 digits, and an exponent of at most two.")
    return found / 100 if word.endswith("%") else found


def sized(value: Fraction, what: str) -> Fraction:
    """A factor or a mean, which lies between the sizes."""
    return value if SIZES[0] <= value <= SIZES[1] else refuse(f"A {what} lies from 1e-9 to 1e15.")


def shaped(value: Fraction, name: str) -> Fraction:
    """A shape, which lies in the range of its severity."""
    least, most = SHAPES[name]
    return value if least <= value <= most else refuse(f"The shape of {name} lies from {float(least):g} to {float(most):g}.")


def with_cv(name: str, mean: Fraction, cv: Fraction) -> Tuple[Base, Fraction]:
    """The base and the factor of a severity with this mean and this coefficient of variation."""
    sized(mean, "mean")
    square = cv * cv
    if name == "gamma":
        return Gamma(shaped(1 / square if cv else square, name)), mean * square
    if name == "lognorm":
        if not Fraction(1, 1000) <= cv <= 10**4:
            refuse("The cv of lognorm lies from 0.001 to 10000.")
        variance = log(interval(1 + square))
        return Lognormal(log(interval(mean)) - variance * HALF, root(variance)), Fraction(1)
    refuse(f"lognorm and gamma have a mean and a cv, and {name} has not: give its shape, and a factor before it.")


def with_shape(name: str, shape: Optional[str]) -> Base:
    """The base of a severity with this shape."""
    if name == "expon":
        return Weibull(Fraction(1)) if shape is None else refuse("expon has no shape: its mean is the factor before it, as 50 * expon.")
    if shape is None:
        mean = ", or a mean and a cv, as lognorm 50 cv 1.75" if name in ("lognorm", "gamma") else ", as 100 * pareto 2.3 - 100"
        refuse(f"{name} has a shape behind it{mean}; several severities stand one behind the other, with wts.")
    value = shaped(number(shape), name)
    if name == "lognorm":
        return Lognormal(NOTHING, interval(value))
    bases: Dict[str, Callable[[Fraction], Base]] = {"gamma": Gamma, "weibull": Weibull, "pareto": Pareto}
    return bases[name](value)


def severity_of(found: "re.Match[str]") -> Severity:
    """The severity that was found in a text; raises `NotRead`."""
    scale, name, first, cv, sign, moved = found.groups()
    factor = sized(number(scale), "factor") if scale else Fraction(1)
    shift = number(moved) * (-1 if sign == "-" else 1) if moved else Fraction(0)
    if abs(shift) > SIZES[1]:
        refuse("A shift is at most 1e15.")
    if cv is None:
        base, unit = with_shape(name, first), Fraction(1)
    else:
        base, unit = with_cv(name, number(first), number(cv))
    made = Severity(base, factor * unit, shift)
    return made if made.least >= 0 else refuse(f"An amount is at least 0, and this severity begins at {float(made.least):g}.")
