"""Intervals that hold a real number: exp, log, the normal distribution function and the incomplete gamma function.

An end is a whole number of units of `2**-BITS`. Each function rounds its low end down and its high end up, so that the value
lies between them for every number between the ends that it is given. Nothing here is a float. Why the ends hold stands at
each function; it is an argument, and no proof by machine.
"""

from fractions import Fraction
from functools import lru_cache
from math import isqrt
from typing import Union

BITS = 192
ONE = 1 << BITS
#: A distribution function that is within 2**-FAR of 0 or of 1 is not worked out closer.
FAR = 90
NEAR_0 = ONE >> FAR
#: The normal distribution function at -11 is at most exp(-60.5) / 11, which is below 2**-FAR.
FAR_NORMAL = 11
#: Bernoulli's numbers B2, B4, .. of Stirling's series, and the last one, with which the rest of the series is bounded.
BERNOULLI = [
    Fraction(numerator, denominator)
    for numerator, denominator in (
        (1, 6), (-1, 30), (1, 42), (-1, 30), (5, 66), (-691, 2730), (7, 6), (-3617, 510), (43867, 798), (-174611, 330),
        (854513, 138), (-236364091, 2730), (8553103, 6), (-23749461029, 870), (8615841276005, 14322),
    )
]  # fmt: skip
#: Stirling's series begins at a number of at least this.
STIRLING = 32

Exact = Union[int, Fraction]


def ceiling(numerator: int, denominator: int) -> int:
    """The least whole number that is not below the quotient."""
    return -(-numerator // denominator)


class Interval:
    """The numbers from `low` to `high`, both in units of 2**-BITS."""

    __slots__ = ("low", "high")

    def __init__(self, low: int, high: int) -> None:
        self.low, self.high = low, high

    def __repr__(self) -> str:
        return f"Interval({float(self.lower):.17g}, {float(self.upper):.17g})"

    @property
    def lower(self) -> Fraction:
        """The low end."""
        return Fraction(self.low, ONE)

    @property
    def upper(self) -> Fraction:
        """The high end."""
        return Fraction(self.high, ONE)

    def __neg__(self) -> "Interval":
        return Interval(-self.high, -self.low)

    def __add__(self, other: "Interval") -> "Interval":
        return Interval(self.low + other.low, self.high + other.high)

    def __sub__(self, other: "Interval") -> "Interval":
        return Interval(self.low - other.high, self.high - other.low)

    def __mul__(self, other: "Interval") -> "Interval":
        ends = (self.low * other.low, self.low * other.high, self.high * other.low, self.high * other.high)
        return Interval(min(ends) >> BITS, -(-max(ends) >> BITS))

    def __truediv__(self, other: "Interval") -> "Interval":
        """The quotient by an interval above 0."""
        if other.low <= 0:
            raise ZeroDivisionError("an interval that is divided by has to lie above 0")
        low, high = self.low << BITS, self.high << BITS
        return Interval(
            low // (other.high if low >= 0 else other.low), ceiling(high, other.low if high >= 0 else other.high)
        )

    def within(self, least: int, most: int) -> "Interval":
        """The interval for a number that is known to lie from `least` to `most`, which are whole numbers."""
        return Interval(min(max(self.low, least * ONE), most * ONE), max(min(self.high, most * ONE), least * ONE))


def interval(value: Exact) -> Interval:
    """An interval that holds a number; its ends are at most one unit apart."""
    exact = Fraction(value)
    low, rest = divmod(exact.numerator << BITS, exact.denominator)
    return Interval(low, low + (rest > 0))


NOTHING, HALF, UNITY = interval(0), interval(Fraction(1, 2)), interval(1)


def root(x: Interval) -> Interval:
    """The square root of an interval of at least 0: `isqrt` is the whole root, rounded down."""
    return Interval(isqrt(x.low << BITS), isqrt(x.high << BITS) + 1)


def inverse_tangents(over: int, sign: int) -> Interval:
    """The sum of `sign**n / ((2n + 1) over**(2n + 1))`: the arc tangent of 1 / over for the sign -1, and the hyperbolic one for 1.

    Each term is rounded down, and by less than one unit; what is left out is less than the first term that rounds to 0, twice.
    """
    total, power, n = 0, ONE // over, 0
    while power:
        total += sign**n * (power // (2 * n + 1))
        power //= over * over
        n += 1
    return Interval(total - 2 * n - 2, total + 2 * n + 2)


#: The natural logarithm of 2 is twice the hyperbolic arc tangent of 1/3; pi by Machin's formula.
LOG_2 = interval(2) * inverse_tangents(3, 1)
PI = interval(16) * inverse_tangents(5, -1) - interval(4) * inverse_tangents(239, -1)
ROOT_2_PI = root(interval(2) * PI)


def exp_of_point(x: int) -> Interval:
    """e to the power of `x` units.

    `x` is a whole number of log 2 and a rest from 0 to about log 2, of which 1/256 goes into the series. The terms of the low end
    are rounded down and those of the high end up; those that are left out are less than one unit together, since each is less
    than half of the one before. Then the sum is squared 8 times.
    """
    if x < -BITS * ONE:
        return Interval(0, 1)
    times = x // LOG_2.low
    first, last = (LOG_2.high, LOG_2.low) if times >= 0 else (LOG_2.low, LOG_2.high)
    least, most = (x - times * first) >> 8, -((times * last - x) >> 8)
    low = high = low_term = high_term = ONE
    n = 0
    while high_term > 1:
        n += 1
        low_term = (low_term * least >> BITS) // n
        high_term = -((-high_term * most >> BITS) // n)
        low, high = low + low_term, high + high_term
    high += 1
    for _ in range(8):
        low, high = low * low >> BITS, -(-high * high >> BITS)
    if times >= 0:
        return Interval(low << times, high << times)
    return Interval(low >> -times, -(-high >> -times))


def exp(x: Interval) -> Interval:
    """e to the power of a number: it rises, over a step d of at most 1 by less than 2 d times itself."""
    low = exp_of_point(x.low)
    if x.high - x.low > ONE:
        return Interval(low.low, exp_of_point(x.high).high)
    return Interval(low.low, low.high - (-low.high * 2 * (x.high - x.low) >> BITS))


def log_of_point(x: int) -> Interval:
    """The natural logarithm of `x` units, which are more than 0.

    `x` is a power of 2 times a number m from 1 to 2, and log m is twice the hyperbolic arc tangent of z = (m - 1) / (m + 1), which is
    at most 1/3: the sum of `z**(2n + 1) / (2n + 1)`. The terms that are left out are less than one unit together.
    """
    shift = x.bit_length() - 1 - BITS
    over = 1 << (x.bit_length() - 1)
    low_term, rest = divmod((x - over) << BITS, x + over)
    high_term = low_term + (rest > 0)
    low_square, high_square = low_term * low_term >> BITS, -(-high_term * high_term >> BITS)
    low, high, n = low_term, high_term, 1
    while high_term > 1:
        n += 2
        low_term = low_term * low_square >> BITS
        high_term = -(-high_term * high_square >> BITS)
        low, high = low + low_term // n, high + ceiling(high_term, n)
    return Interval(2 * low, 2 * high + 2) + interval(shift) * LOG_2


def log(x: Interval) -> Interval:
    """The natural logarithm of an interval above 0: it rises, over a step d from x by at most d / x."""
    if x.low <= 0:
        raise ValueError("a logarithm is of a number above 0")
    low = log_of_point(x.low)
    return Interval(low.low, low.high + ceiling((x.high - x.low) << BITS, x.low))


def normal_of_point(x: int) -> Interval:
    """The probability that a standard normal variable is at most `x` units.

    From 0 upward it is 1/2 plus the density times `x + x**3 / 3 + x**5 / (3 * 5) + ..`. The terms of the low end are rounded down and
    those of the high end up; the terms that are left out each are less than half of the one before.
    """
    if x < 0:
        return UNITY - normal_of_point(-x)
    if x > FAR_NORMAL * ONE:
        return Interval(ONE - NEAR_0, ONE)
    low_square, high_square = x * x >> BITS, -(-x * x >> BITS)
    low = high = low_term = high_term = x
    n = 1
    while high_term > 1 or 2 * high_square >= n * ONE:
        n += 2
        low_term = (low_term * low_square >> BITS) // n
        high_term = -((-high_term * high_square >> BITS) // n)
        low, high = low + low_term, high + high_term
    density = exp(Interval(-high_square, -low_square) * HALF) / ROOT_2_PI
    return (HALF + density * Interval(low, high + high_term)).within(0, 1)


def normal(x: Interval) -> Interval:
    """The probability that a standard normal variable is at most a number: it rises, over a step d by less than d."""
    low = normal_of_point(x.low)
    return Interval(low.low, min(ONE, low.high + x.high - x.low))


@lru_cache(maxsize=None)
def log_gamma(a: Fraction) -> Interval:
    """The logarithm of the gamma function at a number above 0.

    Stirling's series, at a number of at least STIRLING that lies a whole number above `a`: its rest has the sign of the first term
    that is left out, and is smaller. The factors from `a` up to that number are taken off.
    """
    far, factors = a, Fraction(1)
    while far < STIRLING:
        factors *= far
        far += 1
    terms = [number / (2 * n * (2 * n - 1) * far ** (2 * n - 1)) for n, number in enumerate(BERNOULLI, 1)]
    rest = interval(abs(terms[-1])).high
    series = interval(sum(terms[:-1], Fraction(0))) + Interval(-rest, rest)
    main = interval(far - Fraction(1, 2)) * log(interval(far)) - interval(far) + log(interval(2) * PI) * HALF
    return main + series - log(interval(factors))


def gamma_series(a: Fraction, x: int, up: bool) -> int:
    """`1 + x / (a + 1) + x**2 / ((a + 1) (a + 2)) + ..` at `x` units, rounded down or up. The terms that are left out each are less than
    half of the one before."""
    numerator, denominator = a.numerator, a.denominator
    total = term = ONE
    while term > 1 or 2 * x * denominator >= numerator * ONE:
        numerator += denominator
        if up:
            term = -((-term * x >> BITS) * denominator // numerator)
        else:
            term = (term * x >> BITS) * denominator // numerator
        total += term
    return total + 2 * term if up else total


def gamma_below(a: Fraction, x: Interval) -> Interval:
    """The probability that a gamma variable of shape `a` and scale 1 is at most a number of at least 0.

    It is `x**a exp(-x) / gamma(a + 1)` times the series of gamma_series. Where x is above a, the probability of more than x is at most
    that factor times `a / (x - max(a - 1, 0))`, and where x is below a + 1, the series is at most `1 / (1 - x / (a + 1))`: so what is
    within 2**-FAR of 1 or of 0 is seen before.
    """
    if x.low <= 0:
        return NOTHING if x.high <= 0 else Interval(0, gamma_below(a, Interval(x.high, x.high)).high)
    factor = exp(interval(a) * log(x) - x - log_gamma(a + 1))
    shape, more = interval(a), interval(max(a - 1, Fraction(0)))
    if x.low > shape.high + ONE and (factor * shape / (x - more)).high <= NEAR_0:
        return Interval(ONE - NEAR_0, ONE)
    if x.high < shape.low and (factor / (UNITY - x / (shape + UNITY))).high <= NEAR_0:
        return Interval(0, NEAR_0)
    series = Interval(gamma_series(a, x.low, False), gamma_series(a, x.high, True))
    return (factor * series).within(0, 1)
