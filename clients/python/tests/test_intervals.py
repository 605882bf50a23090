"""Intervals hold the values of exp, log, the normal distribution and the gamma function, each worked to 60 digits another way."""

import math
import random
from decimal import Decimal, localcontext
from fractions import Fraction
from functools import lru_cache

from support import Case, main

from decl import intervals
from decl.intervals import ONE, Interval, exp, gamma_below, interval, log, log_gamma, normal, root

PI = Decimal("3.14159265358979323846264338327950288419716939937510582097494459230781640628620899")
#: How far the ends of an interval of about 1 lie apart at most, where nothing is cut off.
WIDE = Fraction(1, 2**150)
FAR = Fraction(1, 2**intervals.FAR)


def decimal(value):
    """A fraction to as many digits as the context has."""
    return Decimal(value.numerator) / Decimal(value.denominator)


def normal_digits(x):
    """The normal distribution function by the series of erf in alternating terms."""
    with localcontext() as context:
        context.prec = 160
        z, total, term, n = decimal(x), Decimal(0), decimal(x), 0
        while abs(term) > Decimal(10) ** -90 or n < 10:
            total += term / (2 * n + 1)
            n += 1
            term *= -z * z / (2 * n)
        return Fraction(1, 2) + Fraction(total / (2 * PI).sqrt())


def incomplete(a, x):
    """The integral of `t**(a - 1) exp(-t)` from 0 to x by the alternating series, to 60 digits."""
    with localcontext() as context:
        context.prec = 80 + int(2 * x / Fraction(23, 10))
        z, shape, total, term, n = decimal(x), decimal(a), Decimal(0), Decimal(1), 0
        while abs(term) > Decimal(10) ** -(context.prec // 2 + 10) or n < x:
            total += term / (shape + n)
            n += 1
            term *= -z / n
        return total * z**shape


@lru_cache(maxsize=None)
def gamma_digits(a):
    """The gamma function at a number below 20, by the integral up to 300."""
    return incomplete(a, Fraction(300))


class Ends(Case):
    def holds(self, found, value, slack=Fraction(1, 10**60), wide=WIDE):
        """The interval holds a value that is known up to a slack, and is narrow."""
        self.assertLessEqual(found.lower, Fraction(value) + slack)
        self.assertLessEqual(Fraction(value) - slack, found.upper)
        self.assertLessEqual(found.upper - found.lower, wide)

    def setUp(self):
        self.rng = random.Random(7)

    def number(self, least, most):
        """A random fraction between two numbers."""
        over = self.rng.choice([1, 2, 3, 7, 1000, 10**6])
        return Fraction(self.rng.randint(int(least * over), int(most * over)), over)

    def test_constants(self):
        with localcontext() as context:
            context.prec = 75
            self.holds(intervals.PI, PI, Fraction(1, 10**58))
            self.holds(intervals.LOG_2, Decimal(2).ln())
            self.holds(intervals.ROOT_2_PI, (2 * PI).sqrt(), Fraction(1, 10**58))

    def test_exp(self):
        with localcontext() as context:
            context.prec = 80
            for x in (0, 1, -1, -300, Fraction(1, 10**30), *(self.number(-120, 12) for _ in range(150))):
                self.holds(exp(interval(x)), decimal(Fraction(x)).exp())

    def test_log(self):
        with localcontext() as context:
            context.prec = 80
            for x in (1, 2, 4, Fraction(3, 4), 10**30, Fraction(1, 10**20), *(self.number(0, 50) + Fraction(1, 997) for _ in range(150))):
                slack = Fraction(1, 10**30) if x < Fraction(1, 10**6) else WIDE  # the ends of 1e-20 are a unit apart
                self.holds(log(interval(x)), decimal(Fraction(x)).ln(), wide=slack)

    def test_root(self):
        for x in (0, 1, 2, Fraction(1, 3), 10**12):
            found = root(interval(x))
            self.assertTrue(found.lower**2 <= x <= found.upper**2)

    def test_normal(self):
        for x in (0, 1, -1, *(self.number(-11, 11) for _ in range(60))):
            self.holds(normal(interval(x)), normal_digits(x), Fraction(1, 10**55), FAR)
        for x in (Fraction(23, 2), 13, 10**6):
            self.holds(normal(interval(x)), 1, FAR, FAR)
            self.holds(normal(interval(-x)), 0, FAR, FAR)

    def test_log_gamma(self):
        with localcontext() as context:
            context.prec = 75
            for n in (1, 2, 3, 20, 40, 170):
                self.holds(log_gamma(Fraction(n)), Decimal(math.factorial(n - 1)).ln(), Fraction(1, 10**38), Fraction(1, 10**36))
            self.holds(log_gamma(Fraction(1, 2)), PI.sqrt().ln(), Fraction(1, 10**38), Fraction(1, 10**36))
            for a in (Fraction(1, 3), Fraction(17, 10), Fraction(49, 4), Fraction(1, 50)):
                self.holds(log_gamma(a), gamma_digits(a).ln(), Fraction(1, 10**38), Fraction(1, 10**36))

    def test_gamma_below(self):
        for a in (1, Fraction(1, 2), Fraction(1, 3), Fraction(1, 50), Fraction(16, 49), Fraction(5, 2), 12):
            for x in (Fraction(1, 10**6), *(self.number(0, 4 * a + 8) + Fraction(1, 1000) for _ in range(9))):
                with localcontext() as context:
                    context.prec = 75
                    value = incomplete(Fraction(a), x) / gamma_digits(Fraction(a))
                self.holds(gamma_below(Fraction(a), interval(x)), value, FAR, 2 * FAR)
        for n in (1, 30, 400):  # a whole shape is a sum of Poisson probabilities
            for x in (Fraction(1, 3), Fraction(n, 2), Fraction(n), n + Fraction(40, 3), Fraction(2 * n)):
                with localcontext() as context:
                    context.prec = 75
                    below = sum(Fraction(x) ** k / math.factorial(k) for k in range(n))
                    value = 1 - decimal(below) * (-decimal(x)).exp()
                self.holds(gamma_below(Fraction(n), interval(x)), value, FAR, 2 * FAR)

    def test_wide_intervals(self):
        """Of an interval that is given the values at both ends and between them are held."""
        for function, low, high in ((exp, -2, 3), (exp, 0, Fraction(1, 2)), (log, 1, 5), (normal, -1, 2), (normal, 0, Fraction(1, 9))):
            found = function(Interval(interval(low).low, interval(high).high))
            for at in range(5):
                inside = function(interval(low + (Fraction(high) - low) * at / 4))
                self.assertTrue(found.low <= inside.low + 4 and inside.high - 4 <= found.high, (function, low, high, at))
        found = gamma_below(Fraction(3), Interval(interval(1).low, interval(6).high))
        for x in (1, 3, 6):
            inside = gamma_below(Fraction(3), interval(x))
            self.assertTrue(found.low <= inside.high and inside.low <= found.high)

    def test_sums_and_products(self):
        """What comes of the ends and of numbers between them is held, for random intervals on both sides of 0."""
        for _ in range(200):
            one, other = (sorted((self.number(-9, 9), self.number(-9, 9))) for _ in range(2))
            first, second = (Interval(interval(low).low, interval(high).high) for low, high in (one, other))
            for x in (*one, sum(one) / 2):
                for y in (*other, sum(other) / 2):
                    for found, value in ((first + second, x + y), (first - second, x - y), (first * second, x * y), (-first, -x)):
                        self.assertTrue(found.lower <= value <= found.upper)
                    if second.low > 0:
                        found = first / second
                        self.assertTrue(found.lower <= x / y <= found.upper)
        self.raises(ZeroDivisionError, lambda: interval(1) / Interval(0, ONE))
        self.raises(ValueError, log, interval(0))
        self.assertEqual(Interval(-3 * ONE, 5 * ONE).within(0, 1).lower, 0)


if __name__ == "__main__":
    main()
