"""Years worked apart from the client and the program, by the cells of the second opinion (clients/opinion/cells.py): whole numbers of which
ONE make 1."""

import pathlib
import sys
from fractions import Fraction

sys.path.insert(0, str(pathlib.Path(__file__).resolve().parents[2]))

from opinion.cells import ONE, Cells, convolve, gamma, poisson  # noqa: E402

#: What the cells of a year leave out, rounded down at each step, is less than this.
SLACK = Fraction(1, 1 << 100)


def above_0(mean, severity):
    """The expected number of claims above 0, the chances of their amounts, and the mean of the year; `severity` has whole weights by
    amounts."""
    total, above = sum(severity.values()), {amount: weight for amount, weight in severity.items() if amount}
    parts = sum(above.values())
    expected = Fraction(mean) * parts / total
    return expected, {x: Fraction(weight, parts) for x, weight in above.items()}, Fraction(mean) * sum(x * w for x, w in above.items()) / total


def padded(found, cells):
    """The low ends of so many cells."""
    return found.low + [0] * (cells - len(found.low))


class Year:
    """A year: the probability of each number of buckets, as far as the cells go, and its exact mean, in buckets."""

    def __init__(self, cells, mean):
        self.cells, self.mean = cells, Fraction(mean)

    @classmethod
    def poisson(cls, mean, severity, cells):
        """A Poisson number of claims, whose amounts have whole weights; that of 0 is no claim."""
        expected, chances, whole = above_0(mean, severity)
        return cls(padded(poisson(expected, chances, cells), cells), whole)

    @classmethod
    def gamma(cls, mean, shape, severity, cells):
        """A negative binomial number of claims of a whole shape, of amounts above 0."""
        expected, chances, whole = above_0(mean, severity)
        return cls(padded(gamma(expected, shape, chances, cells), cells), whole)

    def __add__(self, other):
        """The sum of two independent years."""
        cells = len(self.cells)
        return Year(padded(convolve(Cells(self.cells, 1), Cells(other.cells, 1), cells), cells), self.mean + other.mean)

    def after(self, treaty, mean):
        """The year after a treaty on its sum, whose mean is given."""
        cells = [0] * len(self.cells)
        for amount, part in enumerate(self.cells):
            cells[treaty(amount)] += part
        return Year(cells, mean)

    def at(self, total):
        """The probability of this total."""
        return Fraction(self.cells[total], ONE) if total >= 0 else Fraction(0)

    def cdf(self, most):
        """The probability of at most so much."""
        return Fraction(sum(self.cells[: most + 1]), ONE)

    def layer(self, limit, attachment=0):
        """The mean of what lies above the attachment, at most the limit of it; the limit ends within the cells."""
        return sum((1 - self.cdf(at) for at in range(attachment, attachment + limit)), Fraction(0))

    def above(self, attachment):
        """The mean of what lies above the attachment."""
        return self.mean - self.layer(attachment)

    def q(self, p):
        """The quantile."""
        reached, wanted = 0, Fraction(p) * ONE
        for at, part in enumerate(self.cells):
            reached += part
            if reached >= wanted:
                return at
        raise ValueError("the cells end before the quantile")

    def tail(self, p):
        """The tail mean."""
        return self.q(p) + self.above(self.q(p)) / (1 - Fraction(p))

    def joint(self, rest, total):
        """The mean of this year where it and the rest add up to the total, and 0 elsewhere."""
        pairs = zip(range(total + 1), self.cells, reversed(rest.cells[: total + 1]))
        return Fraction(sum(amount * part * other for amount, part, other in pairs), ONE * ONE)

    def share_of_tail(self, rest, p):
        """The mean of this year in the worst 1 - p of its sum with the rest."""
        p, whole = Fraction(p), self + rest
        at = whole.q(p)
        below = sum((self.joint(rest, total) for total in range(at + 1)), Fraction(0))
        left = (whole.cdf(at) - p) * ONE / whole.cells[at]
        return (self.mean - below + left * self.joint(rest, at)) / (1 - p)
