"""Exact values for bench/compare.py, worked with fractions or with 80 decimal digits, by the definitions alone."""

from decimal import Decimal, getcontext
from fractions import Fraction

getcontext().prec = 80


def severity(pairs):
    """The probability of each amount, as decimals of 80 digits."""
    found = {}
    for amount, chance in pairs:
        found[amount] = found.get(amount, Decimal(0)) + Decimal(chance.numerator) / Decimal(chance.denominator)
    return found


def poisson(pairs, mean, cells):
    """The first cells of a compound Poisson total, by Panjer's recursion."""
    amounts = severity(pairs)
    total = [(-Decimal(mean) * (1 - amounts.get(0, Decimal(0)))).exp()]
    for cell in range(1, cells):
        parts = (amount * chance * total[cell - amount] for amount, chance in amounts.items() if 0 < amount <= cell)
        total.append(Decimal(mean) / cell * sum(parts, Decimal(0)))
    return total


def gamma(pairs, mean, shape, cells):
    """The first cells of a total with a negative binomial number of claims above 0, of a mean and any shape, by Panjer's recursion."""
    amounts, size = severity(pairs), Decimal(shape.numerator) / Decimal(shape.denominator)
    q, total = Decimal(mean) / (size + Decimal(mean)), [(1 + Decimal(mean) / size) ** -size]
    for cell in range(1, cells):
        parts = ((1 + (size - 1) * amount / cell) * chance * total[cell - amount] for amount, chance in amounts.items() if amount <= cell)
        total.append(q * sum(parts, Decimal(0)))
    return total


def none(mean):
    """The probability that a Poisson count is 0."""
    return (-Decimal(mean)).exp()


def changed(total, unchanged, chance):
    """The cells of a total whose count is 0 with this chance, and not with the probability `unchanged`; its other counts in proportion."""
    kept = (1 - Decimal(chance.numerator) / Decimal(chance.denominator)) / (1 - unchanged)
    return [1 - kept + kept * total[0], *(kept * cell for cell in total[1:])]


def above(total, mean, attachment):
    """The mean of what lies above the attachment: the mean, less what the distribution leaves of 1 below it."""
    left, reached = Decimal(mean.numerator) / Decimal(mean.denominator), Decimal(0)
    for cell in range(attachment):
        reached += total[cell]
        left -= 1 - reached
    return left


def die(faces):
    """A fair die."""
    return [(face, Fraction(1, faces)) for face in range(1, faces + 1)]
