"""Levels of asks: numerals of few digits, and where a level has more, the two nearest ones between which it lies."""

from fractions import Fraction
from typing import Tuple

from .faults import NumberFault
from .figures import plain

#: The most digits of a level, and of that of a share of the tail mean.
DIGITS, SHARE_DIGITS = 9, 4


def numeral(value: Fraction, digits: int) -> str:
    """The numeral of a level or a weight: a decimal of at most so many digits, else a fraction."""
    decimal = plain(value)
    return decimal if len(decimal.replace(".", "")) <= digits else str(value)


def around(level: Fraction, digits: int = DIGITS) -> Tuple[Fraction, Fraction]:
    """The greatest fraction that is at most the level, and the least that is at least it, among those of at most so many digits in each
    part: the last two of its continued fraction."""
    most = 10**digits - 1
    if max(level.denominator, abs(level.numerator)) <= most or len(plain(level).replace(".", "")) <= digits:
        return level, level
    before, last, n, d = (0, 1), (1, 0), level.numerator, level.denominator
    while before[1] + n // d * last[1] <= most:
        whole = n // d
        before, last, n, d = last, (before[0] + whole * last[0], before[1] + whole * last[1]), d, n - whole * d
    times = (most - before[1]) // last[1]
    low, high = sorted((Fraction(before[0] + times * last[0], before[1] + times * last[1]), Fraction(*last)))
    return low, high


def two(level: Fraction, digits: int = DIGITS) -> Tuple[Fraction, Fraction]:
    """Two levels below 1 that an ask takes, between which the level lies; equal where it takes the level itself."""
    if not 0 <= level < 1:
        hint = f"; did you mean {plain(level)}%, which is {plain(level / 100)}?" if 1 < level < 100 else ""
        raise NumberFault(f"a level is at least 0 and below 1, not {plain(level)}{hint}")
    low, high = around(level, digits)
    if high >= 1:
        raise NumberFault(f"the level {plain(level)} is nearer to 1 than an ask can tell; take {low}")
    return low, high


def one(level: Fraction, digits: int, kind: str) -> str:
    """The numeral of a level that an ask of this kind takes; else the fault with the levels beside it."""
    low, high = two(level, digits)
    if low != high:
        told = f"{kind} takes levels of at most {digits} digits, and {plain(level)} has more: {numeral(low, digits)} lies below it"
        raise NumberFault(f"{told}, and {numeral(high, digits)} above")
    return numeral(level, digits)
