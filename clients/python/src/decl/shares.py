"""Shares of the units in the tail mean: by the program's standard rules where these have numbers, else by its extended rules."""

from dataclasses import dataclass
from fractions import Fraction
from typing import TYPE_CHECKING, Dict, Iterable, List, Sequence, Tuple

from .figures import decimals, plain
from .levels import DIGITS, SHARE_DIGITS, around, one, two
from .reports import Row

if TYPE_CHECKING:
    from .books import Book
from .rules import Rules


def ask_of(book: "Book", unit: str, p: Fraction) -> Tuple[str, Rules]:
    """The ask for a share of a unit in the tail mean, and the rules by which it is asked first: the standard ones, but in a book by the
    extended ones, under a common factor, and at a level of more digits than the standard ones take."""
    low, high = around(p, SHARE_DIGITS)
    if book.rules == "extended" or book.plan.common is not None or low != high:
        return f"cotail:{unit}:{one(p, DIGITS, 'cotail')}", "extended"
    return f"cotail:{unit}:{one(p, SHARE_DIGITS, 'cotail')}", "standard"


def rows_of(book: "Book", asks: Iterable[Tuple[str, Rules]]) -> Dict[str, Row]:
    """The rows of such asks, in money, by few calls of the program: those that are absent by the standard rules by the extended ones."""
    asks = list(asks)
    standard = [ask for ask, rules in asks if rules == "standard"]
    found = dict(zip(standard, book._rows(standard)))
    extended = [ask for ask, rules in asks if rules == "extended" or found[ask].state == "absent"]
    found.update(zip(extended, book._rows(extended, "extended")))
    return {ask: row.in_money(book.bs) for ask, row in found.items()}


def enclosed(ask: str, p: Fraction, below: Tuple[Fraction, Row], above: Tuple[Fraction, Row]) -> Row:
    """The row at a level between two, with their rows: what of the mean of a unit is of the worst years falls as the level rises."""
    (low, first), (high, last) = below, above
    if first.high is None or last.low is None:
        return Row(ask, None, None, ("beyond", "beyond"), True, "extended")
    ends = Fraction(last.low) * (1 - high) / (1 - p), Fraction(first.high) * (1 - low) / (1 - p)
    return Row(ask, *ends, decimals(*ends), True, "extended")


def shares_of_tail(book: "Book", units: Iterable[str], levels: Iterable[Fraction]) -> Dict[Fraction, List[Row]]:
    """The shares of these units in the tail mean at each level, in money. A level of more digits than an ask takes lies between two."""
    units, around = list(units), {p: two(p) for p in levels}
    asks = {(unit, p): ask_of(book, unit, p) for pair in around.values() for p in pair for unit in units}
    rows = rows_of(book, asks.values())
    found: Dict[Fraction, List[Row]] = {}
    for p, pair in around.items():
        sides = [[(level, rows[asks[unit, level][0]]) for level in pair] for unit in units]
        exact = pair[0] == pair[1]
        found[p] = [below[1] if exact else enclosed(f"cotail:{unit}:{plain(p)}", p, below, above) for unit, (below, above) in zip(units, sides)]
    return found


@dataclass(frozen=True)
class TailShares:
    """The shares of units of a book by these rules at return periods, of which 1 year is all years."""

    rows: Dict[Fraction, List[Row]]
    by: Rules = "standard"

    @property
    def there(self) -> Dict[Fraction, List[Row]]:
        """Those of the return periods at which every unit has a share."""
        return {years: rows for years, rows in self.rows.items() if all(row.state == "closed" for row in rows)}

    @property
    def missing(self) -> List[Fraction]:
        """The return periods at which some unit has none, since the TVaR may lie past the grid."""
        return sorted({*self.rows} - {*self.there})

    @property
    def extended(self) -> List[Fraction]:
        """The return periods whose shares are those of the extended rules, where the book is by the standard ones."""
        return sorted(years for years, rows in self.there.items() if any(row.rules != self.by for row in rows))


def tail_shares(book: "Book", units: Sequence[str], periods: Iterable[Fraction]) -> TailShares:
    """The shares of these units at return periods."""
    levels = {1 - 1 / years: years for years in sorted({*periods} - {Fraction(1)})}
    rows = {levels[p]: found for p, found in shares_of_tail(book, units, levels).items()}
    return TailShares({**rows, Fraction(1): [book.mean_of(unit) for unit in units]}, book.rules)
