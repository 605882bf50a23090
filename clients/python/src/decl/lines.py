"""The book of a table, and Poisson units that are pooled where it has more units than the rules take.

Poisson claims of several lines are Poisson claims of one unit: their expected numbers add up, and each amount has the expected number of
claims of this amount over the whole one. Expected numbers are written as whole numbers of one part, so that a line alone and the pool of
the others are the same total as the pool of all, exactly.
"""

import math
from dataclasses import dataclass
from fractions import Fraction
from typing import Any, Dict, Iterable, List, Mapping, Optional, Sequence, Tuple

from .books import Book
from .calls import Number
from .cells import nearest
from .coarse import numeral, severity
from .faults import TableFault
from .moments import Moments
from .plan import Unit
from .reports import Row
from .rules import BOUNDS, CLAIMS, DIGITS, Rules


def apportioned(values: Sequence[Fraction], whole: int) -> List[int]:
    """Whole numbers in the proportions of the values that add up to `whole`: each rounded down, and one more for those with the largest
    remainders, as many as it takes, the first ones where remainders are equal."""
    total = sum(values)
    shares = [value * whole / total for value in values]
    found = [math.floor(share) for share in shares]
    order = sorted(range(len(values)), key=lambda at: found[at] - shares[at])
    for at in order[: whole - sum(found)]:
        found[at] += 1
    return found


@dataclass(frozen=True)
class Lone:
    """A Poisson line that can be pooled: how many parts of its expected claims have each amount above 0."""

    unit: str
    parts: Mapping[Fraction, int]
    changed: Fraction


def can_be_pooled(unit: Unit) -> bool:
    """Whether a unit is a Poisson number of claims with no clause on their sum."""
    return unit.count == "poisson" and unit.zero is None and unit.aggregate is None


def claims_above_0(unit: Unit) -> Dict[Fraction, Fraction]:
    """The expected number of claims of each amount above 0, after layer and occurrence clause."""
    claims = unit.expected_claims()
    return {amount: chance * claims for amount, chance in unit.of_a_claim().items() if amount and claims}


def most_parts(rules: Rules) -> int:
    """The greatest number of parts of all claims of a unit: the rules take no more, and a numeral has only so many digits."""
    return min(BOUNDS[rules].finest, int("9" * DIGITS))


def lone_ones(units: Sequence[Unit], rules: Rules = "standard") -> Tuple[List[Lone], int]:
    """The lines to pool, with the number of parts of an expected claim.

    Parts are such that all expected numbers are whole, where these are no more than the rules take; else they are as many as the greatest
    power of 10 that the rules take, and the parts of a line go to its amounts in their proportions, what is left to the largest remainders.
    """
    expected = [claims_above_0(unit) for unit in units]
    total = max(Fraction(1), min(Fraction(CLAIMS), sum((sum(each.values()) for each in expected), Fraction(0))))
    parts, most = math.lcm(*(claims.denominator for each in expected for claims in each.values())), most_parts(rules)
    if parts * total > most:
        parts = 10 ** (len(str(int(most / total))) - 1)
    return [lone_of(unit.name, each, parts) for unit, each in zip(units, expected)], parts


def lone_of(name: str, expected: Mapping[Fraction, Fraction], parts: int) -> Lone:
    """A line to pool, with the greatest change of a probability, or of its expected number of claims relative to itself."""
    claims = sum(expected.values(), Fraction(0))
    whole = round(claims * parts)
    if not whole:
        return Lone(name, {}, Fraction(bool(claims)))
    found = dict(zip(expected, apportioned(list(expected.values()), whole)))
    changes = [abs(Fraction(found[amount], whole) - each / claims) for amount, each in expected.items()]
    return Lone(name, {amount: part for amount, part in found.items() if part}, max(*changes, abs(whole / (claims * parts) - 1)))


@dataclass(frozen=True)
class PooledLines:
    """What a book of more lines than units has beside its text: its first line, the units that stay, the lines to pool, the unit of each of
    them, how many parts make one expected claim, and the rules."""

    head: str
    kept: Tuple[str, ...]
    lines: Mapping[str, Lone]
    template: Unit
    parts: int
    rules: Rules = "standard"

    def written(self, name: str, lines: Iterable[Lone]) -> str:
        """A unit with the claims of these lines."""
        found: Dict[Fraction, int] = {}
        for line in lines:
            for amount, part in line.parts.items():
                found[amount] = found.get(amount, 0) + part
        whole = sum(found.values())
        if not whole:
            return f"agg {name} 0 claims dsev [0] poisson"
        chances = {amount: Fraction(part, whole) for amount, part in found.items()}
        return f"agg {name} {numeral(Fraction(whole, self.parts))} claims {severity(chances, self.template)} poisson"

    def pooled(self, lines: Sequence[Lone]) -> List[str]:
        """Units with all claims of these lines: one, or as many as it takes where more claims are expected than a unit may have."""
        bins: List[List[Lone]] = [[]]
        size = 0
        for line in lines:
            claims = sum(line.parts.values())
            if bins[-1] and size + claims > min(CLAIMS * self.parts, most_parts(self.rules)):
                bins.append([])
                size = 0
            bins[-1].append(line)
            size += claims
        return [self.written(self.name(at), each) for at, each in enumerate(bins) if each]

    def name(self, at: int) -> str:
        """The name of a pool: `Pool`, or one that no line has."""
        names = {*self.lines, *(line.split(" ")[1] for line in self.kept)}
        tries = (f"Pool{'' if not number else f'-{number + 1}'}" for number in range(len(names) + at + 2))
        return [each for each in tries if each not in names][at]

    def text(self, alone: Sequence[str] = ()) -> str:
        """The program in which these lines are units of their own, and all others pooled."""
        rest = [line for name, line in self.lines.items() if name not in alone]
        lone = [self.written(name, [self.lines[name]]) for name in alone]
        return "\n".join([self.head, *self.kept, *lone, *self.pooled(rest)])

    @property
    def room(self) -> int:
        """How many lines can be units of their own beside the pools of all others."""
        return BOUNDS[self.rules].units - len(self.kept) - len(self.pooled(list(self.lines.values())))


class TableBook(Book):
    """The book of a table. `names` has the name of each unit in the table, `changed` the greatest change that a number of the table had
    to take: of a weight the difference, of any other number relative to itself. `pooled` has the lines that the text pools: they are asked
    for like units, by a program in which they stand apart, and the total is the same."""

    def __init__(self, text: str, names: Mapping[str, str], changed: Fraction, pool: Optional[PooledLines], **settings: Any) -> None:
        super().__init__(text, **settings)
        self.names, self.changed, self.pool = dict(names), changed, pool
        self.pooled: Tuple[str, ...] = tuple(names[unit] for unit in (pool.lines if pool else ()))
        self._tokens = {name: unit for unit, name in names.items()}
        self._apart: Dict[int, Book] = {}

    @property
    def lines(self) -> Tuple[str, ...]:
        """The names of the lines of the table."""
        return tuple(self.names.values())

    def _token(self, name: str) -> str:
        """The unit of a line, by the name of either."""
        if name in self._tokens or name in self.names or name in self.units:
            return self._tokens.get(name, name)
        raise KeyError(f"the table has no line {name}{nearest(name, self._tokens)}")

    def _place(self, ask: str) -> Optional[int]:
        """Which program has the unit of an ask apart; None where it is the book's own."""
        kind, *parts = ask.split(":")
        if self.pool is None or kind not in ("joint", "kappa", "cotail") or parts[0] not in self.pool.lines:
            return None
        return list(self.pool.lines).index(parts[0]) // max(1, self.pool.room)

    def _book(self, place: int) -> Book:
        """The program in which some of the pooled lines stand apart."""
        assert self.pool is not None
        if self.pool.room < 1:
            raise TableFault("no line can stand apart: the units that cannot be pooled leave no room", row=None, column=None)
        if place not in self._apart:
            alone = list(self.pool.lines)[place * self.pool.room : (place + 1) * self.pool.room]
            text = self.pool.text(alone)
            settings: Dict[str, Any] = {"digits": self.digits, "rules": self.rules, "timeout": self.timeout}
            self._apart[place] = Book(text, bs=self.bs, log2=self.log2, **settings)
        return self._apart[place]

    def _rows(self, asks: Iterable[str], by: Optional[Rules] = None) -> List[Row]:
        """The rows of the asks, each of the program that has its unit."""
        asks = list(asks)
        places = [self._place(ask) for ask in asks]
        found: Dict[str, Row] = {}
        for place in dict.fromkeys(places):
            chosen = [ask for ask, where in zip(asks, places) if where == place]
            rows = super()._rows(chosen, by) if place is None else self._book(place)._rows(chosen, by)
            found.update(zip(chosen, rows))
        return [found[ask] for ask in asks]

    def share_of_tail(self, unit: str, p: Number) -> Row:
        """The share of a line in the tail mean, as `Book.share_of_tail`."""
        return super().share_of_tail(self._token(unit), p)

    def kappa(self, unit: str, x: Number) -> Row:
        """The share of a line in a total, as `Book.kappa`."""
        return super().kappa(self._token(unit), x)

    def joint(self, unit: str, x: Number) -> Row:
        """The mean of a line where the total is `x`, as `Book.joint`."""
        return super().joint(self._token(unit), x)

    def mean_of(self, name: str) -> Row:
        """The mean of a line."""
        return super().mean_of(self._token(name))

    def unit(self, name: str, *, log2: Optional[int] = None) -> Book:
        """The book of one line alone, as `Book.unit`."""
        return super().unit(self._token(name), log2=log2)

    def moments(self, unit: Optional[str] = None) -> Moments:
        """The exact moments of the total or of a line, as `Book.moments`; of a pooled one those of its part of the pool."""
        if unit is None or self._place(f"joint:{self._token(unit)}") is None:
            return super().moments(None if unit is None else self._token(unit))
        return self.unit(unit).moments()

    def _line(self, name: str) -> str:
        """The program of one line, with the factor that it shares with the others."""
        if self.pool is None or name not in self.pool.lines:
            return super()._line(name)
        return "\n".join([self.pool.head.split(" note{")[0], self.pool.written(name, [self.pool.lines[name]])])

    def _members(self) -> Dict[str, str]:
        """Each line with its unit."""
        return dict(self._tokens)
