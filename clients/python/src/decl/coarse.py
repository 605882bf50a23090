"""A book whose amounts do not fit a bucket, as two programs that hold it between them. docs/BETWEEN.md has the argument."""

import math
from fractions import Fraction
from functools import partial
from typing import TYPE_CHECKING, Callable, Dict, Iterable, Iterator, List, Optional, Tuple, Union, cast

from .books import LEVELS, RETURN_PERIODS, Book, Terms, exact, price_of
from .calls import Number, Text
from .choose import least_grid
from .faults import NoMoments, NotBetween, RuleFault
from .figures import plain
from .moments import Moments, of_plan
from .pages import Date, between_page, head_of
from .pictures import Picture
from .plan import Chances, Clause, Plan, Unit, moved, plan_of
from .program import as_text
from .reports import Row
from .rules import BOUNDS, DIGITS, LAYERS, Rules
from .several import of_amount, of_level
from .tables import Cell, Table

if TYPE_CHECKING:
    import matplotlib.axes  # type: ignore[import]

#: Rules that another spelling of the same unit may keep: numerals, whole buckets, and how fine numbers are.
SPELLING = (2, 7, 13, 19)
#: Counts that rise with their expected number of claims, with `zt` and `zm` too.
RISING = ("poisson", "mixed", "bernoulli")
MOST_CELLS = 1 << 20
#: A list has at most so many values, by each set of rules.
VALUES = BOUNDS["standard"].values
#: Asks whose answers rise with the total.
HELD = ("mean", "q", "tail", "price", "cdf", "sf", "layer")
#: Two ends.
Ends = Tuple[Fraction, Fraction]


def shown(value: Fraction) -> str:
    """The number in a message: as a fraction, or about as large where that is long."""
    return str(value) if len(str(value)) < 40 else f"about {float(value):g}"


def numeral(value: Fraction) -> Optional[str]:
    """The numeral that spells a value of at least 0, or None where it would have too many digits."""
    decimal, parts = plain(value), (str(value.numerator), str(value.denominator))
    if "/" not in decimal and len(decimal.replace(".", "")) <= DIGITS:
        return decimal
    return "/".join(parts) if value.denominator > 1 and max(map(len, parts)) <= DIGITS else None


def spelled_all(values: Iterable[Fraction], unit: Unit) -> str:
    """A list of the values."""
    words = []
    for value in values:
        word = numeral(value)
        if word is None:
            raise NotBetween(f"unit {unit.name}: {value} has more digits than a numeral may have")
        words.append(word)
    return f"[{' '.join(words)}]"


def rounded(chances: Chances, bs: Fraction, up: bool) -> Chances:
    """The chances of the amounts, each rounded down or up to a whole number of buckets."""
    whole: Callable[[Fraction], int] = math.ceil if up else math.floor
    return moved(chances, lambda amount: whole(amount / bs) * bs)


def severity(chances: Chances, unit: Unit) -> str:
    """The severity with these chances; one of many values is a mixture of severities."""
    amounts = sorted(chances)
    parts = [amounts[first : first + VALUES] for first in range(0, len(amounts), VALUES)]
    weights = [sum((chances[amount] for amount in part), Fraction(0)) for part in parts]
    atoms = [
        f"dsev {spelled_all(part, unit)} {spelled_all((chances[amount] / weight for amount in part), unit)}"
        for part, weight in zip(parts, weights)
    ]
    return " ".join(atoms) + (f" wts {spelled_all(weights, unit)}" if len(atoms) > 1 else "")


def counts(unit: Unit, expected: Ends, up: bool) -> Iterator[Tuple[str, str]]:
    """Spellings of the number of claims, in front of the severity and behind it: the exact one, then rounded ones. Its expected
    number lies between two ends, which are equal where it is known."""
    if unit.counts is not None:
        yield f"dfreq {spelled_all(unit.counts, unit)} {spelled_all(unit.counts.values(), unit)}", ""
        return
    name = {"mixed": f"mixed gamma {numeral(unit.shape)}", "binomial": f"binomial {numeral(unit.shape)}"}.get(unit.count, unit.count)
    if unit.zero is not None:
        name += f" zm {numeral(unit.zero)}" if unit.zero else " zt"
    word = numeral(expected[0])
    if word is not None and expected[0] == expected[1]:
        yield f"{word} claims", name
    if unit.count not in RISING:
        told = f"unit {unit.name}: the expected number of claims, {shown(expected[0])}, is too fine for a numeral"
        raise NotBetween(f"{told}, and a {unit.count} count cannot be rounded: its number of claims or trials has to be whole")
    whole: Callable[[Fraction], int] = math.ceil if up else math.floor
    for places in (9, 6, 3):
        word = numeral(Fraction(whole(expected[up] * 10**places), 10**places))
        if word is not None:
            yield f"{word} claims", name


def verbatim(clause: Clause, unit: Unit) -> str:
    """The aggregate clause as it is."""
    layers = []
    for layer in clause.layers:
        ends = "inf" if layer.limit is None else spelled_all([layer.limit], unit)[1:-1]
        layers.append(f"{spelled_all([layer.share], unit)[1:-1]} so {ends} xs {spelled_all([layer.attachment], unit)[1:-1]}")
    return f"aggregate {'net of' if clause.net else 'ceded to'} {' and '.join(layers)}"


def outward(clause: Clause, bs: Fraction, up: bool, unit: Unit) -> str:
    """The aggregate clause whose outcome at each whole number of buckets is that of the clause, rounded down or up.

    What is ceded of so many buckets rises by at most a bucket from one to the next, so rounded it rises by a bucket or not at
    all: the runs where it rises are layers.
    """
    whole: Callable[[Fraction], int] = math.ceil if up != clause.net else math.floor
    tail = sum((layer.share for layer in clause.layers if layer.limit is None), Fraction(0))
    tops = [layer.attachment + (layer.limit or 0) for layer in clause.layers]
    last = math.ceil(max(tops) / bs) + 1
    if 0 < tail < 1 or last > MOST_CELLS:
        raise NotBetween(f"unit {unit.name}: a share of a layer without a limit is no whole number of buckets of {plain(bs)}")
    ceded = [whole(sum((layer.of(at * bs) for layer in clause.layers), Fraction(0)) / bs) for at in range(last + 1)]
    runs: List[List[int]] = []
    for at in range(last):
        if ceded[at + 1] > ceded[at]:
            if runs and runs[-1][1] == at:
                runs[-1][1] = at + 1
            else:
                runs.append([at, at + 1])
    if len(runs) > LAYERS:
        raise NotBetween(f"unit {unit.name}: its aggregate clause, rounded to buckets of {plain(bs)}, needs {len(runs)} layers")
    ends = [None if tail and first_last == runs[-1] else first_last[1] for first_last in runs]
    layers = [
        f"{'inf' if end is None else spelled_all([(end - start) * bs], unit)[1:-1]} xs {spelled_all([start * bs], unit)[1:-1]}"
        for (start, _), end in zip(runs, ends)
    ]
    return f"aggregate {'net of' if clause.net else 'ceded to'} {' and '.join(layers) or '0 xs 0'}"


def clauses(unit: Unit, bs: Fraction, up: bool) -> Iterator[str]:
    """Spellings of the aggregate clause: as it is, and rounded outward."""
    if unit.aggregate is None:
        yield ""
        return
    yield verbatim(unit.aggregate, unit)
    yield outward(unit.aggregate, bs, up, unit)


def side(unit: Unit, bs: Fraction, up: bool, rules: Rules, timeout: Optional[float]) -> str:
    """The unit with its final amounts rounded down or up to whole buckets, in a spelling that the rules take."""
    expected = unit.expected_claims()
    return with_amounts(unit, rounded(unit.of_a_claim(), bs, up), (expected, expected), bs, up, rules, timeout)


def with_amounts(unit: Unit, chances: Chances, expected: Ends, bs: Fraction, up: bool, rules: Rules, timeout: Optional[float]) -> str:
    """The unit with these final amounts of a claim, and an expected number of claims between two ends, of which it takes the low
    or the high one; in a spelling that the rules take."""
    amounts = severity(chances, unit)
    fault: Optional[RuleFault] = None
    for clause in clauses(unit, bs, up):
        for front, behind in counts(unit, expected, up):
            text = " ".join(f"agg {unit.name} {front} {amounts} {behind} {clause}".split())
            try:
                least_grid(text, bs=bs, rules=rules, timeout=timeout)
                return text
            except RuleFault as found:
                if found.rule not in SPELLING:
                    raise
                fault = found
            if fault.rule in (7, 13):
                break
    assert fault is not None
    raise fault


class Between:
    """Two programs that hold a book between them: `low` and `high` are their texts, `bs` is their bucket.

    Each answer is a row in money: its low end is that of one program and its high end that of the other. The ends of each
    program are proved; that the two hold the book between them rests on the client's own arithmetic. Where a claim of the book has no
    greatest amount, the high program holds the total below `reach` alone, in money: answers that depend on what lies at `reach` or
    past it have no high end.
    """

    def __init__(
        self,
        low: str,
        high: str,
        bs: Fraction,
        timeout: Optional[float] = None,
        *,
        reach: Optional[Fraction] = None,
        log2: Optional[int] = None,
        rules: Rules = "standard",
        plan: Optional[Plan] = None,
        source: str = "",
        again: "Optional[Callable[[str], Between]]" = None,
    ) -> None:
        self.low, self.high, self.bs, self.reach, self.log2, self.rules = low, high, bs, reach, log2, rules
        self.timeout, self.plan = timeout, plan
        self._source, self._again = source, again
        self._books: Dict[bool, Book] = {}

    def __repr__(self) -> str:
        return f"<decl book between two programs on buckets of {plain(self.bs)}>"

    def book(self, up: bool) -> Book:
        """The book of the high program, or of the low one."""
        if up not in self._books:
            text = self.high if up else self.low
            self._books[up] = Book(text, bs=self.bs, log2=self.log2, rules=self.rules, timeout=self.timeout)
        return self._books[up]

    def ask(self, word: str) -> Row:
        """The answer to an ask in money: mean, q:p, tail:p, price:W@P+W@P.., cdf:x, sf:x or layer:LxsA. Other asks do not rise with
        the total, so that the two programs do not hold them."""
        if word.split(":")[0] not in HELD:
            raise NotBetween(f"two programs do not hold {word} between them: ask mean, q, tail, price, cdf, sf or layer")
        below, above = self.book(False).ask(word), self._from_above(word)
        low, high = (above, below) if below.kind == "cdf" else (below, above)
        return Row(below.ask, low.low, high.high, (low.written[0], high.written[1]), True)

    def _from_above(self, word: str) -> Row:
        """The answer of the high program, without a high end where the book can be above it."""
        if self.reach is None:
            return self.book(True).ask(word)
        kind, _, behind = word.partition(":")
        if kind in ("cdf", "sf"):
            inside = (math.ceil(self.reach / self.bs) - 1) * self.bs
            return self.book(True).ask(f"{kind}:{plain(min(exact(behind), inside))}")
        row = self.book(True).ask(word)
        ends = behind.split("xs")
        held = kind == "layer" and ends[0] != "inf" and exact(ends[0]) + exact(ends[1]) <= self.reach
        if held or (kind == "q" and row.high is not None and row.high < self.reach):
            return row
        return Row(row.ask, row.low, None, (row.written[0], "beyond"), True)

    def each(self, words: Iterable[str]) -> List[Row]:
        """The answers to several asks, by few calls of the program."""
        words = list(words)
        for up in (False, True):
            self.book(up).each(word for word in words if word.split(":")[0] in HELD)
        return [self.ask(word) for word in words]

    def mean(self) -> Row:
        """The mean of the total."""
        return self.ask("mean")

    @of_level
    def q(self, p: Number) -> Row:
        """The least total that is not exceeded with a probability of `p` or more."""
        return self.ask(f"q:{plain(exact(p))}")

    @of_level
    def tail(self, p: Number) -> Row:
        """The mean of the total in its worst `1 - p`."""
        return self.ask(f"tail:{plain(exact(p))}")

    def price(self, terms: Terms) -> Row:
        """A price: the tail means at levels, each times its weight; the terms are those of `Book.price`."""
        return self.ask(price_of(terms))

    @of_amount
    def cdf(self, x: Number) -> Row:
        """The probability that the total is at most `x`."""
        return self.ask(f"cdf:{plain(exact(x))}")

    @of_amount
    def sf(self, x: Number) -> Row:
        """The probability that the total is above `x`."""
        return self.ask(f"sf:{plain(exact(x))}")

    def layer(self, limit: Optional[Number], attachment: Number = 0) -> Row:
        """The mean of what of the total lies above `attachment`, at most `limit` of it; None or "inf" is no limit."""
        spelling = "inf" if limit is None or limit in ("inf", math.inf) else plain(exact(limit))
        return self.ask(f"layer:{spelling}xs{plain(exact(attachment))}")

    # What a book makes of these answers holds for two programs too: each of its ends is then that of one of them.

    def return_periods(self, years: Iterable[Number] = RETURN_PERIODS) -> Table:
        """VaR and TVaR of each return period."""
        periods = [exact(each) for each in years]
        self.each(f"{kind}:{plain(1 - 1 / n)}" for kind in ("q", "tail") for n in periods)
        return Table(["years", "VaR", "TVaR"], ([plain(n), self.q(1 - 1 / n), self.tail(1 - 1 / n)] for n in periods))

    def describe(self, levels: Iterable[Number] = LEVELS) -> Table:
        """What the book is worth, as `Book.describe`."""
        return Book.describe(cast(Book, self), levels)

    def plot(
        self, axes: "Optional[matplotlib.axes.Axes]" = None, *, years: Iterable[Number] = RETURN_PERIODS
    ) -> "Union[matplotlib.axes.Axes, Picture]":
        """The exceedance curve, as `Book.plot`."""
        return Book.plot(cast(Book, self), axes, years=years)

    def page(
        self, years: Iterable[Number] = RETURN_PERIODS, *, title: Optional[str] = None, currency: Optional[str] = None, date: Date = None
    ) -> str:
        """A page of HTML on the book, as `Book.page`, without shares of the units, which two programs do not hold."""
        return between_page(self, [exact(each) for each in years], head_of(title or self.name, currency, date))

    @property
    def name(self) -> str:
        """The name of the book."""
        return self.book(False).name

    @property
    def units(self) -> Tuple[str, ...]:
        """The names of its units."""
        return self.book(False).units

    @property
    def cells(self) -> int:
        """The number of buckets of the smaller grid of the two."""
        return min(self.book(False).cells, self.book(True).cells)

    @property
    def digits(self) -> int:
        """The digits of an answer in buckets."""
        return self.book(False).digits

    @property
    def spelling(self) -> str:
        """Both programs."""
        return f"# from below\n{self.book(False).spelling}\n\n# from above\n{self.book(True).spelling}"

    def inside(self) -> Row:
        """The probability that the total lies inside the smaller grid."""
        return self.cdf((self.cells - 1) * self.bs)

    def curve(self, most: int = 4096, until: Optional[Number] = None) -> List[Tuple[Fraction, Fraction, Fraction]]:
        """At most so many totals in money from 0 on, evenly over the smaller grid or up to the total `until`, each with two ends of the
        probability of more, which hold up to the next total."""
        cells = self.cells if until is None else min(self.cells, math.floor(exact(until) / self.bs) + 1)
        step = -(-cells // most)
        rows = self.each(f"sf:{plain(at * self.bs)}" for at in range(0, cells, step))
        ends = [(Fraction(row.low or 0), Fraction(1) if row.high is None else Fraction(row.high)) for row in rows]
        last = self.sf((min(len(rows) * step, self.cells) - 1) * self.bs).low
        lows = [low for low, _ in ends[1:]] + [Fraction(last or 0)]
        return [(at * step * self.bs, low, high) for at, ((_, high), low) in enumerate(zip(ends, lows))]

    def unit(self, name: str) -> "Between":
        """One unit between two programs, with the factor that the units share."""
        low, high = (self.book(up)._line(name) for up in (False, True))
        plan = None if self.plan is None else Plan(None, [each for each in self.plan.units if each.name == name], self.plan.common)
        return Between(low, high, self.bs, self.timeout, reach=self.reach, log2=self.log2, rules=self.rules, plan=plan)

    def mean_of(self, name: str) -> Row:
        """The mean of a unit."""
        return self.unit(name).mean()

    def moments(self, unit: Optional[str] = None) -> Moments:
        """The exact moments of the book that the two programs hold, as `Book.moments`. Those of a continuous severity are no
        fractions, so `NoMoments` is raised for it."""
        if self.plan is None:
            raise NoMoments("the moments of a continuous severity are no fractions; mean() has two ends of the mean")
        if unit is None or unit in self.units:
            return of_plan(self.plan, unit)
        raise KeyError(f"the book has no unit {unit}; its units are {', '.join(self.units)}")

    def _repr_html_(self) -> str:
        return Book._repr_html_(cast(Book, self))

    def _declared(self) -> str:
        """The text of the book that the two programs hold."""
        return self._source

    def _of_text(self, text: str) -> "Between":
        """Another book, between two programs on the same buckets."""
        assert self._again is not None
        return self._again(text)

    def _mean_of_text(self, text: str) -> Row:
        """The mean of another book."""
        return self._of_text(text).mean()

    def _members(self) -> Dict[str, str]:
        return dict(zip(self.units, self.units))

    def _spread(self) -> List[List[Cell]]:
        return Book._spread(cast(Book, self))


def coarser(text: Text, bs: Number, *, rules: Rules = "standard", timeout: Optional[float] = None) -> Between:
    """Two programs on buckets of the size `bs` that hold the book of the text between them, whatever its amounts are.

    The final amounts of a claim, after the layer and the occurrence clause, are rounded down in one and up in the other, and
    the number of claims stays as it is. `rules` are those of `run`. Raises `NotBetween` where that cannot be written as a program.
    """
    size = exact(bs)
    if size <= 0:
        raise ValueError(f"the size of a bucket is above 0, not {size}")
    plan = plan_of(text, rules=rules, timeout=timeout)
    low, high = (plan.head + "\n".join(side(unit, size, up, rules, timeout) for unit in plan.units) for up in (False, True))
    for each in (low, high):
        least_grid(each, bs=size, rules=rules, timeout=timeout)
    again = partial(coarser, bs=size, rules=rules, timeout=timeout)
    return Between(low, high, size, timeout, rules=rules, plan=plan, source=as_text(text), again=again)
