"""A book in money: bucket and grid are chosen, amounts are given and answered in money, each answer by two ends."""

import html
import math
import warnings
from fractions import Fraction
from typing import TYPE_CHECKING, Any, Dict, Iterable, List, Optional, Sequence, Tuple, Union

from . import program
from .cautions import DEVIATIONS, MOST_LOST, grid_caution, level_outside, warn_of
from .calls import Number, Text, fmt, run, spelled
from .choose import LARGEST, NOTE, bucket, grid, least_grid, value_of
from .faults import AskFault, GridTooSmall, NeedsWidth, NoMoments, NumberFault
from .figures import decimals, plain
from .levels import DIGITS, SHARE_DIGITS, numeral, one, two
from .moments import Moments, of_plan
from .pages import Date, book_page, head_of
from .pictures import Picture, alone
from .plan import Plan, plan_in
from .reports import Report, Row, ask_in_money
from .rules import Rules
from .several import of_amount, of_level
from .shares import shares_of_tail
from .tables import Cell, Table
from .tower import Tower, Written, tower_of
from .words import MOST_ASKS

if TYPE_CHECKING:
    import matplotlib.axes  # type: ignore[import]

Ends = Tuple[Fraction, Fraction]
Limit = Optional[Number]
#: The terms of a price: each a weight and the level of its tail mean; or the ask's text, as `"1/2@0+1/2@0.9"`.
Terms = Union[str, Iterable[Tuple[Number, Number]]]
BEYOND = "beyond the grid"
#: A call takes its width from the rule, so that an answer is as narrow as the rule has it and no call is refused.
WIDEST = {"width": 10**9, "mwidth": 10**12}
RETURN_PERIODS = (10, 50, 100, 200, 250)
LEVELS = ("0.5", "0.9", "0.95", "0.99", "0.995")


def exact(value: Number) -> Fraction:
    """The number that is given: a text such as `"1/3"` or `"99.5%"`, or a number; a float is the decimal that Python prints."""
    try:
        return value_of(value) if isinstance(value, str) else Fraction(spelled(value))
    except (ValueError, ZeroDivisionError):
        comma = f"; a decimal has a point: {value.replace(',', '.')}" if isinstance(value, str) and "," in value else ""
        raise NumberFault(f"{value!r} is no number{comma}") from None


def price_of(terms: Terms) -> str:
    """The ask for the price with these terms."""
    if isinstance(terms, str):
        return terms if terms.startswith("price:") else f"price:{terms}"
    return "price:" + "+".join(f"{numeral(exact(weight), DIGITS)}@{one(exact(p), DIGITS, 'price')}" for weight, p in terms)


def answered(ask: str, ends: Ends) -> Row:
    """A row in money with these ends."""
    return Row(ask, *ends, decimals(*ends), True)


class Book:
    """The book that a text declares, in money.

    `bs` is the size of a bucket in money and `log2` the size of the grid, as they were chosen or given; `cells` is the
    number of buckets, `name` the name of the book and `units` has those of the units. `rules` are those of `run`. Amounts are given as numbers, or as texts
    such as `"1/3"`; each answer is a `Row` with two ends, `low` and `high`, that hold the declared value. The ends that the
    program gives, in buckets, are proved. At amounts between two buckets or past the grid, and for `sf`, the client works
    the ends out from those, and all amounts in money, in exact fractions: this step is tested and not proved.
    """

    def __init__(
        self,
        text: Text,
        *,
        bs: Optional[Number] = None,
        log2: Optional[int] = None,
        digits: int = 6,
        inside: Number = "0.999999",
        rules: Rules = "standard",
        timeout: Optional[float] = None,
    ) -> None:
        """The bucket is the greatest that divides all amounts, the grid the least in which a probability of `inside` is
        sure to lie, else the largest that takes the text. `digits` are those of an answer in buckets, of which there are fewer
        where it needs a larger width than there is; `timeout` is in seconds, for one call.
        """
        warn_of(text)
        self.text = program.as_text(text)
        self.digits = digits
        self.rules: Rules = rules
        self.timeout = timeout
        self.bs = bucket(text, rules=rules, timeout=timeout) if bs is None else exact(bs)
        self._lost = Fraction(0)
        self.log2 = self._grid(inside) if log2 is None else log2
        self.cells = 1 << self.log2
        self.spelling = fmt(text, timeout=timeout)
        self.plan: Plan = plan_in(self.spelling, rules=rules)
        self.units = tuple(unit.name for unit in self.plan.units)
        self.name = self.plan.name
        self._known: Dict[Tuple[Rules, str], Row] = {}
        self._means: Dict[str, Row] = {}
        if self._lost > MOST_LOST:
            warnings.warn(grid_caution(self._lost, self.cells, self.bs, self._reach()), stacklevel=level_outside())

    def _reach(self) -> Fraction:
        """About how far the total goes: its mean and some deviations; nothing where they do not follow from the text."""
        try:
            moments = self.moments()
        except NoMoments:
            return Fraction(0)
        return moments.mean + DEVIATIONS * moments.deviation[1]

    def _grid(self, inside: Number) -> int:
        try:
            return grid(self.text, inside, bs=self.bs, rules=self.rules, timeout=self.timeout)
        except GridTooSmall as fault:
            self._lost = 1 - Fraction(fault.row.low or 0)
            return fault.log2

    def __repr__(self) -> str:
        return f"<decl book of {', '.join(self.units)}: {self.cells} buckets of {plain(self.bs)}>"

    def _repr_html_(self) -> str:
        return f"<p>{html.escape(self.name)}: {html.escape(repr(self)[1:-1])}</p>{self.return_periods()._repr_html_()}"

    def _rows(self, asks: Iterable[str], by: Optional[Rules] = None) -> List[Row]:
        """The rows of the asks by these rules, else by those of the book, in buckets; each is asked once."""
        asks, rules = list(asks), by or self.rules
        wanted = [ask for ask in dict.fromkeys(asks) if (rules, ask) not in self._known]
        for first in range(0, len(wanted), MOST_ASKS):
            self._known.update(((rules, row.ask), row) for row in self._asked(wanted[first : first + MOST_ASKS], rules))
        return [self._known[rules, ask] for ask in asks]

    def _asked(self, asks: List[str], rules: Rules) -> Report:
        """The report on at most 256 asks; the fault of one shows it in money."""
        try:
            return self._narrowed(asks, rules)
        except AskFault as fault:
            first, *_, sentence = fault.told.splitlines()
            if fault.reason == BEYOND:
                last = plain((self.cells - 1) * self.bs)
                sentence = f"The grid ends at {last}, with {self.cells:,} buckets of {plain(self.bs)}: take a larger log2, or larger buckets."
            raise AskFault(f"{first}\n  {ask_in_money(asks[fault.ask], self.bs)}\n{sentence}", **fault.facts) from None

    def _narrowed(self, asks: List[str], rules: Rules) -> Report:
        """The report on at most 256 asks, with fewer digits where one of them needs more width than the widest."""
        settings: Dict[str, Any] = {"log2": self.log2, "timeout": self.timeout, **WIDEST}
        settings.update({} if rules == "standard" else {"rules": rules})
        for digits in range(self.digits, 1, -1):
            try:
                return run(self.text, asks, bs=self.bs, digits=digits, **settings)
            except NeedsWidth:
                pass
        return run(self.text, asks, bs=self.bs, digits=min(self.digits, 1), **settings)

    def _row(self, ask: str) -> Row:
        return self._rows([ask])[0]

    def _within(self, bucket: int) -> Ends:
        """Ends of the probability that the total is at most so many buckets, also past the grid and below 0."""
        if bucket < 0:
            return Fraction(0), Fraction(0)
        row = self._row(f"cdf:{min(bucket, self.cells - 1)}")
        low, high = row.low or Fraction(0), row.high or Fraction(0)
        return Fraction(low), Fraction(1) if bucket >= self.cells else Fraction(high)

    def _above(self, bucket: int) -> Ends:
        low, high = self._within(bucket)
        return 1 - high, 1 - low

    def mean(self) -> Row:
        """The mean of the total."""
        return self._row("mean").in_money(self.bs)

    def _rising(self, kind: str, p: Number) -> Row:
        """The answer to an ask that rises with its level: where the level has more digits than an ask takes, from the low end at the
        nearest level below it to the high end at the nearest one above."""
        low, high = two(exact(p))
        below, above = self._rows(f"{kind}:{numeral(level, DIGITS)}" for level in (low, high))
        if low == high:
            return below.in_money(self.bs)
        ends = below.in_money(self.bs), above.in_money(self.bs)
        return Row(f"{kind}:{plain(exact(p))}", ends[0].low, ends[1].high, (ends[0].written[0], ends[1].written[1]), True)

    @of_level
    def q(self, p: Number) -> Row:
        """The least total that is not exceeded with a probability of `p` or more: the VaR. `high` is None where it may lie
        past the grid. For a list of levels it is a report."""
        return self._rising("q", p)

    @of_level
    def tail(self, p: Number) -> Row:
        """The mean of the total in its worst `1 - p`: the TVaR. For a list of levels it is a report."""
        return self._rising("tail", p)

    def price(self, terms: Terms) -> Row:
        """A price: the tail mean at each `p` times its weight, added up. `terms` are 1 to 8 pairs of a weight and a `p`, as
        `[("1/2", 0), ("1/2", 0.9)]`, whose weights sum to 1; or the text of the ask, as `"1/2@0+1/2@0.9"`."""
        return self._row(price_of(terms)).in_money(self.bs)

    def share_of_tail(self, unit: str, p: Number) -> Row:
        """The share of a unit in the tail mean of the total: the mean of its outcome in the worst `1 - p` of the total. The shares of
        all units add up to the tail mean. Both ends are None where the tail mean is beyond the grid (`state` is `beyond`). Where the
        program's standard rules have no number it is asked by its extended rules: under a common factor, at a level of more than 4
        digits, where the total at the quantile is rare, and where the quantile is not sure to be one total. A book by the extended rules
        is asked by them alone. The row says so: its `rules` are `standard` or `extended`. A level of more than 9 digits is enclosed by the two nearest ones."""
        level = exact(p)
        return shares_of_tail(self, [unit], [level])[level][0]

    @of_amount
    def cdf(self, x: Number) -> Row:
        """The probability that the total is at most `x`, which may lie between two buckets or past the grid."""
        amount = exact(x)
        return answered(f"cdf:{plain(amount)}", self._within(math.floor(amount / self.bs)))

    @of_amount
    def sf(self, x: Number) -> Row:
        """The probability that the total is above `x`."""
        amount = exact(x)
        return answered(f"sf:{plain(amount)}", self._above(math.floor(amount / self.bs)))

    @of_amount
    def pmf(self, x: Number) -> Row:
        """The probability that the total is `x`. It is 0 where `x` is below 0 or no whole number of buckets. Past the grid `high`
        is that of all totals there: for a closer one take a larger `log2`."""
        amount = exact(x)
        at = amount / self.bs
        if at.denominator > 1 or at < 0:
            self._row("pmf:0")  # which refuses a text whose amounts are no whole numbers of buckets
            return answered(f"pmf:{plain(amount)}", (Fraction(0), Fraction(0)))
        if at >= self.cells:
            return answered(f"pmf:{plain(amount)}", (Fraction(0), self._above(self.cells - 1)[1]))
        return self._row(f"pmf:{at}").in_money(self.bs)

    def layer(self, limit: Limit, attachment: Number = 0) -> Row:
        """The mean of what of the total lies above `attachment`, at most `limit` of it; None or "inf" is no limit.

        Neither has to be a whole number of buckets: between two of them the mean moves in a straight line.
        """
        low = exact(attachment)
        if low < 0:
            raise ValueError(f"an attachment is at least 0, not {low}")
        unlimited = limit is None or limit in ("inf", math.inf)
        top = None if unlimited else low + exact(limit)  # type: ignore[arg-type]
        if top is not None and top < low:
            raise ValueError(f"a limit is at least 0, not {limit}")
        ends = self._between(low / self.bs, None if top is None else top / self.bs)
        spelling = "inf" if top is None else plain(top - low)
        return answered(f"layer:{spelling}xs{plain(low)}", (ends[0] * self.bs, ends[1] * self.bs))

    def _between(self, low: Fraction, high: Optional[Fraction]) -> Ends:
        """Ends of the mean of what of the total lies between two numbers of buckets; None is no end.

        Of what lies past the grid only the whole is known, so a band there lies from 0 to that.
        """
        end = Fraction(self.cells)
        if high is not None and high > end:
            return self._between(low, end)[0] if low < end else Fraction(0), self._between(min(low, end), None)[1]
        if low > end:
            return Fraction(0), self._between(end, None)[1]
        first = math.ceil(low)
        last = None if high is None else math.floor(high)
        if high is not None and last is not None and last < first:
            return self._scaled(high - low, last)
        parts = [self._scaled(first - low, first - 1)] if first > low else []
        if last is None or last > first:
            row = self._row(f"layer:{'inf' if last is None else last - first}xs{first}")
            parts.append((Fraction(row.low or 0), Fraction(row.high or 0)))
        if high is not None and last is not None and high > last:
            parts.append(self._scaled(high - last, last))
        return sum((part[0] for part in parts), Fraction(0)), sum((part[1] for part in parts), Fraction(0))

    def _scaled(self, part: Fraction, bucket: int) -> Ends:
        """The part of a bucket that lies in a band, times the probability of a total above its lower end."""
        low, high = self._above(bucket)
        return part * low, part * high

    def kappa(self, unit: str, x: Number) -> Row:
        """The mean of the outcome of a unit in a total of `x`. Both ends are None where that total is too rare, or is no
        whole number of buckets. Past the grid `AskFault` says to take a larger `log2`."""
        amount = exact(x)
        at = amount / self.bs
        if at.denominator > 1 or at < 0:
            self._row(f"joint:{unit}:0")  # which tells a unit that is not there
            return Row(f"kappa:{unit}:{plain(amount)}", None, None, ("-", "-"), True)
        return self._row(f"kappa:{unit}:{at}").in_money(self.bs)

    def joint(self, unit: str, x: Number) -> Row:
        """The mean of the outcome of a unit where the total is `x`, and 0 elsewhere. Past the grid `AskFault` says to take a
        larger `log2`."""
        amount = exact(x)
        at = amount / self.bs
        if at.denominator > 1 or at < 0:
            self._row(f"joint:{unit}:0")
            return answered(f"joint:{unit}:{plain(amount)}", (Fraction(0), Fraction(0)))
        return self._row(f"joint:{unit}:{at}").in_money(self.bs)

    def unit(self, name: str, *, log2: Optional[int] = None) -> "Book":
        """The book of one unit alone, with the same bucket, and with the factor that the units share; its grid is chosen for it, unless
        it is given."""
        return Book(self._line(name), bs=self.bs, log2=log2, digits=self.digits, rules=self.rules, timeout=self.timeout)

    def _line(self, name: str) -> str:
        """The program of one unit, with the severities that the text names, and the factor that it shares with the others."""
        lines = NOTE.sub("", self.spelling).splitlines()
        before = [line for line in lines if line.startswith("sev ")] + ([self.plan.head.rstrip()] if self.plan.common else [])
        for line in lines:
            if line.split(" ")[:2] == ["agg", name]:
                return "\n".join([*before, line])
        raise KeyError(f"the book has no unit {name}; its units are {', '.join(self.units)}")

    def mean_of(self, name: str) -> Row:
        """The mean of a unit, which is the same on every grid: on the least one that takes the unit."""
        if name not in self._means:
            log2 = least_grid(self._line(name), bs=self.bs, rules=self.rules, timeout=self.timeout)
            self._means[name] = self.unit(name, log2=log2).mean()
        return self._means[name]

    def _members(self) -> Dict[str, str]:
        """Each name by which a unit is asked for, with its unit."""
        return dict(zip(self.units, self.units))

    def _declared(self) -> str:
        """The program as its sides are made of it."""
        return self.spelling

    def _of_text(self, text: str) -> "Book":
        """The book of another program, on a bucket and a grid that are chosen for it."""
        return self._at_least(text, None)

    def _mean_of_text(self, text: str) -> Row:
        """The mean of another program, which is the same on every grid: on the least one that takes it."""
        size = bucket(text, rules=self.rules, timeout=self.timeout)
        log2 = least_grid(text, bs=size, rules=self.rules, timeout=self.timeout)
        return Book(text, bs=size, log2=log2, digits=self.digits, rules=self.rules, timeout=self.timeout).mean()

    def _at_least(self, text: str, reach: Optional[Fraction]) -> "Book":
        """The book of another program, with the same digits; on a grid that goes past `reach`, in money, where one does, else on one that
        is chosen."""
        size = bucket(text, rules=self.rules, timeout=self.timeout)
        least = 1 if reach is None else least_grid(text, bs=size, rules=self.rules, timeout=self.timeout)
        log2 = None if reach is None else max(least, math.ceil(reach / size).bit_length())
        log2 = log2 if log2 is None or log2 <= LARGEST else None
        return Book(text, bs=size, log2=log2, digits=self.digits, rules=self.rules, timeout=self.timeout)

    def tower(
        self, layers: Iterable[Written], reinstatements: Union[None, int, Sequence[Optional[int]]] = None, at: Union[Number, Sequence[Number]] = 1
    ) -> Tower:
        """A tower of layers over each claim, such as `["10 xs 10", (20, 20)]`: the expected loss of each, the probabilities that it pays and
        that it is used up, the expected reinstatement premium and the pure premium. `reinstatements` is their number, one for all layers
        or one for each, and None is no limit of the year; `at` is the part of the premium that each costs, or a list of them."""
        return tower_of(self, layers, reinstatements, at)

    def by_unit(self, p: Number = "0.99", year: Optional[Number] = None) -> Table:
        """A table of the units: the mean of each, its share of the TVaR, and of a `year` of this total, where one is given. The last line
        is the total, to which each column adds up."""
        level, names = exact(p), self._members()
        shares = shares_of_tail(self, names.values(), [level])[level]
        lines: List[List[Cell]] = [[name, self.mean_of(name), share] for name, share in zip(names, shares)]
        lines.append(["total", self.mean(), self.tail(p)])
        if year is not None:
            total = exact(year)
            for line in lines[:-1]:
                line.append(self.kappa(str(line[0]), total))
            lines[-1].append(answered(f"year:{plain(total)}", (total, total)))
        heads = ["unit", "mean", f"TVaR {percent(level)}"]
        return Table(heads if year is None else [*heads, f"year of {plain(exact(year))}"], lines)

    def moments(self, unit: Optional[str] = None) -> Moments:
        """The exact mean, variance and third central moment of the total, or of a unit, in money and without the program.

        They follow from the text where no unit has an aggregate clause, or a poisson count with `zt` or `zm`, whose mean is no
        fraction, nor a gamma count with them whose shape is not whole; else `NoMoments` is raised. Under a common factor the variance has the factor's part: its own variance times the
        square of the mean, so times the product of the means of each two units.
        """
        if unit is None or unit in self.units:
            return of_plan(self.plan, unit)
        raise KeyError(f"the book has no unit {unit}; its units are {', '.join(self.units)}")

    def ask(self, word: str) -> Row:
        """The answer to an ask of the program, or to `sf:x`, whose amounts are in money: `q:0.99`, `layer:80000xs20000`."""
        kind, *parts = word.split(":")
        try:
            if kind in ("joint", "kappa") and len(parts) == 2:
                return self.kappa(*parts) if kind == "kappa" else self.joint(*parts)
            if kind == "layer" and len(parts) == 1:
                limit, attachment = parts[0].split("xs")
                return self.layer(limit, attachment)
            if kind == "cotail" and len(parts) == 2:
                return self.share_of_tail(*parts)
            if kind in ("q", "tail", "cdf", "sf", "pmf") and len(parts) == 1:
                found: Row = getattr(self, kind)(parts[0])
                return found
        except (ValueError, ZeroDivisionError):
            pass
        return self._row(word).in_money(self.bs)

    def each(self, words: Iterable[str]) -> List[Row]:
        """The answers to several asks in money, by few calls of the program."""
        words = list(words)
        digits = DIGITS if self.rules == "extended" else SHARE_DIGITS
        inside = [in_buckets(word, self.bs, self.cells, digits) for word in words]
        has_shares = self.rules == "extended" or self.plan.common is None
        self._rows(ask for ask in inside if ask is not None and (has_shares or not ask.startswith("cotail:")))
        return [self.ask(word) for word in words]

    def inside(self) -> Row:
        """The probability that the total lies inside the grid."""
        return self.cdf((self.cells - 1) * self.bs)

    def return_periods(self, years: Iterable[Number] = RETURN_PERIODS) -> Table:
        """For each return period the total that is passed at most once in so many years (VaR), and the mean of the worst
        such years (TVaR)."""
        periods = [exact(each) for each in years]
        for each in periods:
            if each < 1:
                raise ValueError(f"a return period is at least 1 year, not {each}")
        levels = [1 - 1 / each for each in periods]
        self._rows(f"{kind}:{numeral(level, DIGITS)}" for kind in ("q", "tail") for p in levels for level in two(p))
        return Table(["years", "VaR", "TVaR"], ([plain(n), self.q(p), self.tail(p)] for n, p in zip(periods, levels)))

    def distribution(self, points: int = MOST_ASKS, *, cells: bool = False) -> Report:
        """The distribution function at up to `points` totals (at most 256), evenly over the grid; with `cells` at all."""
        if not 1 <= points <= MOST_ASKS:
            raise ValueError(f"points are 1 to {MOST_ASKS}, not {points}; cells=True gives all")
        step = 1 if cells else -(-self.cells // points)
        rows = self._rows(f"cdf:{at}" for at in range(0, self.cells, step))
        return Report(rows, self.bs, self.cells).in_money()

    def curve(self, most: int = 4096, until: Optional[Number] = None) -> List[Tuple[Fraction, Fraction, Fraction]]:
        """At most so many totals in money from 0 on, evenly over the grid or up to the total `until`, each with two ends of the probability
        of more, which hold up to the next total: between two buckets that probability stays the same, and over several it falls."""
        cells = self.cells if until is None else min(self.cells, math.floor(exact(until) / self.bs) + 1)
        step = -(-cells // most)
        places = range(0, cells, step)
        self._rows(f"cdf:{at}" for at in places)
        ends = [(at * self.bs, *self._above(at)) for at in places]
        if step == 1:
            return ends
        lows = [low for _, low, _ in ends[1:]] + [self._above(min(places[-1] + step, self.cells) - 1)[0]]
        return [(amount, low, high) for (amount, _, high), low in zip(ends, lows)]

    def describe(self, levels: Iterable[Number] = LEVELS) -> Table:
        """What the book is worth: its mean, deviation and skewness, the years without a loss, VaR and TVaR, and the mean of
        each unit. Deviation and skewness are there where they follow from the text."""
        lines: List[List[Cell]] = [["mean", self.mean()], *self._spread(), ["no loss", self.cdf(0)]]
        for p in levels:
            lines += [[f"VaR {percent(exact(p))}", self.q(p)], [f"TVaR {percent(exact(p))}", self.tail(p)]]
        lines.append(["inside the grid", self.inside()])
        if len(self._members()) > 1:
            lines += [[f"mean of {name}", self.mean_of(name)] for name in self._members()]
        return Table(["total", "from .. to"], lines)

    def _spread(self) -> List[List[Cell]]:
        try:
            moments = self.moments()
        except NoMoments:
            return []
        if not moments.variance:
            return [["deviation", answered("deviation", moments.deviation)]]
        return [
            ["deviation", answered("deviation", moments.deviation)],
            ["skewness", answered("skewness", moments.skewness)],
        ]

    def plot(
        self, axes: "Optional[matplotlib.axes.Axes]" = None, *, years: Iterable[Number] = RETURN_PERIODS
    ) -> "Union[matplotlib.axes.Axes, Picture]":
        """The exceedance curve on a log scale: on axes of matplotlib where that is installed, with the band between its two
        ends, else as a `Picture` (SVG) in which VaR and TVaR of the return periods are marked."""
        if axes is None:
            try:
                from matplotlib import pyplot
            except ImportError:
                return alone(self, [exact(each) for each in years])
            axes = pyplot.subplots()[1]
        curve = self.curve()
        amounts, low, high = ([float(point[part]) for point in curve] for part in range(3))
        axes.fill_between(amounts, low, high, step="post", alpha=0.4)
        axes.step(amounts, high, where="post")
        axes.set_yscale("log")
        axes.set_xlabel("total of a year")
        axes.set_ylabel("probability of more")
        return axes

    def page(
        self, years: Iterable[Number] = RETURN_PERIODS, *, title: Optional[str] = None, currency: Optional[str] = None, date: Date = None
    ) -> str:
        """A page of HTML on the book, which fetches nothing: return periods, the exceedance curve, gross, ceded and net where there are
        clauses, layers of the year, each unit's share, what the book is worth, and its program. `currency` and `date` stand at its head."""
        return book_page(self, [exact(each) for each in years], head_of(title or self.name, currency, date))


def in_buckets(word: str, bs: Fraction, cells: int, share_digits: int = SHARE_DIGITS) -> Optional[str]:
    """The ask of the program with which an ask in money is answered, where that is one: at a whole number of buckets of the grid,
    or without an amount; else None. The level of a share of the tail mean has at most so many digits."""
    kind, *parts = word.split(":")
    try:
        if kind in ("price", "mean"):
            return word
        if kind in ("q", "tail", "cotail"):
            digits = share_digits if kind == "cotail" else DIGITS
            return ":".join([kind, *parts[:-1], one(exact(parts[-1]), digits, kind)])
        if kind not in ("pmf", "cdf", "joint", "kappa"):
            return None
        at = exact(parts[-1]) / bs
        return ":".join([kind, *parts[:-1], str(at)]) if at.denominator == 1 and 0 <= at < cells else None
    except (ValueError, ZeroDivisionError, IndexError):
        return None


def percent(p: Fraction) -> str:
    """A probability in percent."""
    return f"{plain(100 * p)}%"
