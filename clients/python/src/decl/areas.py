"""Shares of the units as areas one on the other in SVG, and the sentences on them: an area breaks where there is no share."""

import html
import math
from dataclasses import dataclass
from fractions import Fraction
from itertools import groupby
from typing import TYPE_CHECKING, Container, Iterable, List, Mapping, Optional, Sequence, TypeVar

from .drawing import WIDE, Frame, Scale, amount_axis, area, drawn, label, middle, money_axis, period_axis, round_periods
from .figures import plain
from .reports import Row
from .shares import TailShares

if TYPE_CHECKING:
    from .books import Book

#: A total in buckets, or a return period.
Place = TypeVar("Place")
SAMPLES = 120
#: Shares that are there at one place alone are a bar of twice this width.
BAR = 1.0
#: Of so many totals at most it is asked whether shares are there.
MOST_TOTALS = 4096
#: Shares of the tail mean are drawn at so many return periods.
PERIODS = 40
#: So many stretches without shares are named.
NAMED = 5


def runs(places: Iterable[Place], there: Container[Place]) -> List[List[Place]]:
    """The places that are there, those side by side together."""
    return [[*group] for is_there, group in groupby(places, lambda place: place in there) if is_there]


def thinned(found: List[List[int]]) -> List[List[int]]:
    """About SAMPLES of the places, evenly: the first and the last of each run and some between, of up to SAMPLES runs."""
    found = found[:: -(-len(found) // SAMPLES) or 1]
    step = -(-sum(map(len, found)) // SAMPLES) or 1
    return [[*run[:-1:step], run[-1]] for run in found]


def halved(run: List[int]) -> List[int]:
    """About every second place of a long run, for a narrow picture, and its ends."""
    return [*run[:-1:2], run[-1]] if len(run) > SAMPLES // 4 else run


def named(words: Sequence[str]) -> str:
    """Words in a sentence, of many the first ones and the last one."""
    if len(words) > NAMED:
        words = [*words[: NAMED - 1], f"{len(words) - NAMED} more stretches", words[-1]]
    return f"{', '.join(words[:-1])} and {words[-1]}" if len(words) > 1 else "".join(words)


def stretches(found: Iterable[Sequence[Fraction]]) -> str:
    """Runs in a sentence: `2, 5 and 10 to 12`."""
    return named([amount_of(run[0]) + (f" to {amount_of(run[-1])}" if len(run) > 1 else "") for run in found])


def amount_of(amount: Fraction) -> str:
    """An amount with its thousands parted."""
    return f"{int(amount):,}" if amount.denominator == 1 else plain(amount)


def stacked(colours: Mapping[str, str], rows: Sequence[Sequence[float]], places: List[float], up: Scale, more: str) -> List[str]:
    """The units' areas one on the other: `rows` has the values of each unit at the places; one place alone is a bar. `more` are their
    data."""
    if len(places) == 1:
        places, rows = [places[0] - BAR, places[0] + BAR], [[*values, *values] for values in rows]
    below = [0.0] * len(places)
    parts: List[str] = []
    for (name, hue), values in zip(colours.items(), rows):
        above = [first + second for first, second in zip(below, values)]
        edge, base = ([(x, up.at(value)) for x, value in zip(places, side)] for side in (above, below))
        parts.append(area([*edge, *reversed(base)], f'class="share" data-unit="{html.escape(name)}" {more} fill="{hue}"'))
        below = above
    return parts


@dataclass(frozen=True)
class YearShares:
    """The totals at which each unit's share of a year is drawn, in runs of buckets up to the VaR of the longest return period; and the
    sentences on them. The picture ends at `last` buckets."""

    book: "Book"
    last: int
    drawn: List[List[int]]
    told: List[str]

    def picture(self, colours: Mapping[str, str], frame: Frame, currency: str) -> str:
        """Each unit's share of the total, as areas one on the other that fill it."""
        book = self.book
        across, up = frame.across(float(self.last * book.bs)), frame.up(0, 1)
        parts: List[str] = []
        for run in self.drawn:
            totals = [at * book.bs for at in (run if frame is WIDE else halved(run))]
            values = [[(middle_of(book.kappa(name, x)) or 0.0) / float(x) for x in totals] for name in book.units]
            more = f'data-totals="{plain(totals[0])} {plain(totals[-1])}"'
            parts += stacked(colours, values, [across.at(float(x)) for x in totals], up, more)
        parts += [label(frame.left - 8, up.at(part / 4) + 4, f"{25 * part}%", "end") for part in range(5)]
        parts.append(label(2, frame.top - 14, "share of the total", "start"))
        return drawn(frame, [*parts, *money_axis(frame, across, "total of a year", currency)], "each unit's share of the total")


def middle_of(row: Row) -> Optional[float]:
    """The middle of a row, where a picture places it."""
    low, high = (None if end is None else Fraction(end) for end in (row.low, row.high))
    return middle(low, high)


def year_shares(book: "Book", longest: Fraction) -> YearShares:
    """The totals up to the VaR of this return period at which shares are there. Of at most MOST_TOTALS totals, evenly, it is asked."""
    end = book.q(1 - 1 / longest)
    last = min(int(Fraction(end.low or 0) / book.bs), book.cells - 1)
    step = -(-last // MOST_TOTALS) or 1
    cells = range(1, last + 1, step)
    rows = zip(cells, book.each(f"kappa:{book.units[0]}:{plain(at * book.bs)}" for at in cells))
    found = runs(cells, {at for at, row in rows if row.low is not None})
    chosen = thinned(found)
    book.each(f"kappa:{name}:{plain(at * book.bs)}" for name in book.units for run in chosen for at in run)
    told = [f"The mean of each unit's outcome in a year of the total below, in percent of that total, up to {amount_of(last * book.bs)}"]
    told[0] += f", the VaR of {amount_of(longest)} years." if end.high is not None else ": the VaR may lie past the grid, where the picture ends."
    white = runs(cells, {*cells} - {at for run in found for at in run})
    if white:
        where = stretches([[at * book.bs for at in run] for run in white])
        why = "such a total cannot occur, or is not sure to have a probability of at least 1 in 65,536"
        told.append(f"No share is drawn at totals of {where}: {why}.")
    if len(chosen) < len(found):
        told.append(f"Of {len(found):,} stretches of totals with shares {len(chosen)} are drawn.")
    return YearShares(book, last, chosen, told + ([f"One total in {step} is looked at."] if step > 1 else []))


def periods_of(years: Iterable[Fraction]) -> List[Fraction]:
    """Return periods from 1 year on, evenly on a log scale, up to the longest of these; round ones, at whose levels a distribution often is
    exactly; and these."""
    asked = [*years, Fraction(1)]
    even = (Fraction(round(max(asked) ** (at / PERIODS))) for at in range(PERIODS + 1))
    return sorted({*even, *(Fraction(each) for each in round_periods() if each < max(asked)), *asked})


def tail_picture(found: TailShares, tails: Mapping[Fraction, Row], colours: Mapping[str, str], frame: Frame, currency: str) -> str:
    """Each unit's share of the TVaR by return period, as areas one on the other that fill it, under the curve of the TVaR."""
    curve = [(years, tail) for years, tail in ((years, middle_of(row)) for years, row in sorted(tails.items())) if tail is not None]
    there = {years: [middle_of(row) or 0.0 for row in rows] for years, rows in found.there.items()}
    across = Scale(0, math.log10(max(tails)), frame.left, frame.width - frame.right - 2 * frame.letter)
    up = frame.up(0, 1.02 * max(tail for _, tail in curve))
    parts: List[str] = []
    for run in runs(sorted(tails), there):
        values = [[there[years][at] for years in run] for at in range(len(colours))]
        more = f'data-years="{" ".join(map(plain, run))}"'
        parts += stacked(colours, values, [across.at(math.log10(years)) for years in run], up, more)
    parts += [*period_axis(frame, across), *amount_axis(frame, up, "TVaR", currency)]
    top = " ".join(f"{across.at(math.log10(years)):.1f},{up.at(tail):.1f}" for years, tail in curve)
    parts.append(f'<polyline class="curve" data-years="{" ".join(plain(years) for years, _ in curve)}" points="{top}"/>')
    return drawn(frame, parts, "each unit's share of the TVaR")


def told_of_tail(found: TailShares) -> List[str]:
    """The sentences on the shares of the TVaR."""
    told = ["What each unit brings to the mean of the worst years, by their return period: together the TVaR. One year is the mean."]
    if found.extended:
        told.append(
            f"At {stretches(runs(sorted(found.rows), found.extended))} years the shares are those of the program's extended rules"
            " (`--rules extended`), since the standard ones have none."
        )
    if found.missing:
        told.append(f"No share is drawn at {stretches(runs(sorted(found.rows), found.missing))} years: the TVaR may lie past the grid.")
    return told
