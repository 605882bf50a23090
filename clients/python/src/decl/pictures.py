"""Exceedance curves as SVG, each drawn for a wide and for a narrow window."""

import html
import math
import os
from dataclasses import dataclass
from fractions import Fraction
from typing import TYPE_CHECKING, Callable, Iterable, List, Mapping, Tuple, Union

from .drawing import FRAMES, WIDE, Frame, Point, Scale, area, colour, drawn, label, line, money_axis, power_of_ten, steps
from .figures import plain
from .reports import Row
from .sheets import figure

if TYPE_CHECKING:
    from .books import Book
    from .coarse import Between

    Asked = Union[Book, Between]

#: At so many totals a curve is drawn in a wide picture, and in a narrow one.
POINTS = {"wide": 640, "narrow": 300}
#: The least probability that is drawn is this part of that of the longest return period.
FURTHER = 10
#: The least probability whose quantile is asked for.
LEAST = Fraction(1, 10**8)
#: How round a mark is.
ROUND = {"VaR": 5, "TVaR": 0}
#: Curves of several books differ by their strokes, too.
STROKES = ("", "7 4", "2 3", "10 3 2 3", "4 2")
#: The look of a picture that stands alone: on white, since it does not know where.
ALONE = """
svg { background: #fff; --soft: #44515e; --line: #e6eaee; --band: #9cc3e6; --curve: #1f5f99; --var: #b8351f; --tvar: #8a5a00; --paper: #fff; }
"""
#: The look of the parts of a picture; the page says what its colours are.
LOOK = """
svg text { font: 15px system-ui, sans-serif; fill: var(--soft); } svg[data-frame=narrow] text { font-size: 12px; }
.axis { stroke: var(--soft); } .grid { stroke: var(--line); } .period { stroke: var(--soft); stroke-dasharray: 2 5; opacity: 0.7; }
.band { fill: var(--band); stroke: var(--curve); stroke-width: 1.2; } .curve { fill: none; stroke: var(--curve); stroke-width: 2; }
svg.sign { display: inline-block; width: 40px; height: 8px; margin-right: 8px; } .book { fill-opacity: 0.35; stroke-width: 2; }
.share { stroke: var(--paper); stroke-width: 0.7; }
.VaR { fill: var(--var); } .TVaR { fill: var(--tvar); } .mark { stroke: var(--paper); stroke-width: 1; }
.open { stroke-dasharray: 6 4; stroke-width: 2; } .open.VaR { stroke: var(--var); } .open.TVaR { stroke: var(--tvar); }
"""


@dataclass(frozen=True)
class Picture:
    """A picture as SVG, which a notebook shows; `save(path)` writes it to a file."""

    svg: str

    def _repr_svg_(self) -> str:
        return self.svg

    def save(self, path: Union[str, "os.PathLike[str]"]) -> None:
        """Writes the picture to a file."""
        with open(path, "w", encoding="utf-8") as file:
            file.write(self.svg)


def mark(kind: str, years: Fraction, row: Row, across: Scale, y: float) -> List[str]:
    """The mark of a VaR or a TVaR at the height of its probability, from its low to its high end: round for a VaR, square for a TVaR. Where
    there is no high end, a broken line goes on to the right."""
    if row.low is None:
        return []
    x = across.at(float(row.low))
    end = x if row.high is None else across.at(float(row.high))
    facts = f'class="mark {kind}" data-years="{plain(years)}" data-low="{row.low}" data-high="{"" if row.high is None else row.high}"'
    place = f'x="{x - 5:.2f}" y="{y - 5:.2f}" width="{end - x + 10:.2f}" height="10" rx="{ROUND[kind]}"'
    told = f"<title>{kind} of {plain(years)} years: {html.escape(figure(row))}</title>"
    further = [line(x + 6, y, across.end, y, f"open {kind}")] if row.high is None else []
    return [*further, f"<rect {facts} {place}>{told}</rect>"]


def probability_axis(frame: Frame, down: Scale, end: float, years: Iterable[Fraction]) -> List[str]:
    """Powers of ten on the left, return periods on the right; of two labels that are near one is left out."""
    parts = [label(2, frame.top - 14, "probability of more", "start"), label(frame.width - 2, frame.top - 14, "years", "end")]
    for power in range(int(down.low), 1):
        y = down.at(power)
        parts.append(line(frame.left, y, end, y, "grid"))
        parts.append(label(frame.left - 8, y + 4, power_of_ten(power), "end", f' class="power" data-power="{power}"'))
    last = math.inf
    for each in sorted(years):
        y = down.at(math.log10(1 / each))
        parts.append(line(frame.left, y, end, y, "period"))
        if abs(y - last) >= frame.apart:
            parts.append(label(end + 8, y + 4, plain(each), "start"))
            last = y
    return parts


def key_of_marks(frame: Frame) -> List[str]:
    """What the marks are."""
    x, y = frame.letter * 25, frame.top - 19
    return [
        f'<rect class="VaR" x="{x:.2f}" y="{y - 5}" width="10" height="10" rx="5"/>',
        label(x + 15, y + 5, "VaR", "start"),
        f'<rect class="TVaR" x="{x + 7.5 * frame.letter:.2f}" y="{y - 5}" width="10" height="10"/>',
        label(x + 7.5 * frame.letter + 15, y + 5, "TVaR", "start"),
    ]


@dataclass(frozen=True)
class Curve:
    """The probability of more than each of some totals, by two ends that hold up to the next one; and the end of the last."""

    points: List[Tuple[float, float, float]]
    end: float

    def band(self, across: Scale, down: Scale, look: str) -> str:
        """The curve between its two ends, as an area."""

        least = 10.0**down.low
        shown = next((at for at, point in enumerate(self.points) if point[2] <= least), len(self.points) - 1) + 1
        end = across.at(self.points[shown][0] if shown < len(self.points) else self.end)

        def edge(side: int) -> List[Point]:
            return steps([(across.at(point[0]), down.at(math.log10(max(point[side], least)))) for point in self.points[:shown]], end)

        return area([*edge(2), *reversed(edge(1))], look)


def curve_of(book: "Asked", end: Fraction, most: int) -> Curve:
    """The curve up to a total."""
    found = book.curve(most, end)
    last = min(end, book.cells * book.bs)
    return Curve([(float(amount), float(low), float(high)) for amount, low, high in found], float(last))


def reach(book: "Asked", years: Iterable[Fraction], least: Fraction) -> Fraction:
    """How far a picture goes: past the VaR and the TVaR of each return period, and to the total that is passed with the least probability
    that is drawn. Of an answer without a high end it is the low one."""
    levels = [1 - 1 / each for each in years]
    rows = [book.q(1 - max(least, LEAST)), *(book.q(p) for p in levels), *(book.tail(p) for p in levels)]
    ends = [row.low if row.high is None else row.high for row in rows]
    return Fraction(102, 100) * max([book.bs, *(Fraction(end) for end in ends if end is not None)])


def sign_of(at: int, many: int) -> str:
    """The sign of the curve of one of several books."""
    stroke = f'stroke="{colour(at, many)}" stroke-width="3" stroke-dasharray="{STROKES[at % len(STROKES)]}"'
    return f'<svg class="sign" viewBox="0 0 40 8"><line x1="0" y1="4" x2="40" y2="4" {stroke}/></svg>'


def look_of(name: str, at: int, many: int) -> str:
    """The look of the curve of one of several books."""
    if many == 1:
        return 'class="band"'
    hue, stroke = colour(at, many), STROKES[at % len(STROKES)]
    return f'class="book" data-book="{html.escape(name)}" fill="{hue}" stroke="{hue}" stroke-dasharray="{stroke}"'


def marks(book: "Asked", years: Iterable[Fraction], across: Scale, down: Scale) -> List[str]:
    """VaR and TVaR of each return period."""
    parts: List[str] = []
    for each in years:
        height = down.at(math.log10(1 / each))
        parts += mark("VaR", each, book.q(1 - 1 / each), across, height)
        parts += mark("TVaR", each, book.tail(1 - 1 / each), across, height)
    return parts


def exceedances(books: "Mapping[str, Asked]", years: Iterable[Fraction], frame: Frame = WIDE, currency: str = "") -> str:
    """The exceedance curves of one or several books on a log scale, each as a band between its ends. VaR and TVaR of each return period are
    marked where there is one book."""
    periods = list(years)
    power = -max(math.ceil(math.log10(FURTHER * max(periods, default=Fraction(10)))), 2)
    end = max(reach(book, periods, Fraction(1, 10**-power)) for book in books.values())
    room = frame.letter * max([5, *(len(plain(each)) + 1 for each in periods)])
    across, down = frame.across(float(end), room), frame.up(power, 0)
    parts = [*money_axis(frame, across, "total of a year", currency), *probability_axis(frame, down, across.end, periods)]
    for at, (name, book) in enumerate(books.items()):
        parts.append(curve_of(book, end, POINTS[frame.name]).band(across, down, look_of(name, at, len(books))))
    if len(books) == 1:
        parts += [*marks(next(iter(books.values())), periods, across, down), *key_of_marks(frame)]
    return drawn(frame, parts, "exceedance curve" if len(books) == 1 else "exceedance curves")


def alone(book: "Asked", years: Iterable[Fraction]) -> Picture:
    """The exceedance curve as a picture of its own, with its look inside."""
    head, _, body = exceedances({"": book}, years).partition("\n")
    return Picture(f"{head}\n<style>{ALONE}{LOOK}</style>\n{body}\n")


def both(draw: Callable[[Frame], str]) -> str:
    """A picture for a wide and one for a narrow window, of which one is shown."""
    return "\n".join(f'<div class="{frame.name}">{draw(frame)}</div>' for frame in FRAMES)
