"""Parts of pictures in SVG, drawn here with no package. Floats place what is drawn; no figure comes from them."""

import html
import math
from dataclasses import dataclass
from fractions import Fraction
from typing import Iterable, List, Optional, Tuple

Point = Tuple[float, float]
#: Units of money of an axis, with their names.
UNITS = ((10.0**9, "billions"), (10.0**6, "millions"), (10.0**3, "thousands"))
#: The digits of an exponent.
RAISED = "\u2070\u00b9\u00b2\u00b3\u2074\u2075\u2076\u2077\u2078\u2079"


@dataclass(frozen=True)
class Scale:
    """Places values from `low` to `high` in a straight line from `start` to `end`."""

    low: float
    high: float
    start: float
    end: float

    def at(self, value: float) -> float:
        """The place of a value; one outside is placed at the nearest end."""
        part = (value - self.low) / ((self.high - self.low) or 1)
        return self.start + (self.end - self.start) * min(max(part, 0), 1)


@dataclass(frozen=True)
class Frame:
    """The size of a picture with its margins, the width of a letter, how far apart two labels of one axis stand at least, and how many
    labels the axis below has at most."""

    name: str
    width: int
    height: int
    left: int
    right: int
    top: int
    bottom: int
    letter: float
    apart: int
    labels: int

    @property
    def base(self) -> int:
        """The height of the axis below."""
        return self.height - self.bottom

    def across(self, high: float, right: float = 0) -> Scale:
        """Values from 0 from left to right, with so much more room on the right."""
        return Scale(0, high, self.left, self.width - self.right - right)

    def up(self, low: float, high: float) -> Scale:
        """Values from below upward."""
        return Scale(low, high, self.base, self.top)


#: A picture of a wide window or of paper, and one of a narrow window.
WIDE = Frame("wide", 960, 430, 80, 20, 40, 66, 8.6, 20, 8)
NARROW = Frame("narrow", 360, 300, 56, 14, 36, 54, 7.2, 17, 4)
FRAMES = (WIDE, NARROW)


def ticks(high: float, most: int = 8) -> List[float]:
    """Round values from 0 up to `high`, `most` of them or fewer."""
    size = 10.0 ** math.floor(math.log10(high)) / 10 if high > 0 else 1.0
    step = next(size * part for part in (1, 2, 5, 10, 20, 50, 100) if high / (size * part) < most)
    return [step * at for at in range(int(high / step + 1e-9) + 1)]


def label(x: float, y: float, told: str, anchor: str = "middle", more: str = "") -> str:
    """A label."""
    return f'<text x="{x:.2f}" y="{y:.2f}" text-anchor="{anchor}"{more}>{html.escape(told)}</text>'


def line(x1: float, y1: float, x2: float, y2: float, kind: str) -> str:
    """A straight line, with the class that gives its look."""
    return f'<line class="{kind}" x1="{x1:.2f}" y1="{y1:.2f}" x2="{x2:.2f}" y2="{y2:.2f}"/>'


def area(points: Iterable[Point], look: str) -> str:
    """A filled polygon."""
    return f'<polygon {look} points="{" ".join(f"{x:.1f},{y:.1f}" for x, y in points)}"/>'


def unit_of(high: float) -> Tuple[float, str]:
    """The unit in which labels up to this amount are short, and its name, empty for money itself."""
    return next((unit for unit in UNITS if high >= 2 * unit[0]), (1.0, ""))


def in_units(name: str, unit: str, currency: str) -> str:
    """The name of an axis of amounts: `TVaR, in millions of EUR`."""
    told = " of ".join(part for part in (unit, currency) if part)
    return f"{name}, in {told}" if told else name


def money_axis(frame: Frame, across: Scale, name: str, currency: str = "") -> List[str]:
    """The axis of totals below the picture: each label has its value and its place."""
    size, unit = unit_of(across.high)
    parts = [
        line(across.start, frame.base, across.end, frame.base, "axis"),
        label((across.start + across.end) / 2, frame.height - 12, in_units(name, unit, currency)),
    ]
    for value in ticks(across.high, frame.labels):
        x = across.at(value)
        parts.append(line(x, frame.base, x, frame.base + 5, "axis"))
        parts.append(label(x, frame.base + 8 + frame.apart * 0.8, f"{value / size:,.10g}", more=f' class="tick" data-total="{value!r}"'))
    return parts


def amount_axis(frame: Frame, up: Scale, name: str, currency: str = "") -> List[str]:
    """The axis of amounts on the left; its name stands above it."""
    size, unit = unit_of(up.high)
    parts = [label(2, frame.top - 14, in_units(name, unit, currency), "start")]
    for value in ticks(up.high):
        y = up.at(value)
        parts.append(line(frame.left - 5, y, frame.left, y, "axis"))
        parts.append(label(frame.left - 8, y + 4, f"{value / size:,.10g}", "end", f' class="amount" data-total="{value!r}"'))
    return parts


def round_periods() -> List[int]:
    """Return periods of 1, 2 or 5 times a power of ten."""
    return [digit * 10**power for power in range(10) for digit in (1, 2, 5)]


def period_axis(frame: Frame, across: Scale) -> List[str]:
    """The axis of return periods below the picture, on a log scale; of two labels that are near one is left out."""
    parts = [
        line(across.start, frame.base, across.end, frame.base, "axis"),
        label((across.start + across.end) / 2, frame.height - 12, "return period, in years"),
    ]
    last = -math.inf
    for years in round_periods():
        x, told = across.at(math.log10(years)), f"{years:,}"
        if math.log10(years) > across.high or x - last < frame.letter * (len(told) + 1):
            continue
        last = x
        parts.append(line(x, frame.base, x, frame.base + 5, "axis"))
        parts.append(label(x, frame.base + 8 + frame.apart * 0.8, told, more=f' class="tick" data-years="{years}"'))
    return parts


def drawn(frame: Frame, parts: Iterable[str], title: str) -> str:
    """The picture of these parts."""
    body = "\n".join(parts)
    return (
        f'<svg xmlns="http://www.w3.org/2000/svg" viewBox="0 0 {frame.width} {frame.height}" role="img"'
        f' data-frame="{frame.name}" aria-label="{html.escape(title)}">\n{body}\n</svg>'
    )


def steps(values: List[Point], end: float) -> List[Point]:
    """The corners of a function that keeps each value from its place up to the next, and the last up to `end`."""
    corners: List[Point] = []
    for at, (x, y) in enumerate(values):
        if at and y == values[at - 1][1]:
            continue
        if at:
            corners.append((x, values[at - 1][1]))
        corners.append((x, y))
    return corners + [(end, values[-1][1])]


def power_of_ten(power: int) -> str:
    """A power of ten of at most 0 as a label: `0.001`, and those that are longer with an exponent."""
    return f"{10.0**power:.10g}" if power > -5 else "10\u207b" + "".join(RAISED[int(digit)] for digit in str(-power))


def middle(low: Optional[Fraction], high: Optional[Fraction]) -> Optional[float]:
    """The middle of two ends, or None where one is not there."""
    return None if low is None or high is None else float(low + high) / 2


def colour(at: int, many: int) -> str:
    """The colour of a unit or a book."""
    return f"hsl({(210 + 360 * at // many) % 360} 55% {58 if at % 2 else 46}%)"
