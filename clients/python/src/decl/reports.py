"""A report: one row for each ask, with exact ends, in buckets or in money."""

import html
import json
import math
from collections.abc import Sequence
from dataclasses import dataclass, replace
from decimal import Decimal
from fractions import Fraction
from typing import TYPE_CHECKING, Iterable, Iterator, List, Optional, Tuple, Type, Union, overload

from .faults import BadAnswer
from .figures import decimals, formatted, plain

if TYPE_CHECKING:
    import pandas  # type: ignore[import]

End = Union[Fraction, Decimal, int, None]
PROBABILITIES = ("pmf", "cdf", "sf")
NOT_THERE = ("beyond", "-")


def float_below(end: Union[Fraction, Decimal, int]) -> float:
    """The greatest float that is not above the end."""
    near = float(end)
    return near if Fraction(near) <= Fraction(end) else math.nextafter(near, -math.inf)


def float_above(end: Union[Fraction, Decimal, int]) -> float:
    """The least float that is not below the end."""
    near = float(end)
    return near if Fraction(near) >= Fraction(end) else math.nextafter(near, math.inf)


def ask_in_money(ask: str, bs: Fraction) -> str:
    """The ask with its amounts times the size of a bucket: `layer:10xs5` is `layer:10000xs5000` where that is 1000."""
    kind, *parts = ask.split(":")
    if kind in ("q", "tail", "price", "cotail") or not parts:
        return ask
    amounts = [part if part == "inf" else plain(Fraction(part) * bs) for part in parts[-1].split("xs")]
    return ":".join([kind, *parts[:-1], "xs".join(amounts)])


@dataclass(frozen=True)
class Row:
    """The answer to one ask: the declared value lies from `low` to `high`, both included.

    The ends of a bracket (`q`) in buckets are `int`. `high` is None where it is beyond the grid; both ends are None for
    a tail mean, a price or a share of one beyond the grid, and for a share in a total that is too rare. `written` has the ends as they are printed:
    in buckets as the program wrote them, in money as the decimals that are equal to them, rounded outward where there are none. Where `money`
    is true, the amounts of the ask and the ends are in money, else in buckets. `rules` are those of the call, `standard` or `extended`.
    """

    ask: str
    low: End
    high: End
    written: Tuple[str, str]
    money: bool = False
    rules: str = "standard"

    @property
    def kind(self) -> str:
        """The first part of the ask: pmf, cdf, mean, q, layer, tail, price, joint, kappa or cotail."""
        return self.ask.split(":")[0]

    @property
    def state(self) -> str:
        """`closed` with two ends, `beyond` with an end past the grid, `absent` with no share."""
        return "beyond" if "beyond" in self.written else "absent" if "-" in self.written else "closed"

    @property
    def unit(self) -> str:
        """What the ends count: `probability`, `buckets` or `money`."""
        if self.kind in PROBABILITIES:
            return "probability"
        return "money" if self.money else "buckets"

    @property
    def why(self) -> str:
        """Why an end is not there, in a sentence; empty where both are."""
        return why_of(self.kind, self.state)

    @property
    def mid(self) -> Fraction:
        """The middle of the two ends, which nothing proves: the value lies from `low` to `high`."""
        if self.low is None or self.high is None:
            raise ValueError(f"{self} has no middle: {self.why}")
        return (Fraction(self.low) + Fraction(self.high)) / 2

    def __str__(self) -> str:
        return f"{self.ask} {self.written[0]} {self.written[1]}"

    def __format__(self, spec: str) -> str:
        """Both ends by a format such as `,.2f`, rounded outward; without one, the row as it is printed."""
        low, high = (None if end is None else Fraction(end) for end in (self.low, self.high))
        return formatted((low, high), self.written, spec) if spec else str(self)

    def __int__(self) -> int:
        """The value where both ends are the same whole number, as those of most quantiles."""
        if self.low is None or self.low != self.high or Fraction(self.low).denominator > 1:
            raise TypeError(f"{self} is no whole number: take low or high, or mid, which nothing proves")
        return int(self.low)

    def __float__(self) -> float:
        raise TypeError(f"{self} has two ends: take low or high, or float(row.mid), which nothing proves")

    def _repr_html_(self) -> str:
        cells = "".join(f"<td>{html.escape(cell)}</td>" for cell in (self.ask, *self.written))
        return f"<table><tr>{cells}</tr></table>"

    def holds(self, value: Union[Fraction, Decimal, float, int, str]) -> Optional[bool]:
        """Whether the value, in the unit of the row, lies from `low` to `high`; None where that is open."""
        value = Fraction(value)
        if self.low is not None and value < Fraction(self.low):
            return False
        if self.high is None:
            return None
        return value <= Fraction(self.high)

    def in_money(self, bs: Union[Fraction, int]) -> "Row":
        """The row with the amounts of its ask and its ends in money, for buckets of the size `bs`.

        Ends are fractions, and a probability stays as it is. A row in money is returned unchanged.
        """
        if self.money:
            return self
        ask = ask_in_money(self.ask, Fraction(bs))
        if self.unit == "probability":
            return replace(self, ask=ask, money=True)
        low, high = (end if end is None else Fraction(end) * bs for end in (self.low, self.high))
        shown = decimals(low or Fraction(0), high or Fraction(0))
        first, last = (word if end is None else decimal for end, word, decimal in zip((low, high), self.written, shown))
        return replace(self, ask=ask, low=low, high=high, written=(first, last), money=True)


class Report(Sequence[Row]):
    """The rows of one run, in the order of the asks; also found by their ask: `report["mean"]`.

    `bs` is the size of a bucket in money, `cells` the number of buckets of the grid.
    """

    def __init__(self, rows: Iterable[Row], bs: Fraction, cells: int) -> None:
        self.rows = tuple(rows)
        self.bs = bs
        self.cells = cells

    @overload
    def __getitem__(self, which: Union[int, str]) -> Row: ...

    @overload
    def __getitem__(self, which: slice) -> Tuple[Row, ...]: ...

    def __getitem__(self, which: Union[int, str, slice]) -> Union[Row, Tuple[Row, ...]]:
        if isinstance(which, str):
            for row in self.rows:
                if row.ask == which:
                    return row
            raise KeyError(which)
        return self.rows[which]

    def __iter__(self) -> Iterator[Row]:
        return iter(self.rows)

    def __len__(self) -> int:
        return len(self.rows)

    def __repr__(self) -> str:
        unit = " in money" if any(row.money for row in self.rows) else ""
        return f"<decl report of {len(self)} rows{unit}, {self.cells} buckets of {self.bs}>"

    def __str__(self) -> str:
        return "".join(f"{row}\n" for row in self.rows)

    def _repr_html_(self) -> str:
        cells = [[row.ask, *row.written] for row in self.rows]
        lines = ["".join(f"<td>{html.escape(cell)}</td>" for cell in line) for line in cells]
        body = "".join(f"<tr>{line}</tr>" for line in lines)
        return f"<table><tr><th>ask</th><th>low</th><th>high</th></tr>{body}</table>"

    def in_money(self) -> "Report":
        """The report in money: the amounts of the asks and the ends times the size of a bucket, as fractions.

        A report in money stays as it is.
        """
        return Report([row.in_money(self.bs) for row in self.rows], self.bs, self.cells)

    def to_frame(self, floats: bool = False) -> "pandas.DataFrame":
        """A pandas DataFrame with the columns ask, low and high.

        The ends stay exact. With `floats` each low end is rounded down and each high end up to a float, so that they
        still hold the declared value; an end that is not there is then NaN, and one beyond the grid is infinite.
        """
        import pandas

        ends = [rounded(row) if floats else (row.low, row.high) for row in self.rows]
        frame = pandas.DataFrame({"ask": [row.ask for row in self.rows]})
        kind = float if floats else object
        frame["low"] = pandas.Series([low for low, _ in ends], dtype=kind)
        frame["high"] = pandas.Series([high for _, high in ends], dtype=kind)
        return frame


def why_of(kind: str, state: str) -> str:
    """Why a row of this kind has no end, or none above."""
    if state == "closed":
        return ""
    if state == "beyond":
        return "The grid ends before the distribution is sure to reach so far: take a larger log2, or larger buckets."
    if kind == "cotail":
        told = "The quantile is not sure to be one total, or its total is not sure to have a probability of at least 1/65,536"
        return f'{told}: by rules="extended" there is a share.'
    return "The total cannot occur, or is not sure to have a probability of at least 1/65,536: larger buckets make each total likelier."


def rounded(row: Row) -> Tuple[float, float]:
    """The two ends of a row as floats, rounded outward."""
    if row.state == "absent":
        return math.nan, math.nan
    low = -math.inf if row.low is None else float_below(row.low)
    high = math.inf if row.high is None else float_above(row.high)
    return low, high


def read_end(ask: str, written: str, ends: Union[Type[Fraction], Type[Decimal]]) -> End:
    """An end as the program wrote it."""
    if written in NOT_THERE:
        return None
    return int(written) if ask.startswith("q:") else ends(written)


def read_report(written: str, asks: List[str], ends: Union[Type[Fraction], Type[Decimal]], rules: str = "standard") -> Report:
    """The report by these rules that these bytes of JSON spell; it has to be whole."""
    try:
        found = json.loads(written)
        rows = [
            Row(
                row["ask"],
                read_end(row["ask"], row["low"], ends),
                read_end(row["ask"], row["high"], ends),
                (row["low"], row["high"]),
                rules=rules,
            )
            for row in found["rows"]
        ]
        made = Report(rows, Fraction(found["bs"]), found["cells"])
    except (ValueError, KeyError, TypeError, ArithmeticError) as cause:
        raise BadAnswer("what decl wrote is no whole report; nothing of it is used") from cause
    if [row.ask for row in made.rows] != list(asks):
        raise BadAnswer("decl answered other asks than it was given; nothing of it is used")
    return made
