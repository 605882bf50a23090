"""A tower of excess layers over the claims of a book: what each costs, with what is paid to reinstate it.

A layer of a limit L pays of each claim what lies above its attachment, at most L. With k reinstatements it pays at most k + 1 limits a
year, and for the j-th limit that is used up the part c of the premium P is paid again, pro rata as to amount: P c E[min(max(X - (j - 1) L,
0), L)] / L for the year's cessions X. So P is the expected loss over 1 plus the expected reinstatements.
"""

import re
from fractions import Fraction
from typing import TYPE_CHECKING, Iterable, List, Optional, Sequence, Tuple, Union

from .calls import Number
from .faults import NotDeclared
from .figures import decimals, plain
from .pages import reached
from .reports import Row
from .rules import COUNTS
from .tables import Cell, Table

if TYPE_CHECKING:
    from .books import Book

#: A layer as two numbers, or as it is written: `10 xs 10`.
Written = Union[str, Tuple[Number, Number]]
Ends = Tuple[Fraction, Fraction]
#: The words that may follow the severity of a unit, and a note.
BEHIND = re.compile(rf" (?:occurrence|{'|'.join(COUNTS)}|aggregate)(?= |$)| note\{{|$")
COLUMNS = ("layer", "expected loss", "attaches", "exhausts", "reinstatements", "reinstatement premium", "pure premium")


def layer_of(written: Written) -> Tuple[Fraction, Fraction]:
    """The limit and the attachment of a layer, both at least 0 and the limit above it."""
    from .books import exact

    parts = re.split(r"\s*xs\s*", written.strip()) if isinstance(written, str) else list(written)
    if len(parts) != 2:
        raise ValueError(f"a layer is written as `10 xs 10`, or as (10, 10), and not {written!r}")
    limit, attachment = exact(parts[0]), exact(parts[1])
    if limit <= 0 or attachment < 0:
        raise ValueError(f"a layer has a limit above 0 and an attachment of at least 0, and not {written!r}")
    return limit, attachment


def clause_of(layers: Iterable[Tuple[Fraction, Fraction]]) -> str:
    """The layers as they stand in a clause."""
    return " and ".join(f"{plain(limit)} xs {plain(attachment)}" for limit, attachment in layers)


def with_occurrence(book: "Book", clause: str) -> str:
    """The program of the book, each of its units with this occurrence clause."""
    for unit in book.plan.units:
        if unit.occurrence is not None or unit.aggregate is not None:
            which = "an occurrence" if unit.occurrence is not None else "an aggregate"
            told = f"unit {unit.name} has {which} clause, and the tower acts on claims as they are before it"
            raise NotDeclared(f"{told}: write the layers into its clause, band by band (docs/RECIPES.md, Quota share and an excess layer)")
    lines = book.spelling.splitlines()
    for at, line in enumerate(lines):
        if line.startswith("agg "):
            place = BEHIND.search(line, line.index("dsev") if "dsev" in line else line.index("sev."))
            assert place is not None
            lines[at] = f"{line[:place.start()]} occurrence {clause}{line[place.start():]}"
    return "\n".join(lines)


def ends_of(row: Row) -> Ends:
    """The two ends of a row in money."""
    return Fraction(row.low or 0), Fraction(row.high or 0)


def over(amount: Ends, parts: Ends) -> Ends:
    """Ends of an amount over 1 plus a number of at least 0."""
    return amount[0] / (1 + parts[1]), amount[1] / (1 + parts[0])


def answered(name: str, ends: Ends) -> Row:
    """A row with these ends, in money or as a number."""
    return Row(name, *ends, decimals(*ends), True)


class Layer:
    """A layer of a tower: the book of its cessions, and how often it is reinstated, at which parts of the premium; None is without end
    and without premium."""

    def __init__(self, book: "Book", limit: Fraction, attachment: Fraction, parts: Optional[Sequence[Fraction]]) -> None:
        self.limit, self.attachment, self.parts = limit, attachment, parts
        text = with_occurrence(book, f"ceded to {clause_of([(limit, attachment)])}")
        self.ceded = book._at_least(text, None if parts is None else limit * (len(parts) + 1))

    @property
    def name(self) -> str:
        """The layer as it is written."""
        return clause_of([(self.limit, self.attachment)])

    def loss(self) -> Row:
        """The expected loss."""
        return self.ceded.mean() if self.parts is None else self.ceded.layer(self.limit * (len(self.parts) + 1))

    def reinstatements(self) -> Ends:
        """Two ends of the expected reinstatements, each counted with the part of the premium that is paid for it."""
        low = high = Fraction(0)
        for at, part in enumerate(self.parts or ()):
            ends = ends_of(self.ceded.layer(self.limit, at * self.limit))
            low, high = low + part * ends[0] / self.limit, high + part * ends[1] / self.limit
        return low, high

    def exhausts(self) -> Cell:
        """The probability that all limits of the year are used up; nothing where there is no last one."""
        if self.parts is None:
            return ""
        return reached(self.ceded, self.limit * (len(self.parts) + 1))

    def line(self) -> List[Cell]:
        """The line of the table."""
        loss, paid = self.loss(), self.reinstatements()
        pure = over(ends_of(loss), paid)
        again = ends_of(loss)[0] * paid[0] / (1 + paid[0]), ends_of(loss)[1] * paid[1] / (1 + paid[1])
        attaches = self.ceded.sf(0)
        return [
            self.name,
            loss,
            attaches,
            self.exhausts(),
            answered("reinstatements", paid),
            answered("reinstatement premium", again),
            answered("pure premium", pure),
        ]


class Tower(Table):
    """A table of layers: of each the expected loss, the probabilities that it pays in a year and that all of its limits are used up, the
    expected reinstatements (counted with the part of the premium that each costs), what is paid for them in the mean, and the pure
    premium. `layers` has each with the book of its cessions."""

    def __init__(self, book: "Book", layers: Sequence[Layer]) -> None:
        super().__init__(COLUMNS, (layer.line() for layer in layers))
        self.book, self.layers = book, tuple(layers)

    def net_mean(self) -> Row:
        """The mean of what all layers together leave, which is the gross mean less theirs."""
        losses = [ends_of(layer.loss()) for layer in self.layers]
        gross = ends_of(self.book.mean())
        low, high = gross[0] - sum(loss[1] for loss in losses), gross[1] - sum(loss[0] for loss in losses)
        return answered("net mean", (max(low, Fraction(0)), high))

    def net(self) -> "Book":
        """The book that all layers together leave, where none has a limit of the year; else `NotDeclared`."""
        limited = [layer.name for layer in self.layers if layer.parts is not None]
        if limited:
            mean = self.net_mean()
            raise NotDeclared(
                f"the net of {', '.join(limited)} cannot be declared: a limit of the year acts on the sum of the cessions, and a clause on the"
                f" sum of what is left. Its mean is the gross mean less the expected losses: it lies from {mean.written[0]} to {mean.written[1]}."
                " Its quantiles are at least those of the net without limits of the year (`reinstatements=None`), and at most the gross ones."
            )
        text = with_occurrence(self.book, f"net of {clause_of((layer.limit, layer.attachment) for layer in self.layers)}")
        return self.book._at_least(text, None)


def parts_of(reinstatements: Optional[int], at: Union[Number, Sequence[Number]]) -> Optional[List[Fraction]]:
    """The part of the premium that each reinstatement costs; None where there are as many as it takes."""
    from .books import exact

    if reinstatements is None:
        return None
    if isinstance(reinstatements, bool) or reinstatements != int(reinstatements) or reinstatements < 0:
        raise ValueError(f"reinstatements are a whole number of at least 0, or None for no end, and not {reinstatements!r}")
    parts = [exact(each) for each in at] if isinstance(at, (list, tuple)) else [exact(at)] * int(reinstatements)  # type: ignore[arg-type]
    if len(parts) != reinstatements or any(part < 0 for part in parts):
        raise ValueError(f"{reinstatements} reinstatements need as many parts of the premium of at least 0, and not {at!r}")
    return parts


def tower_of(
    book: "Book", layers: Iterable[Written], reinstatements: Union[None, int, Sequence[Optional[int]]], at: Union[Number, Sequence[Number]]
) -> Tower:
    """The tower of these layers, each with as many reinstatements, or with those of a list."""
    ends = [layer_of(each) for each in layers]
    many = list(reinstatements) if isinstance(reinstatements, (list, tuple)) else [reinstatements] * len(ends)
    if len(many) != len(ends):
        raise ValueError(f"{len(ends)} layers need as many numbers of reinstatements, and not {len(many)}")
    return Tower(book, [Layer(book, *each, parts_of(number, at)) for each, number in zip(ends, many)])
