"""Gross, ceded and net of a program with reinsurance clauses, each as a program of its own where one declares it.

Gross is the program without its clauses. What is ceded and what is left of it are programs where a unit has one clause. With an
occurrence and an aggregate clause, what both leave is a program, and what both cede is not, as the sum of two cessions of the same
year: its mean is the gross mean less the net one. Where the occurrence clause cedes, the aggregate one acts on what it cedes.
"""

import re
from dataclasses import dataclass, replace
from fractions import Fraction
from typing import TYPE_CHECKING, Dict, List, Mapping, Optional, Sequence, Union

from .areas import amount_of
from .faults import NoMoments
from .figures import decimals
from .moments import of_count
from .plan import Unit, mean_of
from .reports import Row
from .tables import Cell, Table

if TYPE_CHECKING:
    from .books import Book
    from .coarse import Between

    Asked = Union[Book, Between]

#: Notes and comments, and what stands before each unit.
ASIDE = re.compile(r"note\{[^{}]*\}|#[^\n]*")
UNIT = re.compile(r"(?<![\w.-])(?=agg\s)")
NUMERAL = r"(?:\d+/\d+|(?:\d+\.?\d*|\.\d+)%?)"
CESSION = rf"(?:{NUMERAL}\s*(?:so|po)\s*)?(?:inf|{NUMERAL})\s*xs\s*{NUMERAL}"
CLAUSE = re.compile(rf"\s*(?<![\w.-])(occurrence|aggregate)\s+(net of|ceded to)\s+{CESSION}(?:\s*and\s*{CESSION})*")
SIDES = ("gross", "ceded", "net")
BEFORE = "before layers"
Texts = Dict[str, Optional[str]]


def sides_of(line: str) -> Texts:
    """The unit in this line before its clauses, as what they cede, and as what they leave: empty where that is nothing, None where no
    program declares it."""
    ways = {found[1]: found[2] for found in CLAUSE.finditer(line)}

    def turned(way: str) -> str:
        return CLAUSE.sub(lambda found: found[0].replace(found[2], way, 1), line)

    gross = CLAUSE.sub("", line)
    if not ways:
        return {"gross": gross, "ceded": "", "net": line}
    if len(ways) == 1:
        return {"gross": gross, "ceded": turned("ceded to"), "net": turned("net of")}
    if ways["occurrence"] == "ceded to":
        return {"gross": gross, "ceded": line, "net": None}
    return {"gross": gross, "ceded": None, "net": turned("net of")}


def less(one: Row, other: Row) -> Row:
    """Two ends of the difference of two means, which is at least 0; no high end where that of the first one is not there."""
    low = Fraction(0) if other.high is None else max(Fraction(one.low or 0) - Fraction(other.high), Fraction(0))
    if one.high is None:
        return Row("mean", low, None, (decimals(low, low)[0], one.written[1]), True)
    high = Fraction(one.high) - Fraction(other.low or 0)
    return Row("mean", low, high, decimals(low, high), True)


def exactly(value: Fraction) -> Row:
    """A mean that is known exactly."""
    return Row("mean", value, value, decimals(value, value), True)


def before_layer(unit: Unit) -> Optional[Row]:
    """The mean of the claims of a unit before its layer, as many as the program expects; None where their number is no fraction."""
    entering = replace(unit, layer=unit.layer and replace(unit.layer, limit=None))
    above = unit.layer.attachment if unit.layer and not unit.kept else Fraction(0)
    amount = mean_of(unit.amounts) if not above else mean_of(entering.in_layer()) + above
    try:
        mean = of_count(unit).mean * amount
    except NoMoments:
        return None
    return exactly(mean)


def takes(unit: Unit) -> bool:
    """Whether the layer of a unit takes something off."""
    layer = unit.layer
    return layer is not None and any(layer.of(amount) != amount for amount in unit.amounts)


@dataclass(frozen=True)
class Cessions:
    """The books of the sides of a program that a program declares, and the means of each unit on each side, by their names."""

    book: "Asked"
    sides: "Mapping[str, Asked]"
    means: Mapping[str, Mapping[str, Row]]

    def line(self, name: str, rows: Mapping[str, Cell], columns: Sequence[str]) -> List[Cell]:
        """A line of the table."""
        return [name, *(rows.get(column, "not declared") for column in columns)]

    def total(self) -> Dict[str, Cell]:
        """The mean of the total on each side: of the one that no program declares as the gross mean less that of the other."""
        found = {side: book.mean() for side, book in self.sides.items()}
        return {**(with_differences(found) if len(found) > 1 else {**found, **self.added_up()})}

    def added_up(self) -> Dict[str, Row]:
        """The means of the total as sums of those of the units, where units differ in the side that no program declares."""
        found = {}
        for side in SIDES:
            rows = [means[side] for means in self.means.values()]
            low = sum((Fraction(row.low or 0) for row in rows), Fraction(0))
            high = None if any(row.high is None for row in rows) else sum((Fraction(row.high or 0) for row in rows), Fraction(0))
            words = decimals(low, low if high is None else high)
            found[side] = Row("mean", low, high, (words[0], "beyond" if high is None else words[1]), True)
        return found

    def table(self, years: Sequence[Fraction]) -> Table:
        """The means, and VaR and TVaR of return periods, gross, ceded and net."""
        units = self.book.plan.units if self.book.plan is not None else []
        before = {unit.name: before_layer(unit) for unit in units}
        columns = [*([BEFORE] if any(map(takes, units)) else []), *SIDES]
        lines: List[List[Cell]] = []
        for name, means in self.means.items() if len(self.means) > 1 else ():
            lines.append(self.line(f"mean of {name}", {**means, BEFORE: before.get(name) or ""}, columns))
        known = [row for row in before.values() if row is not None]
        whole: Cell = exactly(sum((Fraction(row.low or 0) for row in known), Fraction(0))) if len(known) == len(before) else ""
        lines.append(self.line("mean", {**self.total(), BEFORE: whole}, columns))
        for each in years:
            for kind, ask in (("VaR", "q"), ("TVaR", "tail")):
                rows: Dict[str, Cell] = {side: getattr(book, ask)(1 - 1 / each) for side, book in self.sides.items()}
                lines.append(self.line(f"{kind} {amount_of(each)} years", {**rows, BEFORE: ""}, columns))
        return Table(["", *columns], lines)

    def declared(self) -> str:
        """Which side the program itself declares."""
        own = parts_of(self.book._declared())
        return next((side for side in ("net", "ceded") if side in self.sides and parts_of(self.sides[side]._declared()) == own), "")


def parts_of(text: str) -> List[str]:
    """What stands before the units of a text, and each unit, in a line each and without notes and comments."""
    return [" ".join(part.split()) for part in UNIT.split(ASIDE.sub(" ", text))]


def with_differences(found: Dict[str, Row]) -> Dict[str, Row]:
    """The means of all sides: that of the one that no program declares is the gross mean less that of the other."""
    for side, other in (("ceded", "net"), ("net", "ceded")):
        if side not in found:
            found[side] = less(found["gross"], found[other])
    return found


def cessions_of(book: "Asked") -> Optional[Cessions]:
    """The sides of a book; None where no unit has a clause."""
    head, *lines = parts_of(book._declared())
    units = {line.split(" ")[1]: sides_of(line) for line in lines}
    if not any(each["ceded"] != "" for each in units.values()):
        return None
    alone = head if " common " in head else re.sub(r"(?<![\w.-])port\s+\S+", "", head)
    means = {}
    for name, texts in units.items():
        found = {side: book._mean_of_text(f"{alone}\n{text}") if text else exactly(Fraction(0)) for side, text in texts.items() if text is not None}
        means[name] = with_differences(found)
    sides = {}
    for side in SIDES:
        declared = [texts[side] for texts in units.values()]
        if None not in declared:
            sides[side] = book._of_text("\n".join([head, *(text for text in declared if text)]))
    return Cessions(book, sides, means)
