"""Tables of answers: each cell is a text or a row of a report, which has two ends."""

import html
import importlib
import math
import os
from collections.abc import Sequence
from fractions import Fraction
from typing import TYPE_CHECKING, Any, Dict, Iterable, Iterator, List, Tuple, Union, overload

from .figures import short
from .reports import Row, rounded

if TYPE_CHECKING:
    import pandas  # type: ignore[import]

Cell = Union[str, Row]
#: A number is shown with so many digits, those before the point counted.
DIGITS = 7


def places_of(value: Fraction) -> int:
    """How many digits behind the point show a value of this size."""
    return max(0, min(9, DIGITS - len(str(int(abs(value))))))


def shown(row: Row, marks: bool = False) -> Tuple[str, str]:
    """The two ends of a row, rounded outward to a few digits; the words of the program where an end is not there."""
    ends = [None if end is None else Fraction(end) for end in (row.low, row.high)]
    places = places_of(max((abs(end) for end in ends if end is not None), default=Fraction(0)))
    if all(end is None or end.denominator == 1 for end in ends) and row.unit != "probability":
        places = 0
    low, high = (
        word if end is None else short(end, places, up, "," if marks else "") for end, word, up in zip(ends, row.written, (False, True))
    )
    return low, high


def joined(cell: Cell, marks: bool = False) -> str:
    """A cell in one text: its two ends, or one where they are equal."""
    if isinstance(cell, str):
        return cell
    low, high = shown(cell, marks)
    return low if low == high else f"{low} to {high}"


class Table(Sequence[Tuple[Cell, ...]]):
    """Lines of cells under `columns`. A cell with an answer is a `Row`: its ends stay exact, and are rounded outward where
    the table is printed."""

    def __init__(self, columns: Iterable[str], lines: Iterable[Iterable[Cell]]) -> None:
        self.columns = tuple(columns)
        self.lines = tuple(tuple(line) for line in lines)

    @overload
    def __getitem__(self, which: int) -> Tuple[Cell, ...]: ...

    @overload
    def __getitem__(self, which: slice) -> Tuple[Tuple[Cell, ...], ...]: ...

    def __getitem__(
        self, which: Union[int, slice]
    ) -> Union[Tuple[Cell, ...], Tuple[Tuple[Cell, ...], ...]]:
        return self.lines[which]

    def __iter__(self) -> Iterator[Tuple[Cell, ...]]:
        return iter(self.lines)

    def __len__(self) -> int:
        return len(self.lines)

    def __str__(self) -> str:
        lines = [self.columns, *([joined(cell) for cell in line] for line in self.lines)]
        wide = [max(len(line[at]) for line in lines) for at in range(len(self.columns))]
        return "\n".join("  ".join(cell.rjust(size) for cell, size in zip(line, wide)).rstrip() for line in lines)

    def _repr_html_(self) -> str:
        head = "".join(f"<th>{html.escape(name)}</th>" for name in self.columns)
        body = "".join(
            "<tr>" + "".join(f"<td>{html.escape(joined(cell, marks=True))}</td>" for cell in line) + "</tr>"
            for line in self.lines
        )
        return f"<table><tr>{head}</tr>{body}</table>"

    def to_frame(self, floats: bool = False) -> "pandas.DataFrame":
        """A pandas DataFrame; a column of answers becomes two, its low and its high ends.

        The ends stay exact. With `floats` each low end is rounded down and each high end up to a float, and a text beside answers is
        NaN.
        """
        import pandas

        frame = pandas.DataFrame(index=range(len(self)))
        for at, name in enumerate(self.columns):
            cells: List[Cell] = [line[at] for line in self.lines]
            if all(isinstance(cell, str) for cell in cells):
                frame[name] = cells
                continue
            ends: List[Tuple[Any, Any]] = [
                ((math.nan, math.nan) if floats else (cell, cell)) if isinstance(cell, str)
                else rounded(cell) if floats else (cell.low, cell.high)
                for cell in cells
            ]  # fmt: skip
            for end, side in ((0, "low"), (1, "high")):
                frame[f"{name} {side}"] = pandas.Series([pair[end] for pair in ends], dtype=float if floats else object)
        return frame

    def to_html(self) -> str:
        """The table as HTML, its ends rounded outward."""
        return self._repr_html_()

    def to_excel(self, path: "Union[str, os.PathLike[str]]", sheet: str = "Table") -> None:
        """Writes the table to a file of Excel, by openpyxl or pandas: a column of answers becomes two, whose ends are rounded outward."""
        frame = self._columns()
        try:
            openpyxl = importlib.import_module("openpyxl")
        except ImportError:
            importlib.import_module("pandas").DataFrame(frame).to_excel(path, sheet_name=sheet, index=False)
            return
        book = openpyxl.Workbook()
        page = book.active
        page.title = sheet
        page.append(list(frame))
        for line in zip(*frame.values()):
            page.append([cell if isinstance(cell, str) or math.isfinite(cell) else None for cell in line])
        book.save(path)

    def _columns(self) -> "Dict[str, List[Union[str, float]]]":
        """The columns of a sheet, by their heads."""
        found: Dict[str, List[Union[str, float]]] = {}
        for at, name in enumerate(self.columns):
            cells = [line[at] for line in self.lines]
            if all(isinstance(cell, str) for cell in cells):
                found[name] = [str(cell) for cell in cells]
                continue
            for end, side in ((0, "low"), (1, "high")):
                found[f"{name} {side}"] = [cell if isinstance(cell, str) else rounded(cell)[end] for cell in cells]
        return found
