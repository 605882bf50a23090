"""Tables that are read, from rows of dicts, a DataFrame, a CSV or an Excel file, and their cells as exact numbers."""

import csv
import difflib
import importlib
import os
import pathlib
import re
from dataclasses import dataclass
from decimal import Decimal
from fractions import Fraction
from typing import Any, Dict, Iterable, List, Mapping, NoReturn, Optional, Protocol, Sequence, Tuple, Union, cast

from .faults import TableFault


class Frame(Protocol):
    """A DataFrame, by what is asked of it."""

    @property
    def columns(self) -> Iterable[object]: ...

    def to_dict(self, orient: Any) -> Any: ...


#: What a table is read from: a DataFrame, the path of a CSV or an Excel file, or rows of dicts.
Source = Union[str, "os.PathLike[str]", Iterable[Mapping[str, object]], Frame]
NUMBER = re.compile(r"([+-]?)(?:(\d+)/(\d+)|((?:\d+\.?\d*|\.\d+)(?:[eE][+-]?\d{1,2})?)(%?))")
THOUSANDS = re.compile(r"\d{1,3}(?:,\d{3})+(?:\.\d+)?%?")
EXCEL = (".xlsx", ".xlsm")
#: A number has no more digits than this before it is read.
LONGEST = 400


@dataclass(frozen=True)
class Line:
    """A row of a table: its number in messages, and its cells by column."""

    number: int
    cells: Mapping[str, object]


@dataclass(frozen=True)
class Sheet:
    """A table: what it is called in messages, its columns, and its rows. `shown` has each column as the table spells it."""

    called: str
    columns: Tuple[str, ...]
    lines: Tuple[Line, ...]
    shown: Mapping[str, str]

    def refuse(self, line: Optional[Line], column: str, reason: str) -> NoReturn:
        """Raises the fault of a cell, or of a column, where there is no line."""
        number = None if line is None else line.number
        place = f"column `{self.shown.get(column, column)}`" if number is None else f"row {number}, column `{self.shown.get(column, column)}`"
        raise TableFault(f"{self.called}: {place}: {reason}", row=number, column=self.shown.get(column, column))

    def has(self, line: Line, column: str) -> bool:
        """Whether the line has a cell in this column that is not empty."""
        return not is_empty(line.cells.get(column))

    def text(self, line: Line, column: str) -> str:
        """The text of a cell that may not be empty."""
        if not self.has(line, column):
            self.refuse(line, column, "the cell is empty")
        return str(line.cells[column]).strip()

    def number(self, line: Line, column: str) -> Fraction:
        """The number of a cell: at least 0."""
        if not self.has(line, column):
            self.refuse(line, column, "the cell is empty")
        return self.at_least_0(line, column, line.cells[column])

    def at_least_0(self, line: Line, column: str, cell: object) -> Fraction:
        """The number that a cell, or an item of a list in it, holds."""
        found = number_in(cell)
        if found is None:
            self.refuse(line, column, f"{shown(cell)} is no number{hint(cell)}")
        if found < 0:
            self.refuse(line, column, f"{shown(cell)} is below 0")
        return found

    def numbers(self, line: Line, column: str) -> List[Fraction]:
        """The numbers of a list in a cell: a list, an array, or a text such as `10 20 50` or `[10, 20, 50]`."""
        if not self.has(line, column):
            self.refuse(line, column, "the cell is empty")
        found = [self.at_least_0(line, column, item) for item in items_of(line.cells[column])]
        return found if found else self.refuse(line, column, "the list is empty")


def shown(cell: object) -> str:
    """A cell in a message."""
    return f"`{cell}`" if isinstance(cell, str) else repr(cell)


def hint(cell: object) -> str:
    """What a text that is no number would be, where that is seen."""
    if not isinstance(cell, str) or "," not in cell or number_in(cell.replace(",", "")) is None:
        return ""
    if THOUSANDS.fullmatch(cell.strip()):
        return f"; a number has no comma in it: `{cell.strip().replace(',', '')}`; and a list has blanks between its numbers"
    return f"; a decimal has a point: `{cell.strip().replace(',', '.')}`"


def is_empty(cell: object) -> bool:
    """Whether a cell holds nothing: None, blanks, or what pandas puts where nothing is."""
    if cell is None or isinstance(cell, str):
        return not (cell or "").strip()
    if hasattr(cell, "__len__"):
        return False
    try:
        return bool(cell != cell)
    except TypeError:
        return True


def number_in(cell: object) -> Optional[Fraction]:
    """The number that a cell holds, exactly; a float is the decimal that Python prints for it. None where it holds none."""
    item = getattr(cell, "item", None)
    if item is not None and not hasattr(cell, "__len__"):
        cell = item()
    if isinstance(cell, bool) or cell is None:
        return None
    if isinstance(cell, (int, Fraction)):
        return Fraction(cell)
    if isinstance(cell, (float, Decimal)):
        cell = float.__repr__(cell) if isinstance(cell, float) else format(cell, "f" if cell.is_finite() else "")
    return number_of(cell.strip()) if isinstance(cell, str) else None


def number_of(written: str) -> Optional[Fraction]:
    """The number that a text spells: a decimal, with an exponent or a percent sign too, or a fraction."""
    found = NUMBER.fullmatch(written)
    if found is None or len(written) > LONGEST or (found[3] and not int(found[3])):
        return None
    value = Fraction(int(found[2]), int(found[3])) if found[2] else Fraction(found[4].rstrip(".")) / (100 if found[5] else 1)
    return -value if found[1] == "-" else value


def items_of(cell: object) -> Sequence[object]:
    """The items of a list in a cell. A text is parted at blanks and semicolons, where it has some, else at commas; but one that is as well a
    number with its thousands parted, as `10,500`, is one item."""
    if not isinstance(cell, str):
        several = getattr(cell, "tolist", None)
        found: object = several() if several else cell
        listed: List[object] = [*found] if isinstance(found, (list, tuple)) else [found]
        return listed
    inside = cell.strip().lstrip("[(").rstrip(")]").strip()
    if re.search(r"[\s;]", inside):
        return [word.strip(",") for word in re.split(r"[\s;]+", inside) if word.strip(",")]
    words: List[object] = [inside] if THOUSANDS.fullmatch(inside) else [*inside.split(",")]
    return words


def folded(name: object) -> str:
    """The name of a column without regard to case, blanks and signs."""
    return re.sub(r"[\W_]+", "_", str(name).strip().lower()).strip("_")


def read_csv(path: pathlib.Path) -> List[Tuple[int, List[object]]]:
    """The rows of a CSV file with their lines, its head first; cells are parted by commas, or by semicolons where its head has more."""
    with open(path, newline="", encoding="utf-8-sig") as file:
        head = file.readline()
        file.seek(0)
        reader = csv.reader(file, delimiter=";" if head.count(";") > head.count(",") else ",")
        return [(reader.line_num, list(row)) for row in reader if any(cell.strip() for cell in row)]


def read_excel(path: pathlib.Path, sheet: Optional[str]) -> List[Tuple[int, List[object]]]:
    """The rows of a sheet of an Excel file, its first one unless it is named, with their numbers; its head first."""
    try:
        openpyxl = importlib.import_module("openpyxl")
    except ImportError:
        return by_pandas(path, sheet)
    book = openpyxl.load_workbook(path, read_only=True, data_only=True)
    try:
        if sheet is not None and sheet not in book.sheetnames:
            raise TableFault(f"{path}: there is no sheet `{sheet}`; there is {', '.join(book.sheetnames)}", row=None, column=None)
        rows = (book[sheet] if sheet else book.worksheets[0]).iter_rows(values_only=True)
        return [(at, list(row)) for at, row in enumerate(rows, 1) if not all(is_empty(cell) for cell in row)]
    finally:
        book.close()


def by_pandas(path: pathlib.Path, sheet: Optional[str]) -> List[Tuple[int, List[object]]]:
    """The same by pandas."""
    try:
        frame = importlib.import_module("pandas").read_excel(path, sheet_name=sheet or 0, header=None)
    except ImportError:
        raise TableFault(f"{path}: an Excel file is read where openpyxl or pandas is installed", row=None, column=None) from None
    return [(at, list(row)) for at, row in enumerate(frame.itertuples(index=False), 1) if not all(map(is_empty, row))]


def read_file(path: pathlib.Path, sheet: Optional[str]) -> Tuple[List[str], List[Line]]:
    """The columns and the rows of a file."""
    rows = read_excel(path, sheet) if path.suffix.lower() in EXCEL else read_csv(path)
    if not rows:
        raise TableFault(f"{path}: the table is empty", row=None, column=None)
    head = ["" if is_empty(cell) else str(cell) for cell in rows[0][1]]
    for number, row in rows[1:]:
        if any(not is_empty(cell) for cell in row[len(head) :]):
            raise TableFault(f"{path}: row {number} has more cells than the table has columns", row=number, column=None)
    return head, [Line(number, dict(zip(head, row))) for number, row in rows[1:]]


def read_rows(source: object) -> Tuple[List[str], List[Line]]:
    """The columns and the rows of a DataFrame or of rows of dicts; rows are counted from 1."""
    if hasattr(source, "columns") and hasattr(source, "to_dict"):
        frame = cast(Frame, source)
        records = enumerate(frame.to_dict("records"), 1)
        return list(map(str, frame.columns)), [Line(at, {str(name): cell for name, cell in record.items()}) for at, record in records]
    lines = [Line(at, {str(name): cell for name, cell in row.items()}) for at, row in enumerate(cast(Iterable[Mapping[str, object]], source), 1)]
    return list(dict.fromkeys(name for line in lines for name in line.cells)), lines


def read_table(source: Source, called: str, known: Sequence[str], names: Mapping[str, str], sheet: Optional[str] = None) -> Sheet:
    """The table of a source, whose columns are found by `known` names without regard to case and blanks. `names` gives the name that
    a table has for one of them."""
    is_file = isinstance(source, (str, os.PathLike))
    head, lines = read_file(pathlib.Path(cast(str, source)), sheet) if is_file else read_rows(source)
    if not lines:
        raise TableFault(f"{called}: the table has no rows", row=None, column=None)
    ours = {folded(theirs): ours for ours, theirs in names.items() if ours in known}
    shown: Dict[str, str] = {}
    for name in head:
        column = ours.get(folded(name), folded(name) if folded(name) not in names else "")
        if column in shown and column in known:
            raise TableFault(f"{called}: two columns are `{column}`: `{shown[column]}` and `{name}`", row=None, column=name)
        shown.setdefault(column, name)
    columns = tuple(column for column in shown if column in known)
    moved = tuple(Line(line.number, {column: line.cells.get(shown[column]) for column in columns}) for line in lines)
    return Sheet(called, columns, moved, shown)


def nearest(name: str, names: Iterable[str]) -> str:
    """The name among these that is most like one, as the end of a sentence; empty where none is."""
    found = difflib.get_close_matches(name, list(names), 1)
    return f"; did you mean `{found[0]}`?" if found else ""
