"""A book from a table: one unit for each line, with exact numbers that the rules take, and faults with row and column."""

import itertools
import math
import os
import re
import warnings
from dataclasses import dataclass, replace
from fractions import Fraction
from functools import reduce
from typing import Any, Callable, Dict, Iterable, List, Mapping, Optional, Sequence, Tuple

from .books import exact
from .calls import Number
from .cautions import MOST_RATIO, level_outside
from .cells import EXCEL, Line, Sheet, Source, nearest, read_table
from .choose import bucket, common as divisor
from .coarse import numeral
from .expected import WORDS
from .faults import DeclWarning, RuleFault, SyntaxFault, TableFault, TextFault
from .figures import plain, short
from .plan import plan_of
from .lines import PooledLines, TableBook, apportioned, can_be_pooled, lone_ones
from .rules import BOUNDS, COUNTS, DIGITS, Rules

LINES = (
    "name claims loss premium loss_ratio count parameter severity amounts weights limit attachment occurrence aggregate".split()
)
SEVERITIES = ("severity", "name", "amount", "weight")
#: Exposures: the columns of each, of which a line has one.
EXPOSURES = (("claims",), ("loss",), ("premium", "loss_ratio"))
WITH_PARAMETER = ("binomial", "mixed gamma")
CLAIM_COUNTS = tuple("mixed gamma" if name == "mixed" else name for name in COUNTS)
COUNT = re.compile(r"([a-z][a-z ]*?)(?:\s+([\d./%]+))?(?:\s+(zt|zm\s+[\d./%]+))?")
CLAUSE = re.compile(r"(?:(?:net of|ceded to|inf|xs|so|po|and|\d+/\d+|(?:\d+\.?\d*|\.\d+)%?)(?:\s+|$))+")
#: Words that are no names of units: keywords, and words of continuous severities.
TAKEN = {*WORDS.split(), "claim", "prem", "note", *"lognorm expon pareto weibull norm uniform beta chistogram".split()}
#: Weights are whole numbers of billionths, or of millionths where the rules take no finer ones; a list that is as fine is kept.
PARTS = (10**9, 10**6)
TOO_FINE = 19
#: Rules that a table may break by the standard rules, and keep by the extended ones.
WIDER = (4, 18, 19, 27, 28)
Spelling = Callable[[Fraction], str]


@dataclass(frozen=True)
class Entry:
    """A line as a unit: its name in the table, and the pieces of its text with the columns that they come from. `changed` is the
    greatest change of one of its numbers: of a weight the difference, of any other one relative to itself."""

    line: Line
    name: str
    pieces: Tuple[Tuple[str, str], ...]
    changed: Fraction
    parts: int

    @property
    def text(self) -> str:
        """The unit in a line."""
        return " ".join(text for _, text in self.pieces)

    def column_at(self, place: int) -> str:
        """The column of the piece at a place of the text, which counts from 1."""
        for column, text in self.pieces:
            place -= len(text) + 1
            if place <= 0:
                return column
        return self.pieces[-1][0]


@dataclass(frozen=True)
class Severity:
    """Amounts with their weights, None where all are equally likely; and where in the tables they come from."""

    amounts: List[Fraction]
    weights: Optional[List[Fraction]]
    sheet: Sheet
    line: Line
    column: str


def fitted(value: Fraction) -> Fraction:
    """The number, or the nearest one of 11 digits where no numeral spells it."""
    if numeral(value) is not None:
        return value
    places = max(0, DIGITS - len(str(int(value))))
    return Fraction(round(value * 10**places), 10**places)


def fine(weights: List[Fraction], parts: int, finest: int) -> List[Fraction]:
    """Weights that add up to 1 exactly: these, where they do and the rules take them, up to a common denominator. Else each is divided by their sum and rounded down
    to whole parts, and the parts that are left go to the largest remainders, one each."""
    over = math.lcm(*(weight.denominator for weight in weights))
    most = finest if parts == PARTS[0] else min(finest, parts * 2)
    if sum(weights) == 1 and over <= most and all(numeral(weight) is not None for weight in weights):
        return weights
    return [Fraction(part, parts) for part in apportioned(weights, parts)]


def tokens(names: Sequence[str]) -> List[str]:
    """A name of a unit for each of these: letters, digits, `_` and `-`, a letter first, none a keyword, and none that of another one."""
    found: List[str] = []
    for name in names:
        word = re.sub(r"[^A-Za-z0-9_]+", "-", name).strip("-")
        word = word if re.match(r"[A-Za-z]", word) else f"Unit-{word}".rstrip("-")
        tries = itertools.chain([word], (f"{word}-{at}" for at in itertools.count(2)))
        others = {*TAKEN, *found, *names} - ({name} - TAKEN)
        found.append(next(each for each in tries if each not in others))
    return found


class Lines:
    """Reads the lines of a table, with the severities of a second one by their key."""

    def __init__(self, sheet: Sheet, amounts: Optional[Sheet], tolerance: Fraction, ground_up: bool) -> None:
        self.sheet, self.amounts, self.tolerance, self.ground_up = sheet, amounts, tolerance, ground_up
        self.rules: Rules = "standard"
        self.is_last = True  # whether no other rules are tried after these
        self.columns()
        self.keyed: Dict[str, List[Line]] = {}
        for line in amounts.lines if amounts else ():
            assert amounts is not None
            self.keyed.setdefault(amounts.text(line, self.key()), []).append(line)
        names = [sheet.text(line, "name") for line in sheet.lines]
        for at, name in enumerate(names):
            if name in names[:at]:
                first = sheet.lines[names.index(name)].number
                sheet.refuse(sheet.lines[at], "name", f"`{name}` is the name of row {first}, too")
        self.named = dict(zip(tokens(names), names))
        self.units = list(self.named)

    def key(self) -> str:
        """The column of the second table that has the key."""
        assert self.amounts is not None
        return "severity" if "severity" in self.amounts.columns else "name"

    def columns(self) -> None:
        """Raises the fault of a column that is missing."""
        there = self.sheet.columns
        if "name" not in there:
            self.sheet.refuse(None, "name", f"it is missing{nearest('name', self.sheet.shown)}")
        if not any(all(column in there for column in columns) for columns in EXPOSURES):
            at = "loss_ratio" if "premium" in there else "premium" if "loss_ratio" in there else "claims"
            self.sheet.refuse(None, at, f"it is missing{nearest(at, self.sheet.shown)}; a line has claims, loss, or premium and loss_ratio")
        if self.amounts is None and "amounts" not in there:
            self.sheet.refuse(None, "amounts", f"it is missing{nearest('amounts', self.sheet.shown)}, and so is a table of severities")
        if self.amounts is not None:
            if "severity" not in self.amounts.columns and "name" not in self.amounts.columns:
                self.amounts.refuse(None, "severity", "it is missing: the key of a severity, as `severity` or `name`")
            if "amount" not in self.amounts.columns:
                self.amounts.refuse(None, "amount", f"it is missing{nearest('amount', self.amounts.shown)}")

    def entry(self, at: int, parts: int = PARTS[0]) -> Entry:
        """The line with this index, its weights as whole numbers of this many parts."""
        line = self.sheet.lines[at]
        changes = [Fraction(0)]

        def spelled_as(value: Fraction) -> str:
            used = fitted(value)
            changes.append(abs(used - value) / value if value else Fraction(0))
            return numeral(used) or str(used)

        severity = self.severity(line)
        lists = f"dsev [{' '.join(map(spelled_as, severity.amounts))}]"
        if severity.weights is not None:
            weights = fine(severity.weights, parts, BOUNDS[self.rules].finest)
            changes += [abs(used - given) for used, given in zip(weights, severity.weights)]
            lists += f" [{' '.join(map(spelled_as, weights))}]"
        layer, above = self.layer(line)
        pieces = [
            ("name", f"agg {self.units[at]}"),
            self.exposure(line, spelled_as),
            *([("limit", " xs ".join("inf" if end is None else spelled_as(end) for end in layer))] if layer else []),
            (self.column_of(line), lists + (" !" if above else "")),
            *self.clause(line, "occurrence"),
            ("count", self.count(line)),
            *self.clause(line, "aggregate"),
        ]
        return Entry(line, self.named[self.units[at]], tuple(pieces), max(changes), parts)

    def column_of(self, line: Line) -> str:
        """The column from which the severity of a line comes."""
        if self.sheet.has(line, "amounts"):
            return "amounts"
        return "severity" if "severity" in self.sheet.columns else "name"

    def exposure(self, line: Line, spelled_as: Spelling) -> Tuple[str, str]:
        """The expected number of claims, the expected loss, or a premium at a loss ratio: one of them."""
        given = [columns for columns in EXPOSURES if any(self.sheet.has(line, column) for column in columns)]
        if len(given) != 1:
            columns = next(columns for columns in EXPOSURES if columns[0] in self.sheet.columns)
            told = "the cell is empty" if not given else f"the line has {' and '.join(each[0] for each in given)}, and needs one of them"
            self.sheet.refuse(line, columns[0], told)
        numbers = [self.sheet.number(line, column) for column in given[0]]
        if len(numbers) == 2 and numbers[1] > MOST_RATIO:
            instead = f"{spelled_as(numbers[1])}%"
            self.warn(line, "loss_ratio", f"the loss ratio is {plain(100 * numbers[1])}%: is it `{instead}`?", instead)
        words = list(map(spelled_as, numbers))
        return given[0][-1], f"{words[0]} premium at {words[1]} lr" if len(words) == 2 else f"{words[0]} {given[0][0]}"

    def warn(self, line: Line, column: str, told: str, instead: str) -> None:
        """Tells what is read as it stands, and may be a mistake."""
        place = f"{self.sheet.called}: row {line.number}, column `{self.sheet.shown.get(column, column)}`"
        warnings.warn(DeclWarning(f"{place}: {told}", instead=instead), stacklevel=level_outside())

    def layer(self, line: Line) -> Tuple[Optional[Tuple[Optional[Fraction], Fraction]], bool]:
        """The layer of a line, where it has one, and whether claims up to its attachment are counted."""
        has = [self.sheet.has(line, column) for column in ("limit", "attachment")]
        if not any(has):
            return None, False
        if not has[0] and "limit" in self.sheet.columns:
            self.sheet.refuse(line, "limit", "the cell is empty, beside an attachment: `inf` is no limit")
        if not has[1] and "attachment" in self.sheet.columns:
            self.sheet.refuse(line, "attachment", "the cell is empty, beside a limit: write 0")
        attachment = self.sheet.number(line, "attachment") if has[1] else Fraction(0)
        unlimited = not has[0] or str(line.cells["limit"]).strip().lower() in ("inf", "infinity", "unlimited")
        return (None if unlimited else self.sheet.number(line, "limit"), attachment), self.ground_up and attachment > 0

    def severity(self, line: Line) -> Severity:
        """The amounts of a line with their weights: its own lists, or those of its key in the second table."""
        if self.sheet.has(line, "amounts"):
            own = self.sheet.numbers(line, "weights") if "weights" in self.sheet.columns else None
            return self.whole(Severity(self.sheet.numbers(line, "amounts"), own, self.sheet, line, "weights"))
        if self.amounts is None:
            self.sheet.refuse(line, "amounts", "the cell is empty")
        key = self.sheet.text(line, "severity" if "severity" in self.sheet.columns else "name")
        if key not in self.keyed:
            self.sheet.refuse(line, self.column_of(line), f"there is no severity `{key}`{nearest(key, self.keyed)}")
        lines = self.keyed[key]
        amounts = [self.amounts.number(each, "amount") for each in lines]
        weights = [self.amounts.number(each, "weight") for each in lines] if "weight" in self.amounts.columns else None
        return self.whole(Severity(amounts, weights, self.amounts, lines[0], "weight"))

    def whole(self, severity: Severity) -> Severity:
        """The severity, whose weights are one for each amount, and add up to 1 within the tolerance."""
        amounts, weights = severity.amounts, severity.weights
        if weights is None:
            return severity
        if len(amounts) != len(weights):
            severity.sheet.refuse(severity.line, severity.column, f"there are {len(amounts)} amounts and {len(weights)} weights")
        if abs(sum(weights, Fraction(0)) - 1) > self.tolerance or not any(weights):
            told = f"the weights add up to {numeral(fitted(sum(weights, Fraction(0))))}, and not to 1 within {plain(self.tolerance)}"
            severity.sheet.refuse(severity.line, severity.column, told)
        return severity

    def count(self, line: Line) -> str:
        """The claim count with its parameter; poisson, where the table has no column of counts."""
        if "count" not in self.sheet.columns:
            return "poisson"
        written = " ".join(re.sub(r"[_-]", " ", self.sheet.text(line, "count").lower()).split())
        found = COUNT.fullmatch(written)
        name = found[1] if found else written
        if found is None or name not in CLAIM_COUNTS:
            more = "; a negative binomial count is `mixed gamma`, whose parameter is 1 over the root of its shape" if "negative" in name else ""
            self.sheet.refuse(line, "count", f"`{written}` is no count: there is {', '.join(CLAIM_COUNTS)}{nearest(name, CLAIM_COUNTS)}{more}")
        given = self.sheet.has(line, "parameter")
        if given and (found[2] or name not in WITH_PARAMETER):
            self.sheet.refuse(line, "parameter", f"{name} has {'its parameter in its own cell' if found[2] else 'no parameter'}")
        if name in WITH_PARAMETER and not found[2] and not given:
            self.sheet.refuse(line, "parameter" if "parameter" in self.sheet.columns else "count", f"{name} needs a parameter")
        parameter = self.sheet.number(line, "parameter") if given else None
        word = found[2] if parameter is None else numeral(parameter) or self.sheet.refuse(line, "parameter", "it has more than 11 digits")
        return " ".join(part for part in (name, word, found[3]) if part)

    def clause(self, line: Line, column: str) -> List[Tuple[str, str]]:
        """A clause, where the line has one."""
        if not self.sheet.has(line, column):
            return []
        written = " ".join(str(line.cells[column]).split())
        written = written[len(column) + 1 :] if written.startswith(f"{column} ") else written
        if CLAUSE.fullmatch(written) is None:
            self.sheet.refuse(line, column, f"`{written}` is no clause: it is written as `net of 80 xs 20`, or `ceded to 0.4 so inf xs 0 and ..`")
        return [(column, f"{column} {written}")]

    def unread(self) -> None:
        """Tells the columns that are not read, and keys that no line has."""
        for sheet, known in ((self.sheet, LINES), (self.amounts, SEVERITIES)):
            for column, name in sheet.shown.items() if sheet else ():
                if sheet and column not in sheet.columns and name:
                    like = nearest(column, [each for each in known if each not in sheet.columns])
                    warnings.warn(DeclWarning(f"{sheet.called}: column `{name}` is not read{like}"), stacklevel=level_outside())
        used = {self.sheet.text(line, self.column_of(line)) for line in self.sheet.lines if self.column_of(line) != "amounts"}
        for key in self.keyed:
            if key not in used:
                warnings.warn(DeclWarning(f"severities: no line has the severity `{key}`"), stacklevel=level_outside())

    def sound(self, first: int, timeout: Optional[float]) -> Tuple[List[Entry], Fraction]:
        """The entries of as many lines from an index on as the rules take units, each of which keeps the rules, and the greatest bucket
        that divides their amounts; else the fault of a cell."""
        entries = [self.entry(at) for at in range(first, min(first + BOUNDS[self.rules].units, len(self.units)))]
        while True:
            try:
                return entries, bucket(text_of("Book", entries), rules=self.rules, timeout=timeout)
            except TextFault as fault:
                at = (fault.line or 1) - 2
                finer = isinstance(fault, RuleFault) and fault.rule == TOO_FINE and entries[at].parts > PARTS[-1]
                wider = isinstance(fault, RuleFault) and fault.rule in WIDER and not self.is_last
                if at < 0 or (wider and not finer):
                    raise
                if not finer:
                    sentence, place = fault.told.splitlines()[-1], fault.column or 1
                    place -= 2 if isinstance(fault, SyntaxFault) else 0  # what is missing belongs to the piece before
                    self.sheet.refuse(entries[at].line, entries[at].column_at(place), f"{sentence}\n{fault.told}")
                entries[at] = self.entry(first + at, PARTS[-1])


def text_of(name: str, entries: Iterable[Entry], head: str = "") -> str:
    """The program of these lines."""
    return "\n".join([f"port {name}{head}", *(entry.text for entry in entries)])


def noted(changed: Fraction, pooled: Sequence[str]) -> str:
    """A note on how far a program is from its table; empty where it says the same."""
    told = []
    if pooled:
        told.append(f"Poisson lines in one unit: {', '.join(re.sub(r'[{}]', '', each) for each in pooled)}")
    if changed:
        told.append(f"numbers of the table changed by at most {short(changed, 12, True)}")
    return f" note{{{'; '.join(told)}}}" if told else ""


def book_of(read: Lines, name: str, common: str, rules: Optional[Rules], settings: Mapping[str, Any]) -> TableBook:
    """The book of lines that are read, by these rules; without any by the standard ones, where they take the lines, else by the extended
    ones."""
    if rules is None and len(read.units) <= BOUNDS["standard"].units:
        read.is_last = False
        try:
            return made_of(read, name, common, settings)
        except RuleFault as fault:
            if fault.rule not in WIDER:
                raise
    read.rules, read.is_last = rules or "extended", True
    return made_of(read, name, common, settings)


def made_of(read: Lines, name: str, common: str, settings: Mapping[str, Any]) -> TableBook:
    """The book of lines that are read, by their rules; with its Poisson lines pooled, where it has more lines than these take units."""
    timeout, most = settings["timeout"], BOUNDS[read.rules].units
    found = [read.sound(first, timeout) for first in range(0, len(read.units), most)]
    settings = {**settings, "rules": read.rules}
    entries = [entry for each, _ in found for entry in each]
    changed = max(entry.changed for entry in entries)
    if settings["bs"] is None:
        settings = {**settings, "bs": reduce(divisor, (size for _, size in found))}
    head = f"port {name}{common}"
    if len(entries) <= most:
        text = "\n".join([head + noted(changed, ()), *(entry.text for entry in entries)])
        return TableBook(text, read.named, changed, None, **settings)
    units = [unit for each, _ in found for unit in plan_of(text_of("Book", each), rules=read.rules, timeout=timeout).units]
    lone, parts = lone_ones([unit for unit in units if can_be_pooled(unit)], read.rules)
    kept = [entry for entry, unit in zip(entries, units) if not can_be_pooled(unit)]
    lines = {line.unit: line for line in lone}
    pool = PooledLines(head, tuple(entry.text for entry in kept), lines, units[0], parts, read.rules)
    if pool.room < 0 or not lone:
        told = f"{len(entries)} lines, of which {len(kept)} cannot be pooled: their count is not poisson, or they have an aggregate clause"
        raise TableFault(f"{read.sheet.called}: {told}; a program has at most {most} units", row=None, column=None)
    changed = max(changed, *(line.changed for line in lone))
    pool = replace(pool, head=head + noted(changed, [read.named[line.unit] for line in lone]))
    return TableBook(pool.text(), read.named, changed, pool, **settings)


def from_frame(
    table: Source,
    severities: Optional[Source] = None,
    *,
    name: str = "Book",
    columns: Optional[Mapping[str, str]] = None,
    sheet: Optional[str] = None,
    common: Optional[Number] = None,
    ground_up: bool = False,
    tolerance: Number = "0.001",
    bs: Optional[Number] = None,
    log2: Optional[int] = None,
    digits: int = 6,
    inside: Number = "0.999999",
    rules: Optional[Rules] = None,
    timeout: Optional[float] = None,
) -> TableBook:
    """The book of a table: a DataFrame, rows of dicts, or the path of a CSV or an Excel file; each line is a unit.

    Columns are `name`; `claims`, `loss`, or `premium` and `loss_ratio`; `count` (poisson without it) and `parameter`; `amounts` and
    `weights`, which are lists, or `severity`, the key of lines of the table `severities` with the columns `severity`, `amount` and
    `weight` (without that column, the name of the line); `limit` and `attachment`; `occurrence` and `aggregate`, as the language writes
    them. `columns` gives the name that a table has for one of them. With `ground_up` the expected claims count those up to the
    attachment too, else, as in the language, those that exceed it. `common` is a common factor. `rules` are those of `Book`; without them
    the standard ones, where they take the table, else the extended ones, and the book's `rules` say which. Poisson lines are pooled only
    where there are more lines than the rules take units.

    Weights that add up to 1 within `tolerance` are divided by their sum, and rounded to billionths so that they add up to 1 exactly;
    other numbers are rounded to 11 digits, where they have more. Raises `TableFault` with row and column.
    """
    called = str(table) if isinstance(table, str) else "table"
    lines = read_table(table, called, LINES, columns or {}, sheet)
    is_sheet = isinstance(severities, str) and isinstance(table, (str, os.PathLike)) and not severities.endswith((".csv", *EXCEL))
    source, page = (table, str(severities)) if is_sheet else (severities, None)
    amounts = None if source is None else read_table(source, "severities", SEVERITIES, columns or {}, page)
    for ours, theirs in (columns or {}).items():
        if ours not in (*LINES, *SEVERITIES):
            raise ValueError(f"`{ours}` is no column: there is {', '.join(LINES)}{nearest(ours, LINES)}")
        if ours not in lines.columns and (amounts is None or ours not in amounts.columns):
            lines.refuse(None, theirs, f"it is missing{nearest(theirs, lines.shown.values())}")
    read = Lines(lines, amounts, exact(tolerance), ground_up)
    read.unread()
    head = "" if common is None else f" common {numeral(exact(common))}"
    settings = {"bs": bs, "log2": log2, "digits": digits, "inside": inside, "timeout": timeout}
    return book_of(read, tokens([name])[0], head, rules, settings)
