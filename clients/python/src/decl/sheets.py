"""Parts of a page in HTML: tables whose figures are rounded outward, sections and notes. A page fetches nothing."""

import html
import math
import re
from dataclasses import dataclass
from fractions import Fraction
from typing import Dict, Iterable, List, Mapping, Optional, Sequence, Tuple

from .figures import short
from .reports import Row
from .tables import Cell, Table

#: A figure has so many digits from its first one on, unless fewer are exact; of a probability in percent at most so many behind the point.
DIGITS, MOST_BEHIND, BEHIND_PERCENT = 5, 9, 6
#: The columns of a table that are side by side have so many letters at most; further ones stand in a table below.
LETTERS = 84
#: The name of a line of more letters may be broken anywhere.
LONG = 24
#: A table of so many lines stands on one sheet of paper.
SHORT = 24

LOOK = """
:root { --paper: #fff; --ink: #1d2733; --soft: #44515e; --line: #dde2e7; --shade: #f3f5f7; --band: #9cc3e6; --curve: #1f5f99;
  --var: #b8351f; --tvar: #8a5a00; color-scheme: light dark; }
@media screen and (prefers-color-scheme: dark) {
  :root { --paper: #12171d; --ink: #e6ebf0; --soft: #b3bec9; --line: #333e4a; --shade: #1c242c; --band: #2c5479; --curve: #8fc3f2;
    --var: #ff9a85; --tvar: #f0c15a; } }
* { box-sizing: border-box; }
body { font: 15px/1.45 system-ui, sans-serif; color: var(--ink); background: var(--paper); max-width: 992px; margin: 0 auto;
  padding: 1.5em 1em 3em; overflow-wrap: anywhere; }
h1 { font-size: 1.7em; line-height: 1.2; margin: 0 0 0.2em; } h2 { font-size: 1.2em; margin: 2em 0 0.4em; } p { max-width: 46em; }
.facts { color: var(--soft); margin-top: 0; } .note { color: var(--soft); font-size: 0.93em; }
pre { background: var(--shade); padding: 0.8em 1em; white-space: pre-wrap; overflow-wrap: anywhere; font-size: 0.9em; }
table { border-collapse: collapse; margin: 0.8em 0; overflow-wrap: normal; } caption { text-align: left; color: var(--soft); padding-bottom: 0.3em; }
th, td { padding: 0.3em 0.8em; text-align: right; vertical-align: top; border-bottom: 1px solid var(--line); }
td { font-variant-numeric: tabular-nums; } thead th { vertical-align: bottom; }
th:first-child { text-align: left; padding-left: 0; white-space: nowrap; }
th:first-child.long { white-space: normal; overflow-wrap: anywhere; min-width: 13em; }
th:first-child.named { position: relative; padding-left: 1.4em; } .named .swatch { position: absolute; left: 0; top: 0.6em; }
tr.total > * { border-top: 2px solid var(--soft); font-weight: 600; }
figure { margin: 1em 0; } svg { display: block; width: 100%; height: auto; } .narrow { display: none; max-width: 560px; }
.key { list-style: none; padding: 0; display: flex; flex-wrap: wrap; gap: 0.3em 1.4em; }
figcaption { color: var(--soft); font-size: 0.93em; max-width: 50em; margin-top: 0.6em; } .whole { white-space: nowrap; }
.swatch { display: inline-block; width: 0.85em; height: 0.85em; margin-right: 0.5em; vertical-align: -0.05em; }
@media screen and (max-width: 799px) {
  .wide { display: none; } .narrow { display: block; } thead { display: none; }
  table, caption, tbody, tr { display: block; } tr { padding: 0.5em 0; border-bottom: 1px solid var(--line); }
  tr.total { border-top: 2px solid var(--soft); } tr.total > * { border-top: 0; }
  tbody th { display: block; border: 0; } td { display: flex; justify-content: space-between; gap: 1em; border: 0; padding: 0.1em 0; }
  td:empty { display: none; } td::before { content: attr(data-name); color: var(--soft); text-align: left; }
  .pair tr { display: flex; justify-content: space-between; gap: 1em; padding: 0.2em 0; } .pair td::before { content: none; } }
@page { size: A4; margin: 16mm 14mm; }
@media print {
  :root { color-scheme: light; } body { font-size: 10pt; padding: 0; max-width: none; }
  * { print-color-adjust: exact; -webkit-print-color-adjust: exact; } .wide { display: block; } .narrow { display: none; }
  h2, section > p { break-after: avoid; } p, figure, tr, .key, .short { break-inside: avoid; } thead { display: table-header-group; } }
"""


@dataclass(frozen=True)
class Head:
    """What stands above a page: its title, and the currency and the date where they are given."""

    title: str
    currency: str = ""
    date: str = ""

    @property
    def within(self) -> str:
        """Behind the name of an amount: its currency, where one is given."""
        return f", in {self.currency}" if self.currency else ""


def places_of(value: Fraction) -> int:
    """How many digits behind the point show DIGITS digits of a value."""
    size = math.floor(math.log10(value)) if value else DIGITS
    return min(max(DIGITS - 1 - size, 0), MOST_BEHIND)


def exact_places(ends: Iterable[Fraction], most: int) -> int:
    """The fewest digits behind the point that show all ends exactly, or `most`."""
    return next((places for places in range(most) if all((end * 10**places).denominator == 1 for end in ends)), most)


def rounded(row: Row) -> Tuple[Optional[str], Optional[str]]:
    """The two ends of a row as a reader needs them: the low one rounded down and the high one up, a probability in percent."""
    whole = 100 if row.unit == "probability" else 1
    ends = [None if end is None else Fraction(end) * whole for end in (row.low, row.high)]
    places = places_for([end for end in ends if end is not None], whole == 100)
    sign = "%" if whole == 100 else ""
    low, high = (None if end is None else short(end, places, up, ",") + sign for end, up in zip(ends, (False, True)))
    return low, high


def places_for(ends: Sequence[Fraction], percent: bool) -> int:
    """How many digits behind the point two ends are shown with, those that are equal exactly, where few digits do; of a probability the size
    is the lesser one of itself and of what it lacks of 100 percent."""
    exact = exact_places(ends, MOST_BEHIND)
    if len(ends) == 2 and ends[0] == ends[1] and (ends[0] * 10**exact).denominator == 1:
        return exact
    size = max((abs(end) for end in ends), default=Fraction(0))
    if percent and ends:
        size = min(size, 100 - min(ends)) or size
    return min(exact, places_of(size), BEHIND_PERCENT if percent else MOST_BEHIND)


def figure(cell: Cell) -> str:
    """A cell as the page shows it: its two ends rounded outward, one where they are equal."""
    if isinstance(cell, str):
        return cell
    low, high = rounded(cell)
    if low is None and high is None:
        return "past the grid" if cell.state == "beyond" else "none"
    if low is None or high is None:
        return f"{low} or more" if high is None else f"{high} or less"
    return low if low == high else f"{low} to {high}"


def cell_of(name: str, cell: Cell, book: str) -> str:
    """A cell of a table under its name. A figure has its ask, the book that is asked, the rules where they are not the standard ones,
    and its exact ends as data."""
    head = f'<td data-name="{html.escape(name)}"'
    if isinstance(cell, str):
        return f"{head}>{html.escape(cell)}</td>"
    low, high = ("" if end is None else str(end) for end in (cell.low, cell.high))
    of_book = f' data-book="{html.escape(book)}"' if book else ""
    by_rules = f' data-rules="{cell.rules}"' if cell.rules != "standard" else ""
    facts = f'data-ask="{html.escape(cell.ask)}"{of_book}{by_rules} data-low="{low}" data-high="{high}"'
    shown = html.escape(figure(cell)).replace(" to ", "&nbsp;to ")
    return f'{head} {facts} title="{html.escape(" to ".join(cell.written))}">{shown}</td>'


def wide_of(found: Table, at: int) -> int:
    """About how many letters wide a column has to be: as its longest word."""
    words = [found.columns[at], *(figure(line[at]).replace(" to ", "_to ") for line in found)]
    return 2 + max(len(word) for told in words for word in (told.split() or [""]))


def parted(found: Table) -> List[List[int]]:
    """The columns behind the first one that stand side by side, and those of the tables below."""
    room = LETTERS - min(LONG, max(len(figure(line[0])) for line in (found.columns, *found))) - 2
    parts: List[List[int]] = [[]]
    for at in range(1, len(found.columns)):
        if parts[-1] and sum(wide_of(found, other) for other in [*parts[-1], at]) > room:
            parts.append([])
        parts[-1].append(at)
    return parts


def row_of(found: Table, line: Sequence[Cell], columns: Sequence[int], swatches: Mapping[str, str], books: Mapping[str, str]) -> str:
    """A line of a table: its name with its colour, where it has one, and its cells."""
    name = figure(line[0])
    total = ' class="total"' if name == "total" else ""
    swatch = swatch_of(swatches[name]) if name in swatches else ""
    looks = " ".join([*(["named"] if swatch else []), *(["long"] if len(name) > LONG else [])])
    named = f' class="{looks}"' if looks else ""
    cells = "".join(cell_of(found.columns[at], line[at], books.get(found.columns[at], "")) for at in columns)
    return f'<tr{total}><th scope="row"{named}>{swatch}{html.escape(name)}</th>{cells}</tr>'


def table(found: Table, caption: str, swatches: Optional[Mapping[str, str]] = None, books: Optional[Mapping[str, str]] = None) -> str:
    """A table of the page. `swatches` has the colours of lines by their names, and `books` the book that a column is of."""
    parts: List[str] = []
    for columns in parted(found):
        heads = "".join(f'<th scope="col">{html.escape(found.columns[at])}</th>' for at in (0, *columns))
        lines = [row_of(found, line, columns, swatches or {}, books or {}) for line in found]
        body = "\n".join(lines)
        looks = [*(["pair"] if len(found.columns) == 2 else []), *(["short"] if len(found) <= SHORT else [])]
        parts.append(
            f'<table class="{" ".join(looks)}"><caption>{html.escape(caption)}</caption>\n<thead><tr>{heads}</tr></thead>\n'
            f"<tbody>\n{body}\n</tbody></table>"
        )
    return "\n".join(parts)


def notes(found: Table, beyond: str) -> List[str]:
    """Why figures of a table are not there, each reason once with the columns that it is for. `beyond` is the reason of an end that is past
    the grid, where it is not the grid."""
    reasons: Dict[str, Dict[str, None]] = {}
    for line in found:
        for name, cell in zip(found.columns, line):
            if isinstance(cell, Row) and cell.why:
                why = beyond if beyond and cell.state == "beyond" else cell.why
                reasons.setdefault(why, {})[name if len(found.columns) > 2 else figure(line[0])] = None
    return [note(f"{', '.join(places)}: {why}") for why, places in reasons.items()]


def marked(told: str) -> str:
    """A sentence as HTML, with what is in backticks as code."""
    return re.sub("`([^`]*)`", r"<code>\1</code>", html.escape(told))


def note(told: str) -> str:
    """A note, in smaller letters."""
    return f'<p class="note">{marked(told)}</p>'


def paragraph(told: str) -> str:
    """A paragraph."""
    return f"<p>{marked(told)}</p>"


def section(heading: str, *parts: str) -> str:
    """A part of the page under its heading."""
    return f"<section><h2>{html.escape(heading)}</h2>\n" + "\n".join(parts) + "\n</section>"


def key(signs: Mapping[str, str]) -> str:
    """Names, each behind its sign."""
    return f'<ul class="key">{"".join(f"<li>{sign}{html.escape(name)}</li>" for name, sign in signs.items())}</ul>'


def swatch_of(hue: str) -> str:
    """The sign of an area of this colour."""
    return f'<span class="swatch" style="background: {hue}"></span>'


def sheet(head: Head, told: Iterable[str], sections: Iterable[str], look: str) -> str:
    """The whole page: what stands under its title, and its sections."""
    facts = html.escape(f"Amounts are in {head.currency or 'money'}.")
    facts += f' Date: <span class="whole">{html.escape(head.date)}</span>.' if head.date else ""
    body = "\n".join([*map(paragraph, told), *sections])
    return (
        f'<!DOCTYPE html>\n<html lang="en">\n<head>\n<meta charset="utf-8">\n<title>{html.escape(head.title)}</title>\n'
        '<meta name="viewport" content="width=device-width, initial-scale=1">\n<link rel="icon" href="data:,">\n'
        f"<style>{LOOK}{look}</style>\n</head>\n<body>\n<h1>{html.escape(head.title)}</h1>\n"
        f'<p class="facts">{facts}</p>\n{body}\n</body>\n</html>\n'
    )
