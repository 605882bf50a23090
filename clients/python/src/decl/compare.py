"""Several books side by side: a table of structures by asks, and many books over all processors."""

import multiprocessing
import os
import sys
import time
from concurrent.futures import ProcessPoolExecutor
from fractions import Fraction
from typing import Dict, Iterable, Iterator, List, Mapping, Optional, Tuple, Union

from .books import RETURN_PERIODS, Book, exact
from .calls import Number, Text
from .cautions import warn_of
from .coarse import Between
from .faults import DeclError
from .figures import decimals
from .pages import Date, compared_page, head_of
from .reports import Row
from .rules import Rules
from .tables import Cell, Table

Books = Mapping[str, Union[Text, Book, Between]]
#: Asks in money; as a mapping, each under the head of its column.
Asks = Union[str, Iterable[str], Mapping[str, str]]
#: So many signs has the bar of progress.
WIDE = 30


def headed(asks: Asks) -> Dict[str, str]:
    """The asks, each with the head of its column."""
    if isinstance(asks, Mapping):
        return dict(asks)
    return {ask: ask for ask in ([asks] if isinstance(asks, str) else asks)}


def less(row: Row, first: Row, name: str) -> Row:
    """Two ends of the difference of two answers; one that rests on an end that is not there is not there."""
    low = None if row.low is None or first.high is None else Fraction(row.low) - Fraction(first.high)
    high = None if row.high is None or first.low is None else Fraction(row.high) - Fraction(first.low)
    shown = decimals(low or Fraction(0), high or Fraction(0))
    missing = "beyond" if "beyond" in (*row.written, *first.written) else "-"
    written = (missing if low is None else shown[0], missing if high is None else shown[1])
    return Row(f"{row.ask} less {name}", low, high, written, True)


def named(name: str, fault: DeclError) -> DeclError:
    """The fault of a book, with its name."""
    return type(fault)(f"book {name}: {fault.told}", **fault.facts)


def book_of(name: str, book: Union[Text, Book, Between], rules: Rules) -> Union[Book, Between]:
    """One of several books; a text is read by these rules."""
    try:
        return Book(book, rules=rules) if isinstance(book, (str, bytes)) else book
    except DeclError as fault:
        raise named(name, fault) from None


def rows_of(name: str, book: Union[Text, Book, Between], asks: Iterable[str], rules: Rules) -> List[Row]:
    """The answers of one of several books."""
    made = book_of(name, book, rules)
    try:
        return made.each(asks)
    except DeclError as fault:
        raise named(name, fault) from None


def compare(books: Books, asks: Asks, *, differences: bool = True, rules: Rules = "standard") -> Table:
    """A table of books by asks in money; with `differences` also of each answer less that of the first book, as two ends.

    `books` has each text or book by its name, and `asks` are those of `Book.ask`, as a list, or by the heads of their columns. Each book
    is asked by few calls of the program. `rules` are those of the texts.
    """
    names = headed(asks)
    for book in books.values():
        if isinstance(book, (str, bytes)):
            warn_of(book)
    rows = {name: rows_of(name, book, names.values(), rules) for name, book in books.items()}
    if not rows:
        raise ValueError("there is no book to compare")
    first = next(iter(rows))
    lines: List[List[Cell]] = []
    for name, found in rows.items():
        apart: List[Cell] = ["" if name == first else less(*pair, first) for pair in zip(found, rows[first])]
        lines.append([name, *found, *(apart if differences and len(rows) > 1 else [])])
    heads = [f"{name} less {first}" for name in names] if differences and len(rows) > 1 else []
    return Table(["book", *names, *heads], lines)


def compare_page(
    books: Books,
    years: Iterable[Number] = RETURN_PERIODS,
    *,
    title: Optional[str] = None,
    currency: Optional[str] = None,
    date: Date = None,
    rules: Rules = "standard",
) -> str:
    """A page of HTML on several books side by side, which fetches nothing: mean, VaR and TVaR of each, each less that of the first book, the
    exceedance curves in one picture, and the programs. `currency` and `date` stand at its head; `rules` are those of the texts."""
    if not books:
        raise ValueError("there is no book to compare")
    made = {name: book_of(name, book, rules) for name, book in books.items()}
    return compared_page(made, [exact(each) for each in years], head_of(title or ", ".join(made), currency, date))


def answered(given: Tuple[Text, Tuple[str, ...], Rules, Optional[float]]) -> Union[List[Row], DeclError]:
    """The answers of a book to asks in money, or its fault."""
    text, asks, rules, timeout = given
    try:
        return Book(text, rules=rules, timeout=timeout).each(asks)
    except DeclError as fault:
        return fault


def counted(found: Iterable[Union[List[Row], DeclError]], many: int, shown: bool) -> Iterator[Union[List[Row], DeclError]]:
    """What is found, one by one, with a bar of progress on the standard error."""
    begun = time.monotonic()
    for done, each in enumerate(found, 1):
        yield each
        if shown:
            bar = "#" * (WIDE * done // many)
            print(f"\r[{bar:<{WIDE}}] {done} of {many}, {time.monotonic() - begun:.0f} s", end="", file=sys.stderr, flush=True)
    if shown:
        print(file=sys.stderr)


def run_many(
    books: Union[Mapping[str, Text], Iterable[Text]],
    asks: Asks,
    *,
    processes: Optional[int] = None,
    progress: Optional[bool] = None,
    keep_faults: bool = False,
    rules: Rules = "standard",
    timeout: Optional[float] = None,
) -> Table:
    """A table of the answers of many books to asks in money: a line for each text, over all processors.

    `books` are texts by their names, or texts, which are counted from 0. `processes` are as many as there are processors, unless given.
    A bar of progress is written to the standard error where that is a terminal, or where `progress` says so. The fault of a book is raised,
    with its name, after the bar; with `keep_faults` its line holds the first line of its fault in place of the answers. `rules` are
    those of the books.
    """
    names = headed(asks)
    texts = dict(books) if isinstance(books, Mapping) else {str(at): text for at, text in enumerate(books)}
    for text in texts.values():
        warn_of(text)
    shown = sys.stderr.isatty() if progress is None else progress
    workers = processes or os.cpu_count() or 1
    given = ((text, tuple(names.values()), rules, timeout) for text in texts.values())
    method = "fork" if "fork" in multiprocessing.get_all_start_methods() else None
    with ProcessPoolExecutor(workers, multiprocessing.get_context(method)) as pool:
        found = list(counted(pool.map(answered, given, chunksize=max(1, len(texts) // (8 * workers))), len(texts), shown))
    lines: List[List[Cell]] = []
    for name, each in zip(texts, found):
        if isinstance(each, DeclError) and not keep_faults:
            raise named(name, each)
        told: List[Cell] = [each.told.splitlines()[0]] * len(names) if isinstance(each, DeclError) else [*each]
        lines.append([name, *told])
    return Table(["book", *names], lines)
