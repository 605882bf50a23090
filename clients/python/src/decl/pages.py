"""Pages of HTML on a book, on two programs that hold one between them, and on several books side by side. A page fetches nothing."""

import datetime
import html
from fractions import Fraction
from typing import TYPE_CHECKING, Dict, Iterable, List, Mapping, Optional, Sequence, Tuple, Union

from .areas import amount_of, periods_of, tail_picture, told_of_tail, year_shares
from .cessions import Cessions, cessions_of
from .drawing import colour
from .faults import DeclError
from .figures import plain
from .pictures import LOOK, both, exceedances, sign_of
from .reports import Row
from .sheets import Head, key, note, notes, paragraph, section, sheet, swatch_of, table
from .shares import tail_shares
from .tables import Cell, Table

if TYPE_CHECKING:
    from .books import Book
    from .coarse import Between

    Asked = Union[Book, Between]

#: The date of a page: as it is written, or as a date.
Date = Union[None, str, datetime.date]
HOW = (
    "How to read it. A figure such as `14.21 to 14.22` holds the value that the program declares: its low end is rounded down and its high end"
    " up. One figure alone is exact. Probabilities are in percent. VaR of 200 years is the least total that is passed at most once in 200"
    " years; TVaR is the mean of those worst years."
)
#: Which of two programs is the one from above.
END = {False: "below", True: "above"}
MODEL = "What the program assumes of claims, amounts and dependence is taken as it is: no figure here judges it."


def head_of(title: str, currency: Optional[str], date: Date) -> Head:
    """What stands above a page."""
    return Head(title, currency or "", date.isoformat() if isinstance(date, datetime.date) else date or "")


def bands(book: "Asked", years: Iterable[Fraction]) -> Table:
    """Layers of the year from one VaR to the next: the mean of each, and the probabilities that it pays at all and in full."""
    tops = sorted({Fraction(row.low) for row in (book.q(1 - 1 / each) for each in years) if row.low is not None} - {Fraction(0)})
    lines: List[List[Cell]] = []
    for low, high in zip([Fraction(0), *tops], [*tops, None]):
        name = f"{'no limit' if high is None else amount_of(high - low)} xs {amount_of(low)}"
        full: Cell = "" if high is None else reached(book, high)
        lines.append([name, book.layer(None if high is None else high - low, low), book.sf(low), full])
    return Table(["layer of the year", "mean", "pays", "pays in full"], lines)


def reached(book: "Asked", amount: Fraction) -> Row:
    """The probability of a total of this amount, a whole number of buckets, or more."""
    return book.sf(amount - book.bs)


def tabled(found: Table, caption: str, beyond: str = "", **facts: Mapping[str, str]) -> List[str]:
    """A table, and the notes on figures that are not there."""
    return [table(found, caption, **facts), *notes(found, beyond)]


def beyond(book: "Asked") -> str:
    """Why an answer of two programs has no high end; empty where it is the grid."""
    reach: Optional[Fraction] = getattr(book, "reach", None)
    return "" if reach is None else f"Claims have no limit, and the program from above holds the total below {amount_of(reach)} alone."


def on_periods(book: "Asked", years: Sequence[Fraction], head: Head) -> str:
    """VaR and TVaR by return period, and the exceedance curve."""
    told = "The band is the probability of more than each total, between its two ends; where it is a line, the ends are that close."
    picture = both(lambda frame: exceedances({"": book}, years, frame, head.currency))
    rows = tabled(book.return_periods(years), f"VaR and TVaR by return period in years{head.within}", beyond(book))
    return section("Return periods", *rows, f"<figure>{picture}<figcaption>{told}</figcaption></figure>")


def on_layers(book: "Asked", years: Sequence[Fraction], head: Head) -> str:
    """The layers of the year between the VaRs."""
    return section("Layers of the year", *tabled(bands(book, years), f"from one VaR to the next{head.within}", beyond(book)))


def on_cessions(found: Cessions, years: Sequence[Fraction], head: Head) -> str:
    """Gross, ceded and net of a program with clauses, and the programs of each."""
    told = ["Gross is before the reinsurance clauses of the program, net is after them, and ceded is what they take."]
    rows = found.table(years)
    if "before layers" in rows.columns:
        told[0] += " Before layers is what the expected claims come to before the layers of their units, exactly, from the text."
    side = found.declared()
    told.append(f"All else on this page is {side}." if side else "All else on this page is what the program itself declares.")
    if any("not declared" in line for line in rows):
        told.append(
            "Where it says `not declared`, an occurrence and an aggregate clause act in one unit: no program declares the sum of what both cede,"
            " or leave, and its mean is the difference of the other two."
        )
    shown = tabled(rows, f"means, VaR and TVaR{head.within}", beyond(found.book), books={name: name for name in found.sides})
    return section("Gross, ceded and net", paragraph(" ".join(told)), *shown)


def colours_of(book: "Book") -> Dict[str, str]:
    """The colour of each unit."""
    return {name: colour(at, len(book.units)) for at, name in enumerate(book.units)}


def shares_table(book: "Book", columns: Mapping[str, Sequence[Row]]) -> Table:
    """The units with their means and further columns, whose last row is that of the total."""
    names = [*book._members(), "total"]
    means: List[Row] = [*(book.mean_of(unit) for unit in book._members().values()), book.mean()]
    lines: List[List[Cell]] = [[name, mean, *(rows[at] for rows in columns.values())] for at, (name, mean) in enumerate(zip(names, means))]
    return Table(["unit", "mean", *columns], lines)


def swatches(book: "Book") -> Dict[str, str]:
    """The colours of the lines of a table of units."""
    colours = colours_of(book)
    return {name: colours[unit] for name, unit in book._members().items() if unit in colours}


def on_tail_shares(book: "Book", years: Sequence[Fraction], head: Head) -> str:
    """Each unit's share of the TVaR, as numbers and as a picture."""
    given = sorted({*years} - {Fraction(1)})
    members, colours = [*book._members().values()], colours_of(book)
    asked = tail_shares(book, members, given)
    columns = {f"{amount_of(each)} years": [*asked.rows[each], book.tail(1 - 1 / each)] for each in given}
    drawn = tail_shares(book, book.units, periods_of(given)) if len(book.units) > 1 else asked
    tails = {each: book.mean() if each == 1 else book.tail(1 - 1 / each) for each in periods_of(given)}
    caption = f"the mean, and shares of the TVaR by return period{head.within}"
    return section(
        "Each unit's share of the TVaR",
        *map(paragraph, told_of_tail(drawn)),
        *tabled(shares_table(book, columns), caption, swatches=swatches(book)),
        *pictured(book, both(lambda frame: tail_picture(drawn, tails, colours, frame, head.currency)) if len(book.units) > 1 else ""),
    )


def pictured(book: "Book", picture: str) -> List[str]:
    """A picture of all units, where there is one, with their colours where the table beside it is not of the same units."""
    alike = {*book._members().values()} == {*book.units}
    legend = [] if alike else [key({name: swatch_of(hue) for name, hue in colours_of(book).items()})]
    return [f"<figure>{picture}</figure>", *legend] if picture else []


def totals_of(book: "Book", years: Iterable[Fraction]) -> Dict[Fraction, List[Fraction]]:
    """The VaRs inside the grid, each with its return periods."""
    found: Dict[Fraction, List[Fraction]] = {}
    for each in sorted({*years}):
        total = Fraction(book.q(1 - 1 / each).low or 0)
        if total < book.cells * book.bs:
            found.setdefault(total, []).append(each)
    return found


def year_of(total: Fraction, periods: Sequence[Fraction]) -> str:
    """The name of a year of this total, the VaR of these return periods."""
    last = f" to {amount_of(periods[-1])}" if len(periods) > 1 else ""
    return f"year of {amount_of(total)} (VaR of {amount_of(periods[0])}{last} years)"


def year_column(book: "Book", total: Fraction) -> List[Row]:
    """The mean of each unit in a year of this total, and the total."""
    whole = Row(f"year:{plain(total)}", total, total, (plain(total), plain(total)), True)
    return [*(book.kappa(unit, total) for unit in book._members().values()), whole]


def on_year_shares(book: "Book", years: Sequence[Fraction], head: Head) -> str:
    """Each unit's share of a year of a given total, as numbers at the VaRs and as a picture up to the longest of them."""
    found = year_shares(book, max(years, default=Fraction(200)))
    columns = {year_of(total, periods): year_column(book, total) for total, periods in totals_of(book, years).items()}
    is_drawn = found.drawn and len(book.units) > 1
    caption = f"the mean, and the mean of each unit in a year whose total is a VaR{head.within}"
    return section(
        "Each unit's share of a year",
        *(map(paragraph, found.told) if len(book.units) > 1 else []),
        *tabled(shares_table(book, columns), caption, swatches=swatches(book)),
        *pictured(book, both(lambda frame: found.picture(colours_of(book), frame, head.currency)) if is_drawn else ""),
        *([] if found.drawn else [note("There is no picture, since no total has shares.")]),
    )


def program(book: "Book", name: str = "", side: str = "") -> str:
    """The program, and how the same answers are asked for."""
    options = f"--bs {plain(book.bs)} --log2 {book.log2} --digits {book.digits} --width 1000000000 --mwidth 1000000000000"
    options += " --rules extended" if book.rules == "extended" else ""
    facts = f'data-book="{html.escape(side)}" data-bs="{plain(book.bs)}" data-log2="{book.log2}" data-digits="{book.digits}"'
    told = f"{name}{book.cells:,} buckets of {amount_of(book.bs)}. Asked for by `decl run {options}`, with amounts as numbers of buckets."
    return f"{note(told)}\n<pre {facts}>{html.escape(book.spelling)}</pre>"


def programs_of(books: "Mapping[str, Asked]") -> List[str]:
    """The program of each of several books, or the two that hold it between them."""
    from .coarse import Between

    found: List[str] = []
    for name, book in books.items():
        if isinstance(book, Between):
            found += [program(book.book(up), f"{name}, from {END[up]}: ", f"{name}, {END[up]}") for up in (False, True)]
        else:
            found.append(program(book, f"{name}: ", name))
    return found


def rests(more: str) -> str:
    """What the figures rest on."""
    from . import __version__

    told = (
        "The two ends that the program answers are proved to hold the value that its text declares. What this client works out from them, in exact"
        f" fractions, is tested and not proved: amounts in money, probabilities of more, differences{more}. Deviation and skewness are worked out"
        f" from the text, and are not proved. {MODEL} Each figure has its ask and its exact ends in the page's source. decl-client {__version__}."
    )
    return section("What the figures rest on", paragraph(told))


def book_page(book: "Book", years: Sequence[Fraction], head: Head) -> str:
    """The page on a book, with these return periods."""
    grid = f"Amounts are on {book.cells:,} buckets of {amount_of(book.bs)}."
    parts = [on_periods(book, years, head)]
    pooled = getattr(book, "pool", None) is not None
    found = None if pooled else cessions_of(book)
    if found is not None:
        parts.append(on_cessions(found, years, head))
    parts.append(on_layers(book, years, head))
    if len(book._members()) > 1:
        parts += [on_tail_shares(book, years, head), on_year_shares(book, years, head)]
    parts.append(section("What the book is worth", *tabled(book.describe(), f"of the total of a year{head.within}")))
    apart = [note("Lines are pooled after their clauses, so that gross and ceded are not told apart.")] if pooled else []
    sides = programs_of(found.sides) if found else []
    parts += [section("The programs" if sides else "The program", *apart, program(book), *sides)]
    parts.append(rests(", and gross less net"))
    return sheet(head, [f"{grid} {HOW}"], parts, LOOK)


def sides_of(book: "Between", years: Sequence[Fraction], head: Head) -> Tuple[List[str], List[str]]:
    """Gross, ceded and net of a book between two programs, each between two of its own, with these programs; a note where they cannot be
    written."""
    try:
        found = cessions_of(book)
    except DeclError as fault:
        return [note(f"Gross, ceded and net are not here: {fault.told.splitlines()[0]}")], []
    return ([], []) if found is None else ([on_cessions(found, years, head)], programs_of(found.sides))


def between_page(book: "Between", years: Sequence[Fraction], head: Head) -> str:
    """The page on a book between two programs."""
    told = (
        f"The book lies between two programs on buckets of {amount_of(book.bs)}: in one each claim is rounded down to whole buckets, in the other"
        " up. The low end of a figure is that of one program, and its high end that of the other, so they lie as far apart as the buckets are"
        " coarse. That the two hold the book between them rests on this client's own arithmetic (docs/BETWEEN.md)."
    )
    if book.reach is not None:
        told += (
            f" A claim can be of any size: the program from above holds the total below {amount_of(book.reach)} alone, and a figure that rests on"
            " more has no high end."
        )
    shares = "Shares of the units are not here: of two programs, a share in one need not lie below that in the other, so they do not hold it."
    programs = [program(book.book(up), f"From {END[up]}: ", END[up]) for up in (False, True)]
    sides, apart = sides_of(book, years, head)
    parts = [
        on_periods(book, years, head),
        *sides,
        on_layers(book, years, head),
        section("What the book is worth", *tabled(book.describe(), f"of the total of a year{head.within}", beyond(book)), note(shares)),
        section("The two programs" if not apart else "The programs", *programs, *apart),
        rests(", gross less net" if apart else ""),
    ]
    return sheet(head, [told, HOW], parts, LOOK)


def measures(book: "Asked", years: Sequence[Fraction]) -> Dict[str, Row]:
    """What books are compared by."""
    found = {"mean": book.mean(), "a year without loss": book.cdf(0)}
    for each in years:
        found[f"VaR {amount_of(each)} years"] = book.q(1 - 1 / each)
        found[f"TVaR {amount_of(each)} years"] = book.tail(1 - 1 / each)
    return found


def compared_page(books: "Mapping[str, Asked]", years: Sequence[Fraction], head: Head) -> str:
    """The page on several books side by side, and what each differs by from the first."""
    from .compare import less

    found = {name: measures(book, years) for name, book in books.items()}
    first, *others = found
    names = [*found[first]]
    own = Table(["", *found], [[name, *(rows[name] for rows in found.values())] for name in names])
    apart = Table(["", *others], [[name, *(less(found[other][name], found[first][name], first) for other in others)] for name in names])
    signs = {name: sign_of(at, len(books)) for at, name in enumerate(books)}
    picture = both(lambda frame: exceedances(books, years, frame, head.currency))
    why = next(filter(None, map(beyond, books.values())), "")
    parts = [section("Side by side", *tabled(own, f"mean, VaR and TVaR{head.within}", why, books={name: name for name in books}))]
    if others:
        parts.append(section(f"Less {first}", *tabled(apart, f"each book less {first}, by two ends{head.within}", why)))
    parts.append(section("Exceedance curves", f"<figure>{picture}</figure>", key(signs)))
    parts.append(section("The programs", *programs_of(books)))
    return sheet(head, [HOW], [*parts, rests("")], LOOK)


