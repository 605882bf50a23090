"""The client as a command: `python -m decl`."""

import argparse
import pathlib
import sys
import warnings
from typing import List, Optional, Union

from . import DeclError, NumberFault, __version__
from .coarse import Between, coarser
from .continuous import between
from .books import RETURN_PERIODS, Book
from .calls import report
from .compare import compare_page
from .cautions import cautions
from .figures import plain
from .rules import Rules
from .words import ASKS

#: The words that may stand before a file, and those that make a page.
FORMS = ("report", "compare", "check")
PAGES = ("report", "compare")
ABOUT = """
python -m decl FILE ASK..                 the report that `decl run ASK.. < FILE` writes
python -m decl FILE --money ASK..         the same in money: bucket and grid are chosen, amounts of the asks are in money
python -m decl FILE --table 10,50,100     VaR and TVaR of these return periods, in money
python -m decl FILE --coarser BS ASK..    the same by two programs on a coarser bucket, between which the book lies
python -m decl FILE --between ASK..       the same of a text whose severities may be continuous; --bs is the bucket
python -m decl report FILE -o book.html   a page on the book, in money; with --coarser or --between on two programs
python -m decl compare FILE FILE.. -o page.html   a page on several books side by side, the first one the one to compare with
python -m decl check FILE                 its faults, and what it says that may not be meant
"""


def parser() -> argparse.ArgumentParser:
    """The words of the command."""
    made = argparse.ArgumentParser(
        prog="python -m decl",
        usage=ABOUT.strip(),
        description="Asks decl about the program in FILE; - is the standard input.",
        epilog=f"{ASKS.rstrip('.')}; with --money sf:x too.",
    )
    made.add_argument("--version", action="version", version=f"decl-client {__version__}")
    made.add_argument("file", metavar="FILE")
    made.add_argument("asks", metavar="ASK", nargs="*")
    made.add_argument("--money", action="store_true", help="amounts of the asks and of the answers are in money")
    made.add_argument("--table", metavar="YEARS", help="return periods, as 10,50,100,250")
    made.add_argument("--coarser", metavar="BS", help="the size of a bucket that amounts need not fit")
    made.add_argument("--between", action="store_true", help="two programs hold a book of continuous severities between them")
    for name, told in (("bs", "size of a bucket in money"), ("log2", "the grid has 2^N buckets"), ("digits", "digits of the ends")):
        made.add_argument(f"--{name}", help=told)
    made.add_argument("--rules", choices=("standard", "extended"), help="the rules by which the program is accepted")
    for name in ("width", "mwidth", "format"):
        made.add_argument(f"--{name}", help="as in docs/USAGE.md, without --money")
    made.add_argument("-o", "--output", metavar="PAGE", help="where a page is put; without it, on the standard output")
    for name, told in (("title", "the title of a page"), ("currency", "the currency of its amounts"), ("date", "its date")):
        made.add_argument(f"--{name}", help=told)
    return made


def periods(words: Optional[str]) -> List[str]:
    """The return periods that stand between commas."""
    return [str(each) for each in RETURN_PERIODS] if words is None else [word.strip() for word in words.split(",")]


def text_of(name: str) -> bytes:
    """What the file holds."""
    return sys.stdin.buffer.read() if name == "-" else pathlib.Path(name).read_bytes()


def book_of(given: argparse.Namespace, file: str) -> Union[Between, Book]:
    """The book of a file with the bucket, grid and digits that are given, or the two programs that hold it between them."""
    whole = {name: int(getattr(given, name)) for name in ("log2", "digits") if getattr(given, name) is not None}
    rules: Rules = given.rules or "standard"
    if given.between:
        return between(text_of(file), given.bs, log2=whole.get("log2"), rules=rules)
    if given.coarser is not None:
        return coarser(text_of(file), given.coarser, rules=rules)
    return Book(text_of(file), bs=given.bs, rules=rules, **whole)


def page(given: argparse.Namespace) -> str:
    """The page on the book of the file, or on the books of several files by the names of these."""
    years = periods(given.table)
    if not given.asks:
        return book_of(given, given.file).page(years, title=given.title, currency=given.currency, date=given.date)
    books = {pathlib.Path(file).stem: book_of(given, file) for file in (given.file, *given.asks)}
    return compare_page(books, years, title=given.title, currency=given.currency, date=given.date)


def answer(given: argparse.Namespace) -> str:
    """What is written for the words."""
    options = {name: getattr(given, name) for name in ("bs", "log2", "digits", "width", "mwidth", "rules")}
    if given.table is not None or given.money or given.between or given.coarser is not None:
        book = book_of(given, given.file)
        if given.table is not None:
            return f"{book.return_periods(periods(given.table))}\n"
        rows = book.each(given.asks)
        return "".join(f"{word} {row.written[0]} {row.written[1]}\n" for word, row in zip(given.asks, rows))
    return report(text_of(given.file), given.asks, given.format or "text", **options)


def checked(given: argparse.Namespace) -> str:
    """The warnings of the text, and the bucket and the grid with which it is answered; its fault is raised."""
    text = text_of(given.file)
    for each in cautions(text.decode("utf-8", "replace")):
        print(f"decl: {each.told}", file=sys.stderr)
    with warnings.catch_warnings(record=True) as told:
        warnings.simplefilter("always")
        book = Book(text, bs=given.bs, rules=given.rules or "standard")
    for found in told:
        print(f"decl: {found.message}", file=sys.stderr)
    return f"{book.name}: {len(book.units)} {'units' if len(book.units) > 1 else 'unit'}, {book.cells:,} buckets of {plain(book.bs)}\n"


def main(words: List[str]) -> int:
    """Runs the command; the status is that of the program where it refuses, 2 for words that are not understood."""
    made = parser()
    kind = words[0] if words[:1] and words[0] in FORMS else ""
    given = made.parse_intermixed_args(words[1:] if kind else words)
    try:
        if kind in ("report", "check") and given.asks:
            made.error(f"a {'page' if kind == 'report' else kind} has no asks")
        if kind == "compare" and len({pathlib.Path(file).stem for file in (given.file, *given.asks)}) < max(2, len(given.asks) + 1):
            made.error("two files or more are compared, each with a name of its own")
        written = checked(given) if kind == "check" else page(given) if kind else answer(given)
        if kind in PAGES and given.output:
            pathlib.Path(given.output).write_text(written, encoding="utf-8")
        else:
            sys.stdout.write(written)
            sys.stdout.flush()
    except NumberFault as fault:
        print(f"decl: {fault}", file=sys.stderr)
        return 2
    except DeclError as fault:
        print(fault, file=sys.stderr)
        return fault.status or 1
    except OSError as fault:
        print(f"decl: {fault.filename or given.file}: {fault.strerror}", file=sys.stderr)
        return 1
    except (ValueError, ZeroDivisionError) as fault:
        print(f"decl: {fault}", file=sys.stderr)
        return 2
    return 0


if __name__ == "__main__":
    sys.exit(main(sys.argv[1:]))
