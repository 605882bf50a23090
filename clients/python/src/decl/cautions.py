"""What a program says that may not be meant: it is told as a warning, and never changed."""

import itertools
import re
import sys
import warnings
from fractions import Fraction
from typing import Iterator, List, Union

from .faults import DeclWarning, pointed
from .figures import plain
from .hints import LIST, NUMERAL, value, without_asides
from .program import place_in

#: Numerals with commas between them and no blank; and a list in which other items are parted by blanks.
JOINED = re.compile(r"(?<![\d.,:/])\d+(?:,\d+)+(?![\d.,:/%])")
THOUSANDS = re.compile(r"\d{1,3}(?:,\d{3})+")
RATIO = re.compile(rf"(?<![\w-])(?:premium|prem)\s+at\s+((?:{NUMERAL.pattern}))\s+lr(?![\w-])")
#: A loss ratio above this is more likely one in percent, and a grid loses much where it loses more than this.
MOST_RATIO, MOST_LOST = 10, Fraction(1, 10_000)
#: A coarser bucket is large enough for a total of the mean and so many deviations.
DEVIATIONS = 10
MOST_TOLD = 20


def caution(text: str, place: int, told: str, instead: str) -> DeclWarning:
    """The warning of a place of the text, in characters from 0."""
    line, column = place_in(text[:place].encode("utf-8"), None)
    return DeclWarning(f"{line}:{column}: {told}\n{pointed(text, line, column)}", line=line, column=column, instead=instead)


def commas(text: str) -> Iterator[DeclWarning]:
    """Numbers in a list that a comma may be meant to be part of: `10,000` is read as 10 and 000."""
    for found in LIST.finditer(without_asides(text)):
        joined = list(JOINED.finditer(text, found.start() + 1, found.end() - 1))
        parted = re.search(r"[\d%][\s,]*\s[\s,]*[\d.]", found[1]) is not None
        for each in joined:
            zeros = re.search(r",0\d", each[0]) is not None
            if not parted and not zeros:
                continue
            groups = each[0].split(",")
            instead = "".join(groups) if THOUSANDS.fullmatch(each[0]) or len(groups) > 2 else ".".join(groups)
            yield caution(text, each.start(), f"`{each[0]}` is read as {' and '.join(groups)}: is it `{instead}`?", instead)


def ratios(text: str) -> Iterator[DeclWarning]:
    """Loss ratios above MOST_RATIO that are not in percent."""
    for found in RATIO.finditer(without_asides(text)):
        ratio = value(found[1])
        if ratio is not None and ratio > MOST_RATIO and "%" not in found[1]:
            instead = f"{found[1]}%"
            yield caution(text, found.start(1), f"the loss ratio is {plain(100 * ratio)}%: is it `{instead}`?", instead)


def cautions(text: str) -> List[DeclWarning]:
    """The warnings of a text, at most MOST_TOLD, in the order of their places."""
    found = itertools.islice(itertools.chain(commas(text), ratios(text)), MOST_TOLD)
    return sorted(found, key=lambda each: (each.line or 0, each.column or 0))


def level_outside() -> int:
    """How many calls the first one outside of this package is away from the caller."""
    away, frame = 1, sys._getframe(1)
    while frame.f_back is not None and str(frame.f_globals.get("__name__", "")).split(".")[0] == __name__.split(".")[0]:
        away, frame = away + 1, frame.f_back
    return away


def warn_of(text: Union[str, bytes]) -> None:
    """Warns of a text that is given from outside of this package."""
    caller = str(sys._getframe(2).f_globals.get("__name__", "")).split(".")[0]
    if caller == __name__.split(".")[0]:
        return
    for each in cautions(text.decode("utf-8", "replace") if isinstance(text, bytes) else text):
        warnings.warn(each, stacklevel=3)


def rounded_up(size: Fraction) -> Fraction:
    """The least of 1, 2 or 5 times a power of 10 that is at least the size, which is above 0."""
    power = Fraction(1)
    while power > size:
        power /= 10
    while 10 * power <= size:
        power *= 10
    return next(power * digit for digit in (1, 2, 5, 10) if power * digit >= size)


def grid_caution(lost: Fraction, cells: int, bs: Fraction, total: Fraction) -> DeclWarning:
    """The warning that the largest grid loses up to so much; `total` is how far the book goes about."""
    size = rounded_up(max(2 * bs, total / cells))
    told = f"{cells:,} buckets of {plain(bs)} lose up to {float(100 * lost):.2g}% of the years"
    instead = f"decl.coarser(text, {plain(size)})"
    return DeclWarning(f"{told}: {instead} holds the book between two programs on larger buckets", instead=instead)
