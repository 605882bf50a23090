"""Ends as decimals: rounded outward, so that what is shown still holds the value."""

import math
import re
from fractions import Fraction
from typing import Optional, Tuple

Ends = Tuple[Optional[Fraction], Optional[Fraction]]
#: A format: where the text stands in how many signs, what parts thousands, digits behind the point, and the kind.
FORMAT = re.compile(r"([<>^]?)(\d*)([,_]?)(?:\.(\d+))?([fd%]?)")
#: A fraction that no decimal is equal to is printed with so many digits behind the point.
PLACES = 9


def plain(value: Fraction) -> str:
    """The number as its shortest decimal, or as a fraction such as `7/3` where no decimal is equal to it."""
    rest, places = value.denominator, 0
    for prime in (2, 5):
        power = 0
        while rest % prime == 0:
            rest //= prime
            power += 1
        places = max(places, power)
    if rest > 1:
        return str(value)
    digits = str(abs(value.numerator) * 10**places // value.denominator).rjust(places + 1, "0")
    sign = "-" if value < 0 else ""
    return sign + (f"{digits[:-places]}.{digits[-places:]}" if places else digits)


def short(value: Fraction, places: int, up: bool, mark: str = "") -> str:
    """The value as a decimal of so many places, rounded up or down; `mark` parts thousands, as a comma does."""
    scaled = value * 10**places
    whole = math.ceil(scaled) if up else math.floor(scaled)
    before, behind = divmod(abs(whole), 10**places)
    digits = format(before, mark or "d")
    return ("-" if whole < 0 else "") + digits + (f".{behind:0{places}}" if places else "")


def decimals(low: Fraction, high: Fraction) -> Tuple[str, str]:
    """The two ends as the decimals that are equal to them; where there is none, rounded outward to PLACES digits behind the point."""
    first, last = (
        word if "/" not in (word := plain(end)) else short(end, PLACES, up) for end, up in ((low, False), (high, True))
    )
    return first, last


def formatted(ends: Ends, words: Tuple[str, str], spec: str) -> str:
    """The two ends by a format such as `,.2f` or `.1%`, rounded outward: `94.49 to 94.51`, or one number where they are equal. An end that
    is not there is its word."""
    found = FORMAT.fullmatch(spec)
    if found is None:
        raise ValueError(f"a row has formats such as `,.2f`, `.1%`, `,d` and `>20.3f`, and not {spec!r}")
    side, width, mark, digits, kind = found.groups()
    places = 0 if kind == "d" else int(digits or 6)
    if kind == "d" and digits:
        raise ValueError(f"`d` has no digits behind the point, so {spec!r} is no format")
    sign = "%" if kind == "%" else ""
    first, last = (
        word if end is None else short(end * (100 if sign else 1), places, up, mark) + sign
        for end, word, up in zip(ends, words, (False, True))
    )
    text = first if first == last else f"{first} to {last}"
    return format(text, f"{side or '>'}{width}") if width else text
