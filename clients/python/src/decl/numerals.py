"""The tokens of a text of the package `aggregate`, each with its place, and its numbers as exact fractions.

A number there may have an exponent, a sign, sums, products and powers. Here it has one spelling: a decimal, a percent or a
fraction of few digits.
"""

import re
from dataclasses import dataclass
from fractions import Fraction
from typing import Callable, List, NoReturn, Optional, Tuple

from . import faults
from .program import place_in
from .rules import DIGITS as MOST_DIGITS, PERCENT_DIGITS as MOST_DIGITS_OF_PERCENT

BLANKS = re.compile(r"(?:[ \t\r\n\\|;]|(?:#|//)[^\n]*)+")
TOKEN = re.compile(
    r"note\{[^{}]*\}|(?:\d+\.?\d*|\.\d+)(?:[eE][+-]?\d+)?|[A-Za-z][A-Za-z0-9_.:~-]*|\*\*|[\[\]():,!+*/^%=@-]",
)
NUMBER = re.compile(r"(\d*)\.?(\d*)(?:[eE]([+-]?\d+))?")
#: The spellings of a number that both languages have, with the groups of digits that are counted.
SHARED = re.compile(r"(\d+)/(\d+)|(?:(\d+)\.?(\d*)|\.(\d+))(%?)")
INFINITE = ("inf", "unlimited", "unlim")
#: A number has no more digits than this, and no higher power, while it is worked out; and no part of one is above `MOST`.
MOST_EXPONENT = 64
MOST = 10**200
DEEPEST = 50
TOO_LONG = f"A number has at most {MOST_DIGITS} digits here, or {MOST_DIGITS} in each part of a fraction."


@dataclass(frozen=True)
class Token:
    """A token, and where it begins in the text, counted in characters from 0."""

    spelling: str
    at: int

    def is_number(self) -> bool:
        """Whether it is a number with no sign."""
        return self.spelling[:1].isdigit() or self.spelling[:1] == "."

    def is_word(self) -> bool:
        """Whether it is a word or a note."""
        return self.spelling[:1].isalpha()


@dataclass(frozen=True)
class Numeral:
    """A number of at least 0, its spelling here, and its first token; None is no end."""

    value: Optional[Fraction]
    spelling: str
    token: Token


def untranslated(text: str, at: int, reason: str) -> NoReturn:
    """Raises the fault of a place (in characters from 0) of the text, with the sentence that says what is there."""
    line, column = place_in(text[:at].encode("utf-8"), None)
    told = f"{line}:{column}: not translated\n{faults.pointed(text, line, column)}\n{reason}"
    raise faults.Untranslated(told, line=line, column=column, reason=reason)


def tokens_of(text: str) -> List[Token]:
    """The tokens of the text, without blanks, ends of lines and comments."""
    found: List[Token] = []
    at = 0
    while True:
        blanks = BLANKS.match(text, at)
        at = blanks.end() if blanks else at
        if at == len(text):
            return found
        token = TOKEN.match(text, at)
        if token is None or text.startswith("note{", at) and not token[0].endswith("}"):
            untranslated(text, at, "No word, number, note or sign begins here; a note has no braces in it.")
        found.append(Token(token[0], at))
        at = token.end()


def number_of(spelling: str) -> Optional[Fraction]:
    """The number that a token spells; None where it has too many digits or its exponent is too far from 0."""
    found = NUMBER.fullmatch(spelling)
    assert found is not None
    digits = (found[1] + found[2]).lstrip("0")
    exponent = (found[3] or "0").lstrip("+-0")
    if len(digits) > MOST_EXPONENT or len(found[2]) > MOST_EXPONENT or len(exponent) > 2:
        return None
    places = int(exponent or 0) * (-1 if "-" in (found[3] or "") else 1) - len(found[2])
    return int(digits or 0) * Fraction(10) ** places


def is_shared(written: str) -> bool:
    """Whether this is a numeral here, too, with as many digits as one may have."""
    found = SHARED.fullmatch(written)
    if found is None:
        return False
    if found[1]:
        return max(len(found[1]), len(found[2])) <= MOST_DIGITS
    digits = len(found[3] or "0") + len(found[4] or found[5] or "")
    return digits <= (MOST_DIGITS_OF_PERCENT if found[6] else MOST_DIGITS)


def spelled(value: Fraction) -> Optional[str]:
    """The number as a decimal, else as a fraction; None where both have too many digits."""
    for places in range(MOST_DIGITS):
        scaled = value * 10**places
        if scaled.denominator == 1:
            digits = str(scaled.numerator).rjust(places + 1, "0")
            written = f"{digits[:-places]}.{digits[-places:]}" if places else digits
            return written if is_shared(written) else None
    written = str(value)
    return written if is_shared(written) else None


def without_commas(text: str, tokens: List[Token]) -> List[Token]:
    """The tokens without the commas outside of lists, which mean nothing; one inside of a number is refused."""
    found: List[Token] = []
    listed = False
    for token in tokens:
        listed = token.spelling == "[" or (listed and token.spelling != "]")
        if token.spelling != "," or listed:
            found.append(token)
        elif re.match(r"\d,\d", text[max(token.at - 1, 0) : token.at + 2]):
            untranslated(text, token.at, "A number has no comma in it.")
    return found


class Numbers:
    """Reads tokens from the left: numbers with their arithmetic, and lists of them."""

    def __init__(self, text: str) -> None:
        self.text = text
        self.tokens = without_commas(text, tokens_of(text))
        self.at = 0
        self.depth = 0

    def ahead(self, further: int = 0) -> str:
        """The next token, or one further on; empty behind the last."""
        at = self.at + further
        return self.tokens[at].spelling if at < len(self.tokens) else ""

    def token(self) -> Token:
        """The next token; an empty one at the end of the text behind the last."""
        return self.tokens[self.at] if self.at < len(self.tokens) else Token("", len(self.text))

    def take(self) -> Token:
        """The next token, which is passed."""
        self.at += 1
        return self.tokens[self.at - 1]

    def passed(self, *words: str) -> bool:
        """Whether these are the next tokens; they are passed then."""
        if any(self.ahead(further) != word for further, word in enumerate(words)):
            return False
        self.at += len(words)
        return True

    def refuse(self, reason: str, token: Optional[Token] = None) -> NoReturn:
        """Raises the fault of a token, or of the next one."""
        untranslated(self.text, (token or self.token()).at, reason)

    def want(self, *words: str) -> None:
        """Passes these words, which have to be next."""
        for word in words:
            if not self.passed(word):
                self.refuse(f"`{word}` is expected here.")

    def begins_number(self) -> bool:
        """Whether a number is next, or a list of numbers."""
        return self.token().is_number() or self.ahead() in ("[", "(", "+", "-", "exp", *INFINITE)

    def numeral(self, *, inside: bool = False) -> Numeral:
        """The number that is next, in its spelling here; inside of a list a sum has to be in parentheses."""
        first = self.token()
        if first.spelling in INFINITE:
            self.take()
            return Numeral(None, "inf", first)
        value = self.product() if inside else self.sum()
        if inside and self.ahead() in ("+", "-"):
            self.refuse("No number is below 0 here, and in a list a sum or a difference is put in parentheses.")
        last = self.tokens[self.at - 1]
        written = self.text[first.at : last.at + len(last.spelling)]
        return self.spell(value, first, written if is_shared(written) else None)

    def spell(self, value: Fraction, token: Token, written: Optional[str] = None) -> Numeral:
        """A number that begins at this token, in its spelling here: as it was written, where that is one here too."""
        if value < 0:
            self.refuse("No amount, number of claims, probability or share is below 0 here.", token)
        spelling = written or spelled(value)
        if spelling is None:
            self.refuse(TOO_LONG, token)
        return Numeral(value, spelling, token)

    def sum(self) -> Fraction:
        """Products, added and subtracted."""
        value = self.product()
        while self.ahead() in ("+", "-"):
            sign = self.take()
            other = self.product()
            value = self.kept(value + other if sign.spelling == "+" else value - other, sign)
        return value

    def product(self) -> Fraction:
        """Powers, multiplied and divided."""
        value = self.signed()
        while self.ahead() in ("*", "/"):
            sign = self.take()
            other = self.signed()
            if sign.spelling == "/" and not other:
                self.refuse("This divides by 0.", sign)
            value = self.kept(value * other if sign.spelling == "*" else value / other, sign)
        return value

    def signed(self) -> Fraction:
        """A power, with the signs before it."""
        less = False
        while self.ahead() in ("+", "-"):
            less ^= self.take().spelling == "-"
        return -self.power() if less else self.power()

    def power(self) -> Fraction:
        """A number, or one raised to a whole power."""
        base = self.atom()
        if self.ahead() not in ("**", "^"):
            return base
        sign = self.take()
        raised = self.deeper(self.signed)
        if raised.denominator != 1 or abs(raised) > MOST_EXPONENT or (raised < 0 and not base):
            self.refuse(f"A power is whole here, and at most {MOST_EXPONENT}; write the number.", sign)
        return self.kept(base ** int(raised), sign)

    def atom(self) -> Fraction:
        """A number with no sign, a percent, or a sum in parentheses."""
        token = self.token()
        if self.passed("("):
            value = self.deeper(self.sum)
            self.want(")")
        elif token.is_number():
            read = number_of(self.take().spelling)
            value = self.kept(read if read is not None else Fraction(MOST + 1), token)
        elif token.spelling == "exp":
            self.refuse("`exp` gives no fraction; write the number with as many digits as it is to have.")
        else:
            self.refuse("A number is expected here.")
        return value / 100 if self.passed("%") else value

    def deeper(self, read: Callable[[], Fraction]) -> Fraction:
        """What is read in parentheses or behind a power."""
        self.depth += 1
        if self.depth > DEEPEST:
            self.refuse("The parentheses and powers are too deep.")
        value = read()
        self.depth -= 1
        return value

    def kept(self, value: Fraction, token: Token) -> Fraction:
        """A number that is not too long to go on with."""
        if max(abs(value.numerator), value.denominator) > MOST:
            self.refuse(TOO_LONG, token)
        return value

    def items(self) -> List[Tuple[Numeral, ...]]:
        """The items of the list that is next: each one number, or the two or three of a range."""
        self.want("[")
        found = []
        while not self.passed("]"):
            if self.passed(","):
                continue
            item = [self.numeral(inside=True)]
            while len(item) < 3 and self.passed(":"):
                item.append(self.numeral(inside=True))
            found.append(tuple(item))
        if not found:
            self.refuse("A list has at least one value.", self.tokens[self.at - 1])
        return found
