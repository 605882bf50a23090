"""Helps with two choices: the size of a bucket, and the number of buckets."""

import re
from fractions import Fraction
from functools import reduce
from math import gcd
from typing import Dict, List, Optional, Tuple

from .calls import Number, Text, check, fmt, run, spelled
from .faults import GridTooSmall, RuleFault
from .reports import Row
from .rules import Rules

NOTE = re.compile(r"note\{[^{}]*\}")
TOKEN = re.compile(r"note\{[^{}]*\}|\d+/\d+|(?:\d+\.?\d*|\.\d+)%?|(?:sev\.)?[A-Za-z][A-Za-z0-9_-]*|[\[\]:,!]")
OFF_GRID_CESSION = 13
#: The rules whose limits depend on `log2`: on far amounts, on the sum before an aggregate clause, and on the mean of all units.
SIZES = (8, 21, 30)
#: The greatest `log2`, and the greatest up to which these two limits are the lower ones.
LARGEST, LARGEST_SHORT = 16, 12


def value_of(numeral: str) -> Fraction:
    """The number that a numeral spells: a decimal, a percent or a fraction."""
    if numeral.endswith("%"):
        return Fraction(numeral[:-1].rstrip(".")) / 100
    return Fraction(numeral.rstrip("."))


def all_tokens(text: str) -> List[str]:
    """The tokens of a canonical text, without its notes."""
    return [token for token in TOKEN.findall(text) if not token.startswith("note{")]


def tokens_of(text: str) -> List[str]:
    """The tokens of a canonical text, without its notes and named severities.

    Each reference to a severity stands as its mixture, and `geometric` as `mixed gamma 1`.
    """
    tokens = all_tokens(text)
    named: Dict[str, List[str]] = {}
    at = 0
    while tokens[at : at + 1] == ["sev"]:
        end = at + 2
        while end < len(tokens) and tokens[end] not in ("sev", "port", "agg"):
            end += 1
        named.setdefault("sev." + tokens[at + 1], tokens[at + 2 : end])
        at = end
    found: List[str] = []
    for token in tokens[at:]:
        found += ["mixed", "gamma", "1"] if token == "geometric" else named.get(token, [token])
    return found


def list_behind(tokens: List[str], at: int) -> List[List[Fraction]]:
    """The items of the list whose `[` stands at this place: each 1 to 3 numerals."""
    items = []
    at += 1
    while tokens[at] != "]":
        item = [tokens[at]]
        while tokens[at + 1] == ":":
            at += 2
            item.append(tokens[at])
        items.append([value_of(numeral) for numeral in item])
        at += 1
    return items


def of_item(item: List[Fraction]) -> List[Fraction]:
    """Amounts that divide alike with those of the item: its first one, and its step where it has a second one."""
    first, last, step = item if len(item) == 3 else (item[0], item[-1], Fraction(1))
    return [first] if first + step > last else [first, step]


def amounts_of(tokens: List[str]) -> List[Fraction]:
    """The amounts, limits and attachments of a canonical text, ranges by their first amount and step."""
    found: List[Fraction] = []
    for at, token in enumerate(tokens):
        if token == "dsev":
            found += [amount for item in list_behind(tokens, at + 1) for amount in of_item(item)]
        if token == "xs":
            found += [value_of(end) for end in (tokens[at - 1], tokens[at + 1]) if end != "inf"]
    return found


def shares_of(tokens: List[str]) -> List[Fraction]:
    """The shares of the clauses of a canonical text."""
    found = []
    for at, token in enumerate(tokens):
        if token == "so":
            found.append(value_of(tokens[at - 1]))
        if token == "po" and tokens[at + 1] != "inf" and value_of(tokens[at + 1]):
            found.append(value_of(tokens[at - 1]) / value_of(tokens[at + 1]))
    return found


def common(first: Fraction, second: Fraction) -> Fraction:
    """The greatest fraction that divides both."""
    over = first.denominator * second.denominator // gcd(first.denominator, second.denominator)
    return Fraction(gcd(int(first * over), int(second * over)), over)


def divisors(number: int) -> List[int]:
    """The whole numbers that divide a number, rising."""
    found = [1]
    prime = 2
    while number > 1:
        if prime * prime > number:
            prime = number
        powers = [1]
        while number % prime == 0:
            number //= prime
            powers.append(powers[-1] * prime)
        found = [old * power for old in found for power in powers]
        prime += 1
    return sorted(found)


def least_grid(text: Text, *, bs: Optional[Number] = None, rules: Optional[Rules] = None, timeout: Optional[float] = None) -> int:
    """The least `log2` with which the text keeps every rule: 1, or 13 where one of its numbers needs the higher limits of a long
    grid. Raises the fault of a text that no grid takes."""
    try:
        check(text, bs=bs, log2=1, rules=rules, timeout=timeout)
        return 1
    except RuleFault as fault:
        if fault.rule not in SIZES:
            raise
    check(text, bs=bs, log2=LARGEST_SHORT + 1, rules=rules, timeout=timeout)
    return LARGEST_SHORT + 1


def bucket(text: Text, *, shares: bool = True, rules: Optional[Rules] = None, timeout: Optional[float] = None) -> Fraction:
    """The greatest size of a bucket that divides every amount, limit and attachment of the text, as a fraction.

    Where a clause takes a share, its outcomes have to be whole numbers of buckets too. Then the size is the greatest
    that divides these as well, found by asking the program; with `shares=False` the written amounts alone count. `rules` are
    those of `run`.
    """
    tokens = tokens_of(fmt(text, timeout=timeout))
    size = reduce(common, amounts_of(tokens), Fraction(0)) or Fraction(1)
    if not shares:
        return size
    fault: Optional[RuleFault] = None
    parts = {1}
    for share in shares_of(tokens):
        parts = {old * new for old in parts for new in divisors(share.denominator)}
    for part in sorted(parts):
        try:
            least_grid(text, bs=size / part, rules=rules, timeout=timeout)
        except RuleFault as found:
            if found.rule != OFF_GRID_CESSION:
                raise
            fault = found
        else:
            return size / part
    assert fault is not None
    raise fault


def grid(
    text: Text,
    inside: Number = "0.999999",
    *,
    bs: Optional[Number] = None,
    digits: int = 9,
    width: int = 10**9,
    make: Optional[int] = None,
    rules: Optional[Rules] = None,
    timeout: Optional[float] = None,
) -> int:
    """The least `log2` with which at least so much probability is sure to lie inside the grid.

    `inside` is a decimal, a fraction or a percent; a float is taken as the decimal that Python prints for it. `bs` is
    the size of a bucket in money, `digits` and `width` are those of the probability that is asked of each grid, `rules` are those of
    `run`, and `make` takes a made program in place of the text. Grids are tried from the least one up, since a longer one takes more time;
    one at which the text breaks a rule on sizes is passed over. Raises `GridTooSmall` where the largest grid that takes the text
    is not sure to hold so much, and the fault of the text where no grid takes it.
    """
    wanted = value_of(inside) if isinstance(inside, str) else Fraction(spelled(inside))
    refused: Optional[RuleFault] = None
    largest: Optional[Tuple[int, Row]] = None
    for log2 in range(1, LARGEST + 1):
        ask = f"cdf:{2**log2 - 1}"
        try:
            row = run(text, [ask], bs=bs, log2=log2, digits=digits, width=width, make=make, rules=rules, timeout=timeout)[0]
        except RuleFault as fault:
            if fault.rule not in SIZES:
                raise
            refused = fault
            continue
        if Fraction(row.low or 0) >= wanted:
            return log2
        largest = log2, row
    if largest is None:
        assert refused is not None
        raise refused
    log2, row = largest
    raise GridTooSmall(
        f"the largest grid{'' if log2 == LARGEST else ' that takes the text'}, of {2**log2:,} buckets, holds a probability from"
        f" {row.written[0]} to {row.written[1]}; take larger buckets",
        row=row,
        log2=log2,
    )
