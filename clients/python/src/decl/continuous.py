"""A book with continuous severities, as two programs that hold it between them. docs/BETWEEN.md has the argument."""

import math
import re
from bisect import bisect_left, bisect_right
from dataclasses import dataclass
from fractions import Fraction
from functools import partial
from itertools import accumulate
from typing import Any, Dict, List, Optional, Tuple

from .calls import Number, Text, check, fmt, run
from .choose import LARGEST_SHORT, all_tokens, tokens_of
from .books import exact
from .coarse import MOST_CELLS, SPELLING, Between, Ends, numeral, rounded, side, with_amounts
from .faults import DeclError, NotBetween, RuleFault, TextFault, pointed, rule_sentence
from .intervals import NOTHING, ONE, UNITY, Interval, interval
from .plan import Chances, Layer, Reader, Unit, plan_in
from .pooled import PARTS_OF_0, Pool, pool_of
from .program import as_text, place_in
from .rules import Rules
from .severities import CONTINUOUS, NotRead, Severity, severity_of

#: Notes and comments, in which no severity is looked for, and the words that begin a listed one.
ASIDE = re.compile(r"note\{[^{}]*\}|#[^\n]*")
LISTED = re.compile(r"(?:dsev|sev\s+dhistogram)(?![\w-])")
#: What lies between severities: a word whole, so that no severity is found inside of one, or what begins none.
OTHER = re.compile(r"(?:sev\.)?[A-Za-z][A-Za-z0-9_-]*|[^A-Za-z]+")
#: A continuous severity is read as one amount, above all that a numeral can be; this one and those after it stand in for them.
STAND_IN = Fraction(10**12)
PLACE = "dsev [1]"
#: A probability is a whole number of billionths, and that of a claim of 0 of millionths: the expected number of claims above 0 is then
#: a fraction that the program takes.
PARTS = 10**9
#: The rule on how many claims units under a common factor expect, and on how fine their shares of them are.
COMMON_SIZE = 28
#: Up to the end of the grid amounts are a bucket apart, and behind it a 32nd of themselves.
FURTHER = 32
#: The bucket is chosen on a grid that is smaller by this power of 2, with larger buckets.
COARSER = 4
#: The least probability of a claim above an attachment, in units.
RAREST = ONE >> 40


def blanked(found: "re.Match[str]") -> str:
    """As many blanks, with the ends of lines."""
    return re.sub(r"[^\n]", " ", found[0])


def placed(found: "re.Match[str]") -> str:
    """What stands in the place of a continuous severity: of the same length and as many lines."""
    lines = found[0].count("\n")
    return PLACE.ljust(len(found[0]) - lines) + "\n" * lines


def severities_in(seen: str) -> List["re.Match[str]"]:
    """The severities of a text without its notes and comments, in order."""
    found, at = [], 0
    while at < len(seen):
        next_one = CONTINUOUS.match(seen, at) or LISTED.match(seen, at) or OTHER.match(seen, at)
        assert next_one is not None
        if next_one.re is not OTHER:
            found.append(next_one)
        at = next_one.end()
    return found


def read(text: str) -> Tuple[str, List[Optional[Severity]]]:
    """The text with a listed severity in the place of each continuous one, and its severities in order; None for a listed one."""
    seen = ASIDE.sub(blanked, text)
    places = severities_in(seen)
    severities: List[Optional[Severity]] = []
    for found in places:
        try:
            severities.append(severity_of(found) if found.re is CONTINUOUS else None)
        except NotRead as fault:
            line, column = place_in(text[: found.start()].encode("utf-8"), None)
            raise NotBetween(f"{line}:{column}: no severity\n{pointed(text, line, column)}\n{fault}") from None
    written = text
    for found in (place for place in places if place.re is CONTINUOUS):
        written = written[: found.start()] + placed(found) + written[found.end() :]
    return written, severities


def as_read(spelling: str, severities: List[Optional[Severity]]) -> List[Optional[Severity]]:
    """The severities of a canonical text in the order in which units are read: those of a name stand at each reference to it."""
    left = iter(severities)
    named: Dict[str, List[Optional[Severity]]] = {}
    found: List[Optional[Severity]] = []
    place = found
    tokens = all_tokens(spelling)
    for at, token in enumerate(tokens):
        if token == "sev":
            place = named.setdefault(f"sev.{tokens[at + 1]}", [])
        elif token in ("port", "agg"):
            place = found
        elif token == "dsev":
            place.append(next(left))
        else:
            place += named.get(token, [])
    return found


class Blend(Reader):
    """Reads a canonical text in which an amount stands in for each continuous severity; the severities are in the order of reading."""

    def __init__(self, tokens: List[str], severities: List[Optional[Severity]], rules: Rules) -> None:
        super().__init__(tokens, rules)
        self.severities = severities
        self.seen = 0

    def atom(self) -> Chances:
        """The amounts of one atom: an amount of its own for a continuous one."""
        chances = super().atom()
        self.seen += 1
        return chances if self.severities[self.seen - 1] is None else {STAND_IN + self.seen - 1: Fraction(1)}


@dataclass(frozen=True)
class Grid:
    """The size of a bucket in money, and the size of the grid as a power of 2."""

    bs: Fraction
    log2: int = LARGEST_SHORT

    @property
    def cells(self) -> int:
        """The number of buckets."""
        return 1 << self.log2


@dataclass(frozen=True)
class Curve:
    """A function that rises in straight lines: `outcomes` at `amounts`, both rising from 0, and the slope behind the last one."""

    amounts: List[Fraction]
    outcomes: List[Fraction]
    slope: Fraction

    @property
    def top(self) -> Optional[Fraction]:
        """The greatest outcome; None where there is none."""
        return None if self.slope else self.outcomes[-1]

    def first(self, outcome: Fraction) -> Optional[Fraction]:
        """The least amount whose outcome is at least this; None where there is none."""
        at = bisect_left(self.outcomes, outcome)
        if at == len(self.outcomes):
            return self.behind(outcome)
        return self.inside(at, outcome) if at and self.outcomes[at] > outcome else self.amounts[at]

    def last(self, outcome: Fraction) -> Optional[Fraction]:
        """The greatest amount whose outcome is at most this, which is at least 0; None where all are."""
        at = bisect_right(self.outcomes, outcome)
        return self.behind(outcome) if at == len(self.outcomes) else self.inside(at, outcome)

    def inside(self, at: int, outcome: Fraction) -> Fraction:
        """The amount with this outcome, before the amount with this index."""
        rise = self.outcomes[at] - self.outcomes[at - 1]
        return self.amounts[at] - (self.outcomes[at] - outcome) * (self.amounts[at] - self.amounts[at - 1]) / rise

    def behind(self, outcome: Fraction) -> Optional[Fraction]:
        """The amount with this outcome, behind the last amount."""
        return self.amounts[-1] + (outcome - self.outcomes[-1]) / self.slope if self.slope else None


def curve_of(unit: Unit) -> Curve:
    """The final amount of a claim, after layer and occurrence clause, by its amount before them."""
    layer = unit.layer or Layer(None, Fraction(0))
    clause = unit.occurrence
    bends = {Fraction(0), layer.attachment}
    for part in (Layer(layer.limit, Fraction(0)), *(clause.layers if clause else ())):
        ends = [part.attachment] + ([] if part.limit is None else [part.attachment + part.limit])
        bends |= {layer.attachment + end for end in ends}
    amounts = sorted(bends)

    def outcome(amount: Fraction) -> Fraction:
        inside = layer.of(amount)
        return inside if clause is None else clause.of(inside)

    last = outcome(amounts[-1])
    return Curve(amounts, [outcome(amount) for amount in amounts], outcome(amounts[-1] + 1) - last)


class Claims:
    """A unit whose amounts before the layer are a blend of listed and of continuous ones."""

    def __init__(self, unit: Unit, severities: List[Optional[Severity]]) -> None:
        self.unit = unit
        self.continuous: List[Tuple[Fraction, Severity]] = []
        listed: Dict[Fraction, Fraction] = {}
        for amount, chance in unit.amounts.items():
            severity = severities[int(amount - STAND_IN)] if amount >= STAND_IN else None
            if severity is None:
                listed[amount] = chance
            else:
                self.continuous.append((chance, severity))
        self.listed = sorted(listed)
        self.below = [Fraction(0), *accumulate(listed[amount] for amount in self.listed)]
        self.curve = curve_of(unit)
        self.attachment = unit.layer.attachment if unit.layer and not unit.kept else Fraction(0)
        self.exceeding = UNITY
        if self.attachment:
            self.exceeding = UNITY - self.at_most(self.attachment)
            if self.exceeding.low < RAREST:
                raise NotBetween(f"unit {unit.name}: hardly any claim exceeds the attachment {numeral(self.attachment)}")

    def at_most(self, amount: Fraction, less: bool = False) -> Interval:
        """The probability of an amount of at most this one before the layer; with `less`, of less than this one."""
        found = interval(self.below[(bisect_left if less else bisect_right)(self.listed, amount)])
        for weight, severity in self.continuous:
            found += interval(weight) * severity.at_most(amount)
        return found.within(0, 1)

    def final(self, outcome: Fraction, less: bool) -> Interval:
        """The probability of a final amount of at most this outcome; with `less`, of less than it."""
        amount = self.curve.first(outcome) if less else self.curve.last(outcome)
        if amount is None:
            return UNITY
        if not self.attachment:
            return self.at_most(amount, less)
        if amount <= self.attachment:
            return NOTHING
        return (UNITY - (UNITY - self.at_most(amount, less)) / self.exceeding).within(0, 1)

    def limited(self, amount: Optional[Fraction]) -> Interval:
        """The mean of the lesser one of an amount before the layer and this one; None is no limit."""
        points = zip(self.listed, (high - low for low, high in zip(self.below, self.below[1:])))
        found = interval(sum((part * (x if amount is None else min(x, amount)) for x, part in points), Fraction(0)))
        for weight, severity in self.continuous:
            mean = severity.mean() if amount is None else severity.limited(amount)
            if mean is None:
                raise NotBetween(f"unit {self.unit.name}: a loss or a premium tells no number of claims, since their mean is infinite")
            found += interval(weight) * mean
        return found

    def expected_claims(self) -> Ends:
        """Two ends of the expected number of claims."""
        if self.unit.loss is None or not self.continuous:
            claims = self.unit.expected_claims()
            return claims, claims
        layer = self.unit.layer or Layer(None, Fraction(0))
        top = None if layer.limit is None else layer.attachment + layer.limit
        mean = (self.limited(top) - self.limited(layer.attachment)) / self.exceeding
        if layer.limit is not None:
            mean = Interval(mean.low, min(mean.high, interval(layer.limit).high))
        if mean.low <= 0:
            raise NotBetween(f"unit {self.unit.name}: the mean claim in the layer is too small to tell their number")
        return self.unit.loss / mean.upper, self.unit.loss / mean.lower

    def points(self, grid: Grid) -> List[int]:
        """The amounts to which final ones are rounded, in buckets: from 0 to the greatest one, where there is one, else as far as
        an amount can be."""
        top = self.curve.top
        last = MOST_CELLS if top is None else min(MOST_CELLS, math.ceil(top / grid.bs))
        found = [*range(min(last, grid.cells) + 1)]
        while found[-1] < last:
            found.append(min(last, found[-1] + max(1, found[-1] // FURTHER)))
        return [point for point in found if point <= grid.cells or numeral(point * grid.bs) is not None]

    def reach(self, grid: Grid) -> Optional[Fraction]:
        """The outcome of the unit whose one claim is the last point, or more: below it the high program is never below the unit.
        None where it is never below it anywhere."""
        if not self.continuous:
            return None
        end, top, clause = self.points(grid)[-1] * grid.bs, self.curve.top, self.unit.aggregate
        if top is not None and top <= end:
            return None
        if clause is None:
            return end
        outcome = clause.of(end)
        bends = [each.attachment + (each.limit or 0) for each in clause.layers]
        flat = clause.of(max(bends) + 1) == clause.of(max(bends))
        return None if flat and end >= max(bends) else outcome

    def rounded(self, grid: Grid, up: bool) -> Chances:
        """The final amounts of a claim, rounded to the points, with their probabilities: the distribution function is rounded down
        where amounts are rounded up, and up where they are rounded down."""
        points, bs = self.points(grid), grid.bs
        chances: Chances = {}
        reached = 0
        for at, point in enumerate(points):
            if at == len(points) - 1 or reached == PARTS:
                value = PARTS
            elif up and reached == PARTS - 1:
                continue
            else:
                parts = PARTS if at else PARTS_OF_0
                found = self.final((point if up else points[at + 1]) * bs, less=not up)
                value = (found.low * parts // ONE if up else -(-found.high * parts // ONE)) * (PARTS // parts)
            if value > reached:
                chances[point * bs] = Fraction(value - reached, PARTS)
                reached = value
        return chances

    def side(self, grid: Grid, up: bool, pool: Optional[Pool], rules: Rules, timeout: Optional[float]) -> str:
        """The unit as one of the low program, or of the high one."""
        if pool is None and not self.continuous:
            return side(self.unit, grid.bs, up, rules, timeout)
        chances = self.rounded(grid, up) if self.continuous else rounded(self.unit.of_a_claim(), grid.bs, up)
        expected = self.expected_claims()
        if pool is not None:
            chances = pool.written(chances, expected[up], up)
            expected = expected if pool.claims is None else (pool.claims, pool.claims)
        return with_amounts(self.unit, chances, expected, grid.bs, up, rules, timeout)


@dataclass(frozen=True)
class Source:
    """The units of a text, with the first line of a portfolio, which is empty for a unit alone, and how they are pooled."""

    head: str
    units: List[Claims]
    pool: Optional[Pool]
    rules: Rules
    timeout: Optional[float]

    def program(self, grid: Grid, up: bool) -> str:
        """The low program, or the high one."""
        return self.head + "\n".join(self.side(number, grid, up) for number in range(len(self.units)))

    def side(self, number: int, grid: Grid, up: bool) -> str:
        """A unit of the low program, or of the high one."""
        try:
            return self.units[number].side(grid, up, self.pool, self.rules, self.timeout)
        except RuleFault as fault:
            raise self.refused(fault, number) from None

    def checked(self, grid: Grid, up: bool) -> str:
        """The low program, or the high one, which keeps every rule on this grid."""
        text = self.program(grid, up)
        try:
            check(text, bs=grid.bs, log2=grid.log2, rules=self.rules, timeout=self.timeout)
        except RuleFault as fault:
            most = max(range(len(self.units)), key=lambda number: self.units[number].expected_claims()[1])
            raise self.refused(fault, most if fault.rule == COMMON_SIZE else fault.unit) from None
        return text

    def refused(self, fault: RuleFault, number: int) -> DeclError:
        """The fault of a program of this client, told of the unit alone, since nobody else has seen that text."""
        name, sentence = self.units[number].unit.name, rule_sentence(fault.rule)
        if fault.rule in (*SPELLING, COMMON_SIZE):
            return NotBetween(f"unit {name}: {sentence}")
        return RuleFault(f"unit {name} breaks rule {fault.rule} {fault.name}\n{sentence}", unit=number, rule=fault.rule, name=fault.name)

    def is_inside(self, bs: Fraction, inside: Fraction) -> bool:
        """Whether about so much probability lies in a grid of 4,096 of these buckets, by the low program on larger ones; not,
        where the buckets are too small for that program."""
        grid = Grid(bs * 2**COARSER, LARGEST_SHORT - COARSER)
        try:
            text, last = self.program(grid, False), f"cdf:{grid.cells - 1}"
            settings: Dict[str, Any] = {"log2": grid.log2, "digits": 6, "width": 10**9, "rules": self.rules, "timeout": self.timeout}
            row = run(text, last, bs=grid.bs, **settings)[0]
        except (NotBetween, RuleFault):
            return False
        return Fraction(row.low or 0) >= inside

    def bucket(self, inside: Fraction) -> Fraction:
        """The least bucket of 1, 2 or 5 times a power of 10 with which about so much probability lies in a grid of 4,096."""
        steps = [Fraction(10) ** power * digit for power in range(-6, 9) for digit in (1, 2, 5)]
        low, high = 0, len(steps) - 1
        while low < high:
            middle = (low + high) // 2
            if self.is_inside(steps[middle], inside):
                high = middle
            else:
                low = middle + 1
        return steps[low]


def source_of(text: str, rules: Rules, timeout: Optional[float]) -> Source:
    """What the text declares by these rules."""
    written, severities = read(text)
    try:
        spelling = fmt(written, timeout=timeout)
    except TextFault as fault:
        if fault.line is None or fault.column is None:
            raise
        instead, line = (pointed(each, fault.line, fault.column) for each in (written, text))
        raise type(fault)(fault.told.replace(instead, line), **fault.facts) from None
    severities = as_read(spelling, severities)
    plan = plan_in(spelling, Blend(tokens_of(spelling), severities, rules))
    units = [Claims(unit, severities) for unit in plan.units]
    pool = None if plan.common is None else pool_of(plan.units, plan.common, [each.expected_claims() for each in units])
    return Source(plan.head, units, pool, rules, timeout)


def between(
    text: Text,
    bs: Optional[Number] = None,
    *,
    inside: Number = "0.999",
    log2: Optional[int] = None,
    rules: Rules = "standard",
    timeout: Optional[float] = None,
) -> Between:
    """Two programs that hold a book between them whose severities may be continuous, as `aggregate` writes them.

    `bs` is the size of a bucket; without it, it is the least of 1, 2 or 5 times a power of 10 with which a probability of about
    `inside` lies in a grid of 4,096 of them. `log2` is the size of the grid, 12 without it, which are 4,096 buckets; it may be up to
    16. `rules` are those of `run`. The final amounts of a claim, after layer and occurrence clause, are rounded down in one program and
    up in the other. Raises `NotBetween` where that cannot be written.
    """
    source = source_of(as_text(text), rules, timeout)
    size = source.bucket(exact(inside)) if bs is None else exact(bs)
    if size <= 0:
        raise ValueError(f"the size of a bucket is above 0, not {size}")
    grid = Grid(size, LARGEST_SHORT if log2 is None else log2)
    low, high = (source.checked(grid, up) for up in (False, True))
    reaches = [reach for reach in (each.reach(grid) for each in source.units) if reach is not None]
    again = partial(between, bs=size, log2=grid.log2, rules=rules, timeout=timeout)
    reach = min(reaches, default=None)
    return Between(low, high, size, timeout, reach=reach, log2=grid.log2, rules=rules, source=as_text(text), again=again)
