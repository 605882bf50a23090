#!/usr/bin/env python3
"""Checks a certificate of the total of a DecL program: the program, a line ---, and the steps.

    check_steps.py [--bs V] [--log2 N] [--plan] [FILE]

It reads FILE or standard input by docs/LANGUAGE.md and docs/STEPS.md, in whole numbers alone, and shares no
code with decl. It writes `verified`, or the number of the first bad step. With --plan it writes the plan of the
program, in the lines that check_steps.c reads, and reads no step. Status 0: verified, or the plan is written;
1: a bad step; 2: the program or the list is not one that it reads, or a unit is not covered; 3: the words are
not understood; 4: the input could not be read; 5: a write failed; 6: memory is short."""

import re
import sys
from bisect import bisect_right
from decimal import MAX_EMAX, MAX_PREC, MIN_EMIN, Context, Decimal, Inexact
from fractions import Fraction
from functools import cache
from itertools import accumulate
from math import gcd, lcm
from operator import add, gt

ONE = 1 << 56
SERIES_ONE = 1 << 63
TERMS = 18

# The limits of docs/STEPS.md on what is read, and of docs/LANGUAGE.md on a program.
MOST_INPUT = 67_108_864  # bytes, with the program and the steps
MOST_PROGRAM = 1_048_576  # bytes
MOST_STEPS = 32_768
MOST_STEP_CELLS = 524_288  # in all steps together
MOST_UNITS = 16
MOST_ATOMS = 64
MOST_LAYERS = 16
MOST_VALUES = 1_024
MOST_RANGE_PARTS = 1_000_000
MOST_AMOUNT = 1 << 20  # buckets
NO_LIMIT = 1 << 21  # buckets, above each limit and each attachment
MOST_PARTS = 1 << 30  # the common denominator of numbers that are fine
ADMITTED = 1 << 48  # above both parts of an expected loss or count
MOST_CLAIMS = 65_536
MOST_EXPECTED = 4_096
MOST_SHAPE = 10_000
ABOVE_ZERO = ("poisson", "gamma")  # counts whose base has claims above 0 alone


class Unread(Exception):
    """The program or the list is not one that this checker reads."""


class NotCovered(Exception):
    """Steps do not cover this unit, by its number."""


def asks(kept, rule):
    """Refuses the program where it does not keep a rule."""
    if not kept:
        raise Unread(rule)


# ---- tokens

TOKEN = re.compile(
    r"(?P<blank>[\t\n\r ]+|\#[^\n]*)|(?P<note>note\{[^{}]*\})"
    r"|(?P<ref>sev\.[A-Za-z][A-Za-z0-9_-]*)|(?P<word>[A-Za-z][A-Za-z0-9_-]*)"
    r"|(?P<numeral>[0-9]+/[0-9]+|(?:[0-9]+\.?[0-9]*|\.[0-9]+)%?)|(?P<sign>[\[\]:,!])"
)
NUMERAL = re.compile(r"[0-9]+/[0-9]+|(?:[0-9]+\.?[0-9]*|\.[0-9]+)%?")
KEYWORDS = set(
    "agg port claim claims loss prem premium at lr dfreq dsev sev dhistogram xps xs inf occurrence aggregate net of "
    "ceded to and so po fixed poisson bernoulli binomial mixed gamma wts geometric zt zm common note lognorm expon "
    "pareto weibull norm uniform beta chistogram".split()
)


def tokens_of(text):
    """The tokens of a text, each as its kind and its text; the kind of a keyword or a sign is itself."""
    found, at = [], 0
    for match in TOKEN.finditer(text):
        if match.start() != at:
            break
        kind, word, at = match.lastgroup, match.group(), match.end()
        if kind == "word":
            kind = "reserved" if word == "note" else word if word in KEYWORDS else "name"
        elif kind == "sign":
            kind = word
        if kind != "blank":
            found.append((kind, word))
    asks(at == len(text), f"no token begins at byte {at}")
    return found


@cache
def value_of(numeral):
    """The value of a numeral of at most 11 digits, 9 before a percent sign, 11 in each part of a fraction."""
    if "/" in numeral:
        above, below = numeral.split("/")
        asks(max(len(above), len(below)) <= 11 and int(below) > 0, "a bad numeral")
        return Fraction(int(above), int(below))
    percent = numeral.endswith("%")
    front, _, back = numeral.rstrip("%").partition(".")
    asks(len(front + back) <= 11 - 2 * percent, "a bad numeral")
    return Fraction(int(front + back), 10 ** (len(back) + 2 * percent))


def in_units(number, unit):
    """How often a number has a unit in it, which has to be a whole number."""
    whole, rest = divmod(number.numerator * unit.denominator, number.denominator * unit.numerator)
    asks(rest == 0, "an amount, a limit or an attachment is no whole number of buckets")
    return whole


def values_of(items, unit):
    """The values of the items of a list, in whole numbers of a unit."""
    values = []
    for first, step, count in items:
        start = in_units(first, unit)
        if count == 1:
            values.append(start)
        else:
            by = in_units(step, unit)
            values += range(start, start + count * by, by)
    return values


def common_parts(numbers):
    """The least common multiple of the denominators, where it is fine."""
    common = 1
    for number in numbers:
        common = lcm(common, number.denominator)
        asks(common <= MOST_PARTS, "a list is not fine")
    return common


def weights_of(items):
    """The values of a list of probabilities as whole weights, and the whole of which they are parts."""
    whole = common_parts(number for first, step, _ in items for number in (first, step))
    weights = values_of(items, Fraction(1, whole))
    asks(sum(weights) == whole, "a list of probabilities does not add up to 1")
    return weights, whole


def added(pairs):
    """The weight of each amount of some pairs of amount and weight; equal amounts are added up, those of weight 0 dropped."""
    together = {}
    for amount, weight in pairs:
        if weight:
            together[amount] = together.get(amount, 0) + weight
    return together


# ---- the grammar, one method for each line of it

END = "end", ""  # behind the last token


class Reader:
    """The tokens of a program, and how many of them are read; amounts are read in whole buckets."""

    def __init__(self, tokens, bucket):
        self.tokens, self.bucket, self.at = [*tokens, END, END], bucket, 0
        self.definitions, self.severities = {}, {}

    def sees(self, *kinds):
        """Whether the next token has one of these kinds."""
        return self.tokens[self.at][0] in kinds

    def sees_behind(self, *kinds):
        """Whether the token behind the next one has one of these kinds."""
        return self.tokens[self.at + 1][0] in kinds

    def takes(self, *kinds):
        """Reads the next token where it has one of these kinds: its text, or None."""
        kind, word = self.tokens[self.at]
        if kind not in kinds:
            return None
        self.at += 1
        return word

    def wants(self, *kinds):
        """Reads the next token, which has one of these kinds."""
        word = self.takes(*kinds)
        if word is None:
            raise Unread(f"token {self.at}: wanted {' or '.join(kinds)}")
        return word

    def number(self):
        """The value of a numeral."""
        return value_of(self.wants("numeral"))

    def buckets(self):
        """An amount, a limit or an attachment, in whole buckets."""
        number = in_units(self.number(), self.bucket)
        asks(number <= MOST_AMOUNT, "an amount, a limit or an attachment is too far")
        return number

    def program(self):
        """program := sevdef* unit | sevdef* 'port' NAME common? NOTE? unit unit*"""
        while self.takes("sev"):
            name = self.wants("name")
            asks(name not in self.definitions, "two severities of one name")
            start = self.at
            self.mixture(skip=True)
            self.definitions[name] = self.tokens[start : self.at]
        is_portfolio, common = self.takes("port") is not None, False
        if is_portfolio:
            self.wants("name")
            common = self.takes("common") is not None
            if common:
                self.wants("numeral")
            self.takes("note")
        units = [self.unit()]
        while is_portfolio and self.sees("agg"):
            asks(len(units) < MOST_UNITS, "more than 16 units")
            units.append(self.unit())
        asks(self.sees("end"), f"token {self.at}: the program goes on")
        asks(len({unit["name"] for unit in units}) == len(units), "two units of one name")
        return common, units

    def unit(self):
        """unit := 'agg' NAME exposure layer? sev occ? freq agr? NOTE?, or with 'dfreq' for exposure and freq"""
        self.wants("agg")
        unit = {"name": self.wants("name"), "listed": self.takes("dfreq") is not None}
        if unit["listed"]:
            self.list()
            if self.sees("["):
                self.list()
        else:
            unit["exposure"] = self.exposure()
        unit["layer"] = self.layer() if self.sees("numeral", "inf") else None
        unit["severity"], unit["kept"] = self.severity()
        unit["occurrence"] = self.clause() if self.takes("occurrence") else None
        unit["changed"] = None
        if not unit["listed"]:
            unit["count"] = self.count()
            unit["changed"] = self.takes("zt", "zm")
            if unit["changed"] == "zm":
                self.wants("numeral")
        unit["aggregate"] = self.clause() if self.takes("aggregate") else None
        self.takes("note")
        return unit

    def exposure(self):
        """exposure := NUMERAL 'claims' | NUMERAL 'loss' | NUMERAL 'premium' 'at' NUMERAL 'lr'"""
        first = self.number()
        if self.takes("claim", "claims"):
            return "claims", first
        if self.takes("loss"):
            return "loss", first
        self.wants("prem", "premium")
        self.wants("at")
        ratio = self.number()
        self.wants("lr")
        return "loss", first * ratio

    def layer(self):
        """layer := limit 'xs' NUMERAL"""
        limit = NO_LIMIT if self.takes("inf") else self.buckets()
        self.wants("xs")
        return limit, self.buckets()

    def severity(self):
        """sev := mixture '!'? | REF '!'?"""
        name = self.takes("ref")
        if name is None:
            amounts = self.mixture()
        else:
            name = name.removeprefix("sev.")
            asks(name in self.definitions, "a severity that is not there")
            if name not in self.severities:
                self.severities[name] = Reader(self.definitions[name], self.bucket).mixture()
            amounts = self.severities[name]
        return amounts, self.takes("!") is not None

    def mixture(self, skip=False):
        """mixture := atom | atom atom* 'wts' list: the weights of the amounts; with `skip` it is only read"""
        atoms = [self.atom(skip)]
        while self.sees("dsev") or self.sees("sev") and self.sees_behind("dhistogram"):
            asks(skip or len(atoms) < MOST_ATOMS, "a severity of more than 64 atoms")
            atoms.append(self.atom(skip))
        weights, whole = [1], 1
        if len(atoms) > 1 or self.sees("wts"):
            self.wants("wts")
            items = self.list(skip)
            weights, whole = ([], 1) if skip else weights_of(items)
        if skip:
            return {}
        asks(len(weights) == len(atoms), "not one weight for each atom")
        common = 1
        for weight, (amounts, total) in zip(weights, atoms):
            below = whole * total
            common = lcm(common, below // gcd(below, *(weight * part for part in amounts.values())))
            asks(common <= MOST_PARTS, "a mixture is not fine")
        return added(
            (amount, weight * part * common // (whole * total))
            for weight, (amounts, total) in zip(weights, atoms)
            for amount, part in amounts.items()
        )

    def atom(self, skip):
        """atom := 'dsev' list list? | 'sev' 'dhistogram' 'xps' list list?: the weights of the amounts, and their whole"""
        if not self.takes("dsev"):
            self.wants("sev")
            self.wants("dhistogram")
            self.wants("xps")
        items = self.list(skip)
        parts = self.list(skip) if self.sees("[") else None
        if skip:
            return None
        amounts = values_of(items, self.bucket)
        asks(max(amounts) <= MOST_AMOUNT, "an amount is too far")
        weights, whole = weights_of(parts) if parts else ([1] * len(amounts), len(amounts))
        asks(len(weights) == len(amounts), "not one probability for each amount")
        return added(zip(amounts, weights)), whole

    def clause(self):
        """side cession ('and' cession)*: whether it is what the layers take, the layers that are not empty, and their whole"""
        taken = self.wants("net", "ceded") == "ceded"
        self.wants("to" if taken else "of")
        cessions = [self.cession()]
        while self.takes("and"):
            asks(len(cessions) < MOST_LAYERS, "a clause of more than 16 layers")
            cessions.append(self.cession())
        whole = common_parts(share for share, _, _ in cessions)
        layers = sorted((start, start + limit, int(share * whole)) for share, limit, start in cessions if limit)
        for (_, end, _), (start, _, _) in zip(layers, layers[1:]):
            asks(end <= start, "two layers of a clause overlap")
        return taken, layers, whole

    def cession(self):
        """cession := layer | NUMERAL 'so' layer | NUMERAL 'po' layer: the share, the limit and the attachment"""
        share, word = Fraction(1), None
        if self.sees_behind("so", "po"):
            share, word = self.number(), self.wants("so", "po")
        limit, attachment = self.layer()
        if word == "po":
            asks(0 < limit < NO_LIMIT, "a part of no limit")
            share /= limit * self.bucket
        asks(share <= 1, "a share above 1")
        return share, limit, attachment

    def count(self):
        """count := 'fixed' | 'poisson' | 'geometric' | 'bernoulli' | 'binomial' NUMERAL | 'mixed' 'gamma' NUMERAL"""
        word = self.wants("fixed", "poisson", "geometric", "bernoulli", "binomial", "mixed")
        if word == "mixed":
            self.wants("gamma")
            return "gamma", self.number()
        if word == "geometric":
            return "gamma", Fraction(1)
        return word, self.number() if word == "binomial" else None

    def list(self, skip=False):
        """list := '[' item (','? item)* ']': its items"""
        self.wants("[")
        items, values = [], 0
        while True:
            items.append(self.item(skip))
            values += items[-1][2]
            asks(values <= MOST_VALUES, "a list of more than 1,024 values")
            if self.takes("]"):
                return items
            self.takes(",")

    def item(self, skip):
        """item := NUMERAL | NUMERAL ':' NUMERAL | NUMERAL ':' NUMERAL ':' NUMERAL: the first value, the step, how many"""
        words = [self.wants("numeral")]
        while len(words) < 3 and self.takes(":"):
            words.append(self.wants("numeral"))
        if skip:
            return 0, 0, 0
        first, *rest = map(value_of, words)
        if not rest:
            return first, 0, 1
        last, step = rest[0], rest[1] if len(rest) > 1 else Fraction(1)
        parts = lcm(first.denominator, last.denominator, step.denominator)
        asks(step > 0 and first <= last and parts <= MOST_RANGE_PARTS, "a bad range")
        count = (last - first) // step + 1
        return first, step if count > 1 else 0, count


# ---- what a program means: units in whole buckets


def in_clause(amounts, clause):
    """The weights of what an occurrence clause makes of amounts."""
    taken, layers, whole = clause
    layers = [(0, 0, 0), *layers]
    starts = [start for start, _, _ in layers]
    below = [0, *accumulate((end - start) * share for start, end, share in layers)]
    together = {}
    for amount, weight in amounts.items():
        number = bisect_right(starts, amount) - 1
        start, end, share = layers[number]
        parts = below[number] + share * ((amount if amount < end else end) - start)
        kept, rest = divmod(parts if taken else amount * whole - parts, whole)
        asks(rest == 0, "what a clause takes or leaves is no whole number of buckets")
        together[kept] = together.get(kept, 0) + weight
    return together


def claim_of(unit):
    """The weights of the amounts of one claim before and after the occurrence clause."""
    before = unit["severity"]
    if unit["layer"]:
        limit, attachment = unit["layer"]
        least = 0 if unit["kept"] or attachment == 0 else attachment + 1
        before = added((min(max(x - attachment, 0), limit), weight) for x, weight in before.items() if x >= least)
        asks(before, "no amount above the attachment")
    return before, in_clause(before, unit["occurrence"]) if unit["occurrence"] else before


def is_admitted(number):
    """Whether both parts of a fraction are below 2^48."""
    return max(number.numerator, number.denominator) < ADMITTED


def expected_count(unit, before, bucket):
    """The expected number of claims of a unit, with the weights of the amounts of a claim before the occurrence clause."""
    kind, number = unit["exposure"]
    if kind == "loss":
        asks(is_admitted(number), "an expected loss is too fine")
        mean = Fraction(sum(amount * weight for amount, weight in before.items()), sum(before.values()))
        asks(mean > 0, "the expected claim is 0")
        number /= mean * bucket
    asks(is_admitted(number), "an expected count is too fine")
    return number


def whole_count(count):
    """A number of claims or of trials."""
    asks(count.denominator == 1, "a number of claims is not whole")
    asks(count <= MOST_CLAIMS, "more than 65,536 claims")
    return int(count)


class Unit:
    """A unit of the plan: the kind of its count, its number and its mean (the probability of one trial where there are trials),
    the weights of the amounts of one claim, and how often the total counts its base."""

    def __init__(self, unit, bucket):
        before, self.weights = claim_of(unit)
        self.total = sum(self.weights.values())
        self.kind, number = unit["count"]
        self.mean, self.number, self.halvings = expected_count(unit, before, bucket), 1, 0
        if self.kind == "fixed":
            self.number, self.mean = whole_count(self.mean), Fraction(1)
        elif self.kind == "bernoulli":
            asks(self.mean <= 1, "more than 1 claim expected of bernoulli")
        elif self.kind == "binomial":
            asks(0 < number <= 1, "the probability of binomial")
            self.number, self.mean = whole_count(self.mean / number), number
        else:
            self.above_zero(number)
        self.target = 2**self.halvings if self.kind == "poisson" else self.number
        if self.mean == 0 and self.kind in ABOVE_ZERO:
            self.target, self.weights = 0, {}

    def above_zero(self, deviation):
        """Takes the claims of 0 from a Poisson or a gamma unit; the deviation is that of gamma."""
        none = self.weights.get(0, 0)
        self.weights = {amount: weight for amount, weight in self.weights.items() if amount}
        self.mean = self.mean * (self.total - none) / self.total
        self.total -= none
        asks(is_admitted(self.mean), "an expected count of claims above 0 is too fine")
        asks(self.mean <= MOST_EXPECTED, "more than 4,096 expected claims above 0")
        while self.kind == "poisson" and self.mean / 2**self.halvings > Fraction(1, 2):
            self.halvings += 1
        if self.kind == "gamma":
            asks(deviation > 0 and (1 / deviation**2).denominator == 1, "a shape is not whole")
            self.number = int(1 / deviation**2)
            asks(self.number <= MOST_SHAPE, "a shape above 10,000")

    def line(self):
        """The unit as a line of a plan."""
        numbers = {"fixed": [self.number], "bernoulli": [self.mean], "poisson": [self.mean]}
        least = gcd(*self.weights.values())
        items = (f"{amount}:{weight // least}" for amount, weight in sorted(self.weights.items()))
        return " ".join(["unit", self.kind, *map(str, numbers.get(self.kind, [self.number, self.mean])), "of", *items])


def plan_of(program, bucket):
    """The units of a program; NotCovered where steps do not cover one."""
    asks(len(program) <= MOST_PROGRAM, "a program of more than 1,048,576 bytes")
    common, units = Reader(tokens_of(program.decode("latin-1")), bucket).program()
    if common:
        raise NotCovered(0)
    for number, unit in enumerate(units):
        if unit["listed"] or unit["changed"] or unit["aggregate"]:
            raise NotCovered(number)
    return [Unit(unit, bucket) for unit in units]


# ---- the numbers of the table: those of a step are low and high numbers, from its own packed ends or from those of two steps

PLACES = 37  # of one number in a packed list: 2^56 times 2^56 times 1,024 cells is below 10^37
EXACT = Context(prec=MAX_PREC, Emax=MAX_EMAX, Emin=MIN_EMIN, traps=[Inexact])


def packed(numbers):
    """A list of numbers as one number: the first in its last 37 decimal places, the next in the 37 before."""
    return Decimal(f"%0{PLACES}d" * len(numbers) % tuple(reversed(numbers)))


def sums(first, second, cells):
    """For each cell s the sum of first[i] * second[j] over i + j = s, of two packed lists: one product."""
    digits = str(EXACT.multiply(first, second)).zfill(PLACES * cells)
    return [int(digits[end - PLACES : end]) for end in range(len(digits), len(digits) - PLACES * cells, -PLACES)]


def floors(above, below):
    """The floors of fractions over one number."""
    return [number // below for number in above]


def ceilings(above, below):
    """Their ceilings."""
    return [-(-number // below) for number in above]


def exponential(num, den):
    """The two ends of exp(-num / den), from 18 terms of the series of exp after the first, in units of 2^-63."""
    low_term = high_term = low = high = SERIES_ONE
    for n in range(1, TERMS + 1):
        low_term = low_term * num // (den * n)
        high_term = -(-high_term * num // (den * n))
        low += low_term
        high += high_term
    return ONE * SERIES_ONE // (high + high_term), -(-ONE * SERIES_ONE // low)


def one_claim(unit, cells):
    """The numbers of a start of one claim or of one trial."""
    num, den = unit.mean.numerator, unit.mean.denominator
    parts = [num * unit.weights.get(cell, 0) * ONE for cell in range(cells)]
    parts[0] += (den - num) * unit.total * ONE
    lows, highs = floors(parts, den * unit.total), ceilings(parts, den * unit.total)
    return lambda low, high: (lows, highs)


def recursion(unit, cells):
    """The numbers of a Poisson or a gamma start, by Panjer's recursion from its own ends."""
    weights = [unit.weights.get(cell, 0) for cell in range(cells)]
    num, den = unit.mean.numerator, unit.mean.denominator
    if unit.kind == "poisson":
        weights = [cell * weight for cell, weight in enumerate(weights)]
        den <<= unit.halvings
        first = exponential(num, den)
        by = [den * cell for cell in range(1, cells)]
    else:
        none = den * unit.number
        first = ONE * none // (none + num), -(-ONE * none // (none + num))
        by = [none + num] * (cells - 1)
    severity = packed(weights)

    def numbers(low, high):
        lows = floors(sums(severity, low, cells), unit.total)
        highs = ceilings(sums(severity, high, cells), unit.total)
        return (
            [first[0], *(number * num // below for number, below in zip(lows[1:], by))],
            [first[1], *(-(-number * num // below) for number, below in zip(highs[1:], by))],
        )

    return numbers


# ---- steps

STEP = re.compile(rb"(?:one|start ([0-9]{1,9})|times ([0-9]{1,9}) ([0-9]{1,9}))((?: [0-9]{1,17},[0-9]{1,17})*)")


class Checker:
    """The plan, the cells of its grid, and of each step that has passed the label and its packed low and high ends."""

    def __init__(self, plan, cells):
        self.cells, self.steps = cells, []
        self.targets = [unit.target for unit in plan]
        self.labels = [[int(unit is other) for other in plan] for unit in plan]
        self.starts = [(recursion if unit.kind in ABOVE_ZERO else one_claim)(unit, cells) for unit in plan]

    def label_of(self, names):
        """How often a step with these numbers, of a unit or of two steps, counts each unit."""
        if len(names) == 1:
            return self.labels[names[0]]
        first, second = [self.steps[name][0] for name in names] or [[0] * len(self.targets)] * 2
        return list(map(add, first, second))

    def numbers_of(self, names, low, high):
        """The low and the high numbers of such a step with these packed ends."""
        if not names:
            return [[ONE] + [0] * (self.cells - 1)] * 2
        if len(names) == 1:
            return self.starts[names[0]](low, high)
        lows, highs = zip(*(self.steps[name][1:] for name in names))
        return floors(sums(*lows, self.cells), ONE), ceilings(sums(*highs, self.cells), ONE)

    def passes(self, line):
        """Whether a line is a step that passes its test; then the step is kept."""
        match = STEP.fullmatch(line) if line.count(b",") == self.cells else None
        if not match:
            return False
        *names, ends = match.groups()
        names = [int(name) for name in names if name]
        ends = list(map(int, ends.replace(b",", b" ").split()))
        lows, highs = ends[::2], ends[1::2]
        if any(map(gt, lows, highs)) or max(highs) > ONE or sum(lows) > ONE:
            return False
        try:
            label = self.label_of(names)
        except IndexError:
            return False
        if any(map(gt, label, self.targets)):
            return False
        low, high = packed(lows), packed(highs)
        low_numbers, high_numbers = self.numbers_of(names, low, high)
        if any(map(gt, lows, low_numbers)) or any(end < least and end < ONE for end, least in zip(highs, high_numbers)):
            return False
        self.steps.append((label, low, high))
        return True

    def first_bad(self, lines):
        """The number of the first bad step; None where the last one is for the total."""
        for number, line in enumerate(lines):
            if not self.passes(line):
                return number
        return None if lines and self.steps[-1][0] == self.targets else len(lines)


def first_bad(plan, cells, text):
    """The number of the first bad step of a text; None where its last step encloses the total of the plan."""
    lines = text.split(b"\n")
    if not lines[-1]:
        lines.pop()
    return Checker(plan, cells).first_bad(lines)


def ask_size(steps, cells):
    """Refuses a text of more steps than are read."""
    lines = steps.count(b"\n") + (steps[-1:] not in (b"", b"\n"))
    asks(lines <= MOST_STEPS, "more than 32,768 steps")
    asks(lines * cells <= MOST_STEP_CELLS, "more than 524,288 cells in all steps")


def halves(data):
    """The program and the steps: the first line that is --- stands between them."""
    if data.startswith(b"---\n") or data == b"---":
        return b"", data[4:]
    at = data.find(b"\n---\n")
    if at >= 0:
        return data[: at + 1], data[at + 5 :]
    if data.endswith(b"\n---"):
        return data[:-3], b""
    return data, b""


def answer(data, bucket, log2, plan_alone=False):
    """The status and what is written for a program, the line --- and steps."""
    program, steps = halves(data)
    try:
        asks(len(data) <= MOST_INPUT, "more than 67,108,864 bytes")
        if not plan_alone:
            ask_size(steps, 2**log2)
        plan = plan_of(program, bucket)
    except Unread as fault:
        return 2, f"not read: {fault}"
    except NotCovered as fault:
        return 2, f"unit {fault}: not covered"
    if plan_alone:
        return 0, "\n".join([f"log2 {log2}", *(unit.line() for unit in plan)])
    bad = first_bad(plan, 2**log2, steps)
    return (0, "verified") if bad is None else (1, f"step {bad}: not verified")


# ---- the call


def words_of(words):
    """The bucket, log2, whether the plan alone is written, and the file or None."""
    found, words = {}, [part for word in words for part in (word.split("=", 1) if word.startswith("--") else [word])]
    while words:
        word = words.pop(0)
        name = word if word in ("--bs", "--log2", "--plan") else "file"
        asks(name not in found and (name != "file" or not word.startswith("-")), "words")
        asks(words or name not in ("--bs", "--log2"), "words")
        found[name] = words.pop(0) if name in ("--bs", "--log2") else word
    bucket, log2 = found.get("--bs", "1"), found.get("--log2", "10")
    asks(NUMERAL.fullmatch(bucket) and re.fullmatch("0*([1-9]|10)", log2) and len(log2) <= 15, "words")
    asks(value_of(bucket) > 0, "words")
    return value_of(bucket), int(log2), "--plan" in found, found.get("file")


def told(words):
    """The status of a call, and what it writes."""
    try:
        bucket, log2, plan_alone, file = words_of(words)
    except Unread:
        return 3, "usage: check_steps.py [--bs V] [--log2 N] [--plan] [FILE]"
    try:
        with open(0 if file is None else file, "rb") as source:
            return answer(source.read(MOST_INPUT + 1) or b"", bucket, log2, plan_alone)
    except OSError as fault:
        return 4, f"the input could not be read: {fault.strerror}"
    except MemoryError:
        return 6, "memory is short"


def is_written(said, number):
    """Whether a text and a newline went to standard output, 1, or to standard error, 2."""
    try:
        with open(number, "w", encoding="latin-1", closefd=False) as output:
            print(said, file=output)
    except OSError:
        return False
    return True


def main(words):
    status, said = told(words)
    if status == 0 and not is_written(said, 1):
        status, said = 5, "the output could not be written"
    if status:
        is_written(said, 2)
    return status


if __name__ == "__main__":
    sys.exit(main(sys.argv[1:]))
