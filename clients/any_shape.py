#!/usr/bin/env python3
"""Gamma counts and common factors of any shape (`--rules extended`) in random books, worked apart from the program with 60 digits.

    python3 clients/any_shape.py [COUNT [SEED]]

Of COUNT books (500) one in five has a changed probability of no claim, and one in five has several units under a common factor; the
others are one unit. Shapes lie from 0.001 to 10,000, expected claims from 1/16 to 4,096, and a severity has from 1 to 1,024 amounts; one
half of the books has at most 4,096 buckets, the other half more. The probabilities are worked here in decimals of 80 digits, by Panjer's
recursion from the probability of no claim. Each `pmf` and `tail` has to hold its value between two ends that are as close as asked, and
each bracket of `q` the quantile; `beyond` stands only where the grid ends before the quantile. Each kind of book has to have numbers for
`tail` in a tenth of all books. The last line is 'N passed, M failed'.
"""

import decimal
import math
import random
import sys
import time
from bisect import bisect_left
from collections import Counter
from decimal import Decimal
from fractions import Fraction
from itertools import accumulate

from opinion_test import run, wider

MOST_WIDTH = 10**12  # of a mean, in units of the last digit
COUNT = 500
KINDS = ("zero", "common", "plain", "plain", "plain")  # of five books
STEPS = 1 << 20  # amounts times cells of a book
CLOSE = Decimal("1e-60")  # how far a probability that is worked here can be off, in parts of 1
decimal.getcontext().prec = 80


def real(number):
    """A fraction as a decimal."""
    return Decimal(number.numerator) / number.denominator


def no_claim(mean, shape):
    """The probability of no claim of a gamma count."""
    return (1 + real(mean / shape)) ** -real(shape)


def gamma(mean, shape, severity, cells):
    """The probabilities of the sums from 0 on of a gamma number of claims above 0. With `q = v / (r + v)` that of `s`, times `s`, is the
    sum over the amounts `j` of `q * (s + (r - 1) * j) * f(j)` times that of `s - j`."""
    q, found = real(mean / (shape + mean)), [no_claim(mean, shape)]
    parts = [(j, q * real(chance), q * real((shape - 1) * j * chance)) for j, chance in sorted(severity.items())]
    for s in range(1, cells):
        whole = by_amount = Decimal(0)
        for j, chance, amount in parts:
            if j > s:
                break
            whole += chance * found[s - j]
            by_amount += amount * found[s - j]
        found.append(whole + by_amount / s)
    return found


class Book:
    """A count of a coefficient of variation `variation`, and units: each a number of expected claims, and the probabilities of its amounts.
    An only unit has a gamma count, whose probability of no claim is changed to `zero` where that is a number; several have a factor."""

    def __init__(self, units, variation, cells, zero):
        self.units, self.shape, self.cells, self.zero = units, 1 / variation**2, cells, zero
        change = "" if zero is None else f" zm {zero}" if zero else " zt"
        head = f"port P common {variation}\n" if len(units) > 1 else ""
        self.text = head + "\n".join(self.spelled(k, "poisson" if head else f"mixed gamma {variation}{change}") for k in range(len(units)))
        self.expected = sum(expected for expected, _ in units)
        self.severity = Counter()
        for expected, severity in units:
            self.severity.update({amount: expected / self.expected * chance for amount, chance in severity.items()})
        self.mean = self.expected * (1 - self.severity.pop(0, 0))  # of the claims above 0

    def spelled(self, k, count):
        """A unit as a text; equal probabilities of amounts in a row as a range."""
        expected, severity = self.units[k]
        amounts, steps = list(severity), {after - before for before, after in zip(severity, list(severity)[1:])}
        if len(steps) == len(set(severity.values())) == 1:
            return f"agg U{k} {expected} claims dsev [{amounts[0]}:{amounts[-1]}:{steps.pop()}] {count}"
        return f"agg U{k} {expected} claims dsev [{' '.join(map(str, amounts))}] [{' '.join(map(str, severity.values()))}] {count}"

    @property
    def is_accepted(self):
        """Whether the rules take the book."""
        shape, is_shared = self.shape, len(self.units) > 1
        raised = 1 + 1 / shape if is_shared else Fraction(1)
        numbers = [shape, shape + 1, self.expected * raised, self.mean * raised]
        numbers += accumulate(expected * (1 - severity.get(0, 0)) for expected, severity in self.units)
        numbers += accumulate(expected for expected, _ in self.units)
        is_small = all(max(part.numerator, part.denominator) < 2**48 for part in numbers)
        is_small &= all(max(part.numerator, part.denominator) < 2**62 for part in (self.expected / shape, self.mean / shape))
        parts = [expected / self.expected * chance for expected, severity in self.units for chance in severity.values()]
        least = min(self.expected, 1 / (1 / shape + 1 / self.expected) if shape < 1 else 1)
        is_base = self.zero is None or (least >= Fraction(1, 16) and self.expected <= 4096)
        is_small &= math.lcm(*(part.denominator for part in parts)) <= 2**40 and shape <= 10_000 - is_shared
        return is_small and is_base and 0 < self.mean * raised <= 4096 and self.mean <= 32_768 * shape

    def chances(self):
        """The probabilities of the totals, and their mean."""
        whole, mean = self.mean / self.expected, real(self.expected * sum(j * chance for j, chance in self.severity.items()))
        found = gamma(self.mean, self.shape, {j: chance / whole for j, chance in self.severity.items()}, self.cells)
        if self.zero is not None:
            none, zero = no_claim(self.expected, self.shape), real(self.zero)
            found[0], kept = found[0] - none, (1 - zero) / (1 - none)
            found, mean = [chance * kept for chance in found], mean * kept
            found[0] += zero
        return found, mean


def near(rng, least, most):
    """A number between two of which the logarithm is uniform, as a short decimal or fraction."""
    number = Fraction(least * (most / least) ** rng.random())
    digits = rng.randint(1, 5)
    short = number.limit_denominator(10**digits) if rng.random() < 0.5 else Fraction(f"{float(number):.{digits}g}")
    return min(max(short, Fraction(least)), Fraction(most))


def some(rng, most, reach):
    """A severity of 1 to so many amounts that go to about this reach, one of them above 0."""
    many = round(min(most, reach) ** rng.random())
    if rng.random() < 0.5:
        first, step = rng.randint(many == 1, 2), rng.randint(1, max(reach // many, 1))
        return dict.fromkeys(range(first, first + many * step, step), Fraction(1, many))
    parts = {amount: rng.randint(1, 12) for amount in sorted(rng.sample(range(reach + 1), many))}
    parts = parts if set(parts) != {0} else {1: 1}
    return {amount: Fraction(part, sum(parts.values())) for amount, part in parts.items()}


def random_book(rng, kind, is_long):
    """A book of a kind that the rules take."""
    while True:
        cells, many = 2 ** (rng.randint(13, 16) if is_long else rng.randint(4, 12)), rng.choice((2, 2, 3, 5)) if kind == "common" else 1
        variation, expected = near(rng, 0.01, 31.6), near(rng, 1 / 16, 4096)
        reach, most = round(cells / float(expected) * rng.choice((0.1, 0.5, 0.5, 3))), min(1024, STEPS // cells // many)
        severities = [some(rng, most, min(max(reach, 1), 10**6)) for _ in range(many)]
        parts = [rng.randint(1, 9) for _ in severities]
        units = [(expected * part / sum(parts), severity) for part, severity in zip(parts, severities)]
        book = Book(units, variation, cells, rng.choice((Fraction(0), Fraction(rng.randint(0, 99), 100))) if kind == "zero" else None)
        numerals = [str(part) for number in (variation, *(each for each, _ in units)) for part in number.as_integer_ratio()]
        if book.is_accepted and max(map(len, numerals)) <= 11:
            return book


def call(rng, book, sums):
    """The words of a call for some totals, most of which are no rare ones, and for some levels."""
    low, high = (min(bisect_left(sums, Decimal(level)), book.cells - 1) for level in ("0.01", "0.99"))
    totals = {0, rng.randrange(book.cells), *(rng.randint(low, high) for _ in range(3))}
    levels = [Fraction(rng.randint(0, 999), 1000), 1 - Fraction(rng.randint(1, 9), 10 ** rng.randint(2, 6))]
    asks = [*(f"pmf:{x}" for x in totals), *(f"{kind}:{p}" for p in levels for kind in ("q", "tail"))]
    return ["run", "--rules=extended", "--log2", str(book.cells.bit_length() - 1), "--digits", str(rng.randint(1, 6)), *asks]


def is_right(what, ends, p, sums, spread):
    """Whether a bracket holds the quantile, and inside it the distribution lies so near to its level; or whether the grid ends before."""
    x, low = bisect_left(sums, p), int(ends[0]) if what == "q" else 0
    if ends[1] == "beyond":
        return sums[-1] <= p + spread
    return low <= x <= int(ends[1]) and (low == int(ends[1]) or p - spread <= sums[low] <= sums[int(ends[1]) - 1] <= p + spread)


def faults(rng, book, seen):
    """What is wrong with the report on one book; counts what was seen."""
    chances, mean = book.chances()
    sums = list(accumulate(chances))
    words = call(rng, book, sums)
    status, out, err = run(words, book.text)
    for _ in words:  # each ask may need more
        if status == 4:
            words = wider(words, err)
            if int(words[-1]) > MOST_WIDTH:
                return
            status, out, err = run(words, book.text)
    if status:
        yield err
    unit, widths = Decimal(10) ** -int(words[5]), [*map(int, words[-3::2])] if "--mwidth" in words else [10, 10**6]
    for line in out.splitlines():
        ask, *ends = line.split(" ")
        what, _, at = ask.partition(":")
        width, p = widths[what == "tail"] * unit, real(Fraction(at))
        if what == "q" or ends[1] == "beyond":
            if not is_right(what, ends, p, sums, width if what == "q" else width / book.cells):
                yield f"{line}, and the quantile is {bisect_left(sums, p)}"
            continue
        value, x = chances[int(at)] if what == "pmf" else Decimal(0), bisect_left(sums, p)
        if what == "tail":
            value = x + (mean - x + sum((x - y) * chance for y, chance in enumerate(chances[:x]))) / (1 - p)
        seen[what] += 1
        low, high = map(Decimal, ends)
        if not low - CLOSE <= value <= high + CLOSE or high - low > width:
            yield f"{line}, and it is {value:.30f}"


def main():
    """Tries all books."""
    count = int(sys.argv[1]) if len(sys.argv) > 1 else COUNT
    rng, begun, seen, passed, failed = random.Random(int(sys.argv[2]) if len(sys.argv) > 2 else 5), time.time(), Counter(), 0, 0
    for number in range(count):
        kind, before = KINDS[number % 5], seen["tail"]
        book = random_book(rng, kind, number // 5 % 2 == 1)
        wrong = list(faults(rng, book, seen))
        passed, failed = passed + (not wrong), failed + bool(wrong)
        seen[kind] += seen["tail"] > before
        seen["below 1"] += book.shape < 1
        if wrong:
            print("FAILED:", kind, book.cells, book.text[:1000], *wrong, sep="\n  ", flush=True)
    for what in (*KINDS[:3], "below 1"):
        if seen[what] < count // 10:
            print(f"FAILED: {what} has numbers in {seen[what]} books")
            failed += 1
    print(f"{count} books in {time.time() - begun:.0f} s, with numbers:", ", ".join(f"{name} {many}" for name, many in seen.items()))
    print(f"{passed} passed, {failed} failed")
    return 1 if failed else 0


if __name__ == "__main__":
    sys.exit(main())
