#!/usr/bin/env python3
"""Shares of the tail mean at every quantile (`--rules extended`) of random books, worked apart from the program.

    python3 clients/every_share.py [COUNT [SEED]]

Of COUNT books (1,000), one half has independent units and one half a common factor; of each eight, one has 65,536 buckets and its quantile
past 30,000, one asks where the distribution function is exactly the level, so that the bracket of the quantile has two ends, and one where
the total at the quantile is rarer than 1 in 65,536. A tenth of all books has to have numbers in each of these three ways. Each row has to
agree with the second opinion (clients/opinion), whose own ends lie at most 10^-60 apart; in short books it also holds the share as an exact
fraction, worked here from the definition (docs/DEFINITIONS.md, "Prices, and shares of the tail mean"). Shares have numbers exactly where
the tail mean has, and those of all units add up to it: their sum meets its interval. The last line is 'N passed, M failed'.
"""

import math
import random
import sys
import time
from collections import Counter
from fractions import Fraction

from opinion import AGREES, Opinion
from opinion_test import run, wider

COUNT = 1000
CLOSE = Fraction(1, 10**60)  # how far the ends of the second opinion may lie apart
FAR, RARE = 30_000, Fraction(1, 65_536)
SHORT = 80  # a book under a factor is worked exactly up to this total
KINDS = ("long", "tied", "rare")  # the first of each eight books; the others are short


class Listed:
    """A unit of a listed count: the chances of its counts, and those of its amounts, in whole parts."""

    def __init__(self, counts, amounts):
        self.counts, self.amounts = counts, amounts

    def spelled(self, name):
        """The unit as a text; equal chances of amounts in a row as a range."""
        evenly = range(min(self.amounts), max(self.amounts) + 1)
        is_range = list(self.amounts) == list(evenly) and len(set(self.amounts.values())) == 1 and len(evenly) > 1
        amounts = f"[{evenly[0]}:{evenly[-1]}]" if is_range else with_chances(self.amounts)
        return f"agg {name} dfreq {with_chances(self.counts)} dsev {amounts}"

    def law(self):
        """The outcomes in whole parts, and the sum of these."""
        most, claims = max(self.counts), sum(self.amounts.values())
        found, sums = Counter(), {0: 1}
        for count in range(most + 1):
            for outcome, part in sums.items():
                found[outcome] += self.counts.get(count, 0) * part * claims ** (most - count)
            sums = added(sums, self.amounts) if count < most else sums
        return found, sum(self.counts.values()) * claims**most


class Claims:
    """A unit of a book under a factor: the claims that are expected of it, and the chances of its amounts in whole parts."""

    def __init__(self, expected, amounts, count="poisson"):
        self.expected, self.amounts, self.count = expected, amounts, count

    def spelled(self, name):
        """The unit as a text."""
        return f"agg {name} {self.expected} claims dsev {with_chances(self.amounts)} {self.count}"

    @property
    def amount(self):
        """The mean amount of a claim."""
        return Fraction(sum(amount * part for amount, part in self.amounts.items()), sum(self.amounts.values()))


def with_chances(parts):
    """Numbers as a list, and behind it their chances."""
    whole = sum(parts.values())
    return f"[{' '.join(map(str, parts))}] [{' '.join(f'{part}/{whole}' for part in parts.values())}]"


def added(one, other):
    """The sum of two independent amounts, in whole parts."""
    found = Counter()
    for x, part in one.items():
        for y, more in other.items():
            found[x + y] += part * more
    return found


class Book:
    """A random book: its units by name, the coefficient of variation of its factor or None, and the length of its grid."""

    def __init__(self, units, common, log2):
        self.units, self.common, self.log2 = units, common, log2
        head = "port P" + (f" common {common}" if common else "")
        self.text = "\n".join([head, *(unit.spelled(name) for name, unit in units.items())])

    def exact(self):
        """The probabilities of the totals from 0 on, as far as they are worked exactly, and with each of them the mean outcome of each
        unit there; nothing where the book is not short, or has a factor whose shape is not whole."""
        if any(isinstance(unit, Listed) for unit in self.units.values()):
            yield from self.of_lists()
        elif self.common and (1 / Fraction(self.common)).denominator == 1:
            yield from self.of_claims()

    def of_lists(self):
        """Independent units: the sums over all outcomes of a unit and of the others."""
        laws = {name: unit.law() for name, unit in self.units.items()}
        whole = math.prod(parts for _, parts in laws.values())
        means = {name: Counter() for name in laws}
        for name, (law, _) in laws.items():
            others = {0: 1}
            for other, (more, _) in laws.items():
                others = added(others, more) if other != name else others
            totals = Counter()
            for y, part in law.items():
                for rest, more in others.items():
                    totals[y + rest] += part * more
                    means[name][y + rest] += y * part * more
        for x in range(max(totals) + 1):
            yield Fraction(totals[x], whole), {name: Fraction(of_unit[x], whole) for name, of_unit in means.items()}

    def of_claims(self):
        """Under a factor, where amounts are above 0: the sums over the number of claims of all units, of which each is of a unit and an
        amount with the same chance; so a claim in n has n times the mean of one, with n - 1 others."""
        expected, shape = sum(unit.expected for unit in self.units.values()), int(1 / Fraction(self.common) ** 2)
        one, own = Counter(), {}
        for name, unit in self.units.items():
            each = Fraction(unit.expected, expected) / sum(unit.amounts.values())
            own[name] = {amount: each * part for amount, part in unit.amounts.items()}
            one.update(own[name])
        q = Fraction(expected) / (shape + expected)
        powers = [{0: Fraction(1)}]
        for _ in range(min(SHORT, 2**self.log2 - 1)):
            powers.append({x: part for x, part in added(powers[-1], one).items() if x <= SHORT})
        chances = [math.comb(shape + n - 1, n) * (1 - q) ** shape * q**n for n in range(len(powers))]
        for x in range(len(powers)):
            means = {}
            for name, of_unit in own.items():
                pairs = [(n, amount, part) for n in range(1, x + 1) for amount, part in of_unit.items()]
                means[name] = sum(n * chances[n] * amount * part * powers[n - 1].get(x - amount, 0) for n, amount, part in pairs)
            yield sum(chance * claims.get(x, 0) for chance, claims in zip(chances, powers)), means

    def means(self):
        """The mean of each unit."""
        found = {}
        for name, unit in self.units.items():
            law, whole = unit.law() if isinstance(unit, Listed) else ({}, 1)
            found[name] = Fraction(sum(y * part for y, part in law.items()), whole) if law else unit.expected * unit.amount
        return found

    def shares(self, p):
        """The exact share of each unit in the tail mean at p: its mean less what it has with totals up to the quantile, but for the part
        of the quantile that belongs to the worst 1 - p; nothing where the quantile is past what is worked exactly, or past the grid."""
        reached, above = Fraction(0), self.means()
        for x, (chance, means) in zip(range(2**self.log2), self.exact()):
            reached += chance
            above = {name: above[name] - means[name] for name in above}
            if reached >= p:
                part = (reached - p) / chance if chance else 0
                return {name: (above[name] + part * means[name]) / (1 - p) for name in above}
        return {}


def some(rng, numbers, least, most):
    """Some of these numbers, from the least to the most of them, with random chances in whole parts."""
    return {number: rng.randint(1, 12) for number in sorted(rng.sample(numbers, rng.randint(least, most)))}


def listed(rng, most=8):
    """A unit of a listed count."""
    return Listed(some(rng, range(4), 1, 3), some(rng, range(most + 1), 1, 4))


def names(rng, most=3):
    """The names of two units or more."""
    return "ABC"[: rng.randint(2, most)]


def factor(rng):
    """A short book under a common factor."""
    units = {name: Claims(Fraction(rng.randint(1, 6), rng.choice((1, 2, 3))), some(rng, range(1, 6), 1, 3)) for name in names(rng)}
    return Book(units, rng.choice(("1", "1/2", "1/2", "1/3", "0.3", "1.25")), rng.choice((5, 6, 7)))


def short(rng, common):
    """A short book and any level."""
    book = factor(rng) if common else Book({name: listed(rng) for name in names(rng)}, None, 8)
    return book, rng.choice((Fraction(rng.randint(0, 999), 1000), Fraction(rng.randrange(10**9), 10**9), Fraction(rng.randrange(97), 97)))


def tied(rng, common):
    """A short book and a level that its distribution function has; no power of 1/2, so that the program does not hold it exactly."""
    while True:
        if common:
            units = {name: Claims(Fraction(rng.randint(1, 4)), {rng.randint(1, 3): 1}) for name in names(rng)}
            book = Book(units, rng.choice(("1", "1", "1/2")), 7)
        else:
            book = Book({name: Listed({1: 1}, some(rng, range(9), 2, 3)) for name in names(rng, 2)}, None, 6)
        reached, found = Fraction(0), set()
        for _, (chance, _) in zip(range(12), book.exact()):
            reached += chance
            if reached.denominator < 10**9 and reached.denominator & (reached.denominator - 1):
                found.add(reached)
        found.discard(Fraction(1))
        if found:
            return book, rng.choice(sorted(found))


def rare(rng, common):
    """A book and a level so high that the total at the quantile is rare."""
    p = 1 - Fraction(rng.randint(1, 90), 10**7)
    if not common:
        return Book({name: Listed({1: 1}, dict.fromkeys(range(1, rng.randint(500, 1001)), 1)) for name in "AB"}, None, 11), p
    units = {name: Claims(Fraction(rng.randint(1, 4), 2), some(rng, range(1, 4), 2, 2)) for name in "AB"}
    return Book(units, rng.choice(("1/2", "0.45")), 8), p


def long(rng, common):
    """A book whose total reaches past 30,000 buckets."""
    mean, units = rng.randint(35_000, 40_000), {}
    for name in names(rng):
        amounts = some(rng, range(1, rng.choice((40, 400, 2000))), 1, 4)
        claims = Fraction(mean, 2 if name < "C" else 20) / Claims(1, amounts).amount
        most = 1600 if name < "C" else 160
        kinds = ("poisson", "poisson", "geometric" if name == "C" else "poisson", "fixed", "binomial 1/2")
        kind = "poisson" if common else rng.choice(kinds)
        units[name] = Claims(min(math.ceil(claims), most if kind != "fixed" else 60_000), amounts, kind)
        while units[name].expected * units[name].amount * (20 if name == "C" else 2) < mean:
            units[name].amounts = {amount * 2: part for amount, part in units[name].amounts.items()}
    part, whole = rng.choice(((rng.randint(50, 99), 100), (rng.randint(9000, 9999), 10**4), (rng.randrange(5 * 10**8, 10**9), 10**9)))
    return Book(units, common and rng.choice(("1/5", "0.1", "1/7", "0.15")), 16), Fraction(part, whole)


def spelled(p):
    """A level as a word: a decimal of 9 digits where it is one, else a fraction."""
    return f".{int(p * 10**9):09}" if 10**9 % p.denominator == 0 else str(p)


def ends(row):
    """The two numbers of a row."""
    return [Fraction(end) for end in row[1:]]


def faults(rng, book, p, seen):
    """What is wrong with the report on one book; counts what was seen."""
    level = spelled(p)
    shares = {name: f"cotail:{name}:{level}" for name in book.units}
    digits = rng.randint(1, 9) if book.log2 < 16 else rng.randint(1, 3)
    words = ["run", "--rules", "extended", "--log2", str(book.log2), "--digits", str(digits), f"q:{level}", f"tail:{level}"]
    words += [*shares.values(), "--width", str(10**9), "--mwidth", str(10**12)]
    status, out, err = run(words, book.text)
    if status == 4:
        words = wider(words, err)
        status, out, err = run(words, book.text)
    if status:
        yield err
        return
    opinion = Opinion(book.text, words)
    yield from (f"{each}: {row}" for each, row in zip(opinion.of_report(out), out.splitlines()) if each != AGREES)
    bracket, tail, *rows = (line.split(" ") for line in out.splitlines())
    if [row[0] for row in rows] != [*shares.values()] or len({row[1] == "beyond" for row in [tail, *rows]}) > 1:
        yield "shares have no numbers where the tail mean has some, or some where it has none"
    elif tail[1] != "beyond":
        yield from faults_of_numbers(book, p, seen, opinion, ends(tail), {name: ends(row) for name, row in zip(shares, rows)})
        at = opinion.book.total.bracket(p, opinion.book.cells)[1]
        seen["long"] += at > FAR
        seen["tied"] += bracket[1] != bracket[2]
        seen["rare"] += opinion.book.total.cells.ends(at).high < RARE
        seen["common" if book.common else "independent"] += 1


def faults_of_numbers(book, p, seen, opinion, tail, rows):
    """What is wrong with the numbers of the shares: against each other, the second opinion, and the exact fractions."""
    sums = [sum(row[end] for row in rows.values()) for end in (0, 1)]
    if sums[0] > tail[1] or tail[0] > sums[1]:
        yield f"the shares add up to {float(sums[0])} or {float(sums[1])}, and the tail mean is {float(tail[0])}"
    own = {name: opinion.book.value(("share", name, p)) for name in rows}
    exact = book.shares(p)
    for name, (low, high) in rows.items():
        seen["shares"] += 1
        if own[name].high - own[name].low > CLOSE:
            yield f"the second opinion of {name} is {float(own[name].high - own[name].low)} wide"
        if not low <= own[name].high or not own[name].low <= high:
            yield f"the share of {name} is {float(own[name].low)}"
        if exact:
            seen["exact"] += 1
            if not own[name].low <= exact[name] <= own[name].high or not low <= exact[name] <= high:
                yield f"the share of {name} is {exact[name]}"
    whole = opinion.book.value(("tail", p))
    if sum(each.low for each in own.values()) > whole.high or whole.low > sum(each.high for each in own.values()):
        yield "the shares of the second opinion do not add up to its tail mean"


def main():
    """Tries all books; so many of each kind have to be met."""
    count = int(sys.argv[1]) if len(sys.argv) > 1 else COUNT
    rng, begun, seen, passed, failed = random.Random(int(sys.argv[2]) if len(sys.argv) > 2 else 5), time.time(), Counter(), 0, 0
    for number in range(count):
        kind = KINDS[number % 8] if number % 8 < len(KINDS) else "short"
        book, p = {"long": long, "tied": tied, "rare": rare, "short": short}[kind](rng, number // 8 % 2 == 1)
        wrong = list(faults(rng, book, p, seen))
        passed, failed = passed + (not wrong), failed + bool(wrong)
        if wrong:
            print("FAILED:", kind, p, book.text, *wrong, sep="\n  ", flush=True)
    for kind in KINDS:
        if seen[kind] < count // 10:
            print(f"FAILED: {seen[kind]} books are {kind}")
            failed += 1
    print(f"{count} books in {time.time() - begun:.0f} s, with numbers:", ", ".join(f"{name} {many}" for name, many in seen.items()))
    print(f"{passed} passed, {failed} failed")
    return 1 if failed else 0


if __name__ == "__main__":
    sys.exit(main())
