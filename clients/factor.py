#!/usr/bin/env python3
"""Portfolios under a common factor, worked apart from the program by the second opinion (clients/opinion): each row of random portfolios.

The second opinion takes the total from one unit for all, and a joint mean from that unit with one more in its shape. Both are worked a
second time for some portfolios, by adding up over all claims lists (docs/DEFINITIONS.md, "A common factor"). The last line is
'N passed, M failed'.
"""

import itertools
import math
import random
import sys
from fractions import Fraction

from opinion import AGREES, Book, Opinion
from opinion_test import run

BOOKS = 200
CELLS = 32


def even(amounts):
    """Amounts that are equally likely."""
    return {amount: Fraction(1, len(amounts)) for amount in amounts}


def spelled(c, units):
    """The portfolio as a program: each unit has its expected claims, and its amounts with their chances."""
    lines = [f"port C common {c}"]
    for name, (claims, chances) in units.items():
        lines.append(f"agg {name} {claims} claims dsev [{' '.join(map(str, chances))}] [{' '.join(map(str, chances.values()))}] poisson")
    return "\n".join(lines)


def by_claims(c, units, name, x):
    """The probability of a total of x, and the mean of a unit's outcome there, over all claims lists: amounts are above 0, so at most
    x claims add up to x. A claims list has the counts n_i with the chance of a gamma mixed Poisson count of n = the sum of the n_i."""
    whole, shape = sum(claims for claims, _ in units.values()), int(1 / Fraction(c) ** 2)
    found = joint = Fraction(0)
    for counts in itertools.product(range(x + 1), repeat=len(units)):
        n = sum(counts)
        if n > x:
            continue
        chance = Fraction(math.comb(shape + n - 1, n) * math.factorial(n)) * (shape / (shape + whole)) ** shape
        for count, (claims, _) in zip(counts, units.values()):
            chance *= (claims / (shape + whole)) ** count / math.factorial(count)
        sums = [claims_of(count, chances, x) for count, (_, chances) in zip(counts, units.values())]
        for outcomes in itertools.product(*(each.items() for each in sums)):
            if sum(amount for amount, _ in outcomes) == x:
                part = chance * math.prod((part for _, part in outcomes), start=Fraction(1))
                found += part
                joint += part * outcomes[list(units).index(name)][0]
    return found, joint


def claims_of(count, chances, most):
    """The probability of each sum of so many claims, up to the greatest that counts."""
    sums = {0: Fraction(1)}
    for _ in range(count):
        longer = {}
        for (amount, part), (more, chance) in itertools.product(sums.items(), chances.items()):
            if amount + more <= most:
                longer[amount + more] = longer.get(amount + more, 0) + part * chance
        sums = longer
    return sums


def by_definition():
    """Whether the totals and joint means of small portfolios are the same by claims lists."""
    one_each = {"A": (Fraction(1), even([1])), "B": (Fraction(2), even([1]))}
    three = {"A": (Fraction(1, 2), even([1, 3])), "B": (Fraction(2), even([2, 3])), "C": (Fraction(0), even([1]))}
    for c, units in (("1/2", one_each), ("1/3", three)):
        book = Book(spelled(c, units), cells=8)
        for name, x in itertools.product(units, range(6)):
            own = book.value(("pmf", x)), book.value(("joint", name, x))
            yield all(low <= value <= high for value, (low, high) in zip(by_claims(c, units, name, x), own))


def random_units(rng):
    """One to four units; an amount may be 0, and a unit may expect no claim."""
    units = {}
    for name in "ABCD"[: rng.randint(1, 4)]:
        amounts = sorted(rng.sample(range(9), rng.randint(1, 3)))
        weights = [rng.randint(1, 6) for _ in amounts]
        chances = {amount: Fraction(weight, sum(weights)) for amount, weight in zip(amounts, weights)}
        units[name] = Fraction(rng.randint(0, 8), rng.choice((1, 2, 3))), chances
    units["A"] = (units["A"][0] or Fraction(1), units["A"][1])
    return units


def is_right(rng):
    """Whether the rows of one random portfolio agree, and the shares of a total overlap it."""
    text = spelled(Fraction(1, rng.choice((1, 1, 2, 2, 3, 4))), random_units(rng))
    x, inside, level = rng.randrange(CELLS), rng.randrange(CELLS), Fraction(rng.randint(1, 96), 97)
    asks = ["mean", f"pmf:{x}", f"cdf:{x}", f"layer:{CELLS - inside}xs{inside}", "layer:infxs3"]
    asks += [f"q:{level}", f"tail:{level}", f"price:1/3@0+2/3@{level}"]
    asks += [f"{kind}:{name}:{x}" for name in Book(text).names for kind in ("joint", "kappa")]
    words = ["run", "--log2", "5", "--mwidth", "20", *asks]
    status, out, err = run(words, text)
    said = Opinion(text, words).of_report(out) if not status else [err]
    if any(each != AGREES for each in said):
        print("FAILED:", text, *said, sep="\n")
        return False
    shares = [row for row in (line.split(" ") for line in out.splitlines()) if row[0].startswith("kappa") and row[1] != "-"]
    return not shares or sum(Fraction(row[1]) for row in shares) <= x <= sum(Fraction(row[2]) for row in shares)


def main():
    """Works all rows."""
    rng = random.Random(18)
    right = [*by_definition(), *(is_right(rng) for _ in range(BOOKS))]
    print(f"{sum(right)} passed, {len(right) - sum(right)} failed")
    return 0 if all(right) else 1


if __name__ == "__main__":
    sys.exit(main())
