#!/usr/bin/env python3
"""Shares of the tail mean of a thousand random portfolios, worked apart from the program by the second opinion (clients/opinion).

For each unit the share by its definition in docs/DEFINITIONS.md ("Prices, and shares of the tail mean") has to lie between the two ends
of its row; and where all rows of a portfolio have numbers, the sums of the ends overlap the ends of the tail mean. The last line is
'N passed, M failed'.
"""

import random
import sys
from fractions import Fraction

from opinion import AGREES, Opinion
from opinion_test import run

BOOKS = 1000
LAST = Fraction(1, 10**6)  # a unit of the last digit


def weighted(rng, values):
    """These values as a list, and behind it their random probabilities, with denominators of two digits."""
    weights = [rng.randint(1, 20) for _ in values]
    return f"[{' '.join(map(str, values))}] [{' '.join(f'{weight}/{sum(weights)}' for weight in weights)}]"


def unit(rng, name):
    """A random unit of a listed count."""
    counts = sorted(rng.sample(range(4), rng.randint(1, 3)))
    return f"agg {name} dfreq {weighted(rng, counts)} dsev {weighted(rng, sorted(rng.sample(range(9), rng.randint(1, 4))))}"


def is_right(rng):
    """Whether the rows of one random portfolio agree, and the shares overlap the tail mean; how many shares had numbers."""
    names = "ABC"[: rng.randint(2, 3)]
    text = "\n".join(["port P", *(unit(rng, name) for name in names)])
    level = Fraction(rng.randint(0, 96), 97)
    words = ["run", "--log2", "8", f"tail:{level}", *(f"cotail:{name}:{level}" for name in names)]
    status, out, _ = run(words, text)
    if status:
        return False, 0
    well = all(said == AGREES for said in Opinion(text, words).of_report(out))
    (_, *tail), *shares = (line.split(" ") for line in out.splitlines())
    with_numbers = [row for row in shares if row[1] != "-"]
    if len(with_numbers) == len(names):
        low, high = (sum(Fraction(row[end]) for row in with_numbers) for end in (1, 2))
        well = well and low <= Fraction(tail[1]) and Fraction(tail[0]) <= high and high - low <= len(names) * 2 * LAST
    return well, len(with_numbers)


def main():
    """Tries all portfolios."""
    rng = random.Random(20)
    wells, counts = zip(*(is_right(rng) for _ in range(BOOKS)))
    passed, failed = sum(wells), BOOKS - sum(wells)
    if sum(counts) < BOOKS:
        print(f"FAILED: {sum(counts)} shares had numbers")
        failed += 1
    print(f"{passed} passed, {failed} failed")
    return 1 if failed else 0


if __name__ == "__main__":
    sys.exit(main())
