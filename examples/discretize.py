#!/usr/bin/env python3
"""Writes a limited continuous severity as a `dsev`, from below or from above.

    examples/discretize.py lognorm MEAN CV --bucket B --limit L --side low|high
    examples/discretize.py expon MEAN --bucket B --limit L --side low|high
    examples/discretize.py pareto SHAPE SCALE --bucket B --limit L --side low|high

A claim is at most the limit, which is a whole number of buckets. B and L are decimals or fractions, as 250, 0.5 or 1/3;
the amounts are in the same money. With `--side low` each claim is moved down to a whole number of buckets, with
`--side high` up. The distribution of the total of the continuous severity lies between those of the two, whatever the
claim count: the ends that `decl` gives for `cdf`, `mean`, `q`, `layer` and `tail` of the two programs hold the
continuous one between them. Probabilities have six digits; the distribution of a claim is rounded up for `low` and down
for `high`, and by as much more as floats can be wrong, so that this stays true.
"""

import argparse
import math
import re
import sys
from fractions import Fraction

DIGITS = 10**6

#: More than floats are wrong here, in units of the last digit of a probability.
DOUBT = 1e-4

#: What `decl` takes at most: values in a list, buckets of an amount, digits of a numeral (docs/LANGUAGE.md, "Rules").
VALUES, BUCKETS, PLACES = 1024, 2**22, 11


def distribution(kind, numbers):
    """The distribution function of a severity, at floats above 0."""
    if kind == "lognorm":
        mean, cv = numbers
        variance = math.log1p(cv * cv)
        return lambda x: 0.5 * math.erfc(-(math.log(x / mean) + variance / 2) / math.sqrt(2 * variance))
    if kind == "expon":
        return lambda x: -math.expm1(-x / numbers[0])
    shape, scale = numbers
    return lambda x: -math.expm1(-shape * math.log1p(x / scale))


def cells(at_most, bucket, last, side):
    """The amounts, up to so many buckets, with probabilities in millionths; the distribution is rounded outward."""
    low = 1 if side == "low" else 0
    below, found = 0, []
    for step in range(last + 1):
        reached = DIGITS
        if step < last:
            value = at_most(float((step + low) * bucket)) * DIGITS if step + low else 0.0
            value = math.ceil(value + DOUBT) if low else math.floor(value - DOUBT)
            reached = min(DIGITS, max(below, value))
        if reached > below:
            found.append((step * bucket, reached - below))
        below = reached
    return found


def numeral(amount):
    """An amount as a decimal, or as a fraction where no decimal is equal to it."""
    for places in range(PLACES):
        if 10**places % amount.denominator == 0:
            whole, rest = divmod(amount.numerator * (10**places // amount.denominator), 10**places)
            return f"{whole}.{rest:0{places}d}" if places else str(whole)
    return str(amount)


def is_long(spelled):
    """Whether a numeral, or a part of a fraction, has more digits than `decl` takes."""
    return any(len(part) > PLACES for part in spelled.replace(".", "").split("/"))


def positive(word):
    """A number above 0, exactly: a decimal or a fraction."""
    if not re.fullmatch(r"\d+(\.\d*)?|\.\d+|\d+/0*[1-9]\d*", word) or is_long(word) or not Fraction(word):
        raise argparse.ArgumentTypeError(f"{word} is no decimal or fraction above 0 of at most {PLACES} digits")
    return Fraction(word)


def parameter(word):
    """A parameter of a severity, of a size at which floats are as exact as DOUBT asks."""
    try:
        number = float(word)
    except ValueError:
        number = math.nan
    if not 1e-3 <= number <= 1e12:
        raise argparse.ArgumentTypeError(f"{word} does not lie from 0.001 to 1,000,000,000,000")
    return number


class Reader(argparse.ArgumentParser):
    """Reads the words; an error is one line."""

    def error(self, message):
        self.exit(2, f"discretize.py: {message}\n" if sys.argv[1:] else self.format_usage())


def read_words():
    """The reader, the words, and how many buckets the limit has."""
    reader = Reader(
        description=__doc__.splitlines()[0],
        usage="discretize.py (lognorm MEAN CV | expon MEAN | pareto SHAPE SCALE) --bucket B --limit L --side low|high",
        allow_abbrev=False,
    )
    reader.add_argument("kind", choices=["lognorm", "expon", "pareto"])
    reader.add_argument("numbers", type=parameter, nargs="+")
    reader.add_argument("--bucket", type=positive, required=True)
    reader.add_argument("--limit", type=positive, required=True)
    reader.add_argument("--side", choices=["low", "high"], required=True)
    words = reader.parse_args()
    if len(words.numbers) != (1 if words.kind == "expon" else 2):
        reader.error(f"{words.kind} has {'one parameter' if words.kind == 'expon' else 'two parameters'}")
    last = words.limit / words.bucket
    if last.denominator > 1:
        reader.error(f"the limit {words.limit} is no whole number of buckets of {words.bucket}")
    if last > BUCKETS:
        reader.error(f"the limit has {int(last):,} buckets, and decl takes at most {BUCKETS:,}: take larger buckets")
    return reader, words, int(last)


def main():
    """Reads the words, and writes the severity."""
    reader, words, last = read_words()
    found = cells(distribution(words.kind, words.numbers), words.bucket, last, words.side)
    if len(found) > VALUES:
        what = f"the severity has {len(found):,} amounts, and a list of decl at most {VALUES:,}"
        reader.error(f"{what}: take larger buckets")
    amounts = [numeral(amount) for amount, _ in found]
    long = [amount for amount in amounts if is_long(amount)]
    if long:
        reader.error(f"the amount {long[0]} has more than {PLACES} digits: take other buckets")
    chances = " ".join(f"0.{chance:06d}" if chance < DIGITS else "1" for _, chance in found)
    print(f"dsev [{' '.join(amounts)}] [{chances}]")


if __name__ == "__main__":
    main()
