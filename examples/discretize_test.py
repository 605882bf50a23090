#!/usr/bin/env python3
"""Tests examples/discretize.py: each severity against distributions that are worked exactly, and each error.

The program is DECL, else crates/decl/out/decl. The last line is 'N passed, M failed'.
"""

import decimal
import os
import pathlib
import re
import subprocess
import sys
from fractions import Fraction

HERE = pathlib.Path(__file__).resolve().parent
DECL = os.environ.get("DECL") or str(HERE.parent / "crates" / "decl" / "out" / "decl")
MILLIONTH = Fraction(1, 10**6)


def exponential(power):
    """e to this power, to 40 digits."""
    with decimal.localcontext() as context:
        context.prec = 45
        return Fraction((decimal.Decimal(power.numerator) / power.denominator).exp())


#: The words of a severity, the size of a bucket, the limit, and the distribution function, exact or to 40 digits.
WORKED = [
    ("pareto 2 100", "25", "200", lambda x: 1 - (100 / (x + 100)) ** 2),
    ("pareto 1 100", "100", "1000", lambda x: 1 - 100 / (x + 100)),
    ("pareto 3 1.5", "1/2", "8", lambda x: 1 - (Fraction(3, 2) / (x + Fraction(3, 2))) ** 3),
    ("pareto 1 2", "1/3", "7/3", lambda x: 1 - 2 / (x + 2)),
    ("pareto 1 1", "0.25", "2.5", lambda x: 1 - 1 / (x + 1)),
    ("expon 3", "1", "60", lambda x: 1 - exponential(-x / 3)),
    ("expon 0.5", "1/8", "1/4", lambda x: 1 - exponential(-2 * x)),
    ("expon 1", "1", "1", lambda x: 1 - exponential(-x)),
]

#: Words that are refused, with the line that is due.
REFUSED = [
    ("expon 0 --bucket 1 --limit 10", "argument numbers: 0 does not lie from 0.001 to 1,000,000,000,000"),
    ("lognorm 0 1 --bucket 1 --limit 10", "argument numbers: 0 does not lie from 0.001 to 1,000,000,000,000"),
    ("lognorm 5 0 --bucket 1 --limit 10", "argument numbers: 0 does not lie from 0.001 to 1,000,000,000,000"),
    ("lognorm nan 1 --bucket 1 --limit 10", "argument numbers: nan does not lie from 0.001 to 1,000,000,000,000"),
    ("expon 5 --bucket 0 --limit 10", "argument --bucket: 0 is no decimal or fraction above 0 of at most 11 digits"),
    (
        "expon 5 --bucket 1/0 --limit 10",
        "argument --bucket: 1/0 is no decimal or fraction above 0 of at most 11 digits",
    ),
    ("expon 5 --bucket 1 --limit=-10", "argument --limit: -10 is no decimal or fraction above 0 of at most 11 digits"),
    ("expon 5 --bucket 1 --limit 0", "argument --limit: 0 is no decimal or fraction above 0 of at most 11 digits"),
    ("expon 5 --bucket 3 --limit 10", "the limit 10 is no whole number of buckets of 3"),
    ("expon 5 6 --bucket 1 --limit 10", "expon has one parameter"),
    ("pareto 5 --bucket 1 --limit 10", "pareto has two parameters"),
    (
        "expon 900 --bucket 1 --limit 2000",
        "the severity has 2,000 amounts, and a list of decl at most 1,024: take larger buckets",
    ),
    (
        "expon 5 --bucket 1 --limit 9999999",
        "the limit has 9,999,999 buckets, and decl takes at most 4,194,304: take larger buckets",
    ),
    (
        "expon 5 --bucket 1 --limit 100000000000",
        "argument --limit: 100000000000 is no decimal or fraction above 0 of at most 11 digits",
    ),
    ("expon 5 --bucket 1/65537 --limit 65537/65536", "the limit 65537/65536 is no whole number of buckets of 1/65537"),
    (
        "pareto 2 9000000 --bucket 123456.78901 --limit 1234567.8901",
        "the amount 1111111.10109 has more than 11 digits: take other buckets",
    ),
]


def written(words, side):
    """The status and the two outputs of a call."""
    call = [sys.executable, str(HERE / "discretize.py"), *words.split(), "--side", side]
    done = subprocess.run(call, capture_output=True, text=True)
    return done.returncode, done.stdout, done.stderr


def severity(line):
    """The amounts of a `dsev` with their probabilities."""
    found = re.fullmatch(r"dsev \[(.*)\] \[(.*)\]\n", line)
    amounts, chances = ([Fraction(word) for word in part.split()] for part in found.groups())
    return list(zip(amounts, chances, strict=True))


def wrong(words, bucket, limit, at_most, side):
    """What is wrong with a severity, in lines; none where nothing is."""
    status, line, told = written(f"{words} --bucket {bucket} --limit {limit}", side)
    if status:
        yield told
        return
    pairs, step = severity(line), Fraction(bucket)
    if sum(chance for _, chance in pairs) != 1:
        yield f"the probabilities add up to {sum(chance for _, chance in pairs)}"
    for number in range(int(Fraction(limit) / step)):
        reached = sum(chance for amount, chance in pairs if amount <= number * step)
        due = at_most((number + 1) * step) if side == "low" else at_most(number * step)
        if not (due <= reached < due + 2 * MILLIONTH if side == "low" else due - 2 * MILLIONTH < reached <= due):
            yield f"at most {number * step}: {float(reached)}, and {float(due)} is due"
    if pairs[-1][0] > Fraction(limit):
        yield f"the last amount is {pairs[-1][0]}"
    text = f"agg S dfreq [1] {line}"
    done = subprocess.run([DECL, "run", "--bs", bucket, "mean"], input=text, capture_output=True, text=True)
    mean = sum(amount * chance for amount, chance in pairs) / step
    ends = [Fraction(end) for end in done.stdout.split()[1:]]
    if done.returncode or not ends[0] <= mean <= ends[1]:
        yield f"decl: {done.stdout or done.stderr}, due {float(mean)}"


def main():
    """Runs all."""
    passed = failed = 0
    for words, bucket, limit, at_most in WORKED:
        for side in ("low", "high"):
            lines = list(wrong(words, bucket, limit, at_most, side))
            passed, failed = passed + (not lines), failed + bool(lines)
            if lines:
                print(f"FAILED: {words} in buckets of {bucket} up to {limit}, {side}:", *lines[:5], sep="\n")
    for words, due in REFUSED:
        found = written(words, "high")
        if found == (2, "", f"discretize.py: {due}\n"):
            passed += 1
        else:
            failed += 1
            print(f"FAILED: {words}: due {due}\n{found}")
    print(f"{passed} passed, {failed} failed")
    return 1 if failed else 0


if __name__ == "__main__":
    sys.exit(main())
