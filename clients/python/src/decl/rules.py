"""The typing rules for messages: each in a sentence, by its number, with the bounds that the client keeps to. The program decides;
docs/LANGUAGE.md has the rules as a table, with examples. clients/sentences.py writes the sentences from clients/sentences.txt."""

from typing import Dict, Literal, NamedTuple

Rules = Literal["standard", "extended"]


class Bounds(NamedTuple):
    """The most values of a list, the most units, and the greatest common denominator of a fine list of probabilities."""

    values: int
    units: int
    finest: int


#: The bounds in which the two sets of rules differ.
BOUNDS: Dict[Rules, Bounds] = {"standard": Bounds(1024, 16, 2**30), "extended": Bounds(65_536, 256, 2**40)}
#: The most digits of a numeral, of one before a percent sign, atoms of a severity and layers of a clause.
DIGITS, PERCENT_DIGITS, ATOMS, LAYERS = 11, 9, 64, 16
#: The greatest common denominator of a range, and the most expected claims of a Poisson unit.
RANGE_FINEST, CLAIMS = 10**6, 4096
#: The counts of claims.
COUNTS = ("fixed", "poisson", "geometric", "bernoulli", "binomial", "mixed")
#: The rules that are asked where a text is read here, by their names.
NAMES: Dict[int, str] = {
    2: "BadNumeral",
    3: "BadRange",
    4: "ListTooLong",
    5: "LengthsDiffer",
    6: "NotOne",
    9: "WeightsDiffer",
    10: "NoneAbove",
    11: "Overlap",
    12: "ShareAboveOne",
    14: "ZeroMean",
    23: "DuplicateSeverity",
    24: "UnknownSeverity",
    26: "CommonUnit",
    27: "CommonShape",
}
SENTENCES: Dict[int, str] = {
    1: "Two units have the same name; each unit of a portfolio needs its own.",
    2: "A numeral has at most 11 digits (9 before a percent sign, 11 in each part of a fraction) and no fraction is over 0.",
    3: "A range runs upward, by a step above 0, with a common denominator of at most 1,000,000.",
    4: "A list has at most 1,024 values, or by the extended rules 65,536, as all amounts of a severity together; a severity has at most 64 atoms, a clause at most 16 layers.",
    5: "A list of probabilities needs as many values as the list before it.",
    6: "Probabilities and weights have to add up to 1; nothing is rescaled.",
    7: "Each amount, limit and attachment has to be a whole number of buckets; decl.bucket(text) tells the greatest bucket.",
    8: "No amount, limit or attachment may pass 1,048,576 buckets with log2 up to 12, or 4,194,304 with 13 or more; take larger buckets.",
    9: "wts needs one weight for each severity of the mixture.",
    10: "No claim can exceed the attachment of the layer; put a ! behind the severity to keep the claims that do not.",
    11: "Two layers of one clause overlap; layers may touch.",
    12: "A share is at most 1, and a part (po) at most its limit, which is neither 0 nor inf.",
    13: "What the clause makes of an amount is no whole number of buckets; decl.bucket(text) tells a bucket that is fine enough.",
    14: "A loss or a premium cannot tell how many claims there are, since no claim is above 0 in the layer.",
    15: "A fixed or a listed number of claims has to be whole.",
    16: "A bernoulli count has one claim at most, so its expected number is at most 1.",
    17: "The probability of binomial lies above 0 and at most at 1, and the expected number of claims over it is a whole number of trials.",
    18: "mixed gamma c needs a c above 0, and by the standard rules 1 / c^2 has to be whole, as for 1, 1/2, 0.25 or 0.2; the extended rules take any.",
    19: "Probabilities, shares or weights have too fine a common denominator (above 2^30, or by the extended rules 2^40 but for shares), or the expected count or loss, or the shape of mixed gamma, is too fine a fraction.",
    20: "Too many claims: at most 256 of listed counts, 65,536 of fixed counts and trials, 4,096 expected ones above 0 of poisson and mixed gamma, and 32,768 times its shape, which is at most 10,000.",
    21: "The aggregate clause needs more buckets of the sum before it than there are: 16,384 with log2 up to 12, 65,536 with 13 or more; take larger buckets, a smaller grid, or a log2 of 13.",
    22: "A portfolio has at most 16 units, or by the extended rules 256.",
    23: "Two severities have the same name; each needs its own.",
    24: "No severity has this name; a text names its severities before its units, as in sev NAME dsev [1:6].",
    25: "zt and zm need from 1/16 to 4,096 expected claims before the change, for a shape r of mixed gamma below 1 also 1/16 as r n / (r + n), and zm a number below 1.",
    26: "Under common each unit has a poisson count without zt and zm, and no aggregate clause.",
    27: "The number of common is above 0, and by the standard rules 1 over a whole number, as 1, 0.5 or 0.1.",
    28: "Under common claims have to be expected, at most 4,096 above 0 times 1 + c^2, with 1 / c^2 at most 9,999, and each unit's share of them has to be a fraction of a small denominator.",
    30: "The units are too large together: at most 16 have zt or zm, and their means before clauses, 17 times as much with zt or zm, add up to at most 17 * 2^36 buckets, or 17 * 2^38 with log2 13 or more.",
}
