#!/usr/bin/env python3
"""Random programs for the checkers of certificates, the same for the same number: severities with and without names, layers
and clauses of which some are empty, each claim count, several buckets; about a third break a rule or the grammar, or are not
covered.

    clients/steps_programs.py N    writes the program of this number, below a comment with its bucket and its grid"""

import random
import sys
from fractions import Fraction

BUCKETS = ["1", "1", "1", "1/2", "0.25", "2", "150%"]
OTHER_WORDS = (
    "0 1 2 inf xs and so po net of ceded to dsev wts [ ] : , ! 1/0 0.3 sev sev.A agg port fixed poisson loss at lr".split()
)


class Maker:
    """A source of random numbers, and the bucket of the program."""

    def __init__(self, number):
        self.draw = random.Random(number)
        self.bucket = self.draw.choice(BUCKETS)
        self.size = Fraction(self.bucket.rstrip("%")) / (100 if "%" in self.bucket else 1)

    def often(self, percent):
        """True so often."""
        return self.draw.randrange(100) < percent

    def numeral(self, number):
        """A number as a fraction, or as a decimal or a percent where it is one of three places."""
        number, forms = Fraction(number), []
        for times, sign in ((1000, ""), (100_000, "%")):
            if (number * times).denominator == 1:
                whole, rest = divmod(int(number * times), 1000)
                forms.append(f"{whole}.{rest:03d}".rstrip("0").rstrip(".") + sign)
        return self.draw.choice(forms + forms + [f"{number.numerator}/{number.denominator}"])

    def buckets(self, most):
        """A whole number of buckets as money; once in a hundred it is none."""
        return self.numeral((self.draw.randrange(most + 1) + Fraction(self.often(1), 7)) * self.size)

    def amounts(self):
        """A list of amounts, and how many they are."""
        if self.often(25):
            first, step, count = self.draw.randrange(5), self.draw.randrange(1, 4), self.draw.randrange(1, 5)
            ends = [first * self.size, (first + step * (count - 1)) * self.size, step * self.size]
            return "[" + " : ".join(self.numeral(end) for end in ends) + "]", count
        count = self.draw.randrange(1, 5)
        return "[" + self.draw.choice([" ", ", "]).join(self.buckets(9) for _ in range(count)) + "]", count

    def probabilities(self, count):
        """A list of probabilities; once in a hundred they do not add up to 1."""
        weights = [self.draw.randrange(1, 5) * (number == 0 or self.often(90)) for number in range(count)]
        whole = sum(weights) + self.often(1)
        return "[" + " ".join(self.numeral(Fraction(weight, whole)) for weight in weights) + "]"

    def mixture(self):
        """A mixture of one to three atoms."""
        atoms = []
        for _ in range(self.draw.choice([1, 1, 1, 2, 3])):
            amounts, count = self.amounts()
            atoms.append(f"{self.draw.choice(['dsev', 'dsev', 'sev dhistogram xps'])} {amounts}")
            if self.often(50):
                atoms[-1] += " " + self.probabilities(count)
        weights = f" wts {self.probabilities(len(atoms))}" if len(atoms) > 1 or self.often(10) else ""
        return " ".join(atoms) + weights

    def layer(self):
        """The layer of a unit, which may be empty."""
        return f"{'inf' if self.often(25) else self.buckets(8)} xs {self.buckets(3) if self.often(60) else 0}"

    def clause(self):
        """An occurrence or an aggregate clause: layers side by side, empty ones among them; now and then one that overlaps."""
        edges = sorted(self.draw.sample(range(10), 2 * self.draw.randrange(3)))
        layers = [(end - start, start) for start, end in zip(edges[::2], edges[1::2])]
        layers += [(0, self.draw.randrange(11)) for _ in range(self.draw.randrange(3) or not layers)]
        if self.often(15):
            layers.append((None, 9 - self.often(20)))
        self.draw.shuffle(layers)
        side = self.draw.choice(["net of", "ceded to"])
        return f"{side} " + " and ".join(self.cession(*layer) for layer in layers)

    def cession(self, limit, attachment):
        """A layer of a clause, in buckets, with a share of a half now and then."""
        text = f"{'inf' if limit is None else self.numeral(limit * self.size)} xs {self.numeral(attachment * self.size)}"
        if self.often(70):
            return text
        if limit and self.often(50):
            return f"{self.numeral(Fraction(limit, self.draw.choice([1, 2])) * self.size)} po {text}"
        return f"{self.numeral(self.draw.choice([Fraction(1, 2), 1, 0, Fraction(1, 3)]))} so {text}"

    def claims(self):
        """An exposure and a claim count that fit."""
        chance = self.draw.choice([Fraction(1, 2), Fraction(1, 3), 1, Fraction(3, 10)])
        count, number = self.draw.choice(
            [
                ("fixed", self.draw.randrange(7)),
                ("bernoulli", self.draw.choice([0, Fraction(1, 3), Fraction(1, 2), 1])),
                (f"binomial {self.numeral(chance)}", chance * self.draw.randrange(7)),
                ("poisson", self.draw.choice([0, Fraction(1, 3), 1, Fraction(5, 2), 7])),
                ("geometric", self.draw.choice([0, Fraction(1, 4), 2])),
                (f"mixed gamma {self.draw.choice(['0.5', '1/3', '1', '100%'])}", self.draw.choice([0, Fraction(3, 2), 6])),
            ]
        )
        if self.often(60) or count[:2] in ("fi", "bi") and self.often(90):
            return f"{self.numeral(number)} {self.draw.choice(['claims', 'claim'])}", count
        if self.often(50):
            return f"{self.numeral(number)} loss", count
        return f"{self.numeral(number * 2)} {self.draw.choice(['premium', 'prem'])} at 50% lr", count

    def unit(self, name, names):
        """A unit with this name; the named severities are those of `names`."""
        exposure, count = self.claims()
        if self.often(2):
            exposure, count = "dfreq [1 2]", ""
        elif self.often(2):
            count += self.draw.choice([" zt", " zm 0.3"])
        parts = [f"agg {name} {exposure}"]
        if self.often(35):
            parts.append(self.layer())
        parts.append(f"sev.{self.draw.choice(names)}" if names and self.often(50) else self.mixture())
        if self.often(20):
            parts.append("!")
        if self.often(50):
            parts.append(f"occurrence {self.clause()}")
        parts.append(count)
        if self.often(2):
            parts.append(f"aggregate {self.clause()}")
        if self.often(5):
            parts.append("note{as of renewal}")
        return " ".join(parts)

    def program(self):
        """A program; one in twelve has a word that is gone, twice or another."""
        names = ["A", "B"][: self.draw.randrange(3)] if self.often(30) else []
        parts = [f"sev {name} {self.mixture()}" for name in names]
        units = self.draw.choice([1, 1, 2, 3])
        if units > 1 or self.often(20):
            parts.append("port Book" + (" common 0.5" if self.often(2) else ""))
        parts += [self.unit(f"U{0 if self.often(1) else number}", names) for number in range(units)]
        words = "\n".join(parts).split(" ")
        if self.often(8):
            at = self.draw.randrange(len(words))
            words[at : at + 1] = self.draw.choice([[], words[at : at + 1] * 2, [self.draw.choice(OTHER_WORDS)]])
        return " ".join(words) + "\n"


def program_of(number):
    """The program of a number, its bucket, and log2 of its cells."""
    maker = Maker(number)
    log2 = maker.draw.randrange(1, 5)
    return maker.program(), maker.bucket, log2


if __name__ == "__main__":
    text, bucket, log2 = program_of(int(sys.argv[1]))
    print(f"# --bs {bucket} --log2 {log2}\n{text}", end="")
