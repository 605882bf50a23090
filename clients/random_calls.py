"""Random calls over the whole language: words and a text, most of which keep every rule, and some of which break one somewhere."""

import re
from fractions import Fraction

COUNTS = ("fixed", "bernoulli", "binomial", "poisson", "poisson", "geometric", "mixed gamma")
NAMES = ("A", "B", "Motor", "x-1", "agg1", "Claims")
GAPS = (" ",) * 20 + ("  ", "\n", "\t", "\r\n", " # a comment\n")


def spelled(rng, number):
    """A number as a decimal, a percent or a fraction."""
    number = Fraction(number)
    digits = next((n for n in range(10) if (number * 10**n).denominator == 1), None)
    if digits is None or rng.random() < 0.15:
        times = rng.choice((1, 1, 1, 2))
        return f"{number.numerator * times}/{number.denominator * times}"
    if digits <= 7 and number < 100 and rng.random() < 0.1:
        return spelled_decimal(rng, number * 100, max(digits - 2, 0)) + "%"
    return spelled_decimal(rng, number, digits)


def spelled_decimal(rng, number, digits):
    """A number of so many digits behind the point."""
    whole, rest = divmod(int(number * 10**digits), 10**digits)
    written = f"{whole}.{rest:0{digits}}" if digits else str(whole)
    if whole == 0 and digits and rng.random() < 0.3:
        return written[1:]
    return written + "." if not digits and rng.random() < 0.02 else written


def parts_of_one(rng, n, whole=100):
    """So many numbers that add up to 1, some in parts of a whole."""
    if whole > 100 or rng.random() < 0.5:
        cuts = sorted(rng.randint(0, whole) for _ in range(n - 1))
        return [Fraction(b - a, whole) for a, b in zip([0, *cuts], [*cuts, whole])]
    weights = [rng.randint(0 if rng.random() < 0.1 else 1, 12) for _ in range(n)]
    return [Fraction(weight, sum(weights)) for weight in weights] if sum(weights) else [Fraction(1)] + [Fraction(0)] * (n - 1)


class Writer:
    """Writes a random program; its amounts are whole numbers of buckets, but for a few."""

    def __init__(self, rng, log2, rules):
        self.rng, self.reach = rng, rng.choice((4, 6, 10, 16)) if log2 < 13 else rng.choice((30, 2**log2 // 4))
        self.is_extended, self.calm = rules == "extended", 1
        self.bs = rng.choice((Fraction(1),) * 6 + (Fraction(1, 2), Fraction(1, 4), Fraction(5), Fraction(1000), Fraction(1, 3)))

    def has(self, chance):
        """Whether something that has this chance comes; less often in a program of many units, so that all of them keep the rules."""
        return self.rng.random() < chance * self.calm

    def rare(self, usual, *others):
        """What is usual, and seldom one of the others."""
        return self.rng.choice(others) if self.has(0.003) else usual

    def money(self, buckets):
        """An amount of so many buckets, seldom one that is near a limit."""
        buckets = self.rare(buckets, buckets + Fraction(1, 2), 2**20, 2**20 + 1, 2**22, 2**22 + 1, 16384, 16385)
        return self.rare(spelled(self.rng, buckets * self.bs), "1/0", "000000000001", "1.00000000000")

    def listed(self, items):
        """A list."""
        return "[" + "".join(item + (", " if self.has(0.1) else " ") for item in items[:-1]) + items[-1] + "]"

    def chances(self, n):
        """A list of probabilities."""
        finer = self.has(0.15 if self.is_extended else 0.002)
        parts = parts_of_one(self.rng, n, self.rng.choice((2**19 + 1, 2**20, 2**20, 2**20 + 1, 10**9, 10**10)) if finer else 100)
        parts[self.rng.randrange(n)] += self.rare(0, Fraction(1, 2), Fraction(1, 1000))
        fine = 2**30 + self.rng.choice((0, 1))
        return self.rare(self.listed([spelled(self.rng, part) for part in parts]), f"[1/{fine} {fine - 1}/{fine}]", f"[0:1:1/{n}]")

    def atom(self):
        """Amounts, perhaps with probabilities."""
        word = "sev dhistogram xps " if self.has(0.15) else "dsev "
        if self.has(0.25):
            step, first = self.rng.choice((1, 1, 2, 3)), self.rng.choice((0, 1, 1, 2))
            last = first + step * self.rng.randint(0, max(self.reach // step, 1)) + self.rng.choice((0, 0, 0, step - 1))
            ends = [self.money(first), self.money(last)] + ([self.money(step)] if step * self.bs != 1 or self.has(0.2) else [])
            usual = "[" + self.rng.choice((":", " : ")).join(ends) + "]"
            return word + self.rare(usual, "[5:1]", "[1:2:0]", "[1:1025]", "[0:1:1/1000001]", "[0:1/1000:1/1000]", "[1:9999]", "[0:65536]")
        amounts = [self.money(self.rng.randint(0, self.reach)) for _ in range(self.rng.randint(1, 4))]
        return word + self.listed(amounts) + (" " + self.chances(len(amounts) + self.has(0.005)) if self.has(0.6) else "")

    def mixture(self):
        """One atom, or several with weights."""
        atoms = [self.atom() for _ in range(self.rare(self.rng.choice((1, 1, 1, 1, 2, 3)), 64, 65))]
        weights = " wts " + self.chances(len(atoms) + self.has(0.005)) if len(atoms) > 1 or self.has(0.03) else ""
        return " ".join(atoms) + weights

    def layer(self, start=0, unlimited=0.2):
        """A layer above a start, and where it ends, or None."""
        attachment = start + self.rng.choice((0, 0, 1, 2, 3))
        limit = None if self.has(unlimited) else self.rng.randint(0 if self.has(0.05) else 1, max(self.reach // 2, 1))
        end = None if limit is None else attachment + limit
        return f"{'inf' if limit is None else self.money(limit)} xs {self.money(attachment)}", limit, end

    def clause(self, word):
        """A clause of one layer, or of several in any order."""
        cessions, start = [], 0
        for _ in range(self.rare(self.rng.choice((1, 1, 1, 2, 3)), 16, 17)):
            layer, limit, start = self.layer(max(start - self.has(0.01), 0), 0.15)
            share = Fraction(1, self.rng.choice((1, 1, 2, 4)) if self.has(0.3) else self.rare(1, 2**30, 2**30 + 1))
            if limit and share < 1 and self.has(0.4):
                layer = f"{self.money(limit * share)} po {layer}"
            elif share < 1 or self.has(0.2):
                layer = f"{spelled(self.rng, share + (1 if self.has(0.01) else 0))} so {layer}"
            cessions.append(layer)
            if start is None:
                break
        self.rng.shuffle(cessions)
        return f"{word} {self.rng.choice(('net of', 'ceded to'))} " + " and ".join(cessions)

    def count(self, kind):
        """An expected count that suits a kind, with what stands behind its word."""
        if kind == "binomial":
            p = self.rare(Fraction(1, self.rng.choice((2, 3, 4, 5, 10))) * self.rng.choice((1, 1, 2)), Fraction(0), Fraction(3, 2))
            return self.rare(self.rng.randint(0, 12), 65_536, 65_537, Fraction(1, 2)) * p, f"binomial {spelled(self.rng, p)}"
        if kind == "mixed gamma":
            return Fraction(self.rng.randint(1, 40), self.rng.choice((1, 2, 4, 10))), "mixed gamma " + self.shape()
        if kind == "fixed":
            return Fraction(self.rare(self.rng.randint(0, 5), 65_536, 65_537, 0.5)), kind
        if kind == "bernoulli":
            return Fraction(self.rng.randint(0, 10), 10 if not self.has(0.02) else 5), kind
        usual = Fraction(self.rng.randint(0 if self.has(0.1) else 1, 60), self.rng.choice((1, 3, 5, 10, 20)))
        return self.rare(usual, 4096, 4097, Fraction(1, 16), Fraction(1, 17), 99_999_999_999), kind

    def shape(self):
        """A coefficient of variation, whose shape is whole but for a few, or by the extended rules often any number."""
        others, usual = ("0.3", "0", "2", "1/99", "0.01", "1/101"), ("1", "0.5", "1/3", "0.25", "20%", "1/7", "0.1")
        if self.is_extended and self.has(0.7):
            usual, others = ("0.3", "1.25", "2/3", "2", "0.07", "70%", "3.5", "17/16", "0.123"), (*others, "100", ".0099", "0.1234567")
        return self.rare(self.rng.choice(usual), *others)

    def exposure(self, expected):
        """So many claims, or a loss or a premium."""
        if not self.has(0.3):
            return f"{spelled(self.rng, expected)} {self.rng.choice(('claims', 'claims', 'claim'))}"
        loss = self.rare(spelled(self.rng, self.rng.randint(1, 12) * self.bs), "99999999999", "99999999999/99999999998")
        ratio = self.rare(spelled(self.rng, Fraction(self.rng.randint(1, 20), 20)), "0.9999999999", "33333333333/99999999998")
        return f"{loss} loss" if self.has(0.5) else f"{loss} {self.rng.choice(('premium', 'prem'))} at {ratio} lr"

    def unit(self, name, named, common=False):
        """One `agg`, whose severity may be one of those that are named."""
        listed = self.has(0.25) and (not common or self.has(0.01))
        expected, count = self.count("poisson" if common and not self.has(0.01) else self.rng.choice(COUNTS))
        if listed:
            counts = [str(self.rare(self.rng.randint(0, 4), 0.5, 256, 257)) for _ in range(self.rng.randint(1, 3))]
            words = ["dfreq", self.listed(counts), *([self.chances(len(counts))] if self.has(0.5) else [])]
        else:
            words = [self.exposure(expected)]
        words += [self.layer()[0]] if self.has(0.25) else []
        words += ["sev." + (self.rng.choice(named) if not self.has(0.01) else "None")] if named and self.has(0.7) else [self.mixture()]
        words += ["!"] if self.has(0.3) else []
        words += [self.clause("occurrence")] if self.has(0.25) else []
        words += [] if listed else [count]
        if not listed and self.has(0.2) and (not common or self.has(0.01)):
            words += ["zt"] if self.has(0.4) else ["zm", spelled(self.rng, Fraction(self.rng.randint(0, 99), 100))]
        words += [self.clause("aggregate")] if self.has(0.25) and (not common or self.has(0.01)) else []
        words += [self.rng.choice(("note{}", "note{a b ]}"))] if self.has(0.05) else []
        return " ".join(["agg", name, *words])

    def program(self):
        """A program, and the names of its units."""
        rng, lines = self.rng, []
        named = rng.sample(NAMES, rng.choice((0, 0, 0, 1, 2)))
        lines += [f"sev {name} {self.mixture()}" for name in named + ([named[0]] if named and self.has(0.01) else [])]
        if self.has(0.6):
            name = rng.choice(NAMES)
            return "\n".join([*lines, self.unit(name, named)]), [name]
        common = self.has(0.3)
        names = rng.sample(NAMES, rng.choice((1, 2, 2, 3, 3, 4)))
        if self.has(0.06 if self.is_extended else 0.005):
            names = [f"U{k}" for k in range(rng.choice((17, 17, 20, 30) if self.is_extended else (16, 17)))]
            names += [f"V{k}" for k in range(self.rare(0, 200, 226, 256))]
            self.calm = 0.05
        names[-1] = names[0] if self.has(0.01) else names[-1]
        head = f"port {rng.choice(NAMES)}" + (f" common {self.shape()}" if common else "") + (" note{b}" if self.has(0.05) else "")
        return "\n".join([*lines, head, *(self.unit(name, named, common) for name in names)]), names


def changed(rng, text):
    """A text with an edit of one place: a byte or a token goes, comes again, or becomes another one."""
    pieces = re.findall(r"[A-Za-z0-9_.%/-]+|\s+|.", text) if rng.random() < 0.6 else list(text)
    others = "agg inf 0 1/0 sev sev.x dhistogram lognorm gamma ] [ : ! wts note ; { % 100000000000 xs port zm \xff".split()
    k = rng.randrange(len(pieces))
    pieces[k] = rng.choice(("", pieces[k] * 2, rng.choice(others), rng.choice(pieces), pieces[k] + " " + rng.choice(others)))
    return "".join(pieces)


def level(rng):
    """A probability below 1 as a word."""
    return rng.choice((f"0.{rng.randint(0, 999):03}", f"{rng.randint(0, 99)}%", f"{rng.randint(0, 96)}/97", "0", ".5", "0.9", "0.99"))


def fine_level(rng):
    """A probability below 1 of up to 9 digits as a word."""
    return rng.choice((f".{rng.randrange(10**9):09}", f".999{rng.randrange(10**6):06}", f"{rng.randrange(10**9 - 63)}/{10**9 - 63}"))


def asks(rng, names, cells, extended):
    """Some asks, which lie inside the grid but for a few. By the extended rules some shares of the tail mean have finer levels."""
    far = cells + 2 if rng.random() < 0.01 else cells
    found = []
    for _ in range(rng.choice((1, 2, 3, 4, 6))):
        kind = rng.choice("pmf cdf mean q tail layer joint kappa kappa cotail cotail price".split())
        name = rng.choice(names) if rng.random() > 0.003 else "Nobody"
        x = min(rng.randrange(far), rng.randrange(40)) if rng.random() < 0.9 else rng.randrange(far)
        if kind == "layer":
            limit = "inf" if rng.random() < 0.3 else rng.randint(0, cells - x if x <= cells else 1)
            found.append(f"layer:{limit}xs{x}")
        elif kind == "price":
            weights = parts_of_one(rng, rng.choice((1, 2, 3)))
            found.append("price:" + "+".join(f"{weight.numerator}/{weight.denominator}@{level(rng)}" for weight in weights))
        else:
            p = fine_level(rng) if rng.random() < (0.5 if extended and kind == "cotail" else 0.01) else level(rng)
            rest = {"mean": [], "q": [p], "tail": [p], "cotail": [name, p], "pmf": [x], "cdf": [x]}
            found.append(":".join(map(str, [kind, *rest.get(kind, [name, x])])))
    return found


def options(rng, log2, bs, rules):
    """The options of a call."""
    found = [["--log2", str(log2)]] if log2 != 10 or rng.random() < 0.5 else []
    found += [["--bs", spelled(rng, bs)]] if bs != 1 or rng.random() < 0.1 else []
    found += [["--digits", str(rng.randint(1, 9))]] if rng.random() < 0.5 else []
    found += [["--width", str(rng.choice((1, 2, 10, 10**9)))]] if rng.random() < 0.3 else []
    found += [["--mwidth", str(rng.choice((1, 2, 1000, 10**12)))]] if rng.random() < 0.3 else []
    found += [["--format", rng.choice(("text", "csv", "json"))]] if rng.random() < 0.2 else []
    found += [["--rules", rules]] if rules != "standard" or rng.random() < 0.05 else []
    found += [["--rules", rng.choice(("standard", "extended", "wide", ""))]] if rng.random() < 0.002 else []
    rng.shuffle(found)
    return [word for option in found for word in ([f"{option[0]}={option[1]}"] if rng.random() < 0.2 else option)]


def call(rng):
    """The words and the text of one call."""
    log2 = rng.choice((1, 2, 3, 4, 5, 5, 6, 6, 7)) if rng.random() < 0.97 else rng.choice((8, 9, 10, 13, 14, 15, 16))
    rules = "extended" if rng.random() < 0.4 else "standard"
    writer = Writer(rng, log2, rules)
    text, names = writer.program()
    given, wanted = options(rng, log2, writer.bs, rules), asks(rng, names, 2**log2, rules == "extended")
    words = ["run", *given, *wanted] if rng.random() < 0.9 else ["run", *wanted, *given]
    kind = rng.random()
    if kind < 0.06:
        words = ["fmt"] if rng.random() < 0.99 else ["fmt", "--rules", rules]
    if 0.94 < kind < 0.943:
        words[1:1] = ["--make", str(rng.randrange(2**32))]
    if kind < 0.15:
        text = re.sub(" ", lambda _: rng.choice(GAPS), text)
    if 0.02 < kind < 0.12:
        text = changed(rng, text)
    if 0.9 < kind < 0.93:
        k = rng.randrange(len(words))
        words[k] = changed(rng, words[k])
    return words, text
