#!/usr/bin/env python3
"""Measures `decl` on fixed programs, beside the same books in C, numpy and R, all of them whole processes.

    bench/bench.py                       writes the tables to standard output
    bench/bench.py --page PAGE           puts them into the page, between its two marks
    bench/bench.py NAME=PROGRAM..        measures other builds of decl beside this one, in the same run
    bench/bench.py --only WORD           only the programs whose name has the word
    bench/bench.py --count NAME=PROGRAM..    instructions of decl, by valgrind, and what the other builds take of them

A figure is the median of some calls from start to end, in brackets that of their processor time, and the peak memory of one
(/usr/bin/time). The tools take turns, so that a busy machine weighs on all of them. Beside decl stand bench/plain.c (the recursion
and plain convolutions), bench/transform.c (FFTW), bench/transform.py (numpy) and bench/book.R (actuar), in doubles and without any
enclosure; one that is not installed is told as not run. What they answer is compared with the ends of decl, and where it lies
outside this is told. The program is DECL, else crates/decl/out/decl; CALLS is the greatest number of calls of each.
"""

import argparse
import dataclasses
import os
import pathlib
import platform
import shutil
import statistics
import subprocess
import sys
import tempfile
import threading
import time
from fractions import Fraction

TOP = pathlib.Path(__file__).resolve().parent.parent
MARKS = ("<!-- figures of bench/bench.py -->", "<!-- end of figures -->")
CALLS = int(os.environ.get("CALLS", "21"))
SECONDS = 2.0  # about so long is each tool called for one program, but 3 times at least
PATIENCE = 20  # seconds after which a call is given up
TIME = "/usr/bin/time"
EXTENDED = ["--rules", "extended", "--digits", "3"]


@dataclasses.dataclass
class Unit:
    """A unit: its name, its text, and what the peers read of it (bench/book.h)."""

    name: str
    text: str
    count: str
    severity: list
    net: str = ""
    zero: str = ""

    def told(self):
        """The lines that the peers read."""
        pairs = " ".join(f"{amount}:{float(chance):.17g}" for amount, chance in self.severity)
        changes = [f"{word} {given}" for word, given in (("zero", self.zero), ("net", self.net)) if given]
        return [f"unit {self.count}", f"severity {pairs}", *changes]


@dataclasses.dataclass
class Case:
    """A program and what is asked of it; without units it has no counterpart."""

    name: str
    units: list
    words: list
    text: str = ""
    log2: int = 12
    status: int = 0
    common: str = ""

    def source(self):
        """The text that decl reads."""
        if self.text:
            return self.text
        factor = f" common {self.common}" if self.common else ""
        head = f"port P{factor}\n" if len(self.units) > 1 else ""
        return head + "".join(f"agg {unit.name} {unit.text}\n" for unit in self.units)

    def command(self):
        """The words of decl."""
        return ["run", "--log2", str(self.log2), *self.words]

    def asks(self):
        """The asks among the words."""
        return [word for word in self.words if word == "mean" or ":" in word]

    def told(self):
        """What the peers read."""
        names = [unit.name for unit in self.units]
        lines = [f"cells {2**self.log2}", *([f"common {self.common}"] if self.common else [])]
        for unit in self.units:
            lines += unit.told()
        return "\n".join([*lines, *(ask_line(ask, names) for ask in self.asks())]) + "\n"


def ask_line(ask, names):
    """An ask as the peers read it."""
    kind, *rest = ask.split(":")
    if kind == "layer":
        limit, attachment = rest[0].split("xs")
        rest = ["-1" if limit == "inf" else limit, attachment]
    if kind in ("joint", "kappa", "cotail"):
        rest[0] = str(names.index(rest[0]))
    if kind == "price":
        rest = [f"{float(Fraction(number)):.17g}" for term in rest[0].split("+") for number in term.split("@")]
    return " ".join(["ask", kind, *rest])


def even(first, last):
    """Amounts that are equally likely."""
    return [(amount, Fraction(1, last + 1 - first)) for amount in range(first, last + 1)]


def pairs(amounts, chances):
    """Amounts with their probabilities."""
    return list(zip(amounts, [Fraction(chance) for chance in chances]))


def listed(counts):
    """A claim count that is equally likely one of these."""
    return "table " + " ".join(str(float(Fraction(claims in counts, len(counts)))) for claims in range(max(counts) + 1))


def book():
    """The realistic book of three units."""
    cession = "occurrence net of 0.5 so 20 xs 20 aggregate net of 20 xs 30"
    liability = f"dfreq [0 1 2] [0.5 0.3 0.2] 40 xs 10 dsev [5 15 30 100] [0.6 0.2 0.15 0.05] {cession}"
    motor = "20 claims 50 xs 0 dsev [1 2 5 10 80] [0.4 0.3 0.2 0.08 0.02] poisson"
    rest = "200 premium at 65% lr dsev [5 10 20 60] [0.5 0.3 0.15 0.05] mixed gamma 0.25"
    return [
        Unit("Motor", motor, "poisson 20", pairs([1, 2, 5, 10, 50], ["0.4", "0.3", "0.2", "0.08", "0.02"])),
        Unit("Property", rest, f"gamma {260 / 23!r} 16", pairs([5, 10, 20, 60], ["0.5", "0.3", "0.15", "0.05"])),
        Unit("Liability", liability, "table 0.5 0.3 0.2", pairs([5, 20, 30], ["1/2", "3/8", "1/8"]), "20 30"),
    ]


def made(decl):
    """The units of the made programs 0 and 1, with names of their own."""
    counts = {
        "poisson": lambda claims: f"poisson {claims}",
        "mixed gamma 0.5": lambda claims: f"gamma {claims} 4",
        "binomial 0.5": lambda claims: f"binomial {2 * claims} 0.5",
        "fixed": lambda claims: listed([claims]),
    }
    units = []
    for number in (0, 1):
        text = subprocess.run([decl, "fmt", "--make", str(number)], capture_output=True, text=True, check=True).stdout
        for line in text.splitlines()[1:]:
            _, name, claims, _, _, amounts, kind = line.split(" ", 6)
            most = int(amounts.strip("[]").split(":")[1])
            text = line.split(" ", 2)[2]
            units.append(Unit(f"{name}-{number}", text, counts[kind](int(claims)), even(1, most)))
    return units


def mixed():
    """16 units with a Poisson, a negative binomial, a binomial and a fixed count in turn, of 21 to 40 claims."""
    counts = [
        ("poisson", lambda claims: f"poisson {claims}"),
        ("mixed gamma 0.5", lambda claims: f"gamma {claims} 4"),
        ("binomial 0.5", lambda claims: f"binomial {2 * claims} 0.5"),
        ("fixed", lambda claims: listed([claims])),
    ]
    units = []
    for number in range(16):
        kind, count = counts[number % 4]
        claims, most = 21 + number * 19 // 15, 5 + number % 6
        units.append(Unit(f"M{number}", f"{claims} claims dsev [1:{most}] {kind}", count(claims), even(1, most)))
    return units


def sixteen_poisson():
    """16 Poisson units of 15 to 30 claims of `[1:5]` to `[1:10]`."""
    sizes = [(15 + number, 5 + number % 6) for number in range(16)]
    return [
        Unit(f"U{number}", f"{claims} claims dsev [1:{most}] poisson", f"poisson {claims}", even(1, most))
        for number, (claims, most) in enumerate(sizes)
    ]


def gammas(count):
    """Negative binomial units of 15 claims on, of `[1:5]` to `[1:10]` in turn."""
    sizes = [(15 + number, 5 + number % 6) for number in range(count)]
    return [
        Unit(f"G{number}", f"{claims} claims dsev [1:{most}] mixed gamma 0.5", f"gamma {claims} 4", even(1, most))
        for number, (claims, most) in enumerate(sizes)
    ]


def beside_coarse():
    """A binomial unit with amounts 100 apart beside the first 15 of the mixed units."""
    text = "2 claims dsev [100:300:100] binomial 0.5"
    return [Unit("C", text, "binomial 4 0.5", apart(100, 300, 100)), *mixed()[:15]]


def mixed_cases():
    """Portfolios of 16 units, of all kinds, of negative binomial and of Poisson counts: the total, with the share of one unit, and
    with those of all."""
    asks = ["--digits", "4", "mean", "cdf:2000", "q:0.99"]
    yield Case("16 mixed units, 4,096 cells", mixed(), asks)
    yield Case("16 mixed units, `kappa` of one, 4,096 cells", mixed(), [*asks, "kappa:M0:2000"])
    yield Case("16 mixed units, `kappa` of each, 4,096 cells", mixed(), [*asks, *kappas(mixed(), 2000)])
    coarse = "16 units, one of them with amounts 100 apart"
    yield Case(f"{coarse}, 4,096 cells", beside_coarse(), asks)
    yield Case(f"{coarse}, `kappa` of each, 4,096 cells", beside_coarse(), [*asks, *kappas(beside_coarse(), 2000)])
    for count, total in ((8, 700), (16, 1600)):
        units = gammas(count)
        words = ["--digits", "4", "mean", f"cdf:{total}", "q:0.99", *kappas(units, total)]
        yield Case(f"{count} negative binomial units, `kappa` of each, 4,096 cells", units, words)
    port, units, asks = "16 Poisson units `[1:5]` to `[1:10]`", sixteen_poisson(), ["mean", "cdf:1600", "q:0.99"]
    yield Case(f"{port}, 4,096 cells", units, asks)
    yield Case(f"{port}, `kappa` of each, 4,096 cells", units, [*asks, *kappas(units, 1600)])


def asked_of_each_kind():
    """256 asks of each kind about the book."""
    p = [f"0.{number:03d}" for number in range(500, 1000)][-256:]
    return {
        "pmf": [f"pmf:{x}" for x in range(256)],
        "cdf": [f"cdf:{x}" for x in range(256)],
        "mean": ["mean"] * 256,
        "q": [f"q:{level}" for level in p],
        "layer": [f"layer:{100 + x}xs{x}" for x in range(256)],
        "tail": [f"tail:{level}" for level in p],
        "joint": [f"joint:Motor:{100 + x}" for x in range(256)],
        "kappa": [f"kappa:Motor:{100 + x}" for x in range(256)],
    }


def prices():
    """256 prices of eight equal terms, whose levels go from 0.500 to 0.951."""
    return ["price:" + "+".join(f"1/8@0.{500 + number + 28 * term}" for term in range(8)) for number in range(256)]


def shares(name, first):
    """256 shares of a unit in the tail mean, from one level on, in thousandths."""
    return [f"cotail:{name}:0.{first + number}" for number in range(256)]


def changed_cases():
    """The programs with a changed probability of no claim."""
    some = [Unit("Z", "100 claims dsev [1:10] poisson zt", "poisson 100", even(1, 10), zero="0")]
    mixed = "400 claims dsev [1:5] mixed gamma 0.5 zm 0.1"
    gamma = [Unit("G", mixed, "gamma 400 4", even(1, 5), zero="0.1")]
    many = [Unit("M", "1000 claims dsev [1:100] poisson zm 0.2", "poisson 1000", even(1, 100), zero="0.2")]
    yield Case("100 claims `poisson zt`, 4,096 cells", some, ["mean", "cdf:550", "q:0.99"])
    yield Case("400 claims `mixed gamma 0.5 zm 0.1`, 4,096 cells", gamma, ["mean", "cdf:1200", "q:0.99"])
    words = ["--digits", "4", "mean", "cdf:50500", "q:0.99"]
    yield Case("1,000 claims `poisson zm 0.2`, 65,536 cells", many, words, log2=16)


def common_cases():
    """The programs with a common factor."""
    four = [Unit(f"F{n}", "100 claims dsev [1:10] poisson", "poisson 100", even(1, 10)) for n in range(4)]
    large = [Unit(f"L{n}", "800 claims dsev [1:10] poisson", "poisson 800", even(1, 10)) for n in range(4)]
    sixteen = sixteen_poisson()
    wide = ["--digits", "3", "--mwidth", "100000000000"]
    port = "16 units `[1:5]` to `[1:10]` under a common factor"
    yield Case(f"{port}, 4,096 cells", sixteen, ["mean", "cdf:1600", "q:0.9"], common="0.5")
    yield Case(f"{port}, `kappa` of each, 4,096 cells", sixteen, [*wide, "cdf:1600", *kappas(sixteen, 1600)], common="0.5")
    yield Case(f"{port}, 65,536 cells", sixteen, ["--digits", "4", "mean", "cdf:1600", "q:0.9"], log2=16, common="0.5")
    yield Case(f"{port}, `kappa` of each, 65,536 cells", sixteen, [*wide, "cdf:1600", *kappas(sixteen, 1600)], log2=16, common="0.5")
    name = "4 units under a common factor"
    yield Case(f"{name}, 4,096 cells", four, ["mean", "cdf:2200", "q:0.9"], common="0.5")
    yield Case(f"{name}, `kappa` of each, 4,096 cells", four, [*wide, "cdf:2200", *kappas(four, 2200)], common="0.5")
    yield Case(f"{name}, 65,536 cells", large, ["--digits", "4", "mean", "cdf:17600", "q:0.99"], log2=16, common="0.5")
    yield Case(f"{name}, `kappa` of each, 65,536 cells", large, [*wide, "cdf:17600", *kappas(large, 17600)], log2=16, common="0.5")


def tail_cases():
    """256 prices, and 256 shares in the tail mean, on longer grids."""
    wide = ["--digits", "3", "--mwidth", "1000000000"]
    row = [Unit("W", "50 claims dsev [1:1024] poisson", "poisson 50", even(1, 1024))]
    halves = [Unit(f"W{n}", "25 claims dsev [1:1024] poisson", "poisson 25", even(1, 1024)) for n in range(2)]
    yield Case("256 asks `price` of eight terms, 65,536 cells", row, [*wide, *prices()], log2=16)
    yield Case("256 asks `cotail`, 4,096 cells", book(), [*wide, *shares("Motor", 744)])
    yield Case("256 asks `cotail`, 65,536 cells", halves, [*wide, *shares("W0", 500)], log2=16)
    extended = ["--rules", "extended", *wide, *shares("W0", 500)]
    yield Case("256 asks `cotail` by the extended rules, 65,536 cells", halves, extended, log2=16)


def apart(first, last, step):
    """Amounts so many buckets apart that are equally likely."""
    amounts = range(first, last + 1, step)
    return [(amount, Fraction(1, len(amounts))) for amount in amounts]


def kappas(units, total):
    """The conditional mean of each unit at one total."""
    return [f"kappa:{unit.name}:{total}" for unit in units]


def long_cases(equal, power):
    """The programs on the longest grid."""
    coarse = [Unit("V", "100 claims dsev [400:800:100] poisson", "poisson 100", apart(400, 800, 100))]
    often = [Unit("N", "4096 claims dsev [1:10] poisson", "poisson 4096", even(1, 10))]
    row = [Unit("W", "50 claims dsev [1:1024] poisson", "poisson 50", even(1, 1024))]
    odd = [Unit("O", "40 claims dsev [1:2047:2] poisson", "poisson 40", apart(1, 2047, 2))]
    four = [Unit(f"V{n}", "25 claims dsev [400:800:100] poisson", "poisson 25", apart(400, 800, 100)) for n in range(4)]
    half = [Unit("D", "dfreq [128] dsev [1:1024]", listed([128]), even(1, 1024))]
    equal_words = ["--digits", "3", "cdf:65000", "q:0.3", "tail:0.3"]
    wide = ["--digits", "3", "--mwidth", "1000000000"]
    programs = [
        ("a Poisson mean of 100, amounts 100 apart", coarse, ["mean", "cdf:60000", "q:0.99"]),
        ("a Poisson mean of 4,096", often, ["--digits", "4", "mean", "cdf:22528", "q:0.99"]),
        ("1,024 amounts in a row", row, ["--digits", "4", "mean", "cdf:25625", "q:0.99"]),
        ("1,024 odd amounts", odd, ["--digits", "4", "mean", "cdf:40960", "q:0.99"]),
        ("16 equal units of 745 claims", equal, equal_words),
        ("16 equal units, `kappa` of each", equal, [*wide, *equal_words[2:], *kappas(equal, 65000)]),
        ("4 units with amounts 100 apart, `kappa` of each", four, [*wide, "cdf:60000", *kappas(four, 60000)]),
        ("128 claims of 1,024 amounts", half, ["--digits", "4", "cdf:65535"]),
        ("256 claims of 1,024 amounts", power, ["--digits", "4", "cdf:65535"]),
    ]
    for name, units, words in programs:
        yield Case(f"{name}, 65,536 cells", units, words, log2=16)


def short_cases(decl, equal, power):
    """The programs on short grids."""
    dice = [Unit("Dice", "dfreq [2] dsev [1:6]", listed([2]), even(1, 6))]
    many = [Unit("K", "1000 claims dsev [1:5] poisson", "poisson 1000", even(1, 5))]
    trials = "15 claims dsev [1:10] binomial 0.5"
    binomial = [Unit(f"B{number}", trials, "binomial 30 0.5", even(1, 10)) for number in range(16)]
    table = [Unit("T", "dfreq [0:256] dsev [1:15]", listed(range(257)), even(1, 15))]
    rare = "32768 claims dsev [0 1] [15/16 1/16] binomial 0.5"
    deep = [Unit("B", rare, "binomial 65536 0.5", pairs([0, 1], ["15/16", "1/16"]))]
    asks = "mean q:0.99 tail:0.99 joint:Motor:200 kappa:Motor:200".split()
    yield Case("two dice, 16 cells", dice, ["pmf:2", "cdf:9", "mean", "q:0.9", "tail:0.9"], log2=4)
    yield Case("a book of three units, 1,024 cells", book(), ["--digits", "4", *asks], log2=10)
    yield Case("a Poisson mean of 1,000, 4,096 cells", many, ["q:0.99", "cdf:3000"])
    yield Case("16 binomial units, 4,096 cells", binomial, ["mean", "cdf:1320", "q:0.99"])
    yield Case("16 equal units of 745 claims, 4,096 cells", equal, ["cdf:4000", "q:0.99", "tail:0.99"])
    yield Case("16 made units, 4,096 cells", made(decl), ["--digits", "4", "mean", "cdf:2390", "q:0.99"])
    yield Case("256 claims of 1,024 amounts, 4,096 cells", power, ["mean", "cdf:4095"])
    yield Case("a table of 257 counts, 4,096 cells", table, ["mean", "cdf:1024", "q:0.99"])
    yield Case("65,536 trials, 4,096 cells", deep, ["mean", "cdf:2048", "q:0.99"])


def ask_cases():
    """256 asks of each kind."""
    for kind, words in asked_of_each_kind().items():
        yield Case(f"256 asks `{kind}`, 1,024 cells", book(), ["--digits", "4", *words], log2=10)
    yield from tail_cases()


def refused_cases():
    """Texts that are refused."""
    refused = "agg D dfreq [1] dsev [1" + " 1" * ((1_048_576 - 26) // 2) + "]\n"
    yield Case("a megabyte of values that is refused", [], ["mean"], text=refused, status=3)
    yield Case("a byte more than a megabyte, refused", [], ["mean"], text="x" * 1_048_577, status=3)


def large_units(times):
    """256 Poisson and negative binomial units in turn, no two alike: 0.2 to 1.22 claims, so many times, of `[1:2]` to `[1:7]`."""
    units = []
    for number in range(256):
        claims, most = Fraction(times * (50 + number), 250), 2 + number % 6
        kind, count = (("poisson", "poisson {}"), ("mixed gamma 0.5", "gamma {} 4"))[number % 2]
        text = f"{float(claims)} claims dsev [1:{most}] {kind}"
        units.append(Unit(f"L{number}", text, count.format(float(claims)), even(1, most)))
    return units


def event_table():
    """65,536 events in no order of their amounts, one for each amount from 1 to 65,536, with probabilities of eight digits that fall
    by the square of the amount, more or less."""
    amounts = [1 + (40_503 * number + 12_345) % 65_536 for number in range(65_536)]
    rates = [(50 + 7_919 * number % 101) * 10**9 // (amount + 300) ** 2 for number, amount in enumerate(amounts)]
    weights = [rate * 10**8 // sum(rates) for rate in rates]
    weights[amounts.index(1)] += 10**8 - sum(weights)
    text = f"dsev [{' '.join(map(str, amounts))}] [{' '.join(f'.{weight:08}' for weight in weights)}]"
    return text, pairs(amounts, [Fraction(weight, 10**8) for weight in weights])


def weighed(amounts, digits):
    """A severity whose probabilities have so many digits and differ, as text and as pairs."""
    rates = [100 + 7_919 * number % 101 for number in range(len(amounts))]
    weights = [rate * 10**digits // sum(rates) for rate in rates]
    weights[0] += 10**digits - sum(weights)
    text = f"dsev [{' '.join(map(str, amounts))}] [{' '.join(f'.{weight:0{digits}}' for weight in weights)}]"
    return text, pairs(amounts, [Fraction(weight, 10**digits) for weight in weights])


def shape_cases():
    """Gamma units of whole shapes, and of one that is not, with 10 amounts, and one with many weights."""
    text, severity = weighed([1, 2, 3, 5, 8, 13, 21, 34, 55, 89], 4)
    for log2, claims in ((12, 60), (16, 1000)):
        for shape, spread in ((9, "1/3"), (Fraction(100, 9), "0.3"), (16, "0.25")):
            unit = Unit("G", f"{claims} claims {text} mixed gamma {spread}", f"gamma {claims} {float(shape)!r}", severity)
            yield Case(f"a gamma unit of shape {shape}, 10 amounts, {2**log2:,} cells", [unit], [*EXTENDED, "mean", "q:0.9"], log2=log2)
    text, severity = weighed(range(1, 1501), 9)
    unit = Unit("G", f"1 claims {text} mixed gamma 0.3", f"gamma 1 {100 / 9!r}", severity)
    yield Case("1,500 weights of nine digits, shape 100/9, 4,096 cells", [unit], [*EXTENDED, "mean", "q:0.9"])


def large_cases():
    """Books that need the extended rules."""
    some, wide = ["mean", "q:0.99", "tail:0.99"], [*EXTENDED, "--mwidth", "1000000000"]
    few, many = large_units(1), large_units(64)
    port = "256 Poisson and negative binomial units"
    yield Case(f"{port}, 1,024 cells", few, [*wide, *some], log2=10)
    yield Case(f"{port}, `kappa` of each, 1,024 cells", few, [*wide, *kappas(few, 500)], log2=10)
    yield Case(f"{port}, 65,536 cells", many, [*wide, *some], log2=16)
    yield Case(f"{port}, `kappa` of each, 65,536 cells", many, [*wide, *kappas(many, 32_000)], log2=16)
    text, severity = event_table()
    for name, words, count in (("one event", "dfreq [1] {}", listed([1])), ("10 events expected", "10 claims {} poisson", "poisson 10")):
        unit = Unit("E", words.format(text), count, severity)
        yield Case(f"a table of 65,536 events, {name}, 65,536 cells", [unit], [*wide, "mean", "q:0.95", "tail:0.95"], log2=16)
    yield from shape_cases()


def parts(decl):
    """The programs, part by part of the page."""
    often = "745 claims dsev [1:10] binomial 0.5"
    equal = [Unit(f"E{number}", often, "binomial 1490 0.5", even(1, 10)) for number in range(16)]
    power = [Unit("D", "dfreq [256] dsev [1:1024]", listed([256]), even(1, 1024))]
    yield "Short grids", short_cases(decl, equal, power)
    yield "Portfolios of 16 units", mixed_cases()
    yield "Grids of 65,536 cells", long_cases(equal, power)
    yield "Counts with a changed probability of no claim", changed_cases()
    yield "A common factor", common_cases()
    yield "256 asks of one kind", ask_cases()
    yield "Large books, by the extended rules", large_cases()
    yield "Texts that are refused", refused_cases()


@dataclasses.dataclass
class Tool:
    """Something that answers: its command, or why it is not run."""

    name: str
    command: list
    why: str = ""
    is_decl: bool = False

    def words(self, case):
        """The command for a program."""
        return [*self.command, *case.command()] if self.is_decl else self.command

    def can(self, case):
        """Whether it is there, and the program has a counterpart for it."""
        return not self.why and (self.is_decl or bool(case.units))


def compiled(room, name, library=()):
    """The tool that a C program of this folder is, if there is what it needs."""
    if shutil.which("cc") is None:
        return Tool(name, [], "cc is not installed")
    output = room / pathlib.Path(name).stem
    made = subprocess.run(
        ["cc", "-O3", "-fcx-limited-range", "-o", output, TOP / "bench" / name, *library, "-lm"], capture_output=True, text=True
    )
    if made.returncode == 0:
        return Tool(f"C, {name}", [str(output)])
    lacks = "fftw3.h" in made.stderr
    return Tool(name, [], "FFTW is not installed" if lacks else f"it does not compile: {made.stderr}")


def with_numpy():
    """The first Python that has numpy."""
    for python in dict.fromkeys([sys.executable, shutil.which("python3"), "/usr/bin/python3"]):
        if python and subprocess.run([python, "-c", "import numpy"], capture_output=True).returncode == 0:
            return Tool("numpy", [python, str(TOP / "bench" / "transform.py")])
    return Tool("numpy", [], "numpy is not installed")


def with_actuar():
    """R, if it has the package."""
    if shutil.which("Rscript") is None:
        return Tool("actuar", [], "R is not installed")
    if subprocess.run(["Rscript", "--vanilla", "-e", "library(actuar)"], capture_output=True).returncode != 0:
        return Tool("actuar", [], "actuar is not installed")
    return Tool("actuar", ["Rscript", "--vanilla", str(TOP / "bench" / "book.R")])


@dataclasses.dataclass
class Figures:
    """What was measured of a tool on a program: the milliseconds of each call, from start to end and of the processor, kilobytes,
    lines, or what was wrong."""

    times: list
    kilobytes: int = 0
    lines: list = dataclasses.field(default_factory=list)
    wrong: str = ""

    def shown(self):
        """A cell of the table."""
        if self.wrong:
            return self.wrong
        took, spent = (statistics.median(side) for side in zip(*self.times))
        memory = f", {self.kilobytes / 1024:.1f} MB" if self.kilobytes else ""
        return f"{rounded(took)} ms ({rounded(spent)}){memory}"


def rounded(milliseconds):
    """Milliseconds as a figure."""
    return f"{milliseconds:.2f}" if milliseconds < 10 else f"{milliseconds:.0f}"


def once(words, source, room, status):
    """Milliseconds of one call, from start to end and of the processor, and the lines that it wrote; or what was wrong."""
    with open(source, "rb") as given, open(room / "out", "wb") as out, open(room / "err", "wb") as err:
        begun = time.perf_counter()
        process = subprocess.Popen(words, stdin=given, stdout=out, stderr=err)
        timer = threading.Timer(PATIENCE, process.kill)
        timer.start()
        _, ended, usage = os.wait4(process.pid, 0)
        took = time.perf_counter() - begun
        timer.cancel()
        process.returncode = os.waitstatus_to_exitcode(ended)
    if took >= PATIENCE:
        return None, f"over {PATIENCE} s"
    if process.returncode != status:
        message = (room / "err").read_text(errors="replace").strip().splitlines()
        return None, f"no answer ({message[-1].strip() if message else f'status {process.returncode}'})"
    return (1000 * took, 1000 * (usage.ru_utime + usage.ru_stime)), (room / "out").read_text().splitlines()


def peak(words, source, room):
    """The greatest memory of one call, in kilobytes; 0 where /usr/bin/time is not installed."""
    if not os.path.exists(TIME):
        return 0
    with open(source, "rb") as given:
        timed = [TIME, "-f", "%M", "-o", str(room / "peak"), *words]
        subprocess.run(timed, stdin=given, stdout=subprocess.DEVNULL, stderr=subprocess.DEVNULL)
    return int((room / "peak").read_text().split()[-1])


def measured(tools, case, room):
    """The figures of each tool that can, by its name. They take turns."""
    (room / "text").write_text(case.source())
    (room / "book").write_text(case.told())
    found, left = {}, {}
    for tool in (tool for tool in tools if tool.can(case)):
        source = room / ("text" if tool.is_decl else "book")
        took, lines = once(tool.words(case), source, room, case.status)
        if took is None:
            found[tool.name] = Figures([], wrong=lines)
            continue
        found[tool.name] = Figures([took], peak(tool.words(case), source, room), lines)
        left[tool.name] = min(CALLS, max(3, int(1000 * SECONDS / took[0]))) - 1
    while any(left.values()):
        for tool in (tool for tool in tools if left.get(tool.name)):
            left[tool.name] -= 1
            source = room / ("text" if tool.is_decl else "book")
            took, lines = once(tool.words(case), source, room, case.status)
            if took is not None:
                found[tool.name].times.append(took)
    return found


def ends_of(line):
    """An ask, its two ends, and one in the last digit; no ends where the report has no number there."""
    ask, low, high = line.split(" ")
    if low in ("-", "beyond"):
        return ask, None, None, 0
    unit = 10.0 ** -len(low.partition(".")[2]) if "." in low else 0
    return ask, float(low), float("inf") if high == "beyond" else float(high), unit


def outside(own, lines):
    """The asks of which another tool answers a number that lies outside decl's ends."""
    for line, other in zip(own, lines):
        ask, low, high, unit = ends_of(line)
        if low is not None and not low - unit <= float(other) <= high + unit:
            yield f"`{ask}` {other} (decl: {line.removeprefix(ask).strip()})"


def machine(tools):
    """The processor, how busy it was, and the versions of all tools."""
    info = pathlib.Path("/proc/cpuinfo")
    lines = info.read_text().splitlines() if info.exists() else []
    model = next((line.split(":")[1].strip() for line in lines if line.startswith("model name")), platform.machine())
    said = [f"{os.cpu_count()} processors ({model})", f"{platform.system()} {platform.release()}"]
    said.append("load " + " ".join(f"{load:.1f}" for load in os.getloadavg()))
    asked = (
        (["cc", "--version"], "{}"),
        (["pkg-config", "--modversion", "fftw3"], "FFTW {}"),
        ([*next((tool.command[:1] for tool in tools if tool.name == "numpy"), []), "-c", NUMPY], "{}"),
        (["Rscript", "--vanilla", "-e", ACTUAR], "{}"),
    )
    for words, form in asked:
        done = subprocess.run(words, capture_output=True, text=True) if shutil.which(words[0]) else None
        if done is not None and done.returncode == 0:
            said.append(form.format(done.stdout.splitlines()[0]))
    return ", ".join(said)


NUMPY = "import numpy, platform; print('Python', platform.python_version() + ', numpy', numpy.__version__)"
ACTUAR = 'cat(paste0("R ", getRversion(), ", actuar ", packageVersion("actuar")))'


def rows(tools, chosen, room, notes):
    """The lines of one table; what other tools answer outside the ends of decl is added to the notes."""
    names = [tool.name for tool in tools if not tool.why]
    yield "| Program | " + " | ".join(names) + " |"
    yield "|---|" + "---|" * len(names)
    for case in chosen:
        found = measured(tools, case, room)
        shown = [found[name].shown() if name in found else "" for name in names]
        yield f"| {case.name} | " + " | ".join(shown) + " |"
        own = found[names[0]].lines
        for name in names[1:]:
            if name in found and case.units:
                told = list(outside(own, found[name].lines)) if not tool_of(tools, name).is_decl else []
                told += ["its report differs"] if tool_of(tools, name).is_decl and found[name].lines != own else []
                rest = " .." if len(told) > 3 else ""
                notes += [f"- {case.name}, {name}: {'; '.join(told[:3])}{rest}"] if told else []


def tables(tools, only, room):
    """The lines of the tables, each under its heading."""
    begun = machine(tools)
    yield f"Whole processes: the median of up to {CALLS} calls from start to end, in brackets that of their processor time, and the"
    yield f"peak memory of one, in one run on {begun}."
    notes = []
    for heading, programs in parts(tools[0].command[0]):
        chosen = [case for case in programs if only in case.name]
        if chosen:
            yield from ["", f"### {heading}", ""]
            yield from rows(tools, chosen, room, notes)
    (room / "nothing").write_text("")
    empty = Figures([once(["true"], room / "nothing", room, 0)[0] for _ in range(CALLS)])
    yield ""
    yield f"The measuring has its part in each figure: an empty program, `true`, takes {empty.shown()}."
    if not os.path.exists(TIME):
        yield f"Memory was not measured: there is no {TIME}."
    yield from (f"Not run: {tool.name}, {tool.why}." for tool in tools if tool.why)
    if notes:
        yield from ["", "Where another tool answers a number outside the ends of decl:", "", *notes]


def counted(tool, case, room):
    """How many instructions one call of a build takes."""
    (room / "text").write_text(case.source())
    words = ["valgrind", "--tool=callgrind", f"--callgrind-out-file={os.devnull}", *tool.words(case)]
    with open(room / "text", "rb") as given:
        done = subprocess.run(words, stdin=given, stdout=subprocess.DEVNULL, stderr=subprocess.PIPE, text=True)
    return int(done.stderr.split("Collected :")[1].split()[0])


def counts(builds, only, room):
    """The lines of a table of millions of instructions, and how many times as many the other builds take."""
    yield "| Program | " + " | ".join(build.name for build in builds) + " |"
    yield "|---|" + "---|" * len(builds)
    for case in (case for _, programs in parts(builds[0].command[0]) for case in programs if only in case.name):
        first, *rest = [counted(build, case, room) for build in builds]
        yield f"| {case.name} | " + " | ".join([f"{first / 1e6:.1f}", *(f"{many / first:.3f}" for many in rest)]) + " |"


def tool_of(tools, name):
    """The tool of this name."""
    return next(tool for tool in tools if tool.name == name)


def builds_of(builds):
    """The builds of decl, that of this folder first."""
    decl = os.environ.get("DECL") or str(TOP / "crates" / "decl" / "out" / "decl")
    if not os.access(decl, os.X_OK):
        sys.exit(f"bench: there is no program {decl}: make builds it")
    found = [Tool("decl", [decl], is_decl=True)]
    for build in builds:
        name, program = build.split("=", 1)
        found.append(Tool(f"decl, {name}", [program], is_decl=True))
    return found


def tools_of(builds, room):
    """All that is measured, decl first."""
    transform = compiled(room, "transform.c", ["-lfftw3"])
    return [*builds_of(builds), compiled(room, "plain.c"), transform, with_numpy(), with_actuar()]


def main():
    """Writes the tables, or puts them into the page."""
    words = argparse.ArgumentParser(description=__doc__, formatter_class=argparse.RawDescriptionHelpFormatter)
    words.add_argument("--page", type=pathlib.Path)
    words.add_argument("--only", default="")
    words.add_argument("--count", action="store_true")
    words.add_argument("builds", nargs="*", metavar="NAME=PROGRAM")
    asked = words.parse_args()
    with tempfile.TemporaryDirectory() as folder:
        room = pathlib.Path(folder)
        if asked.count:
            for line in counts(builds_of(asked.builds), asked.only, room):
                print(line, flush=True)
            return
        lines = []
        for line in tables(tools_of(asked.builds, room), asked.only, room):
            lines.append(line)
            if asked.page is None:
                print(line, flush=True)
    if asked.page is not None:
        before, rest = asked.page.read_text(encoding="utf-8").split(MARKS[0])
        behind = rest.split(MARKS[1])[1]
        asked.page.write_text("\n".join([before + MARKS[0], "", *lines, "", MARKS[1] + behind]), encoding="utf-8")


if __name__ == "__main__":
    main()
