#!/usr/bin/env python3
"""Asks four kinds of tools the same questions, and writes the figures of docs/COMPARED.md between its two marks.

    bench/compare.py             writes the tables to standard output
    bench/compare.py PAGE        puts them into the page

The peers are Panjer's recursion and a transform, both in floating point with numpy, and the package actuar of R, where it is
installed. The program is DECL, else crates/decl/out/decl. Exact values come from bench/exact.py.
"""

import os
import pathlib
import platform
import re
import shutil
import subprocess
import sys
import time
from fractions import Fraction

import exact
import numpy

ROOT = pathlib.Path(__file__).resolve().parent.parent
DECL = os.environ.get("DECL") or str(ROOT / "crates" / "decl" / "out" / "decl")
MARKS = ("<!-- figures of bench/compare.py -->", "<!-- end of figures -->")
RARE = [(1, Fraction(99, 100)), (100, Fraction(1, 100))]
ONE = [(1, Fraction(1))]


class Case:
    """One program and one ask, and how each tool is asked; `none` is a changed probability of no claim, and `shape` that of a gamma count,
    for which the extended rules are needed."""

    def __init__(self, name, text, ask, log2, digits, pairs, mean, read, value, none=None, shape=None):
        self.name, self.text, self.ask = name, text, ask
        self.log2, self.digits = log2, digits
        self.pairs, self.mean, self.read, self.value, self.none, self.shape = pairs, mean, read, value, none, shape

    def severity(self):
        """The probabilities of one claim, on the grid."""
        cells = numpy.zeros(2**self.log2)
        for amount, chance in self.pairs:
            cells[amount] += float(chance)
        return cells

    def recursion(self):
        """Panjer's recursion in floating point; one claim alone needs none."""
        cells = self.severity()
        if self.mean is None:
            return self.read(cells)
        total = numpy.zeros(len(cells))
        total[0], one = numpy.exp(-self.mean * (1 - cells[0])), 0.0
        if self.none is not None:
            unchanged, kept = numpy.exp(-self.mean), (1 - self.none) / -numpy.expm1(-self.mean)
            total[0] = self.none + kept * (total[0] - unchanged)
            one = kept * self.mean * unchanged - self.mean * self.none
        weighted = numpy.arange(len(cells)) * cells
        if self.shape is not None:  # of claims above 0
            q, total[0] = self.mean / (self.shape + self.mean), (1 + self.mean / self.shape) ** -self.shape
            for cell in range(1, len(cells)):
                steps = q * (cells + (self.shape - 1) / cell * weighted)
                total[cell] = numpy.dot(steps[1 : cell + 1], total[cell - 1 :: -1])
            return self.read(total)
        for cell in range(1, len(cells)):
            stepped = self.mean / cell * numpy.dot(weighted[1 : cell + 1], total[cell - 1 :: -1])
            total[cell] = stepped + one * cells[cell]
        return self.read(total)

    def transform(self):
        """The transform of the severity on the grid, its generating function, and back."""
        turned = numpy.fft.fft(self.severity())
        if self.shape is not None:
            return self.read(numpy.real(numpy.fft.ifft((1 - self.mean / self.shape * (turned - 1)) ** -self.shape)))
        turned = turned if self.mean is None else numpy.exp(self.mean * (turned - 1))
        if self.none is not None:
            turned = self.none + (1 - self.none) * (turned - numpy.exp(-self.mean)) / -numpy.expm1(-self.mean)
        return self.read(numpy.real(numpy.fft.ifft(turned)))

    def decl(self):
        """The ends that decl writes, or what it says."""
        words = [DECL, "run", "--log2", str(self.log2), "--digits", str(self.digits), self.ask]
        words += ["--rules", "extended"] if self.shape is not None else []
        done = subprocess.run(words, input=self.text.encode(), capture_output=True)
        return (done.stdout or done.stderr).decode().strip().removeprefix(self.ask).strip()


def point(x):
    """Reads the probability of a total."""
    return lambda total: total[x]


def at_most(x):
    """Reads the distribution function."""
    return lambda total: numpy.cumsum(total)[x]


def beyond(x):
    """Reads what the distribution function leaves of 1."""
    return lambda total: 1 - numpy.cumsum(total)[x]


def quantile(p):
    """Reads the least total at which the distribution function is at least p."""
    return lambda total: int(numpy.searchsorted(numpy.cumsum(total), p))


def excess(attachment):
    """Reads the mean above the attachment from the cells of the grid."""
    return lambda total: float(numpy.dot(numpy.maximum(numpy.arange(len(total)) - attachment, 0), total))


def cases():
    """The questions, each with its exact value."""
    wrapped = exact.poisson(exact.die(6), 10, 32)
    single = exact.poisson(ONE, 1, 41)
    deep = exact.poisson(ONE, 4096, 4096)
    rare = exact.poisson(RARE, 2, 512)
    many = exact.changed(exact.poisson(ONE, 100, 101), exact.none(100), Fraction(1, 5))
    survival = sum((exact.Decimal(0), *exact.poisson(ONE, 1, 120)[21:]))
    heavy = exact.gamma(exact.die(6), 20, Fraction(16, 25), 41)
    return [
        Case("wrapped", "agg W 10 claims dsev [1:6] poisson", "pmf:3", 5, 9, exact.die(6), 10, point(3), wrapped[3]),
        Case("meets", "agg Q dfreq [1] dsev [1:10]", "q:0.8", 5, 6, exact.die(10), None, quantile(0.8), 8),
        Case("tail", "agg T 1 claims dsev [1] poisson", "pmf:40", 6, 9, ONE, 1, point(40), single[40]),
        Case("survival", "agg T 1 claims dsev [1] poisson", "cdf:20", 6, 9, ONE, 1, beyond(20), survival),
        Case("underflow", "agg U 4096 claims dsev [1] poisson", "cdf:4095", 12, 6, ONE, 4096, at_most(4095), sum(deep)),
        Case("cut", "agg C 2 claims dsev [1 100] [0.99 0.01] poisson", "layer:infxs300", 9, 9, RARE, 2, excess(300),
             exact.above(rare, Fraction(2 * 199, 100), 300)),
        Case("negative", "agg N 2 claims dsev [1:6] poisson", "pmf:200", 8, 9, exact.die(6), 2, point(200),
             exact.poisson(exact.die(6), 2, 201)[200]),
        Case("changed", "agg Z 100 claims dsev [1] poisson zm 0.2", "cdf:100", 8, 9, ONE, 100, at_most(100), sum(many), 0.2),
        Case("shape", "agg S 20 claims dsev [1:6] mixed gamma 1.25", "cdf:40", 7, 9, exact.die(6), 20, at_most(40), sum(heavy), shape=0.64),
    ]


def shown(value):
    """A figure of the table."""
    if isinstance(value, (int, numpy.integer)):
        return str(value)
    if isinstance(value, exact.Decimal):
        return f"{value:.6g}" if value < exact.Decimal("0.001") else f"{value:.12f}"
    return f"{value:.6g}" if abs(value) < 0.001 else f"{value:.12f}"


def asked_of_actuar(*words):
    """What actuar answers, by the name of the case; nothing where it is not installed."""
    if shutil.which("Rscript") is None:
        return {}
    done = subprocess.run(["Rscript", "--vanilla", str(ROOT / "bench" / "compare.R"), *words], capture_output=True, text=True)
    return dict(line.split("\t") for line in done.stdout.splitlines())


def answers(found):
    """The table of answers."""
    actuar = asked_of_actuar()
    yield "| Case | Exact | Recursion (numpy) | Transform (numpy) | actuar | decl |"
    yield "|---|---|---|---|---|---|"
    for case in found:
        other = actuar.get(case.name, "not asked")
        try:
            other = shown(float(other) if case.name != "meets" else int(float(other)))
        except ValueError:
            pass
        own = case.decl().replace(" ", " to ")
        own = f"1 less {own}" if case.name == "survival" else own
        with numpy.errstate(all="ignore"):
            peers = [shown(case.recursion()), shown(case.transform())]
        yield f"| {case.name} | {shown(case.value)} | {peers[0]} | {peers[1]} | {other} | {own} |"


def took(call):
    """The least of three times, in seconds."""
    times = []
    for _ in range(3):
        begun = time.perf_counter()
        with numpy.errstate(all="ignore"):
            call()
        times.append(time.perf_counter() - begun)
    return min(times)


def times(found):
    """The table of times."""
    actuar = asked_of_actuar("times")
    yield "| Case | Buckets | Recursion (numpy) | Transform (numpy) | actuar | decl |"
    yield "|---|---|---|---|---|---|"
    for case in found:
        own = [f"{took(call):.4f} s" for call in (case.recursion, case.transform, case.decl)]
        other = f"{float(actuar[case.name]):.3f} s" if case.name in actuar else "not asked"
        yield f"| {case.name} | {2**case.log2} | {own[0]} | {own[1]} | {other} | {own[2]} |"
    yield portfolio()


def portfolio():
    """The made program number 0 on 4,096 buckets: the transform of its eight units, and decl's whole report."""
    text = subprocess.run([DECL, "fmt", "--make", "0"], capture_output=True, text=True).stdout
    units = re.findall(r"agg \w+ (\d+) claims dsev \[1:(\d+)\] (.*)", text)

    def transform():
        total = numpy.ones(4096, dtype=complex)
        for claims, faces, kind in units:
            cells = numpy.zeros(4096)
            cells[1 : int(faces) + 1] = 1 / int(faces)
            turned, mean = numpy.fft.fft(cells), int(claims)
            total *= {
                "poisson": lambda: numpy.exp(mean * (turned - 1)),
                "mixed gamma 0.5": lambda: (1 - mean / 4 * (turned - 1)) ** -4,
                "binomial 0.5": lambda: ((1 + turned) / 2) ** (2 * mean),
                "fixed": lambda: turned**mean,
            }[kind]()
        return numpy.cumsum(numpy.real(numpy.fft.ifft(total)))[2000]

    def own():
        words = [DECL, "run", "--make", "0", "--log2", "12", "mean", "cdf:2000", "q:0.99"]
        subprocess.run(words, stdin=subprocess.DEVNULL, capture_output=True)

    return f"| portfolio | 4096 | not asked | {took(transform):.4f} s | not asked | {took(own):.4f} s |"


def machine():
    """The processor and the versions of all tools."""
    model = platform.machine()
    info = pathlib.Path("/proc/cpuinfo")
    if info.exists():
        names = [line.split(":")[1].strip() for line in info.read_text().splitlines() if line.startswith("model name")]
        model = names[0] if names else model
    said = [f"{os.cpu_count()} processors ({model})", f"Python {platform.python_version()}", f"numpy {numpy.__version__}"]
    if shutil.which("Rscript"):
        asked = ["Rscript", "--vanilla", "-e", 'cat(paste0("R ", getRversion(), ", actuar ", packageVersion("actuar")))']
        done = subprocess.run(asked, capture_output=True, text=True)
        said.append(done.stdout if done.returncode == 0 else "actuar not installed")
    return ", ".join(said)


def main():
    """Writes the tables, or puts them into the page."""
    found = cases()
    lines = ["", *answers(found), "", f"Times, the least of three, in one run on {machine()}:", "", *times(found), ""]
    if len(sys.argv) < 2:
        print("\n".join(lines))
        return
    page = pathlib.Path(sys.argv[1])
    before, rest = page.read_text(encoding="utf-8").split(MARKS[0])
    behind = rest.split(MARKS[1])[1]
    page.write_text("\n".join([before + MARKS[0], *lines, MARKS[1] + behind]), encoding="utf-8")


if __name__ == "__main__":
    main()
