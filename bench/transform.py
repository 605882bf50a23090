#!/usr/bin/env python3
"""A book in doubles by numpy's transform, on a grid of twice the length: what lies past that wraps round.

Standard input is as bench/book.h says; a line is written for each ask. bench/bench.py measures it beside `decl`.
"""

import functools
import itertools
import sys

import numpy


def read_book(lines):
    """The number of cells, the coefficient of variation of a common factor or None, the units as (count, numbers, amounts,
    probabilities, layer, changed zero), and the asks."""
    cells, common, units, asks = 0, None, [], []
    for word, *rest in (line.split() for line in lines):
        if word == "cells":
            cells = int(rest[0])
        elif word == "common":
            common = float(rest[0])
        elif word == "unit":
            units.append([rest[0], [float(number) for number in rest[1:]], None, None, None, None])
        elif word == "zero":
            units[-1][5] = float(rest[0])
        elif word == "severity":
            pairs = [pair.split(":") for pair in rest]
            units[-1][2] = numpy.array([int(amount) for amount, _ in pairs])
            units[-1][3] = numpy.array([float(chance) for _, chance in pairs])
        elif word == "net":
            units[-1][4] = (int(rest[0]), int(rest[1]))
        elif word == "ask":
            asks.append((rest[0], [float(number) for number in rest[1:]]))
    return cells, common, units, asks


def generated(count, numbers, x):
    """The generating function of the claim count, before its zero is changed."""
    if count == "poisson":
        return numpy.exp(numbers[0] * (x - 1))
    if count == "gamma":
        return (1 - numbers[0] / numbers[1] * (x - 1)) ** -numbers[1]
    if count == "binomial":
        return (1 + numbers[1] * (x - 1)) ** numbers[0]
    return numpy.polyval(numbers[::-1], x)


def count_mean(count, numbers):
    """The expected number of claims."""
    if count == "table":
        return sum(claims * chance for claims, chance in enumerate(numbers))
    return numbers[0] * numbers[1] if count == "binomial" else numbers[0]


class Sums:
    """The distribution function, and the mean of what of the total lies within 0 and each amount."""

    def __init__(self, cell):
        self.below = numpy.cumsum(cell)
        self.left = numpy.concatenate(([0.0], numpy.cumsum(1 - self.below)))

    def layer_mean(self, mean, limit, attachment):
        """The mean of what lies above the attachment and within the limit; -1 for no limit."""
        skipped = self.left[min(attachment, len(self.below))]
        return mean - skipped if limit < 0 else self.left[min(attachment + limit, len(self.below))] - skipped

    def quantile(self, p):
        """The first total at which the distribution function is at least p."""
        return int(numpy.searchsorted(self.below, p))

    def tail_mean(self, mean, p):
        """The mean of the worst part 1 - p."""
        quantile = self.quantile(p)
        return quantile + self.layer_mean(mean, -1, quantile) / (1 - p)


def made(unit, cells):
    """The unit's cells and mean, after its aggregate clause."""
    count, numbers, amounts, chances, layer, zero = unit
    none = None if zero is None else generated(count, numbers, 0.0)
    claim = numpy.zeros(2 * cells)
    inside = amounts < cells
    numpy.add.at(claim, amounts[inside], chances[inside])
    turned = generated(count, numbers, numpy.fft.rfft(claim))
    mean = count_mean(count, numbers) * float(amounts @ chances)
    if zero is not None:
        turned, mean = zero + (1 - zero) * (turned - none) / (1 - none), mean * (1 - zero) / (1 - none)
    cell = numpy.fft.irfft(turned, 2 * cells)[:cells]
    if layer is None:
        return cell, mean
    mean -= Sums(cell).layer_mean(mean, *layer)
    sums = numpy.arange(cells)
    kept = sums - numpy.clip(sums - layer[1], 0, layer[0])
    return numpy.bincount(kept, weights=cell, minlength=cells), mean


def added(turned, cells):
    """The cells of the sum of parts with these spectra."""
    return numpy.fft.irfft(functools.reduce(numpy.multiply, turned, numpy.ones(cells + 1, dtype=complex)), 2 * cells)[:cells]


def beside(turned, cells):
    """For each of the spectra the product of those before it, and that of those behind it."""
    nothing = numpy.ones(cells + 1, dtype=complex)
    before = list(itertools.accumulate(turned[:-1], numpy.multiply, initial=nothing))
    return before, list(itertools.accumulate(turned[:0:-1], numpy.multiply, initial=nothing))[::-1]


class Book:
    """The cells and means of the units, those of their sum, and of the sums of all units but one."""

    def __init__(self, found, cells):
        self.parts, self.means = [cell for cell, _ in found], [mean for _, mean in found]
        self.total, self.mean = added((numpy.fft.rfft(part, 2 * cells) for part in self.parts), cells), sum(self.means)
        self.sums, self.made, self.beside = Sums(self.total), {}, None

    def without(self, unit):
        """The cells of the sum of all units but this one, and its distribution function."""
        cells = len(self.total)
        if self.beside is None:
            self.beside = beside([numpy.fft.rfft(part, 2 * cells) for part in self.parts], cells)
        if unit not in self.made:
            others = added([side[unit] for side in self.beside], cells)
            self.made[unit] = others, numpy.cumsum(others)
        return self.made[unit]

    def weighed(self, unit, other, x):
        """The sum of y times the unit's probability of y times `other` at x - y."""
        return float((numpy.arange(x + 1) * self.parts[unit][: x + 1]) @ other[x::-1][: x + 1]) if x >= 0 else 0.0

    def joint(self, unit, x):
        """The mean of a unit's outcome where the total is x."""
        return self.weighed(unit, self.without(unit)[0], x)

    def share(self, unit, p):
        """The unit's share of the tail mean: its mean without its part below the quantile, and without that part of it at the quantile
        which is needed to reach p."""
        q, (others, below) = self.sums.quantile(p), self.without(unit)
        needed = p - (self.sums.below[q - 1] if q > 0 else 0.0)
        here = self.weighed(unit, others, q) * needed / self.total[q] if needed > 0 else 0.0
        return (self.means[unit] - self.weighed(unit, below, q - 1) - here) / (1 - p)

    def answer(self, kind, numbers):
        """The value that is asked for."""
        if kind == "mean":
            return self.mean
        if kind == "pmf":
            return self.total[int(numbers[0])]
        if kind == "cdf":
            return self.sums.below[int(numbers[0])]
        if kind == "q":
            return self.sums.quantile(numbers[0])
        if kind == "tail":
            return self.sums.tail_mean(self.mean, numbers[0])
        if kind == "price":
            return sum(weight * self.sums.tail_mean(self.mean, p) for weight, p in zip(numbers[::2], numbers[1::2]))
        if kind == "layer":
            return self.sums.layer_mean(self.mean, int(numbers[0]), int(numbers[1]))
        if kind == "cotail":
            return self.share(int(numbers[0]), numbers[1])
        unit, x = int(numbers[0]), int(numbers[1])
        joint = self.joint(unit, x)
        return joint if kind == "joint" else joint / self.total[x]


class Shared(Book):
    """A book of Poisson units under a common factor: its total is that of one gamma unit with the claims of all, and a joint mean comes
    from such a unit with one more in the shape."""

    def __init__(self, units, common, cells):
        self.units, self.shape, self.cells = units, common**-2, cells
        self.claims = sum(numbers[0] for _, numbers, *_ in units)
        self.mean = sum(numbers[0] * float(amounts @ chances) for _, numbers, amounts, chances, *_ in units)
        self.total = self.pooled(0)
        self.sums, self.raised = Sums(self.total), None

    def pooled(self, more):
        """The cells of the gamma unit with so much more in the shape, and the mean in proportion."""
        amounts = numpy.concatenate([unit[2] for unit in self.units])
        chances = numpy.concatenate([unit[1][0] / self.claims * unit[3] for unit in self.units])
        numbers = [self.claims * (1 + more / self.shape), self.shape + more]
        return made(("gamma", numbers, amounts, chances, None, None), self.cells)[0]

    def joint(self, unit, x):
        """The mean of a unit's outcome where the total is x."""
        if self.raised is None:
            self.raised = self.pooled(1)
        _, numbers, amounts, chances, *_ = self.units[unit]
        inside = amounts <= x
        return numbers[0] * float((amounts * chances)[inside] @ self.raised[x - amounts[inside]])


def main():
    """Answers what standard input asks."""
    cells, common, units, asks = read_book(sys.stdin)
    book = Book([made(unit, cells) for unit in units], cells) if common is None else Shared(units, common, cells)
    with numpy.errstate(all="ignore"):
        for kind, numbers in asks:
            print(f"{book.answer(kind, numbers):.12g}")


if __name__ == "__main__":
    main()
