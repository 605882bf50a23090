"""The rows of a report, in each of its three forms, and what is said of each; refusals and canonical texts are compared as they are."""

import json
import re
from fractions import Fraction

from . import text as texts, words
from .cells import TooLarge
from .text import Fault
from .totals import RAREST, Book

AGREES = "agrees"


def read(report):
    """The rows of a report, each an ask and two ends, and its form; no row where JSON is none of a report."""
    if report.startswith("{"):
        try:
            return [(row["ask"], row["low"], row["high"]) for row in json.loads(report)["rows"]], "json"
        except (ValueError, KeyError, TypeError):
            return [], "json"
    is_csv = report.startswith("ask,low,high\n")
    return [tuple(line.split("," if is_csv else " ")) for line in report.splitlines()[is_csv:]], "csv" if is_csv else "text"


def written(rows, form, bs, cells):
    """The bytes of a report of these rows."""
    if form == "json":
        listed = [{"ask": ask, "high": high, "low": low} for ask, low, high in rows]
        return json.dumps({"bs": str(bs), "cells": cells, "rows": listed}, separators=(",", ":")) + "\n"
    between, first = (",", [("ask", "low", "high")]) if form == "csv" else (" ", [])
    return "".join(between.join(row) + "\n" for row in [*first, *rows])


class Opinion:
    """What a call has to write: a report on `book`, or the canonical text `text`, or the refusal `fault`, with the status."""

    def __init__(self, source, arguments):
        self.book, self.text, self.fault, self.status = None, None, None, 0
        try:
            self.settings = words.read_words(arguments)
            self.source = source if self.settings.make is None else texts.made_of(self.settings.make)
            if self.settings.form == "fmt":
                self.text = texts.canonical(self.source)
            else:
                self.book = Book(self.source, self.settings.bs, self.settings.cells, self.settings.rules)
                self.asks = [words.asked(ask, self.settings.rules) for ask in self.settings.asks]
                self.look_at_asks()
        except Fault as fault:
            self.fault, self.status = f"decl: {fault}\n", fault.status

    def look_at_asks(self):
        """Raises the first fault of the asks: one beyond the grid, then one of a unit that is not there, then one for a share of the tail
        mean under a common factor."""
        faults = {
            "beyond the grid": self.is_beyond,
            "no such unit": lambda kind, *rest: kind in ("joint", "kappa", "cotail", "share") and rest[0] not in self.book.names,
            "no share under a common factor": lambda kind, *_: kind == "cotail" and self.book.shape,
        }
        for fault, has in faults.items():
            for i, ask in enumerate(self.asks):
                if has(*ask):
                    raise Fault(f"ask {i}: {fault}", 8)

    def is_beyond(self, kind, *rest):
        """Whether an ask passes the grid."""
        if kind == "layer":
            return rest[1] + (rest[0] or 0) > self.book.cells
        return kind in ("pmf", "cdf", "joint", "kappa") and rest[-1] >= self.book.cells

    def of_report(self, report):
        """For each row of a report what is said of it."""
        rows, form = read(report)
        is_right = form == self.settings.format and [row[0] for row in rows] == self.settings.asks and all(len(row) == 3 for row in rows)
        if not is_right or written(rows, form, self.book.bs, self.book.cells) != report:
            return ["not: these are not the rows that were asked for, in this form"]
        return [self.of_row(ask, *row[1:]) for ask, row in zip(self.asks, rows)]

    def of_row(self, ask, low, high):
        """What is said of a row: `agrees`, `not: ..` or `too large: ..`."""
        kind = ask[0]
        try:
            if kind == "q":
                return self.of_bracket(ask[1], low, high)
            if (low, high) == ("beyond", "beyond") and kind in ("tail", "cotail", "share", "price"):
                return self.of_beyond([ask[-1]] if kind != "price" else [p for _, p in ask[1]])
            if (low, high) == ("-", "-") and kind in ("kappa", "cotail"):
                return self.of_absent(ask)
            return self.of_numbers(ask, low, high)
        except TooLarge as reason:
            return f"too large: {reason}"

    @property
    def unit(self):
        """A unit of the last digit."""
        return Fraction(1, 10**self.settings.digits)

    def of_numbers(self, ask, low, high):
        """What is said of two numbers: they hold the value, and lie as close together as asked."""
        spelled = re.compile(rf"(0|[1-9][0-9]*)\.[0-9]{{{self.settings.digits}}}")
        if not spelled.fullmatch(low) or not spelled.fullmatch(high):
            return f"not: {low} and {high} are not two numbers of {self.settings.digits} digits"
        least, most = Fraction(low), Fraction(high)
        asked = self.settings.width if ask[0] in ("pmf", "cdf") else self.settings.mwidth
        if not 0 <= most - least <= asked * self.unit:
            return f"not: the ends are {(most - least) / self.unit} apart, and {asked} is asked for"
        if ask[0] in ("kappa", "cotail") and not self.is_frequent(ask):
            return "not: the total is too rare for numbers"
        own = self.book.value(ask)
        if own is None:
            return "not: the grid ends before the quantile"
        if own.high - own.low > self.unit / 10:
            raise TooLarge(f"its own ends are {float(own.high - own.low)} apart")
        return AGREES if least <= own.high and own.low <= most else f"not: the value is {float(own.low)}"

    def is_frequent(self, ask):
        """Whether the total of a share may be as frequent as numbers need."""
        x = ask[2] if ask[0] == "kappa" else self.book.total.bracket(ask[2], self.book.cells)[0]
        return x is None or self.book.total.cells.ends(x).high >= RAREST

    @property
    def spread(self):
        """A bound on the total's budget, as a probability, where an ask with `--mwidth` is admitted: the budget of a tail mean is at least
        so many times the total's as there are cells, that of a share 2^16 times as much, and that of a price an eighth."""
        return (self.settings.mwidth - 1) * self.unit / self.book.cells

    def of_bracket(self, p, low, high):
        """What is said of a bracket: it holds the quantile, and inside it the distribution lies within the width of `p`."""
        cells, total = self.book.cells, self.book.total
        if not re.fullmatch("[0-9]+", low) or not re.fullmatch("[0-9]+|beyond", high):
            return f"not: {low} and {high} are no bracket"
        end = cells if high == "beyond" else int(high)
        within, low = (self.settings.width - 1) * self.unit, int(low)
        if not low <= end or (high != "beyond" and end >= cells):
            return "not: the bracket is not inside the grid"
        if low and total.cdf(low - 1).low >= p or (high != "beyond" and total.cdf(end).high < p):
            return "not: the quantile is outside, it is {} to {}".format(*total.bracket(p, cells))
        if any(total.cdf(x).high < p - within or total.cdf(x).low > p + within for x in {low, end - 1} if low <= x < end):
            return "not: the bracket is wider than asked"
        return AGREES if high != "beyond" or total.cdf(cells - 1).low < p + within else "not: the grid reaches the quantile"

    def of_beyond(self, levels):
        """What is said of `beyond`: the distribution at the end of the grid is below one of these levels, or hardly above it."""
        reached = self.book.total.cdf(self.book.cells - 1).low
        return AGREES if reached < max(levels) + 8 * self.spread else "not: the grid reaches the quantile"

    def of_absent(self, ask):
        """What is said of `-`: the total is too rare for numbers; of a share of the tail mean also that the quantile is not sure."""
        spread, total, cells = self.spread / 2**16, self.book.total, self.book.cells
        x = ask[2]
        if ask[0] == "cotail":
            x, p = total.bracket(ask[2], cells)[0], ask[2]
            if x is None:
                return "not: the grid ends before the quantile"
            near = [y for y in (x - 1, x) if y >= 0 and total.cdf(y).low <= p + spread and total.cdf(y).high >= p - spread]
            if near:
                return AGREES
        return AGREES if total.cells.ends(x).low < RAREST + spread else "not: the total is frequent enough for numbers"
