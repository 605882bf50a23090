"""Reads a page: its programs, and the cells of its tables with their asks; and asks the program for them, apart from the client."""

import json
import subprocess
from dataclasses import dataclass
from fractions import Fraction
from html.parser import HTMLParser

from support import BUILT

WIDEST = ["--width", "1000000000", "--mwidth", "1000000000000"]


@dataclass(frozen=True)
class Cell:
    """A cell of a table: the section and the names that it stands under, its ask, its book, its ends as data, what is shown, and the rules
    by which it is asked."""

    section: str
    line: str
    column: str
    ask: str
    book: str
    ends: tuple
    shown: str
    rules: str


@dataclass(frozen=True)
class Program:
    """A program of the page with the options of its call."""

    text: str
    bs: Fraction
    log2: str
    digits: str

    def rows(self, asks, rules):
        """The two ends of asks in buckets, by one call of the program; None where an end is no number."""
        words = ["--bs", str(self.bs), "--log2", self.log2, "--digits", self.digits, *WIDEST, "--format", "json"]
        words += ["--rules", rules] if rules != "standard" else []
        done = subprocess.run([BUILT, "run", *words, *asks], input=self.text, capture_output=True, text=True)
        if done.returncode:
            raise AssertionError(f"{asks}: {done.stderr}")
        ends = [(row["low"], row["high"]) for row in json.loads(done.stdout)["rows"]]
        return [tuple(None if end in ("beyond", "-") else Fraction(end) for end in pair) for pair in ends]

    def alone(self, unit):
        """The program of one unit, with what stands before the units."""
        lines = self.text.splitlines()
        kept = [line for line in lines if line.startswith("sev ") or (line.startswith("port ") and " common " in line)]
        kept += [line for line in lines if line.split(" ")[:2] == ["agg", unit]]
        return Program("\n".join(kept), self.bs, self.log2, self.digits)

    def has(self, unit):
        """Whether the program has this unit."""
        return any(line.split(" ")[:2] == ["agg", unit] for line in self.text.splitlines())


class Page(HTMLParser):
    """A page as its cells and programs; `told` is its text."""

    def __init__(self, written):
        super().__init__()
        self.cells, self.programs, self.told = [], {}, ""
        self.section = self.line = ""
        self.open, self.facts, self.heard = "", {}, ""
        self.feed(written)

    def handle_starttag(self, tag, attrs):
        if tag in ("h2", "th", "td", "pre"):
            self.open, self.facts, self.heard = tag, dict(attrs), ""

    def handle_data(self, data):
        self.heard += data
        self.told += data

    def handle_endtag(self, tag):
        if tag != self.open:
            return
        heard, facts, self.open = self.heard, self.facts, ""
        if tag == "h2":
            self.section = heard
        elif tag == "th" and facts.get("scope") == "row":
            self.line = heard
        elif tag == "pre":
            self.programs[facts["data-book"]] = Program(heard, Fraction(facts["data-bs"]), facts["data-log2"], facts["data-digits"])
        elif tag == "td":
            ends = tuple(Fraction(facts[name]) if facts.get(name) else None for name in ("data-low", "data-high"))
            found = (facts["data-name"], facts.get("data-ask", ""), facts.get("data-book", ""), ends, heard.replace("\xa0", " "))
            found += (facts.get("data-rules", "standard"),)
            self.cells.append(Cell(self.section, self.line, *found))

    def of(self, section):
        """The cells of a section, by line and column."""
        return {(cell.line, cell.column): cell for cell in self.cells if cell.section == section}


def in_buckets(ask, bs):
    """The ask of the program for one in money; `sf` is asked as `cdf`."""
    kind, *parts = ask.split(":")
    if kind in ("q", "tail", "price", "mean", "cotail"):
        return ask
    amounts = [part if part == "inf" else str(int(Fraction(part) / bs)) for part in parts[-1].split("xs")]
    return ":".join(["cdf" if kind == "sf" else kind, *parts[:-1], "xs".join(amounts)])


def in_money(ask, ends, bs):
    """The two ends of an ask in money, from those of the program."""
    kind = ask.split(":")[0]
    if kind == "sf":
        return 1 - ends[1], 1 - ends[0]
    return ends if kind in ("cdf", "pmf") else tuple(None if end is None else end * bs for end in ends)


def asked(program, asks, rules="standard"):
    """The two ends of asks in money, straight from the program."""
    asks = list(asks)
    found = {}
    for first in range(0, len(asks), 256):
        some = asks[first : first + 256]
        rows = program.rows([in_buckets(ask, program.bs) for ask in some], rules)
        found.update({ask: in_money(ask, ends, program.bs) for ask, ends in zip(some, rows)})
    return found


def shown_ends(told):
    """The two ends that a figure of a page shows, None where it shows none, and how many digits stand behind the point."""
    if told in ("none", "past the grid"):
        return (None, None), 0
    words = told.replace(",", "").replace(" or more", " to -").split(" to ")
    places = max(len(word.rstrip("%").partition(".")[2]) for word in words)
    ends = [None if word == "-" else Fraction(word.rstrip("%")) / (100 if "%" in word else 1) for word in words]
    return (ends[0], ends[-1]), places + (2 if "%" in told else 0)


__all__ = ["Cell", "Page", "Program", "asked", "shown_ends"]
