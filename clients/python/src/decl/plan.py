"""What a text declares, as exact numbers: counts, amounts, layers and clauses of each unit.

The text is read from its canonical spelling, so its grammar is known to be right.
"""

from dataclasses import dataclass
from fractions import Fraction
from functools import reduce
from math import gcd
from typing import Callable, Dict, List, Optional, Tuple

from .calls import Text, fmt
from .choose import all_tokens, tokens_of, value_of
from .faults import RuleFault, rule_sentence
from .rules import ATOMS, BOUNDS, DIGITS, LAYERS, NAMES, PERCENT_DIGITS, RANGE_FINEST, Rules

#: Amounts (or counts) with their probabilities.
Chances = Dict[Fraction, Fraction]


@dataclass(frozen=True)
class Layer:
    """`share` of what lies above `attachment`, at most `limit` of it; None is no limit. In money."""

    limit: Optional[Fraction]
    attachment: Fraction
    share: Fraction = Fraction(1)

    def of(self, amount: Fraction) -> Fraction:
        """What the layer takes of an amount."""
        above = max(amount - self.attachment, Fraction(0))
        return self.share * (above if self.limit is None else min(above, self.limit))


@dataclass(frozen=True)
class Clause:
    """A reinsurance clause: what its layers take of an amount (`ceded to`), or leave of it (`net of`)."""

    net: bool
    layers: Tuple[Layer, ...]

    def of(self, amount: Fraction) -> Fraction:
        """The outcome of an amount."""
        ceded = sum((layer.of(amount) for layer in self.layers), Fraction(0))
        return amount - ceded if self.net else ceded


@dataclass(frozen=True)
class Unit:
    """A unit of a text. `counts` are the listed ones; else `claims` or `loss` (in money) is expected, and `count` names the
    distribution of the number of claims, with `shape` behind `binomial` and `mixed gamma`. `zero` is the probability of no claim
    that `zm` gives it, 0 for `zt`, and None where the count is as it is named."""

    name: str
    amounts: Chances
    layer: Optional[Layer]
    kept: bool
    counts: Optional[Chances]
    claims: Optional[Fraction]
    loss: Optional[Fraction]
    count: str
    shape: Fraction
    occurrence: Optional[Clause]
    aggregate: Optional[Clause]
    zero: Optional[Fraction] = None

    def in_layer(self) -> Chances:
        """The amounts of one claim after the layer, before the occurrence clause."""
        chances = self.amounts
        if self.layer is None:
            return chances
        if self.layer.attachment > 0 and not self.kept:
            chances = {amount: part for amount, part in chances.items() if amount > self.layer.attachment}
            whole = sum(chances.values())
            chances = {amount: part / whole for amount, part in chances.items()}
        return moved(chances, self.layer.of)

    def of_a_claim(self) -> Chances:
        """The amounts of one claim, after the layer and the occurrence clause."""
        chances = self.in_layer()
        return chances if self.occurrence is None else moved(chances, self.occurrence.of)

    def expected_claims(self) -> Fraction:
        """The expected number of claims: as written, or the expected loss over the mean claim in the layer. With `zt` and `zm` it is
        that of the count before its change."""
        if self.counts is not None:
            return mean_of(self.counts)
        if self.claims is not None:
            return self.claims
        assert self.loss is not None
        return self.loss / mean_of(self.in_layer())


def moved(chances: Chances, function: Callable[[Fraction], Fraction]) -> Chances:
    """The chances of what the function makes of each amount, equal ones added up."""
    found: Chances = {}
    for amount, part in chances.items():
        outcome = function(amount)
        found[outcome] = found.get(outcome, Fraction(0)) + part
    return found


def mean_of(chances: Chances) -> Fraction:
    """The mean."""
    return sum((amount * part for amount, part in chances.items()), Fraction(0))


def is_range(item: List[Fraction]) -> bool:
    """Whether the item of a list is one number, or a range upward with a common denominator of at most 1,000,000."""
    over = reduce(lambda one, other: one * other // gcd(one, other), (number.denominator for number in item))
    upward = len(item) == 1 or (item[0] <= item[1] and (len(item) == 2 or item[2] > 0))
    return upward and (len(item) == 1 or over <= RANGE_FINEST)


def size(item: List[Fraction]) -> int:
    """How many numbers a range has."""
    return int((item[1] - item[0]) / (item[2] if len(item) == 3 else 1)) + 1


def spread(item: List[Fraction]) -> List[Fraction]:
    """The numbers of an item of a list: one alone, or those of a range."""
    if len(item) == 1:
        return item
    step = item[2] if len(item) == 3 else Fraction(1)
    return [item[0] + step * at for at in range(size(item))]


def apart(layers: Tuple[Layer, ...]) -> bool:
    """Whether no two of the layers overlap."""
    ordered = sorted((each for each in layers if each.limit != 0), key=lambda each: each.attachment)
    return all(
        one.limit is not None and one.attachment + one.limit <= other.attachment for one, other in zip(ordered, ordered[1:])
    )


def is_good(numeral: str) -> bool:
    """Whether a numeral has no more digits than it may, and is no fraction over 0."""
    parts = numeral.rstrip("%").replace(".", "").split("/")
    return max(map(len, parts)) <= (PERCENT_DIGITS if "%" in numeral else DIGITS) and (len(parts) == 1 or int(parts[1]) > 0)


def broken(rule: int, what: str, number: int) -> RuleFault:
    """The fault of a rule that a unit or a severity with this number does not keep."""
    return RuleFault(f"{what} breaks rule {rule}\n{rule_sentence(rule)}", unit=number, rule=rule, name=NAMES[rule])


class Reader:
    """Reads the tokens of a canonical text from the left. The rules without which its numbers mean nothing are asked: the
    program, which asks all of them, may refuse the text before by one on its buckets."""

    def __init__(self, tokens: List[str], rules: Rules = "standard") -> None:
        self.tokens, self.rules = tokens, rules
        self.at = 0
        self.name, self.number = "", -1

    def ahead(self, further: int = 0) -> str:
        """The next token, or one further on; empty behind the last."""
        return self.tokens[self.at + further] if self.at + further < len(self.tokens) else ""

    def take(self) -> str:
        """The next token, which is passed."""
        self.at += 1
        return self.tokens[self.at - 1]

    def passed(self, *words: str) -> bool:
        """Whether these are the next tokens; they are passed then."""
        if any(self.ahead(further) != word for further, word in enumerate(words)):
            return False
        self.at += len(words)
        return True

    def holds(self, rule: int, kept: bool) -> None:
        """Raises the fault of a rule that the unit does not keep; it has no place."""
        if not kept:
            raise broken(rule, f"unit {self.name}", self.number)

    def numeral(self) -> Fraction:
        """The next numeral."""
        self.holds(2, is_good(self.ahead()))
        return value_of(self.take())

    def numbers(self) -> List[Fraction]:
        """The numbers of the list that is next."""
        self.take()
        found, most = [], BOUNDS[self.rules].values
        while not self.passed("]"):
            item = [self.numeral()]
            while self.passed(":"):
                item.append(self.numeral())
            self.holds(3, is_range(item))
            self.holds(4, len(item) == 1 or size(item) <= most)
            found += spread(item)
        self.holds(4, len(found) <= most)
        return found

    def chances(self) -> Chances:
        """A list of numbers with the list of their probabilities; without one all are equally likely."""
        numbers = self.numbers()
        parts = self.numbers() if self.ahead() == "[" else [Fraction(1, len(numbers))] * len(numbers)
        self.holds(5, len(parts) == len(numbers))
        self.holds(6, sum(parts) == 1)
        found: Chances = {}
        for number, part in zip(numbers, parts):
            if part:
                found[number] = found.get(number, Fraction(0)) + part
        return found

    def layer(self, share: Fraction = Fraction(1)) -> Layer:
        """A limit and an attachment."""
        limit = None if self.passed("inf") else self.numeral()
        self.take()
        return Layer(limit, self.numeral(), share)

    def cession(self) -> Layer:
        """A layer with its share, which `po` gives as a part of the limit."""
        if self.ahead(1) == "so":
            share = self.numeral()
            self.take()
            return self.layer(share)
        if self.ahead(1) == "po":
            part = self.numeral()
            self.take()
            whole = self.layer()
            self.holds(12, bool(whole.limit))
            return Layer(whole.limit, whole.attachment, part / (whole.limit or Fraction(1)))
        return self.layer()

    def clause(self, word: str) -> Optional[Clause]:
        """The clause with this word, if it is next."""
        if not self.passed(word):
            return None
        net = self.take() == "net"
        self.take()
        layers = [self.cession()]
        while self.passed("and"):
            layers.append(self.cession())
        self.holds(4, len(layers) <= LAYERS)
        return Clause(net, tuple(layers))

    def exposure(self) -> Tuple[Optional[Fraction], Optional[Fraction]]:
        """The expected number of claims, or the expected loss."""
        value = self.numeral()
        word = self.take()
        if word == "claims":
            return value, None
        if word == "loss":
            return None, value
        self.take()
        value *= self.numeral()
        self.take()
        return None, value

    def atom(self) -> Chances:
        """The amounts of one atom, with their probabilities."""
        return self.chances()

    def severity(self) -> Chances:
        """The amounts of one claim: those of one atom, or of a mixture by its weights."""
        self.holds(24, not self.ahead().startswith("sev."))
        atoms = []
        while self.passed("dsev"):
            atoms.append(self.atom())
        self.holds(4, len(atoms) <= ATOMS)
        if not self.passed("wts"):
            return atoms[0]
        found: Chances = {}
        weights = self.numbers()
        self.holds(9, len(weights) == len(atoms))
        self.holds(6, sum(weights) == 1)
        for weight, atom in zip(weights, atoms):
            for amount, part in atom.items():
                if weight:
                    found[amount] = found.get(amount, Fraction(0)) + weight * part
        return found

    def count(self) -> Tuple[str, Fraction]:
        """The name of the distribution of the number of claims, with its number, or 0 where it has none."""
        word = self.take()
        if word == "mixed":
            self.take()
        return word, self.numeral() if word in ("mixed", "binomial") else Fraction(0)

    def zero(self) -> Optional[Fraction]:
        """The probability of no claim that `zt` or `zm` gives the count, if one of them is next."""
        if self.passed("zt"):
            return Fraction(0)
        return self.numeral() if self.passed("zm") else None

    def factor(self) -> Fraction:
        """The coefficient of variation of a common factor: above 0, and by the standard rules 1 over a whole number."""
        value = value_of(self.ahead()) if is_good(self.ahead()) else Fraction(0)
        self.take()
        if not value or (self.rules == "standard" and value.numerator != 1):
            raise broken(27, "the common factor", 0)
        return value

    def unit(self) -> Unit:
        """The unit that is next."""
        self.take()
        name = self.name = self.take()
        self.number += 1
        counts = self.chances() if self.passed("dfreq") else None
        claims, loss = (None, None) if counts is not None else self.exposure()
        layer = None if self.ahead().startswith(("dsev", "sev.")) else self.layer()
        amounts = self.severity()
        kept = self.passed("!")
        occurrence = self.clause("occurrence")
        count, shape = ("listed", Fraction(0)) if counts is not None else self.count()
        zero = self.zero()
        aggregate = self.clause("aggregate")
        found = Unit(name, amounts, layer, kept, counts, claims, loss, count, shape, occurrence, aggregate, zero)
        self.holds(10, layer is None or kept or not layer.attachment or max(amounts) > layer.attachment)
        for clause in (occurrence, aggregate):
            self.holds(11, clause is None or apart(clause.layers))
            self.holds(12, clause is None or all(each.share <= 1 for each in clause.layers))
        self.holds(14, loss is None or mean_of(found.in_layer()) > 0)
        return found


@dataclass(frozen=True)
class Plan:
    """What a text declares. `port` is the name of the portfolio, and None for a unit alone. `common` is the coefficient of variation
    of the gamma factor of mean 1 that its units share, and None where they are independent."""

    port: Optional[str]
    units: List[Unit]
    common: Optional[Fraction] = None

    @property
    def name(self) -> str:
        """The name of the portfolio, or of the unit."""
        return self.units[0].name if self.port is None else self.port

    @property
    def head(self) -> str:
        """The line before the units of a portfolio; empty for a unit alone."""
        factor = "" if self.common is None else f" common {self.common}"
        return "" if self.port is None else f"port {self.port}{factor}\n"


def names_of_severities(spelling: str) -> List[str]:
    """The names of the severities that stand before the units of a canonical text."""
    tokens = all_tokens(spelling)
    return [name for word, name in zip(tokens, tokens[1:]) if word == "sev"]


def plan_in(spelling: str, reader: Optional[Reader] = None, rules: Rules = "standard") -> Plan:
    """What a canonical text declares by these rules; a reader of its tokens can be given that reads a severity in its own way."""
    names = names_of_severities(spelling)
    for at, name in enumerate(names):
        if name in names[:at]:
            raise broken(23, f"severity {name}", at)
    reader = reader or Reader(tokens_of(spelling), rules)
    port = reader.take() if reader.passed("port") else None
    common = reader.factor() if reader.passed("common") else None
    units = []
    while reader.ahead():
        units.append(reader.unit())
    return Plan(port, units, common)


def plan_of(text: Text, *, rules: Rules = "standard", timeout: Optional[float] = None) -> Plan:
    """What the text declares by these rules."""
    return plan_in(fmt(text, timeout=timeout), rules=rules)
