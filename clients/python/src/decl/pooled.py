"""How the units under a common factor are written, so that the program can pool them (rule 28). docs/BETWEEN.md has the argument."""

import math
from dataclasses import dataclass
from fractions import Fraction
from typing import Callable, List, Optional

from .coarse import Ends, numeral
from .faults import NotBetween
from .plan import Chances, Unit, broken
from .rules import BOUNDS

#: Numerator and denominator of the expected claims above 0, times 1 and the factor's variance, are below this.
MOST_PARTS = 2**48
#: The greatest common denominator of probabilities, by each set of rules.
FINEST = BOUNDS["standard"].finest
#: Up to this common denominator of the units' shares each unit keeps its expected number of claims.
MOST_SHARES = 1000
#: Where a unit keeps it, the probability of a claim of 0 is a whole number of so many parts.
PARTS_OF_0 = 10**6


@dataclass(frozen=True)
class Pool:
    """`claims` is the expected number of claims with which each unit is written, None where each keeps its own. Probabilities of
    amounts are whole numbers of 1 / `parts`, and that of 0 of 1 / `parts_of_0`."""

    claims: Optional[Fraction]
    parts: int
    parts_of_0: int = PARTS_OF_0

    def written(self, chances: Chances, expected: Fraction, up: bool) -> Chances:
        """The amounts of a claim of a unit with this expected number of claims: each claim is one of them with the probability of
        `expected` over `claims`, and else 0. The distribution function is rounded down with `up`, and else up."""
        part = Fraction(1) if self.claims is None else expected / self.claims
        whole: Callable[[Fraction], int] = math.floor if up else math.ceil
        amounts = sorted({Fraction(0), *chances})
        found: Chances = {}
        reached, within = 0, 1 - part
        for amount in amounts:
            within += part * chances.get(amount, Fraction(0))
            fine = self.parts if amount else self.parts_of_0
            value = self.parts if amount == amounts[-1] else whole(within * fine) * (self.parts // fine)
            if value > reached:
                found[amount] = Fraction(value - reached, self.parts)
                reached = value
        return found


def power_of_10(most: int) -> int:
    """The greatest power of 10 that is at most this number, which is at least 1."""
    return int("1" + "0" * (len(str(most)) - 1))


def short_number(least: Fraction) -> Fraction:
    """The least of 1, 2 or 5 times a power of 10 that is at least this number, which is above 0."""
    power = Fraction(10) ** (len(str(least.numerator)) - len(str(least.denominator)) - 1)
    return next(power * step for step in (1, 2, 5, 10, 20, 50, 100) if power * step >= least)


def shares_of(expected: List[Ends], raised: int) -> Optional[int]:
    """The common denominator of the units' shares of all expected claims; None where these are not known exactly, have no numeral, or are
    so fine, alone or together, that the program would not pool them. `raised` is the numerator of 1 and the factor's variance."""
    claims = [low for low, _ in expected]
    whole = sum(claims, Fraction(0))
    if not whole or any(low != high or numeral(low) is None for low, high in expected):
        return None
    found = math.lcm(*((each / whole).denominator for each in claims))
    parts = whole * math.lcm(*(each.denominator for each in claims)) * PARTS_OF_0 * raised
    return found if found <= MOST_SHARES and parts < MOST_PARTS else None


def pool_of(units: List[Unit], common: Fraction, expected: List[Ends]) -> Pool:
    """How units that share a factor are written, by its coefficient of variation and two ends of each unit's expected number of claims."""
    for number, unit in enumerate(units):
        if unit.count != "poisson" or unit.zero is not None or unit.aggregate is not None:
            raise broken(26, f"unit {unit.name}", number)
    most = max(high for _, high in expected)
    if not most:
        raise NotBetween(f"unit {units[0].name}: under a common factor claims have to be expected, and no unit expects one")
    raised = (1 + common**2).numerator
    shares = shares_of(expected, raised)
    if shares is not None:
        return Pool(None, power_of_10(FINEST // shares))
    claims, many = short_number(most), len(expected)
    parts = power_of_10(FINEST // many)
    finest = (MOST_PARTS - 1) // (raised * max(many * claims.numerator, claims.denominator))
    return Pool(claims, parts, min(parts, power_of_10(max(1, finest))))
