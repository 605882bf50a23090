"""The typing rules of docs/LANGUAGE.md ("Rules") in their order, each with the places where a unit breaks it.

A place is the number of a first byte. Of the places of one rule the first in the text counts; named severities stand before all units.
"""

import math
from collections import namedtuple
from fractions import Fraction
from functools import cached_property

from . import severities
from .text import Fault, Listed, Mixture, Numeral, is_bad, line_col, value

# The bounds of a set of rules: units, values of a list, a common denominator of probabilities; and whether shapes have to be whole.
Bounds = namedtuple("Bounds", "units values parts whole_shapes")
BOUNDS = {"standard": Bounds(16, 1024, 2**30, True), "extended": Bounds(256, 65_536, 2**40, False)}


def is_fine(fractions, most=2**30):
    """Whether the denominators have a common multiple of at most so much."""
    common = 1
    for each in fractions:
        common = math.lcm(common, Fraction(each).denominator)
        if common > most:
            return False
    return True


def is_admitted(fraction):
    """Whether both parts are below 2^48."""
    return max(Fraction(fraction).numerator, Fraction(fraction).denominator) < 2**48


def is_held(fraction):
    """Whether both parts are below 2^62."""
    return max(Fraction(fraction).numerator, Fraction(fraction).denominator) < 2**62


def shape_of(c, bounds):
    """The shape `1 / c^2` of a coefficient of variation; None where there is none, or it has to be whole and is not."""
    return 1 / c**2 if c and not (bounds.whole_shapes and (1 / c**2).denominator > 1) else None


def ends_of(item):
    """The first number of an item, its last one and its step."""
    numbers = [value(number.text) for number in item.numbers]
    return numbers[0], numbers[min(1, len(numbers) - 1)], numbers[2] if len(numbers) == 3 else Fraction(1)


def length(listed):
    """How many values a list has."""
    return sum((last - first) // step + 1 for first, last, step in map(ends_of, listed.items))


def values(listed):
    """The values of a list."""
    return [first + k * step for first, last, step in map(ends_of, listed.items) for k in range((last - first) // step + 1)]


class Part:
    """A unit as the rules read it: its number in the program, its mixture, and its numbers in buckets."""

    def __init__(self, program, number, bs, cells, bounds):
        self.program, self.number, self.unit = program, number, program.units[number]
        self.bs, self.cells, self.bounds = bs, cells, bounds
        named = [mixture for name, mixture in program.severities if "sev." + name.text == getattr(self.unit.severity, "text", None)]
        self.mixture = named[0] if named else self.unit.severity

        if not isinstance(self.mixture, Mixture):
            return
        unit, self.clauses = self.unit, [clause for clause in (self.unit.occurrence, self.unit.aggregate) if clause]
        cessions = [cession for clause in self.clauses for cession in clause.cessions]
        self.layers = ([unit.layer] if unit.layer else []) + [cession.layer for cession in cessions]
        # lists that may have one of probabilities behind them, with that list or None; lists of probabilities; all lists
        self.pairs = [(unit.counts, unit.chances)] if unit.counts else []
        self.pairs += [(atom.amounts, atom.chances) for atom in self.mixture.atoms]
        self.chances = [chances for _, chances in [*self.pairs, (None, self.mixture.weights)] if chances]
        self.lists = [first for first, _ in self.pairs] + self.chances

    @property
    def numerals(self):
        """All numerals."""
        found = [number for listed in self.lists for item in listed.items for number in item.numbers]
        found += [number for layer in self.layers for number in (layer.limit, layer.attachment)]
        found += [cession.share for clause in self.clauses for cession in clause.cessions]
        found += [self.unit.exposure.number, self.unit.exposure.ratio] if self.unit.exposure else []
        found += [self.unit.frequency.number, self.unit.frequency.zero] if self.unit.frequency else []
        return [number for number in found if isinstance(number, Numeral)]

    def buckets(self, numeral):
        """An amount of money in buckets."""
        return value(numeral.text) / self.bs

    def in_layer(self, layer):
        """The limit, or None, and the attachment of a layer, in buckets."""
        return layer.limit and self.buckets(layer.limit), self.buckets(layer.attachment)

    def clause(self, clause):
        """A clause as the severities know it."""
        found = []
        for cession in clause.cessions if clause else []:
            limit, attachment = self.in_layer(cession.layer)
            share = value(cession.share.text) if cession.share else Fraction(1)
            found.append((limit, attachment, share / value(cession.layer.limit.text) if cession.kind == "po" else share))
        return clause and (clause.side, found)

    def has_fine_shares(self, clause):
        """Whether the shares of a clause are fine."""
        return is_fine(share for _, _, share in self.clause(clause)[1])

    @cached_property
    def atoms(self):
        """Each atom's amounts in buckets with their probabilities, as they are written."""
        return [
            (amounts, values(atom.chances) if atom.chances else [Fraction(1, len(amounts))] * len(amounts))
            for atom in self.mixture.atoms
            for amounts in [[amount / self.bs for amount in values(atom.amounts)]]
        ]

    @cached_property
    def merged(self):
        """The severity of each atom."""
        return [severities.merge(*atom) for atom in self.atoms]

    @property
    def weights(self):
        """The weights of the atoms."""
        return values(self.mixture.weights) if self.mixture.weights else [Fraction(1)]

    @property
    def exceeding(self):
        """The attachment that a claim has to exceed, or 0."""
        return self.buckets(self.unit.layer.attachment) if self.unit.layer and not self.unit.bang else 0

    @cached_property
    def support(self):
        """The amounts of positive probability before the layer."""
        return {a for (amounts, chances), w in zip(self.atoms, self.weights) if w for a, chance in zip(amounts, chances) if chance}

    @property
    def support_in_layer(self):
        """The amounts of positive probability in the layer."""
        if not self.unit.layer:
            return self.support
        return {severities.layer(*self.in_layer(self.unit.layer), x) for x in self.support if not self.exceeding or x > self.exceeding}

    @property
    def final_amounts(self):
        """The amounts of positive probability after the occurrence clause."""
        clause = self.clause(self.unit.occurrence)
        return {int(severities.kept(clause, x)) for x in self.support_in_layer} if clause else self.support_in_layer

    @property
    def has_fine_lists(self):
        """Whether the lists of probabilities are fine, and what the weights make of those of the atoms."""
        if not all(is_fine(values(listed), self.bounds.parts) for listed in self.chances):
            return False
        parts = (w * p for atom, w in zip(self.merged, self.weights) for p in atom.values())
        return is_fine(parts, self.bounds.parts)

    @cached_property
    def severity_in_layer(self):
        """The severity before the occurrence clause."""
        found = severities.mix(self.merged, self.weights) if self.mixture.weights else self.merged[0]
        found = severities.above(self.exceeding, found) if self.exceeding else found
        return severities.cut(*self.in_layer(self.unit.layer), found) if self.unit.layer else found

    @cached_property
    def final_severity(self):
        """The severity after all steps."""
        clause = self.clause(self.unit.occurrence)
        found = severities.cede_each(clause, self.severity_in_layer) if clause else self.severity_in_layer
        return {int(amount): chance for amount, chance in found.items()}

    @cached_property
    def expected_loss(self):
        """The loss or premium of the exposure in money, or None."""
        exposure = self.unit.exposure
        if not exposure or exposure.kind == "claims":
            return None
        return value(exposure.number.text) * (value(exposure.ratio.text) if exposure.ratio else 1)

    @cached_property
    def expected_count(self):
        """The expected count, or None where it does not exist."""
        if self.expected_loss is None:
            return value(self.unit.exposure.number.text) if self.unit.exposure else None
        return self.expected_loss / self.bs / severities.mean_of(self.severity_in_layer) if self.has_fine_lists else None

    @property
    def thinned_mean(self):
        """The expected count of claims above 0."""
        return self.expected_count * (1 - self.final_severity.get(0, 0))

    @property
    def kind(self):
        """The claim count: `gamma` is that of `mixed gamma` and `geometric`, and `listed` that of `dfreq`."""
        word = self.unit.frequency.kind if self.unit.frequency else "listed"
        return "gamma" if word in ("mixed", "geometric") else word

    @property
    def number_of_count(self):
        """The number of `binomial` or `mixed gamma`."""
        return value(self.unit.frequency.number.text) if self.unit.frequency.number else Fraction(1)

    @property
    def shape(self):
        """The shape of a gamma count, or None."""
        return shape_of(self.number_of_count, self.bounds) if self.kind == "gamma" else None

    @property
    def counts(self):
        """The listed counts with their probabilities."""
        most = length(self.unit.counts)
        chances = values(self.unit.chances) if self.unit.chances else [Fraction(1, most)] * most
        return severities.merge(map(int, values(self.unit.counts)), chances)

    @property
    def zero(self):
        """The probability of no claim that the count is changed to, or None."""
        zero = self.unit.frequency.zero if self.unit.frequency else None
        return zero and (Fraction(0) if zero == "zt" else value(zero.text))


def amounts(part):
    """Each amount of a severity, limit and attachment in buckets, with its place."""
    for item in (item for atom in part.mixture.atoms for item in atom.amounts.items):
        yield from ((amount / part.bs, item.at) for amount in values(Listed([item], item.at)))
    for layer in part.layers:
        yield from ((amount, layer.at) for amount in part.in_layer(layer) if amount is not None)


def is_bad_range(item):
    """Whether an item that is a range breaks rule 3."""
    first, last, step = ends_of(item)
    common = math.lcm(*(value(number.text).denominator for number in item.numbers))
    return len(item.numbers) > 1 and (first > last or step == 0 or common > 1_000_000)


def overlap(part, one, other):
    """Whether two layers overlap."""
    layers = [part.in_layer(cession.layer) for cession in (one, other)]
    tops = [attachment + limit for limit, attachment in layers if limit is not None]
    return not tops or max(attachment for _, attachment in layers) < min(tops)


def is_share_above_one(cession):
    """Whether a share is above 1, or a part above its limit, which is there and not 0."""
    share, limit = value(cession.share.text), cession.layer.limit and value(cession.layer.limit.text)
    return share > 1 if cession.kind == "so" else not limit or share > limit


def rules_on_the_text(part):
    """Rules 24 and 1 to 9, on names, numerals, lists and amounts: each with the places where it is broken."""
    unit, mixture = part.unit, part.mixture
    yield "24 UnknownSeverity", [] if isinstance(mixture, Mixture) else [unit.severity.at]
    earlier = part.program.units[: part.number]
    yield "1 DuplicateName", [unit.name.at] if unit.name.text in (other.name.text for other in earlier) else []
    yield "2 BadNumeral", [numeral.at for numeral in part.numerals if is_bad(numeral.text)]
    yield "3 BadRange", [item.at for listed in part.lists for item in listed.items if is_bad_range(item)]
    too_long = [listed.at for listed in part.lists if length(listed) > part.bounds.values]
    lengths = [length(atom.amounts) for atom in mixture.atoms]
    is_long = max(lengths) <= part.bounds.values and sum(lengths) > 65_536
    too_long += [mixture.at] if is_long or len(mixture.atoms) > 64 else []
    yield "4 ListTooLong", too_long + [clause.at for clause in part.clauses if len(clause.cessions) > 16]
    yield "5 LengthsDiffer", [chances.at for first, chances in part.pairs if chances and length(first) != length(chances)]
    chances = [(listed.at, values(listed)) for listed in part.chances]
    yield "6 NotOne", [at for at, listed in chances if is_fine(listed, part.bounds.parts) and sum(listed) != 1]
    all_amounts, most = list(amounts(part)), 2**20 if part.cells <= 4096 else 2**22
    yield "7 OffGrid", [at for amount, at in all_amounts if amount.denominator > 1]
    yield "8 TooFar", [at for amount, at in all_amounts if amount > most]
    weights = mixture.weights
    yield "9 WeightsDiffer", [weights.at] if weights and length(weights) != len(mixture.atoms) else []


def rules_on_layers(part):
    """Rules 10 to 13, on layers and clauses."""
    unit, occurrence, aggregate = part.unit, part.unit.occurrence, part.unit.aggregate
    yield "10 NoneAbove", [unit.layer.at] if part.exceeding and not any(x > part.exceeding for x in part.support) else []
    pairs = [(later, one) for clause in part.clauses for k, later in enumerate(clause.cessions) for one in clause.cessions[:k]]
    yield "11 Overlap", [later.layer.at for later, one in pairs if overlap(part, one, later)]
    shares = [cession for clause in part.clauses for cession in clause.cessions if cession.share]
    yield "12 ShareAboveOne", [cession.at for cession in shares if is_share_above_one(cession)]
    if occurrence and part.has_fine_shares(occurrence):
        clause = part.clause(occurrence)
        is_off = any(Fraction(severities.kept(clause, x)).denominator > 1 for x in part.support_in_layer)
        yield "13 OffGridCession", [occurrence.at] if is_off else []
    if aggregate and all(map(part.has_fine_shares, part.clauses)):
        step = math.gcd(*map(int, part.final_amounts))
        yield "13 OffGridCession", [] if severities.fits(part.clause(aggregate), step) else [aggregate.at]


def rules_on_counts(part):
    """Rules 14 to 18, on exposures and claim counts."""
    unit, kind = part.unit, part.kind
    yield "14 ZeroMean", [unit.exposure.at] if part.expected_loss is not None and not any(part.support_in_layer) else []
    count = part.expected_count
    count = count if count is not None and is_admitted(count) else None
    if kind == "listed":
        yield "15 CountNotWhole", [unit.counts.at] if any(each.denominator > 1 for each in values(unit.counts)) else []
    elif kind == "fixed":
        yield "15 CountNotWhole", [unit.exposure.at] if count is not None and count.denominator > 1 else []
    elif kind == "bernoulli":
        yield "16 CountAboveOne", [unit.exposure.at] if count is not None and count > 1 else []
    elif kind == "binomial":
        p = part.number_of_count
        is_whole = 0 < p <= 1 and (count is None or (count / p).denominator == 1)
        yield "17 TrialsNotWhole", [] if is_whole else [unit.frequency.at]
    elif kind == "gamma":
        yield "18 ShapeNotWhole", [] if part.shape else [unit.frequency.at]


def rules_on_sizes(part):
    """Rules 19 to 21, 25 and 26, on sizes, changed zeros and units under a common factor."""
    unit, kind = part.unit, part.kind
    thinned = kind in ("poisson", "gamma")
    is_right = part.has_fine_lists and all(map(part.has_fine_shares, part.clauses))
    numbers = [part.expected_loss, part.expected_count, part.thinned_mean if thinned else None] if is_right else []
    is_right = is_right and all(is_admitted(number or 0) for number in numbers)
    if part.shape and not part.bounds.whole_shapes:
        is_right = is_right and is_admitted(part.shape) and all(is_held((number or 0) / part.shape) for number in numbers[1:])
    yield "19 TooFine", [] if is_right else [unit.name.at]
    claims = max(values(unit.counts)) if kind == "listed" else part.thinned_mean if thinned else part.expected_count
    claims = claims / part.number_of_count if kind == "binomial" else claims
    most = 256 if kind == "listed" else 4096 if thinned else 65_536
    is_many = claims > most or (kind == "gamma" and (part.shape > 10_000 or claims > 32_768 * part.shape))
    yield "20 TooManyClaims", [unit.name.at] if is_many else []
    most = 16_384 if part.cells <= 4096 else 65_536
    is_far = unit.aggregate and severities.horizon(part.clause(unit.aggregate), part.cells) > most
    yield "21 HorizonTooLarge", [unit.aggregate.at] if is_far else []
    yield "25 ZeroBase", [] if part.zero is None or is_new_zero(part) else [unit.frequency.at]
    can_share = kind == "poisson" and part.zero is None and not unit.aggregate
    yield "26 CommonUnit", [unit.name.at] if part.program.common and not can_share else []


def is_new_zero(part):
    """Whether the probability of no claim can be changed as the unit says."""
    least, shape = part.expected_count, part.shape
    least = min(least, shape * least / (shape + least)) if shape and shape < 1 else least
    return part.zero < 1 and Fraction(1, 16) <= least and part.expected_count <= 4096


def is_too_large(shape, parts):
    """Rule 28: whether the units are too large for a factor of this shape."""
    expected, thinned = [part.expected_count for part in parts], [part.thinned_mean for part in parts]
    whole, raised, most = sum(expected), 1 + 1 / shape, parts[0].bounds.parts
    if whole == 0 or shape > 9_999 or not is_admitted(shape + 1):
        return True
    sums = [sum(each[: k + 1]) for each in (expected, thinned) for k in range(len(parts))]
    if not all(map(is_admitted, [*sums, whole * raised, sum(thinned) * raised])) or sum(thinned) * raised > 4096:
        return True
    if not is_held(whole / shape) or not is_held(sum(thinned) / shape):
        return True
    shares = [each / whole for each in expected]
    claims = (share * p for share, part in zip(shares, parts) for p in part.final_severity.values())
    return not (is_fine(shares, most) and is_fine(claims, most))


def is_total_too_large(parts, cells):
    """Rule 30: whether the probability of no claim is changed of more than 16 units, or their means before clauses, 17 times as much
    where it is changed, add up to too much, each rounded up to buckets."""
    whole = 0
    for part in parts:
        count = severities.mean_of(part.counts) if part.kind == "listed" else part.expected_count
        whole += math.ceil((1 if part.zero is None else 17) * count * severities.mean_of(part.final_severity))
    return sum(part.zero is not None for part in parts) > 16 or whole > 17 * 2 ** (36 if cells <= 4096 else 38)


def first_fault(text, program, bs, cells, bounds):
    """The parts of a program that keeps the rules; else Fault has the first broken rule and its first place."""

    def ask(unit, rule, places):
        """Raises the fault where the rule is broken in some place."""
        if places:
            raise Fault(f"{line_col(text, min(places))}: unit {unit}: rule {rule}")

    ask(bounds.units, "22 TooManyUnits", [unit.name.at for unit in program.units[bounds.units :]])
    names = [name.text for name, _ in program.severities]
    for number, (name, _) in enumerate(program.severities):
        ask(number, "23 DuplicateSeverity", [name.at] if name.text in names[:number] else [])
    parts = [Part(program, number, bs, cells, bounds) for number in range(len(program.units))]
    for part in parts:
        for rules in (rules_on_the_text, rules_on_layers, rules_on_counts, rules_on_sizes):
            for rule, places in rules(part):
                ask(part.number, rule, places)
    if program.common:
        shape = None if is_bad(program.common.text) else shape_of(value(program.common.text), bounds)
        ask(0, "27 CommonShape", [] if shape else [program.common.at])
        ask(0, "28 CommonSize", [program.port.at] if is_too_large(shape, parts) else [])
    if program.port:
        ask(0, "30 TotalTooLarge", [program.port.at] if is_total_too_large(parts, cells) else [])
    return parts
