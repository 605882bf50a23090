"""Writes a program of the package `aggregate` in this language, or names the place of what has no counterpart."""

import re
import warnings
from dataclasses import dataclass
from fractions import Fraction
from typing import Dict, Iterable, List, Optional, Set, Tuple, TypeVar

from .calls import Text
from .cautions import level_outside
from .choose import tokens_of, value_of
from .faults import DeclWarning, RuleFault, rule_sentence
from .numerals import TOO_LONG, Numbers, Numeral, Token, spelled
from .plan import Chances, Reader
from .program import as_text, place_in
from .rules import BOUNDS

Item = Tuple[Numeral, ...]
Entry = TypeVar("Entry")

KEYWORDS = frozenset(
    "agg port claim claims loss prem premium at lr dfreq dsev sev dhistogram xps xs inf occurrence aggregate net of ceded to"
    " and so po fixed poisson bernoulli binomial mixed gamma wts".split()
)
#: Words that are no keywords, and no names either.
NO_NAMES = frozenset("lognorm expon pareto weibull norm uniform beta chistogram note geometric zt zm common".split())
COUNTS = ("fixed", "poisson", "geometric", "bernoulli")
MOST_ATOMS = 64
#: What the standard rules take, and what the extended ones do.
STANDARD, MOST = BOUNDS["standard"], BOUNDS["extended"]
#: What has no counterpart, by its word.
NONE = {
    "tweedie": "The claims of a tweedie aggregate are continuous; give amounts with their probabilities, as dsev [..] [..].",
    "splice": "A splice is of continuous severities; give amounts with their probabilities, as dsev [..] [..].",
    "picks": "Picks change a continuous severity; give amounts with their probabilities, as dsev [..] [..].",
    "distortion": "A distortion has no counterpart in a text; an ask can mix tail means, as price:1/4@0+3/4@0.9.",
    "dist": "A distortion has no counterpart in a text; an ask can mix tail means, as price:1/4@0+3/4@0.9.",
}
CONTINUOUS = "Two programs that list its amounts hold a book between them: decl.between(text), in docs/BETWEEN.md."
STORED = "This names a stored program, and no text refers to another one here: write the program out."


@dataclass(frozen=True)
class Profile:
    """A unit as the package has it. `exposure` and `layer` have the words of each entry of a limit profile, and of one entry
    for a plain unit; the rest is what all entries share, and empty where it is not there."""

    name: str
    exposure: Tuple[str, ...]
    layer: Tuple[str, ...]
    severity: str
    occurrence: str
    count: str
    aggregate: str
    note: str
    named: Tuple[str, ...]  # the severities with names that are written before the units

    def is_split(self) -> bool:
        """Whether its entries are independent units: those of a poisson count are, with no clause on their sum."""
        return len(self.exposure) > 1 and self.count == "poisson" and not self.aggregate

    def names(self) -> List[str]:
        """The names of its units here: its own, or one for each entry."""
        return [f"{self.name}-{at + 1}" for at in range(len(self.exposure))] if self.is_split() else [self.name]

    def entries(self) -> List[str]:
        """A unit for each entry, numbered where there are several."""
        several = len(self.exposure) > 1
        names = [f"{self.name}-{at + 1}" if several else self.name for at in range(len(self.exposure))]
        shared = [self.severity, self.occurrence, self.count, self.aggregate, self.note]
        return [" ".join(filter(None, ["agg", *part, *shared])) for part in zip(names, self.exposure, self.layer)]

    def as_one(self) -> Optional[str]:
        """One unit with the claims of all entries, each with its amounts in its layer, by the expected numbers of claims. None
        where a number has too many digits; raises `ZeroDivisionError` where there are no claims, and `RuleFault` where an
        entry by itself has no meaning."""
        units = [Reader(tokens_of(" ".join([*self.named, entry])), "extended").unit() for entry in self.entries()]
        claims = [unit.expected_claims() for unit in units]
        whole = sum(claims, Fraction(0))
        atoms = [listed(unit.in_layer()) for unit in units]
        weights = listed_numbers([each / whole for each in claims])
        exposure = spelled(whole)
        if weights is None or exposure is None or None in atoms:
            return None
        severity = " ".join([*map(str, atoms), "wts", weights])
        shared = [severity, self.occurrence, self.count, self.aggregate, self.note]
        return " ".join(filter(None, ["agg", self.name, exposure, "claims", *shared]))


def listed_numbers(numbers: Iterable[Fraction]) -> Optional[str]:
    """A list of these numbers; None where one has too many digits."""
    words = [spelled(number) for number in numbers]
    return None if None in words else f"[{' '.join(map(str, words))}]"


def listed(chances: Chances) -> Optional[str]:
    """A severity with these amounts, rising, and their probabilities; None where a number has too many digits."""
    rising = sorted(chances.items())
    lists = [listed_numbers(amount for amount, _ in rising), listed_numbers(part for _, part in rising)]
    return None if None in lists else f"dsev {lists[0]} {lists[1]}"


def spelling(items: List[Item]) -> str:
    """A list with these items."""
    return f"[{' '.join(':'.join(number.spelling for number in item) for item in items)}]"


def values_of(items: List[Item]) -> Optional[List[Fraction]]:
    """The values of a list, its ranges run through; None where there are too many, or a range does not run upward."""
    found: List[Fraction] = []
    for item in items:
        first, last = item[0].value, item[min(1, len(item) - 1)].value
        step = item[2].value if len(item) == 3 else Fraction(1)
        if first is None or last is None or not step or last < first or (last - first) / step >= MOST.values - len(found):
            return None
        found += [first + step * at for at in range(int((last - first) / step) + 1)]
    return found


class Translator(Numbers):
    """Reads a program of the package from the left, and writes it."""

    def __init__(self, text: str) -> None:
        super().__init__(text)
        self.named: Dict[str, str] = {}
        self.told: Set[str] = set()

    def program(self) -> str:
        """The program."""
        begin = self.token()
        while self.begins_definition():
            self.definition()
        port = self.passed("port")
        if not port and self.ahead() != "agg":
            where = self.token() if self.ahead() else begin
            self.refuse(self.none() or "A program begins with `agg` or `port`; a severity alone is none.", where)
        head = ["port", cleaned(self.name()), *self.common(), *filter(None, [self.note()])] if port else []
        names: Set[str] = set()
        units: List[str] = []
        while not units or (port and self.ahead() == "agg"):
            start = self.token()
            profile = self.unit(names)
            units += self.units(profile, start)
            if len(units) > MOST.units:
                self.refuse(f"A portfolio has at most {MOST.units} units; each entry of a poisson limit profile is one.", start)
            if len(units) > STANDARD.units:
                self.wider(start, f"A portfolio of more than {STANDARD.units} units")
            head = head or (["port", profile.name] if len(units) > 1 else [])
        if self.ahead() in ("agg", "port", "sev", "dist", "distortion"):
            self.refuse("A text has one program here; give the next one a text of its own, or put both in a port.")
        if self.ahead():
            self.refuse(self.unknown())
        return "\n".join([*self.named.values(), *([" ".join(head)] if head else []), *units]) + "\n"

    def wider(self, token: Token, what: str) -> None:
        """Tells once of what the standard rules do not take, and the extended ones do."""
        if what not in self.told:
            line, column = place_in(self.text[: token.at].encode("utf-8"), None)
            told = f"{line}:{column}: {what} needs the extended rules: rules=\"extended\" of a book, or --rules extended of a call"
            warnings.warn(DeclWarning(told, line=line, column=column), stacklevel=level_outside())
        self.told.add(what)

    def common(self) -> List[str]:
        """The factor that the units share, if one is next: it is of this language, and the package has none."""
        if not self.passed("common"):
            return []
        number = self.numeral()
        if not number.value:
            self.refuse("The coefficient of variation of a factor is a number above 0.", number.token)
        if number.value.numerator > 1:
            self.wider(number.token, f"`common {number.spelling}`, whose shape 1 / c^2 is not whole,")
        return ["common", number.spelling]

    def begins_definition(self) -> bool:
        """Whether a severity with a name is next."""
        name = self.tokens[self.at + 1] if self.at + 1 < len(self.tokens) else self.token()
        return self.ahead() == "sev" and name.is_word() and name.spelling not in KEYWORDS | NO_NAMES

    def definition(self) -> None:
        """Reads the severity with a name that is next."""
        self.take()
        name = self.name()
        if cleaned(name) in self.named:
            self.refuse(f"Two severities have the name {cleaned(name)} here.", name)
        words = self.mixture()
        self.named[cleaned(name)] = f"sev {cleaned(name)} {words}"

    def none(self) -> Optional[str]:
        """Why the next word has no counterpart, where it is known to have none."""
        if re.match(r"(agg|sev|port|dist)\.", self.ahead()):
            return STORED
        return NONE.get(self.ahead())

    def unknown(self) -> str:
        """Why the program cannot go on with the next token."""
        return self.none() or "The program does not go on like this, here or in the package."

    def name(self) -> Token:
        """The name that is next."""
        token = self.token()
        if not token.is_word() or token.spelling in KEYWORDS or token.spelling.startswith("note{"):
            self.refuse("A name is expected here.")
        return self.take()

    def note(self) -> str:
        """The note that is next, if one is."""
        return self.take().spelling if self.ahead().startswith("note{") else ""

    def unit(self, names: Set[str]) -> Profile:
        """The unit that is next, with a name that is not among these; its names are, then."""
        if not self.passed("agg"):
            self.refuse(self.none() or "A unit begins with `agg`.")
        name = self.name()
        listed = self.passed("dfreq")
        exposures = [f"dfreq {self.chances()}"] if listed else self.exposures()
        where = self.token()
        layers = self.layers()
        entries = max(len(exposures), len(layers))
        self.same_lengths(where, len(exposures), len(layers))
        if entries > 1 and listed:
            self.refuse("A limit profile has an exposure, and no listed count.", name)
        severity, occurrence = self.severity(), self.clause("occurrence")
        count = "" if listed else self.count()
        shared = (severity, occurrence, count, self.clause("aggregate"), self.note(), tuple(self.named.values()))
        profile = Profile(cleaned(name), widened(exposures, entries), widened(layers, entries), *shared)
        for each in profile.names():
            if each in names:
                self.refuse(f"Two units have the name {each} here.", name)
            names.add(each)
        return profile

    def same_lengths(self, where: Token, first: int, second: int) -> None:
        """Refuses two lists of a profile at this token, where neither has one entry and their lengths differ."""
        if first != second and min(first, second) > 1:
            self.refuse("The lists of a limit profile have the same number of entries.", where)

    def units(self, profile: Profile, start: Token) -> List[str]:
        """The units of a profile that begins at this token: one for each entry, or one for all."""
        if profile.is_split() or len(profile.exposure) == 1:
            return profile.entries()
        if len(profile.exposure) > MOST_ATOMS:
            self.refuse(f"A limit profile has at most {MOST_ATOMS} entries.", start)
        try:
            one = profile.as_one()
        except ZeroDivisionError:
            self.refuse("This limit profile has no claims.", start)
        except RuleFault as fault:
            self.refuse(f"An entry of this limit profile breaks a rule. {rule_sentence(fault.rule)}", start)
        if one is None:
            self.refuse(f"As one unit this limit profile has a number that is too long. {TOO_LONG}", start)
        return [one]

    def numbers(self) -> List[Numeral]:
        """The number that is next, or the numbers of a list, its ranges run through."""
        token = self.token()
        if self.ahead() != "[":
            return [self.numeral()]
        found: List[Numeral] = []
        for item in self.items():
            values = values_of([item])
            if len(item) > 1 and values is None:
                self.refuse(f"A range runs upward, to at most {MOST.values:,} values.", item[0].token)
            found += [self.spell(value, token) for value in values or []] if len(item) > 1 else [item[0]]
        return found

    def exposures(self) -> List[str]:
        """The exposure that is next: its words for each entry."""
        start = self.token()
        if not self.begins_number():
            self.refuse(self.none() or "An exposure is expected here, such as `10 claims`, `1000 loss` or `dfreq [1 2]`.")
        numbers = self.numbers()
        if any(number.value is None for number in numbers):
            self.refuse("An exposure is finite.", start)
        if self.passed("claims") or self.passed("claim"):
            return [f"{number.spelling} claims" for number in numbers]
        if self.passed("loss"):
            return [f"{number.spelling} loss" for number in numbers]
        if self.passed("exposure"):
            pairs = self.pairs(numbers, "rate")
            losses = [self.spell((first.value or Fraction(0)) * (rate.value or Fraction(0)), start) for first, rate in pairs]
            return [f"{loss.spelling} loss" for loss in losses]
        if self.passed("premium") or self.passed("prem"):
            return [f"{first.spelling} premium at {ratio.spelling} lr" for first, ratio in self.pairs(numbers, "lr")]
        self.refuse("`claims`, `loss`, `premium at .. lr` or `exposure at .. rate` is expected here.")

    def pairs(self, numbers: List[Numeral], word: str) -> List[Tuple[Numeral, Numeral]]:
        """Each number with the one that belongs to it, of those behind `at` and before this word."""
        self.want("at")
        where = self.token()
        others = self.numbers()
        self.want(word)
        if any(other.value is None for other in others):
            self.refuse("This number is finite.", where)
        return self.paired(numbers, others, where)

    def paired(self, first: List[Numeral], second: List[Numeral], where: Token) -> List[Tuple[Numeral, Numeral]]:
        """The entries of two lists of a profile side by side; one alone goes with each of the other list."""
        self.same_lengths(where, len(first), len(second))
        entries = max(len(first), len(second))
        return [*zip(widened(first, entries), widened(second, entries))]

    def layers(self) -> List[str]:
        """The layer that is next, for each entry; an empty one where there is none."""
        if self.ahead() == "tower":
            self.refuse("A tower is part of a reinsurance clause: write occurrence ceded to tower [..] behind the severity.")
        if not self.begins_number():
            return [""]
        limits = self.numbers()
        where = self.token()
        self.want("xs")
        attachments = self.numbers()
        if any(attachment.value is None for attachment in attachments):
            self.refuse("An attachment is finite.", where)
        return [f"{limit.spelling} xs {low.spelling}" for limit, low in self.paired(limits, attachments, where)]

    def values(self) -> List[Item]:
        """The items of the list that is next, all of them finite, with as many values as a list may have."""
        token = self.token()
        if token.spelling != "[":
            self.refuse("A list is expected here, such as [1 2 5].")
        items = self.items()
        for number in (number for item in items for number in item):
            if number.value is None:
                self.refuse("The values of a list are finite.", number.token)
        values = values_of(items)
        if values is None:
            self.refuse(f"A list has at most {MOST.values:,} values, and a range runs upward by a step above 0.", token)
        if len(values) > STANDARD.values:
            self.wider(token, f"A list of more than {STANDARD.values:,} values")
        return items

    def chances(self) -> str:
        """A list of values, and the list of their probabilities, if one is there."""
        items = self.values()
        return " ".join([spelling(items), *self.parts(len(values_of(items) or []))])

    def moved(self, item: Item, scale: Fraction, shift: Fraction) -> Item:
        """The item with its values scaled, and then shifted."""
        numbers = [number.value or Fraction(0) for number in item]
        found = [number * scale + shift for number in numbers[:2]]
        if len(numbers) == 3 or (len(numbers) == 2 and scale != 1):
            found.append(scale * (numbers[2] if len(numbers) == 3 else 1))
        return tuple(self.spell(number, item[0].token) for number in found)

    def parts(self, many: int) -> List[str]:
        """The list of so many probabilities or weights that is next, if one is."""
        token = self.token()
        if token.spelling != "[":
            return []
        items = self.values()
        values = values_of(items) or []
        if len(values) != many:
            self.refuse(f"This list has {len(values)} values, and the one or the severities before it {many}.", token)
        if sum(values) != 1:
            shown = spelled(sum(values, Fraction(0))) or f"about {float(sum(values)):.9f}"
            self.refuse(f"Probabilities and weights add up to 1 here, and these to {shown}; write thirds as 1/3.", token)
        return [spelling(items)]

    def severity(self) -> str:
        """The severity that is next, with its `!`: a mixture, or the name of one that is written before the units."""
        token = self.token()
        name = cleaned(Token(token.spelling[4:], token.at)) if token.spelling.startswith("sev.") else ""
        words = f"sev.{name}" if name in self.named and self.take() else self.mixture()
        return words + " !" * self.passed("!")

    def mixture(self) -> str:
        """The severity that is next: one atom, or several with their weights."""
        words = [self.atom_of_severity()]
        while self.ahead() == "dsev" or (self.ahead() == "sev" and not self.begins_definition()):
            words.append(self.atom_of_severity())
        if self.passed("wts"):
            self.passed("=")
            words += ["wts", *(self.parts(len(words)) or [self.equal_weights(len(words))])]
        elif len(words) > 1:
            self.refuse("Several severities have their weights behind them, as wts [1/2 1/2].")
        if self.ahead() in ("splice", "picks"):
            self.refuse(self.unknown())
        return " ".join(words)

    def equal_weights(self, atoms: int) -> str:
        """As many equal weights as there are severities, for the number that is next."""
        number = self.numeral()
        if number.value != atoms:
            self.refuse(f"There are {atoms} severities, and as many weights.", number.token)
        return f"[{' '.join([f'1/{atoms}'] * atoms)}]" if atoms > 1 else "[1]"

    def atom_of_severity(self) -> str:
        """The severity that is next, without weights."""
        if self.passed("dsev"):
            return f"dsev {self.chances()}"
        if not self.passed("sev"):
            self.refuse(self.none() or "A severity is expected here, such as dsev [1 2 5] [0.5 0.3 0.2].")
        scale = Fraction(1)
        if self.ahead() != "[" and self.begins_number():
            scale = self.factor()
        if self.passed("dhistogram", "xps"):
            return self.scaled(scale)
        word = "A list of severities" if self.ahead() == "[" else f"`{self.ahead()}`"
        if not (self.token().is_word() or self.ahead() == "[") or self.ahead() in KEYWORDS - {"gamma"}:
            self.refuse("A severity is expected here, such as dhistogram xps [1 2 5] [0.5 0.3 0.2].")
        self.refuse(self.none() or f"{word} is continuous. {CONTINUOUS}")

    def factor(self) -> Fraction:
        """The number before the `*` of a severity that is scaled."""
        token = self.token()
        value = self.signed()
        while not self.passed("*"):
            sign = self.token()
            if not self.passed("/"):
                self.refuse("`*` is expected here, behind the factor of a severity.")
            other = self.signed()
            if not other:
                self.refuse("This divides by 0.", sign)
            value = self.kept(value / other, sign)
        if value <= 0:
            self.refuse("The factor of a severity is above 0.", token)
        return value

    def scaled(self, scale: Fraction) -> str:
        """The listed severity that is next, scaled, and then shifted by the number behind it."""
        items = self.values()
        parts = self.parts(len(values_of(items) or []))
        shift = self.sum() if self.ahead() in ("+", "-") else Fraction(0)
        if scale != 1 or shift:
            items = [self.moved(item, scale, shift) for item in items]
        return " ".join(["dsev", spelling(items), *parts])

    def clause(self, word: str) -> str:
        """The reinsurance clause with this word, if it is next; its towers are their layers."""
        if not self.passed(word):
            return ""
        if self.passed("net", "of"):
            side = "net of"
        elif self.passed("ceded", "to"):
            side = "ceded to"
        else:
            self.refuse("`net of` or `ceded to` is expected here.")
        layers = self.cession()
        while self.passed("and"):
            layers += self.cession()
        return f"{word} {side} {' and '.join(layers)}"

    def cession(self) -> List[str]:
        """The layer that is next, with its share; or those of a tower."""
        if self.passed("tower"):
            return self.tower()
        first = self.numeral()
        share = ""
        if self.ahead() in ("so", "po"):
            if first.value is None:
                self.refuse("A share is finite.", first.token)
            share = f"{first.spelling} {self.take().spelling} "
            first = self.numeral()
        self.want("xs")
        attachment = self.numeral()
        if attachment.value is None:
            self.refuse("An attachment is finite.", attachment.token)
        return [f"{share}{first.spelling} xs {attachment.spelling}"]

    def tower(self) -> List[str]:
        """The layers between the numbers of the list that is next."""
        token = self.token()
        ends = self.numbers()
        layers = []
        for low, high in zip(ends, ends[1:]):
            if low.value is None or (high.value is not None and high.value <= low.value):
                self.refuse("The numbers of a tower rise.", high.token)
            limit = "inf" if high.value is None else self.spell(high.value - low.value, high.token).spelling
            layers.append(f"{limit} xs {low.spelling}")
        if not layers:
            self.refuse("A tower has two numbers or more, such as [0 10 20].", token)
        return layers

    def count(self) -> str:
        """The distribution of the number of claims that is next."""
        token = self.token()
        if self.passed("binomial"):
            written = f"binomial {self.finite()}"
        elif self.passed("mixed", "gamma"):
            variation = self.finite()
            written, value = f"mixed gamma {variation}", value_of(variation)
            if value and value.numerator > 1:
                self.wider(token, f"`{written}`, whose shape 1 / c^2 is not whole,")
        elif token.spelling in COUNTS:
            written = self.take().spelling
        elif token.spelling == "mixed":
            self.refuse("Of mixed counts only `mixed gamma` has a counterpart.", token)
        elif token.is_word() and token.spelling not in KEYWORDS and not token.spelling.startswith("note{"):
            listed = "up to 256 claims can be listed, as dfreq [0 1 ..] [..]."
            self.refuse(self.none() or f"The count {token.spelling} has no counterpart; {listed}")
        else:
            self.refuse("The distribution of the number of claims is expected here, such as poisson.", token)
        if self.passed("zt"):
            return f"{written} zt"
        return f"{written} zm {self.finite()}" if self.passed("zm") else written

    def finite(self) -> str:
        """The number that is next."""
        number = self.numeral()
        if number.value is None:
            self.refuse("This number is finite.", number.token)
        if self.begins_number():
            self.refuse("A second number of a count has no counterpart.")
        return number.spelling


def cleaned(name: Token) -> str:
    """The name as it can be here: with `-` for a point, a colon or a tilde, and `_` behind a word of the language."""
    found = re.sub(r"[.:~]", "-", name.spelling)
    return f"{found}_" if found in NO_NAMES else found


def widened(each: List[Entry], entries: int) -> Tuple[Entry, ...]:
    """One for each entry, where one alone is for all."""
    return tuple(each * (entries // len(each)))


def translate(text: Text) -> str:
    """The program of this text of the package `aggregate`, as a text of this language with the same meaning.

    Towers are written as their layers, a limit profile as a unit for each entry (as one unit with the claims of all entries, where
    the count is not poisson or a clause is on their sum), numbers with exponents, signs and arithmetic as one numeral, a listed
    severity that is scaled or shifted by its amounts, and an exposure at a rate as its expected loss. Severities with names that
    stand before the units keep them, and `zt` and `zm` stay as they are: the expected number of claims is that before the change.
    Comments are dropped. What has no counterpart raises `Untranslated`, with its place and a sentence. The rules are not asked: the
    text that comes out may still be refused, as for an amount that is no whole number of buckets. What only the extended rules take, as
    a gamma count whose shape is not whole, is written, and told as a `DeclWarning`.
    """
    return Translator(as_text(text)).program()
