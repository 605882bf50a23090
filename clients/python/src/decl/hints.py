"""What may be meant where a text or an ask is refused, seen from the text alone."""

import difflib
import re
from fractions import Fraction
from typing import Any, Dict, Iterable, List, Optional, Tuple

from .expected import WORDS, before
from .figures import plain
from .rules import BOUNDS, COUNTS

#: Notes and comments, in which nothing is looked for.
ASIDE = re.compile(r"note\{[^{}]*\}|#[^\n]*")
WORD = re.compile(r"[A-Za-z][\w-]*")
LIST = re.compile(r"\[([^\[\]]*)\]")
NUMERAL = re.compile(r"(\d+)/(\d+)|(\d+\.?\d*|\.\d+)(%?)")
UNIT = re.compile(r"(?<![\w-])agg\s+([A-Za-z][\w-]*)")
CLAUSES = ("occurrence", "aggregate", *COUNTS, "dsev", "sev")
ORDER = "A unit goes in the order: name, exposure, layer, severity, `occurrence`, count, `aggregate`, note."
#: What other words of the field are as asks.
FIELD = {"var": "q", "tvar": "tail", "cte": "tail", "es": "tail", "quantile": "q", "expected": "mean", "sd": "mean", "sf": "cdf"}


def without_asides(text: str) -> str:
    """The text with blanks in the place of notes and comments."""
    return ASIDE.sub(lambda found: re.sub(r"[^\n]", " ", found[0]), text)


def value(word: str) -> Optional[Fraction]:
    """The number that a numeral spells; None where it spells none."""
    found = NUMERAL.fullmatch(word)
    if found is None or (found[2] and not int(found[2])):
        return None
    return Fraction(int(found[1]), int(found[2])) if found[1] else Fraction(found[3].rstrip(".")) / (100 if found[4] else 1)


def items(inside: str) -> Optional[List[Fraction]]:
    """The numbers of a list, ranges written out; None where it is no list, or has more numbers than one may have."""
    found: List[Fraction] = []
    for item in re.sub(r"\s*:\s*", ":", inside).replace(",", " ").split():
        ends = [value(word) for word in item.split(":")]
        if None in ends or len(ends) > 3 or (len(ends) == 3 and not ends[2]):
            return None
        first, last, step = ends[0], ends[min(1, len(ends) - 1)], ends[2] if len(ends) == 3 else Fraction(1)
        assert first is not None and last is not None and step is not None
        many = int((last - first) / step) + 1
        if len(found) + many > BOUNDS["extended"].values:
            return None
        found += [first + step * at for at in range(many)]
    return found


def near(word: str, names: Iterable[str]) -> str:
    """The name that is most like a word, as a question behind a sentence; empty where none is."""
    found = difflib.get_close_matches(word.lower(), list(names), 1)
    return f" Did you mean `{found[0]}`?" if found else ""


def units_sentence(text: str, name: str) -> str:
    """The units that there are, and the one that is nearest to a name."""
    units = UNIT.findall(without_asides(text))
    like = difflib.get_close_matches(name, units, 1) or [unit for unit in units if unit.lower() == name.lower()]
    asked = f" Did you mean `{like[0]}`?" if like else ""
    return f" The text has the {'units' if len(units) > 1 else 'unit'} {', '.join(units)}.{asked}" if units else ""


def rule_hint(rule: int, text: str, line: int, column: int) -> str:
    """What a list at a place adds up to, or how long it is, where a rule on it is broken."""
    place = len(before(text, line, column))
    seen = without_asides(text)
    here, lists = LIST.match(seen, place), list(LIST.finditer(seen, 0, place))
    found = items(here[1]) if here else None
    if rule == 6 and found:
        total = sum(found, Fraction(0))
        apart = plain(abs(1 - total))
        return f" These add up to {plain(total)}: {apart} too {'little' if total < 1 else 'much'}."
    earlier = items(lists[-1][1]) if lists else None
    if rule == 5 and found is not None and earlier is not None:
        return f" The list before it has {len(earlier)} values, and this one {len(found)}."
    if rule == 9 and found is not None:
        return f" There are {len(found)} weights."
    return ""


def syntax_hint(text: str, line: int, column: int, names: Tuple[str, ...]) -> str:
    """What may be meant at a place where no program goes on; `names` are the tokens with which one does."""
    start = before(without_asides(text), line, column)
    rest = without_asides(text)[len(start) :]
    ahead = re.search(r"(\d{1,3})$", start)
    comma = re.match(r"((?:,\d{3})+)(?![\d.])", rest)
    if ahead and comma:
        return f" A number has no comma in it: {ahead[1]}{comma[1].replace(',', '')}."
    found = WORD.match(rest)
    if found is None:
        return ""
    word = found[0]
    if word == "agg" and UNIT.search(start) and not re.search(r"(?<![\w-])port\s", start):
        return " Several units need `port NAME` before the first one."
    if word in CLAUSES and UNIT.search(start):
        return f" {ORDER}"
    return near(word, [name for name in names if " " not in name and name.isalpha()]) if word not in WORDS.split() else ""


def text_hint(reason: str, facts: Dict[str, Any], text: str, line: int, column: int) -> str:
    """A further sentence on the fault of a text, with a blank before it; empty where there is none."""
    if "rule" in facts:
        return rule_hint(facts["rule"], text, line, column)
    return syntax_hint(text, line, column, facts.get("expected", ())) if reason == "syntax" else ""


def level_hint(ask: str) -> str:
    """What a level may be that an ask does not take."""
    kind, _, level = ask.rpartition(":")
    point = re.fullmatch(r"(\d+),(\d+)(%?)", level)
    if point:
        return f" A decimal has a point: `{kind}:{point[1]}.{point[2]}{point[3]}`."
    found = value(level)
    return f" Did you mean `{kind}:{level}%`?" if found is not None and "%" not in level and 1 < found < 100 else ""


def ask_hint(ask: str, kinds: Iterable[str]) -> str:
    """What may be meant by a word that is no ask, with a blank before it; empty where it is not seen."""
    kind = ask.split(":")[0]
    if kind in kinds:
        return level_hint(ask) if kind in ("q", "tail", "cotail") else ""
    word = FIELD.get(kind.lower())
    rest = ask[len(kind) :]
    return f" Did you mean `{word}{'' if word == 'mean' else rest}`?" if word else near(kind, kinds)


def steps_hint(steps: str, log2: Optional[int]) -> str:
    """That steps were written on another grid than the call's, where their first line has another number of cells."""
    cells = len(re.findall(r"\d+,\d+", steps.split("\n", 1)[0]))
    wanted = 2 ** (10 if log2 is None else log2)
    if not cells or cells == wanted:
        return ""
    given = f": give log2={cells.bit_length() - 1}" if cells & (cells - 1) == 0 else ""
    return f" The steps have {cells:,} cells, and the grid of this call {wanted:,}{given}."
