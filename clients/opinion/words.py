"""The words of a call (docs/USAGE.md): the form, the options and the asks, or the fault that stands behind `decl: `."""

import math
import re
from collections import namedtuple

from .text import NUMERAL, WORD, Fault, is_bad, value

WHOLE = {
    "make": (0, 2**32 - 1, None),
    "log2": (1, 16, 10),
    "digits": (1, 9, 6),
    "width": (1, 10**9, 10),
    "mwidth": (1, 10**12, 10**6),
}
CHOICES = {"format": ("text", "csv", "json"), "rules": ("standard", "extended")}
X = "[0-9]{1,9}"
ASKS = [
    re.compile(pattern)
    for pattern in (
        f"(?P<kind>pmf|cdf):(?P<x>{X})",
        "(?P<kind>mean)",
        f"(?P<kind>q|tail):(?P<p>{NUMERAL})",
        f"(?P<kind>layer):(?P<limit>{X}|inf)xs(?P<x>{X})",
        f"(?P<kind>joint|kappa):(?P<name>{WORD}):(?P<x>{X})",
        f"(?P<kind>cotail):(?P<name>{WORD}):(?P<p>{NUMERAL})",
        r"(?P<kind>price):(?P<terms>[^+]+(?:\+[^+]+){0,7})",
    )
]


Settings = namedtuple("Settings", "form asks bs cells digits width mwidth make format rules")


def level(numeral, most=9):
    """A probability below 1, or None."""
    p = value(numeral) if re.fullmatch(NUMERAL, numeral) and not is_bad(numeral, most) else None
    return p if p is not None and p < 1 else None


def is_priced(word):
    """The terms of a price, each a weight and a `p`, or None."""
    terms = []
    for term in word.split("+"):
        weight, at, p = term.partition("@")
        if not at or not re.fullmatch(NUMERAL, weight) or is_bad(weight, 9) or level(p) is None:
            return None
        terms.append((value(weight), level(p)))
    common = math.lcm(*(weight.denominator for weight, _ in terms))
    return terms if sum(weight for weight, _ in terms) == 1 and common <= 1_000_000 else None


def asked(word, rules="standard"):
    """An ask in its parts, or None. By the extended rules `cotail` is a `share`, whose level is spelled as that of the tail mean."""
    found = next((match for match in (pattern.fullmatch(word) for pattern in ASKS) if match), None)
    if not found:
        return None
    parts = found.groupdict()
    if "limit" in parts:
        return "layer", None if parts["limit"] == "inf" else int(parts["limit"]), int(parts["x"])
    kind = "share" if parts["kind"] == "cotail" and rules == "extended" else parts["kind"]
    rest = [is_priced(parts["terms"])] if "terms" in parts else []
    rest += [parts["name"]] if "name" in parts else []
    rest += [int(parts["x"])] if "x" in parts else []
    rest += [level(parts["p"], 4 if kind == "cotail" else 9)] if "p" in parts else []
    return None if None in rest else (kind, *rest)


def read_words(words):
    """The settings of the words."""
    given, positionals, left = {}, [], list(words)
    while left:
        word = left.pop(0)
        if word == "--":
            positionals, left = positionals + left, []
        elif word.startswith("--"):
            name, is_one, text = word[2:].partition("=")
            if name in given or name not in (*WHOLE, *CHOICES, "bs") or not (is_one or left):
                raise Fault("usage", 2)
            given[name] = text if is_one else left.pop(0)
        elif word.startswith("-"):
            raise Fault("usage", 2)
        else:
            positionals.append(word)
    return settings_of(given, positionals)


def settings_of(given, positionals):
    """The settings of the values of the options, and of the positionals."""
    found = {name: default for name, (_, _, default) in WHOLE.items()}
    for name, text in given.items():
        if name in WHOLE:
            least, most, _ = WHOLE[name]
            if not re.fullmatch("[0-9]{1,15}", text) or not least <= int(text) <= most:
                raise Fault("usage", 2)
            found[name] = int(text)
    bs, chosen = given.get("bs", "1"), {name: given.get(name, names[0]) for name, names in CHOICES.items()}
    is_chosen = all(chosen[name] in names for name, names in CHOICES.items())
    if not re.fullmatch(NUMERAL, bs) or is_bad(bs) or value(bs) == 0 or not is_chosen or not positionals:
        raise Fault("usage", 2)
    kind, *asks = positionals
    is_run = kind == "run" and 1 <= len(asks) <= 256 and not any(ask.startswith("-") for ask in asks)
    if not is_run and not (kind == "fmt" and not asks and set(given) <= {"make"}):
        raise Fault("usage", 2)
    for i, ask in enumerate(asks):
        if asked(ask, chosen["rules"]) is None:
            raise Fault(f"ask {i}: not an ask", 2)
    return Settings(kind, asks, value(bs), 2 ** found.pop("log2"), **found, **chosen)
