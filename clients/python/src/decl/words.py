"""What is wrong with words of the command line, in a sentence each. docs/USAGE.md has their ranges as tables."""

import re
from fractions import Fraction
from typing import Dict, List, Optional, Sequence, Tuple

#: The least and the greatest value of each option that is a whole number.
RANGES: Dict[str, Tuple[int, int]] = {
    "log2": (1, 16),
    "digits": (1, 9),
    "width": (1, 10**9),
    "mwidth": (1, 10**12),
    "make": (0, 2**32 - 1),
}
#: The values of each option that is a word.
CHOICES: Dict[str, Tuple[str, ...]] = {"format": ("text", "csv", "json"), "rules": ("standard", "extended")}
MOST_ASKS = 256
CELLS = 1024
AMOUNT = "a whole number of buckets, of at most 9 digits"
LEVEL = "p is below 1: a decimal or a fraction of at most 9 digits, or a percent of at most 7"
FORM: Dict[str, str] = {
    "mean": "Nothing stands behind mean.",
    "pmf": f"In pmf:x, x is {AMOUNT}.",
    "cdf": f"In cdf:x, x is {AMOUNT}.",
    "q": f"In q:p, {LEVEL}.",
    "tail": f"In tail:p, {LEVEL}.",
    "price": f"In price:W@P+W@P.., there are 1 to 8 terms, and the weights W sum to 1. {LEVEL.replace('p is', 'Each P is')}.",
    "layer": f"In layer:LxsA, L and A are each {AMOUNT}; L can be inf.",
    "joint": f"In joint:NAME:x, NAME is a unit and x {AMOUNT}.",
    "kappa": f"In kappa:NAME:x, NAME is a unit and x {AMOUNT}.",
    "cotail": "In cotail:NAME:p, NAME is a unit, and p is below 1: a decimal or a fraction of at most 4 digits, or a percent of at most 2;"
    " by the extended rules of at most 9, or 7.",
}
ASKS = "Asks are pmf:x, cdf:x, mean, q:p, layer:LxsA, tail:p, price:W@P+W@P.., joint:NAME:x, kappa:NAME:x and cotail:NAME:p."


def like_a_file(word: str) -> bool:
    """Whether the word is more like the name of a file than like a text or an ask."""
    word = word.strip()
    if "\n" in word or not word:
        return False
    one = re.fullmatch(r"(?:[A-Za-z]:(?=[/\\]))?[^\s:\[{]*[/\\][^\s\[{]*|[\w.-]+\.[A-Za-z]+", word)
    return word.endswith(".decl") or (one is not None and any(sign.isalpha() for sign in word))


def ask_sentence(ask: str) -> str:
    """What is wrong with a word that is no ask."""
    kind = ask.split(":")[0]
    if kind in FORM:
        return FORM[kind]
    if like_a_file(ask):
        return f"No word names a file; the program reads a text. {ASKS}"
    return ASKS


def options_of(words: Sequence[str]) -> Tuple[List[Tuple[str, Optional[str]]], List[str]]:
    """The options of a command with their values, None where one has none, and its other words."""
    options: List[Tuple[str, Optional[str]]] = []
    others: List[str] = []
    left = list(words)
    while left:
        word = left.pop(0)
        if word == "--":
            return options, others + left
        if not word.startswith("--"):
            others.append(word)
        elif "=" in word:
            name, _, value = word[2:].partition("=")
            options.append((name, value))
        else:
            options.append((word[2:], left.pop(0) if left else None))
    return options, others


def is_size(value: str) -> bool:
    """Whether a value can be the size of a bucket."""
    decimal = re.fullmatch(r"(\d+\.?\d*|\.\d+)(%?)", value)
    if decimal:
        before, _, behind = decimal[1].partition(".")
        most = 9 if decimal[2] else 11
        return len(before or "0") + len(behind) <= most and Fraction(f"{before or 0}.{behind or 0}") > 0
    parts = re.fullmatch(r"(\d{1,11})/(\d{1,11})", value)
    return parts is not None and int(parts[1]) > 0 and int(parts[2]) > 0


def value_sentence(name: str, value: Optional[str]) -> Optional[str]:
    """What is wrong with an option and its value, None where nothing is."""
    if name not in RANGES and name not in CHOICES and name != "bs":
        return f"There is no option {name}; options are bs, log2, digits, width, mwidth, format, make and rules."
    if value is None:
        return f"The option {name} has no value."
    if name == "bs":
        wants = "a numeral above 0, of at most 11 digits (a percent 9, a fraction 11 in each part)"
        return None if is_size(value) else f"bs is the size of a bucket, {wants}, not {value}."
    if name in CHOICES:
        *first, last = CHOICES[name]
        return None if value in CHOICES[name] else f"{name} is {', '.join(first)} or {last}, not {value}."
    least, most = RANGES[name]
    if re.fullmatch(r"[0-9]{1,15}", value) and least <= int(value) <= most:
        return None
    return f"{name} is a whole number from {least} to {most:,}, not {value}."


def words_sentence(words: Sequence[str]) -> str:
    """What is wrong with the words of a command, as far as it is seen here: an option, or the number of asks."""
    options, others = options_of(words)
    for at, (name, value) in enumerate(options):
        wrong = value_sentence(name, value)
        if wrong:
            return wrong
        if name in [other for other, _ in options[:at]]:
            return f"The option {name} stands twice."
    for word in others:
        if word.startswith("-"):
            return f"{word} is no ask, and no option where asks stand: options are given by name."
    asks = len(others) - 1
    if others[:1] == ["run"] and not 1 <= asks <= MOST_ASKS:
        return f"There are 1 to {MOST_ASKS} asks, not {asks}."
    return "An option is unknown, stands twice or has a value out of its range; or there is no ask, or more than 256."


def grid_sentence(words: Sequence[str]) -> str:
    """How far the grid of a command goes."""
    log2 = dict(options_of(words)[0]).get("log2")
    cells = 2 ** int(log2) if log2 and re.fullmatch(r"[0-9]{1,2}", log2) else CELLS
    return (
        f"The grid has {cells} buckets, so an amount is at most {cells - 1}, and L + A at most {cells}: take a larger log2,"
        " or larger buckets; decl.grid(text) helps."
    )
