"""Turns a status and the line that the program wrote about it into an exception."""

import re
from typing import Any, Dict, List, Sequence, Tuple, Type

from . import faults, hints, words as sentences
from .expected import Refusal, expected, listed

Reason = Tuple[Type[faults.DeclError], Dict[str, Any], str]

NO_SHARE = 'Units that share a factor have a share of the tail mean by rules="extended" alone.'
#: An ask of these kinds is held to `width`, any other to `mwidth`.
PROBABILITIES = ("pmf:", "cdf:", "q:")
#: Continuous severities that decl.between takes.
BETWEEN = ("lognorm", "gamma", "expon", "weibull", "pareto")
#: Of a long line of words so many characters are shown.
SHOWN = 120
PLACE = re.compile(r"decl: (\d+):(\d+): (.*)", re.DOTALL)
ASK = re.compile(r"decl: ask (\d+): (.*)", re.DOTALL)
RULE = re.compile(r"unit (\d+): rule (\d+) (\w+)")
NOT_COVERED = re.compile(r"decl: unit (\d+): not covered")
BAD_STEP = re.compile(r"decl: step (\d+): not verified")


def fault_of(
    status: int, told: str, text: str, words: Sequence[str], asks: List[str], refusal: Refusal
) -> faults.DeclError:
    """The exception for a status other than 0; `told` is what stood on standard error, and `refusal` what `fmt` says against
    a text."""
    told = told.rstrip("\n")
    if status == 3:
        return text_fault(told, text, refusal)
    if status in (2, 4, 8):
        return ask_fault(status, told, text, words, asks)
    plain: Dict[int, Tuple[Type[faults.DeclError], str]] = {
        1: (faults.NoWords, "decl: the system did not give the words"),
        5: (faults.ReadFault, told or "decl: the input could not be read"),
        6: (faults.WriteFault, "decl: the report could not be written whole; what came through is dropped"),
        7: (faults.OutOfMemory, "decl: there was no memory"),
    }
    if status in plain:
        kind, sentence = plain[status]
        return kind(sentence)
    return faults.BadAnswer(f"decl ended with the unknown status {status}: {told}")


def text_fault(told: str, text: str, refusal: Refusal) -> faults.DeclError:
    """The exception for a text that is refused."""
    place = PLACE.fullmatch(told)
    if place is None:
        return placeless_fault(told)
    line, column, reason = int(place[1]), int(place[2]), place[3]
    kind, facts, sentence = text_reason(reason)
    if kind is faults.SyntaxFault:
        facts["expected"] = expected(text, line, column, refusal)
        if facts["expected"]:
            sentence = f"A program goes on here with {listed(facts['expected'])}."
    sentence += hints.text_hint(reason, facts, text, line, column)
    if text.startswith("\ufeff"):
        sentence = 'A byte-order mark stands before the text, and is no part of it: read the file with encoding="utf-8-sig".'
    elif sentences.like_a_file(text):
        sentence = "The text looks like the name of a file: give what the file holds, as pathlib.Path(name).read_text() does."
    shown = faults.pointed(text, line, column)
    return kind(f"{told}\n{shown}\n{sentence}", line=line, column=column, **facts)


def placeless_fault(told: str) -> faults.DeclError:
    """The exception for a text that is refused as a whole, or whose certificate is."""
    covered, step = NOT_COVERED.fullmatch(told), BAD_STEP.fullmatch(told)
    if covered:
        sentence = "A unit with dfreq, zt, zm or an aggregate clause has no certificate, and neither have units that share a factor."
        return faults.NotCovered(f"{told}\n{sentence}", unit=int(covered[1]))
    if step:
        sentence = "The step is misspelled or fails its test, or the steps do not end at the total; docs/STEPS.md has the tests."
        return faults.BadStep(f"{told}\n{sentence}", step=int(step[1]))
    if "more than" in told:
        return faults.TooLong(f"{told}\nA text has at most 1 MiB.")
    return faults.BadAnswer(f"decl refused the text, but not in a way that is known: {told}")


def text_reason(reason: str) -> Reason:
    """The kind of a fault of a text, its facts, and a sentence on it."""
    rule = RULE.fullmatch(reason)
    if rule:
        facts: Dict[str, Any] = {"unit": int(rule[1]), "rule": int(rule[2]), "name": rule[3]}
        return faults.RuleFault, facts, faults.rule_sentence(facts["rule"])
    if reason == "syntax":
        return faults.SyntaxFault, {}, "No program goes on here as the text does; docs/LANGUAGE.md has the grammar."
    if reason == "no token begins here":
        return faults.BadByte, {}, "No word, numeral, note or sign of the language begins with this byte."
    if reason.startswith("continuous severity "):
        word = reason.split(" ")[-1]
        sentence = f"{word} is continuous; give its amounts with their probabilities instead, as dsev [..] [..]."
        if word in BETWEEN:
            sentence = f"{word} is continuous; decl.between(text) holds the book between two programs that list its amounts."
        else:
            sentence += f" decl.between takes {', '.join(BETWEEN)}, and not {word}."
        return faults.ContinuousSeverity, {"word": word}, sentence
    return faults.TextFault, {}, "docs/USAGE.md tells the faults of a text."


def ask_fault(status: int, told: str, text: str, words: Sequence[str], asks: List[str]) -> faults.DeclError:
    """The exception for words that are not understood, or for an ask that cannot be answered."""
    found = ASK.fullmatch(told)
    if found is None:
        line = " ".join(words)
        shown = line if len(line) <= SHOWN else f"{line[:SHOWN]}.."
        return faults.UsageFault(f"{told}\n  {shown}\n{sentences.words_sentence(words)}", ask=None)
    ask, reason = int(found[1]), found[2]
    shown = faults.pointed_word(asks, ask) if ask < len(asks) else ""
    word = asks[ask] if ask < len(asks) else ""
    kind, facts, sentence = ask_reason(status, reason, word, words)
    if status == 8 and reason == "no such unit":
        sentence += hints.units_sentence(text, word.split(":")[1] if ":" in word else "")
    return kind(f"{told}\n{shown}\n{sentence}", ask=ask, **facts)


def ask_reason(status: int, reason: str, ask: str, words: Sequence[str]) -> Reason:
    """The kind of a fault of an ask, its facts, and a sentence on it."""
    if status == 4:
        needed = int(reason.split(" ")[-1])
        option = "width" if ask.startswith(PROBABILITIES) else "mwidth"
        sentence = f"Its ends can lie {needed} units of the last digit apart: give {option}={needed}, or fewer digits."
        return faults.NeedsWidth, {"needed": needed, "option": option}, sentence
    if status == 8 and reason == "no such unit":
        return faults.AskFault, {"reason": reason}, "joint, kappa and cotail name a unit of the text."
    if status == 8 and reason == "no share under a common factor":
        return faults.AskFault, {"reason": reason}, NO_SHARE
    if status == 8:
        return faults.AskFault, {"reason": reason}, sentences.grid_sentence(words)
    return faults.UsageFault, {}, sentences.ask_sentence(ask) + hints.ask_hint(ask, sentences.FORM)
