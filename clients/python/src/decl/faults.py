"""Why there is no report: one exception for each status of the program, and for a program that did not end by itself.

An exception keeps its facts as attributes, and can be pickled, so that it can come from another process.
"""

import html
import signal
from typing import TYPE_CHECKING, Any, Dict, List, Optional, Tuple, Type

from .rules import SENTENCES

if TYPE_CHECKING:
    from .reports import Row

#: So many characters of a long line are shown on each side of a place.
AROUND = 60


def restore(kind: Type["DeclError"], told: str, facts: Dict[str, Any]) -> "DeclError":
    """Makes an exception again from its pickled parts."""
    return kind(told, **facts)


class DeclError(Exception):
    """There is no report. `status` is the program's status, or None where it did not end by itself."""

    status: Optional[int] = None

    def __init__(self, told: str, **facts: Any) -> None:
        super().__init__(told)
        self.told = told
        self.facts = facts
        for name, value in facts.items():
            setattr(self, name, value)

    def __reduce__(self) -> Tuple[Any, ...]:
        return restore, (type(self), self.told, self.facts)

    def _render_traceback_(self) -> List[str]:
        """In a notebook the message stands alone, with no traceback."""
        return [f"{type(self).__name__}: {self.told}"]

    def _repr_html_(self) -> str:
        """The message in letters of one width, so that a caret stands under its place there too."""
        return f'<pre style="white-space: pre; overflow-x: auto">{html.escape(self._render_traceback_()[0])}</pre>'


class ProgramNotFound(DeclError):
    """No program to run; `program` is the name that was looked for."""

    program: str


class Killed(DeclError):
    """The program was ended by a signal; `signal` is its number."""

    signal: int


class TookTooLong(DeclError):
    """The program did not end within `seconds`, and was ended."""

    seconds: float


class BadAnswer(DeclError):
    """What the program wrote is no whole report. It is not used."""


class NotText(DeclError):
    """The text has a NUL byte or is no UTF-8; `line` and `column` tell where, counted from 1; None for a word."""

    line: Optional[int]
    column: Optional[int]


class GridTooSmall(DeclError):
    """No grid is sure to hold so much probability; `row` is the answer for the largest that takes the text, and `log2` is its size."""

    row: "Row"
    log2: int


class NumberFault(DeclError, ValueError):
    """What is given is no number, or no level that an ask takes; the text has the levels beside it."""


class DeclWarning(UserWarning):
    """Something that is read as it stands and may not be meant. `line` and `column` (in bytes) count from 1 and are None where there is no
    place in a text; `instead` is what it would be, and empty where that is not seen."""

    def __init__(self, told: str, *, line: Optional[int] = None, column: Optional[int] = None, instead: str = "") -> None:
        super().__init__(told)
        self.told, self.line, self.column, self.instead = told, line, column, instead


class TableFault(DeclError):
    """A table of which no book is made. `row` counts from 1, in a file as its lines do, and is None where no row is at fault; `column` is
    the name of the column, and None where there is none."""

    row: Optional[int]
    column: Optional[str]


class NotDeclared(DeclError):
    """A book that no program declares, such as the net of a layer with a limit of the year; the text says what holds of it."""


class NotBetween(DeclError):
    """A book that two programs on the coarser bucket cannot hold between them; the text says why."""


class NoMoments(DeclError):
    """A moment that does not follow from the text: an aggregate clause is in its way, or it would be divided by 0."""


class Untranslated(DeclError):
    """Something in a text of the package `aggregate` that has no counterpart here, or is no program there either. `line` and
    `column` (in bytes) count from 1; `reason` is a sentence on it, with what to write instead, where there is something."""

    line: int
    column: int
    reason: str


class NoWords(DeclError):
    """The system did not give the program its words."""

    status = 1


class UsageFault(DeclError):
    """The words are not understood; `ask` counts from 0, and is None where an option is at fault."""

    status = 2
    ask: Optional[int]


class TextFault(DeclError):
    """The text is refused. `line` and `column` (in bytes) count from 1; they are None where the text is too long."""

    status = 3
    line: Optional[int] = None
    column: Optional[int] = None


class TooLong(TextFault):
    """The text has more than 1 MiB."""


class BadByte(TextFault):
    """No token begins at this place."""


class SyntaxFault(TextFault):
    """The tokens up to this place begin a program, and no program goes on with the next one. `expected` names the tokens with
    which one does, and is empty where the text is too long to try them."""

    expected: Tuple[str, ...] = ()


class ContinuousSeverity(TextFault):
    """`word` names a continuous severity, and those are not taken."""

    word: str


class NotCovered(TextFault):
    """The text has no certificate: `unit`, counted from 0, is the first unit with listed counts, a changed probability of no claim or an
    aggregate clause; 0 also where the units share a factor."""

    unit: int


class BadStep(TextFault):
    """The steps are no certificate: `step`, counted from 0, is the first that is misspelled or fails its test, or the number of all steps,
    where the last one does not count what the total counts."""

    step: int


class RuleFault(TextFault):
    """A typing rule is broken: `unit` counts from 0, `rule` is its number and `name` its name."""

    unit: int
    rule: int
    name: str


class NeedsWidth(DeclError):
    """An ask needs more width: ask `ask` (from 0) needs `needed` units of the last digit as `option`."""

    status = 4
    ask: int
    needed: int
    option: str


class ReadFault(DeclError):
    """The program could not read the text."""

    status = 5


class WriteFault(DeclError):
    """The program could not write the whole report. What came through is dropped."""

    status = 6


class OutOfMemory(DeclError):
    """The program had no memory."""

    status = 7


class AskFault(DeclError):
    """Ask `ask` (from 0) lies beyond the grid, or names no unit; `reason` says which."""

    status = 8
    ask: int
    reason: str


def pointed(text: str, line: int, column: int) -> str:
    """The line of the text, cut round the column (in bytes, from 1), with a caret under the place."""
    lines = text.encode().split(b"\n")
    whole = lines[line - 1] if line <= len(lines) else b""
    before = whole[: column - 1].decode("utf-8", "replace")
    behind = whole[column - 1 :].decode("utf-8", "replace").rstrip("\r")
    cut = "" if len(before) <= AROUND else ".."
    before = before[-AROUND:]
    blanks = "".join(sign if sign == "\t" else " " for sign in cut + before)
    return f"  {cut}{before}{behind[:AROUND]}{'..' if len(behind) > AROUND else ''}\n  {blanks}^"


def pointed_word(words: List[str], index: int) -> str:
    """The words in one line, with carets under one of them."""
    before = " ".join(words[:index] + [""]) if index else ""
    cut = "" if len(before) <= AROUND else ".."
    before = before[-AROUND:]
    word = words[index]
    return f"  {cut}{before}{word}\n  {' ' * len(cut + before)}{'^' * max(1, len(word))}"


def killed(number: int) -> Killed:
    """The exception of a program that was ended by this signal."""
    try:
        name = signal.Signals(number).name
    except ValueError:
        name = f"signal {number}"
    return Killed(f"decl was ended by {name} before its report was whole; nothing of it is used", signal=number)


def rule_sentence(number: int) -> str:
    """What the rule asks, in a sentence."""
    return SENTENCES.get(number, "This version of the client does not know the rule; see docs/LANGUAGE.md.")
