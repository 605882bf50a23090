"""The calls: run, report, check, fmt, made, certify and verify."""

from decimal import Decimal
from fractions import Fraction
from typing import Iterable, List, Optional, Type, Union

from . import program
from .cautions import warn_of
from .faults import AskFault, BadAnswer, BadStep
from .hints import steps_hint
from .reports import Report, read_report
from .rules import Rules

#: Larger than any grid, so the program decides on the text and computes nothing.
PAST_EVERY_GRID = "pmf:999999999"

Text = Union[str, bytes]
Asks = Union[str, Iterable[str]]
Number = Union[int, Fraction, Decimal, float, str]


def spelled(value: Number) -> str:
    """A number as a word of the command line. A float is taken as the decimal that Python prints for it."""
    if isinstance(value, float):
        value = Fraction(repr(float(value)))  # of a float alone: numpy's own scalars are floats, and print their type
    if isinstance(value, Decimal):
        value = Fraction(value)
    return str(value)


def options(**values: Optional[Number]) -> List[str]:
    """The options as words of the command line; those that are None are left out."""
    words = []
    for name, value in values.items():
        if value is not None:
            words += [f"--{name}", spelled(value)]
    return words


def listed(asks: Asks) -> List[str]:
    """The asks as a list; one alone may be a string."""
    return [asks] if isinstance(asks, str) else [str(ask) for ask in asks]


def run(
    text: Text,
    asks: Asks,
    *,
    bs: Optional[Number] = None,
    log2: Optional[int] = None,
    digits: Optional[int] = None,
    width: Optional[int] = None,
    mwidth: Optional[int] = None,
    make: Optional[int] = None,
    rules: Optional[Rules] = None,
    ends: Union[Type[Fraction], Type[Decimal]] = Fraction,
    timeout: Optional[float] = None,
) -> Report:
    """The report on the asks about the text, with exact ends.

    `asks` are words such as "mean", "q:0.995" or "layer:10xs5", with amounts in buckets. `bs` is the size of a bucket
    in money; `log2`, `digits`, `width`, `mwidth`, `make` and `rules` are the options of the program of these names (the table
    of options in docs/USAGE.md), and None leaves one out. The rules "extended" take up to 256 units, lists of 65,536 values, finer
    weights and gamma counts of any shape, and a share of the tail mean, `cotail`, has numbers wherever the tail mean has. `ends` is
    the type of the ends, `Fraction` or `Decimal`. `timeout` is in seconds. Raises a `DeclError` where there is no whole report.
    """
    warn_of(text)
    asks = listed(asks)
    given = options(bs=bs, log2=log2, digits=digits, width=width, mwidth=mwidth, make=make, rules=rules)
    written = program.call(["run", "--format", "json", *given, "--", *asks], text, asks, timeout)
    return read_report(written, asks, ends, rules or "standard")


def report(
    text: Text,
    asks: Asks,
    form: str = "text",
    *,
    bs: Optional[Number] = None,
    log2: Optional[int] = None,
    digits: Optional[int] = None,
    width: Optional[int] = None,
    mwidth: Optional[int] = None,
    make: Optional[int] = None,
    rules: Optional[Rules] = None,
    timeout: Optional[float] = None,
) -> str:
    """The report as the program writes it, as `text`, `csv` or `json`; the options are those of `run`."""
    warn_of(text)
    asks = listed(asks)
    given = options(bs=bs, log2=log2, digits=digits, width=width, mwidth=mwidth, make=make, rules=rules)
    return program.call(["run", "--format", form, *given, "--", *asks], text, asks, timeout)


def check(
    text: Text,
    *,
    bs: Optional[Number] = None,
    log2: Optional[int] = None,
    rules: Optional[Rules] = None,
    timeout: Optional[float] = None,
) -> None:
    """Raises the fault of the text, if it has one. Nothing is evaluated.

    The rules on whole buckets are asked at `bs`, and the one on the sum before an aggregate clause at `log2`; `rules` is that of `run`.
    """
    warn_of(text)
    try:
        program.call(["run", *options(bs=bs, log2=log2, rules=rules), PAST_EVERY_GRID], text, [PAST_EVERY_GRID], timeout)
    except AskFault:
        return
    raise BadAnswer("decl answered an ask past every grid")


def fmt(text: Text, *, timeout: Optional[float] = None) -> str:
    """The program in its one canonical spelling."""
    return program.call(["fmt"], text, (), timeout)


def made(number: int, *, timeout: Optional[float] = None) -> str:
    """The text of the program that `--make` generates from this number, 0 to 4,294,967,295, to measure and to compare with.

    It has eight units, two with each of the counts `poisson`, `mixed gamma 0.5`, `binomial 0.5` and `fixed`.
    """
    return program.call(["fmt", "--make", spelled(number)], "", (), timeout)


def certify(
    text: Text,
    *,
    bs: Optional[Number] = None,
    log2: Optional[int] = None,
    make: Optional[int] = None,
    timeout: Optional[float] = None,
) -> str:
    """A certificate of the text's total, one step a line (docs/STEPS.md), on at most 2^10 buckets.

    Raises `NotCovered` where a unit, or a common factor, keeps the text from having one.
    """
    return program.call(["cert", *options(bs=bs, log2=log2, make=make)], text, (), timeout)


def verify(
    text: Text,
    steps: Text,
    *,
    bs: Optional[Number] = None,
    log2: Optional[int] = None,
    timeout: Optional[float] = None,
) -> None:
    """Checks that the steps are a certificate of the text's total: then the grid of the last step encloses it.

    `bs` and `log2` are those of the call that wrote the steps. Raises `BadStep` for the first step that is misspelled or fails its test,
    and `NotCovered` as `certify` does.
    """
    source, tail = program.as_text(text), program.as_text(steps)
    joined = source + ("" if source.endswith("\n") or not source else "\n") + "---\n" + tail
    try:
        written = program.call(["verify", *options(bs=bs, log2=log2)], joined, (), timeout)
    except BadStep as fault:
        raise BadStep(fault.told + steps_hint(tail, log2), **fault.facts) from None
    if written != "verified\n":
        raise BadAnswer("decl verified steps, and wrote something else")
