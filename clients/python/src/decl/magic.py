"""The cell magic `%%decl`: asks stand behind it as on the command line, the text in the cell.

    %load_ext decl

    %%decl --log2 12 --digits 4 mean q:0.99
    agg Motor 20 claims dsev [1 2 5 10] [0.4 0.3 0.2 0.1] poisson
"""

import shlex
from decimal import Decimal
from fractions import Fraction
from typing import Any, List, Optional, Set, Tuple, Type, Union

from . import program
from .reports import Report, read_report
from .words import options_of


def parted(line: str) -> Tuple[List[str], Optional[str], Set[str]]:
    """The words of the line, with the name behind `--into`, and those of `--fractions` and `--floats` that stood there."""
    words = shlex.split(line)
    kept = []
    into: Optional[str] = None
    flags = set()
    while words:
        word = words.pop(0)
        if word == "--into" and words:
            into = words.pop(0)
        elif word in ("--fractions", "--floats"):
            flags.add(word)
        else:
            kept.append(word)
    return kept, into, flags


def answer(line: str, text: str) -> Tuple[Report, Optional[str], Set[str]]:
    """The report of a cell, with the name it goes to and the flags of its line."""
    words, into, flags = parted(line)
    options, asks = options_of(words)
    ends: Union[Type[Fraction], Type[Decimal]] = Fraction if "--fractions" in flags else Decimal
    written = program.call(["run", "--format", "json", *words], text, asks)
    return read_report(written, asks, ends, dict(options).get("rules") or "standard"), into, flags


def load_ipython_extension(shell: Any) -> None:
    """Gives a shell of IPython the magic."""

    def decl(line: str, cell: str) -> Any:
        """Answers the asks of the line about the text of the cell, as a frame where pandas is installed.

        Ends are exact decimals. `--into NAME` keeps the report under a name; `--fractions` gives fractions, and `--floats`
        floats.
        """
        report, into, flags = answer(line, cell)
        if into is not None:
            shell.push({into: report})
        try:
            return report.to_frame(floats="--floats" in flags)
        except ImportError:
            return report

    shell.register_magic_function(decl, "cell", "decl")
