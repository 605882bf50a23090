"""Asks `decl` about compound losses. Ends are exact, and never turned into floats unless asked.

    >>> import decl
    >>> report = decl.run("agg Dice dfreq [2] dsev [1:6]", ["pmf:2", "q:0.9"])
    >>> report["pmf:2"].low, report["pmf:2"].high
    (Fraction(27777, 1000000), Fraction(13889, 500000))
    >>> book = decl.Book("agg Fire 3 claims dsev [10000 20000 50000] [0.5 0.3 0.2] poisson")
    >>> print(book.return_periods([10, 100]))

The program is the one that the variable DECL names, else the one of the package, where it has one, else `decl` on the path.
"""

from .coarse import Between, coarser
from .continuous import between
from .books import Book
from .calls import certify, check, fmt, made, report, run, verify
from .choose import bucket, grid
from .compare import compare, compare_page, run_many
from .faults import (
    AskFault,
    BadAnswer,
    BadByte,
    BadStep,
    ContinuousSeverity,
    DeclError,
    DeclWarning,
    GridTooSmall,
    Killed,
    NeedsWidth,
    NoMoments,
    NotBetween,
    NotCovered,
    NotDeclared,
    NotText,
    NoWords,
    NumberFault,
    OutOfMemory,
    ProgramNotFound,
    ReadFault,
    RuleFault,
    SyntaxFault,
    TableFault,
    TextFault,
    TooLong,
    TookTooLong,
    Untranslated,
    UsageFault,
    WriteFault,
)
from .frames import from_frame
from .magic import load_ipython_extension
from .moments import Moments
from .pictures import Picture
from .lines import TableBook
from .reports import Report, Row
from .tables import Table
from .tower import Tower
from .translate import translate

__version__ = "1.0"

__all__ = [
    "AskFault",
    "BadAnswer",
    "BadByte",
    "BadStep",
    "Between",
    "Book",
    "ContinuousSeverity",
    "DeclError",
    "DeclWarning",
    "GridTooSmall",
    "Killed",
    "Moments",
    "NeedsWidth",
    "NoMoments",
    "NotBetween",
    "NotCovered",
    "NotDeclared",
    "NotText",
    "NoWords",
    "NumberFault",
    "OutOfMemory",
    "Picture",
    "ProgramNotFound",
    "ReadFault",
    "Report",
    "Row",
    "RuleFault",
    "SyntaxFault",
    "Table",
    "TableBook",
    "TableFault",
    "TextFault",
    "TooLong",
    "Tower",
    "TookTooLong",
    "Untranslated",
    "UsageFault",
    "WriteFault",
    "__version__",
    "between",
    "bucket",
    "certify",
    "check",
    "coarser",
    "compare",
    "compare_page",
    "fmt",
    "from_frame",
    "grid",
    "load_ipython_extension",
    "made",
    "report",
    "run",
    "run_many",
    "translate",
    "verify",
]
