"""A second opinion on what decl writes: an evaluator of the whole language in plain Python, which shares nothing with it.

    text.py        tokens, grammar and canonical spelling of a text
    rules.py       the typing rules, in order, with their places
    severities.py  the severity of one claim, layers and clauses
    cells.py       probabilities in whole numbers rounded outward: sums of claims by powers and by Panjer's recursion
    totals.py      units, totals, and the value of each ask
    words.py       the words of a call
    rows.py        the rows of a report, and whether each agrees

What docs/DEFINITIONS.md defines and this computes is one function, of the same name: docs/DEFINITIONS.md, "A second opinion".
"""

from .rows import AGREES, Opinion, read  # noqa: F401
from .text import Fault  # noqa: F401
from .totals import Book  # noqa: F401
from .words import read_words  # noqa: F401
