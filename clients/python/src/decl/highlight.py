"""Colours of the language: a lexer of Pygments, which finds it by the entry point of the package.

It cuts a text into the tokens of docs/LANGUAGE.md, "Tokens". This module alone needs Pygments, and no other one brings it in.
"""

import importlib
from typing import Any, Dict, List, Tuple

#: The keywords: those that declare, the counts of claims, and the others.
DECLARE = ("agg", "port", "sev", "common")
COUNTS = ("fixed", "poisson", "bernoulli", "binomial", "mixed", "gamma", "geometric", "zt", "zm")
OTHERS = tuple(
    "claim claims loss prem premium at lr dfreq dsev dhistogram xps xs inf occurrence aggregate net of ceded to and so po wts".split()
)
#: The words of continuous severities, which are refused; `gamma` is a keyword too.
REFUSED = ("lognorm", "expon", "pareto", "weibull", "norm", "uniform", "beta", "chistogram")
LISTED = "|".join(DECLARE + COUNTS + OTHERS + REFUSED)
WORD = r"[A-Za-z][A-Za-z0-9_-]*"
#: A name behind the keyword that declares it.
NAMED = rf"(agg|port|sev)([ \t\r\n]+)(?!(?:{LISTED})(?![A-Za-z0-9_-]))({WORD})"

LEXER: Any = importlib.import_module("pygments.lexer")
TOKEN: Any = importlib.import_module("pygments.token")


def whole(words: Tuple[str, ...]) -> Any:
    """The pattern of these words where no longer word begins."""
    return LEXER.words(words, suffix=r"(?![A-Za-z0-9_-])")


class DeclLexer(LEXER.RegexLexer):  # type: ignore[misc]
    """Programs of decl, for Pygments."""

    name = "DecL"
    aliases = ["decl"]
    filenames = ["*.decl"]
    tokens: Dict[str, List[Any]] = {
        "root": [
            (r"[ \t\r\n]+", TOKEN.Whitespace),
            (r"#[^\n]*", TOKEN.Comment.Single),
            (r"note\{[^{}]*\}", TOKEN.String.Doc),
            (NAMED, LEXER.bygroups(TOKEN.Keyword.Declaration, TOKEN.Whitespace, TOKEN.Name.Class)),
            (rf"sev\.{WORD}", TOKEN.Name.Variable),
            (whole(DECLARE), TOKEN.Keyword.Declaration),
            (whole(COUNTS), TOKEN.Keyword.Type),
            (whole(OTHERS), TOKEN.Keyword),
            (whole(REFUSED), TOKEN.Name.Exception),
            (WORD, TOKEN.Name),
            (r"[0-9]+/[0-9]+", TOKEN.Number),
            (r"([0-9]+\.?[0-9]*|\.[0-9]+)%?", TOKEN.Number),
            (r"[\[\]:,!]", TOKEN.Punctuation),
        ]
    }
