"""Which tokens a program can go on with at a place of a text: those that `decl fmt` reads there."""

from typing import Callable, Dict, List, Optional, Tuple

#: What `decl fmt` says against a text: empty where it reads the text, None where it did not come to an end.
Refusal = Callable[[str], Optional[str]]

WORDS = (
    "agg port claims loss premium at lr dfreq dsev sev dhistogram xps xs inf occurrence aggregate net of ceded to and so po"
    " fixed poisson geometric bernoulli binomial mixed gamma wts zt zm common [ ] : , !"
)
#: Each token in the spelling that is tried, with the words that name it.
TOKENS: Dict[str, str] = {
    "Name": "a name",
    "1": "a numeral",
    **{word: word for word in WORDS.split()},
    "note{}": "a note",
    "sev.Name": "a reference",
}
#: Of a text that is longer up to the place no token is tried.
LONGEST = 1 << 16


def before(text: str, line: int, column: int) -> str:
    """The text up to a place, whose column is in bytes; both count from 1."""
    lines = text.encode("utf-8").split(b"\n")[:line]
    lines[-1] = lines[-1][: column - 1]
    return b"\n".join(lines).decode("utf-8", "replace")


def expected(text: str, line: int, column: int, refusal: Refusal) -> Tuple[str, ...]:
    """The tokens with which a program goes on at this place, by their names; none where that is not known.

    Each is tried on a line of its own behind the text before the place: it can stand there where it is not refused itself.
    """
    start = before(text, line, column)
    if len(start) > LONGEST:
        return ()
    itself = f"decl: {start.count(chr(10)) + 2}:1: "
    found: List[str] = []
    for token, name in TOKENS.items():
        told = refusal(f"{start}\n{token}")
        if told is None:
            return ()
        if not told.startswith(itself):
            found.append(name)
    if refusal(start) == "":
        found.append("the end of the text")
    return tuple(found)


def listed(names: Tuple[str, ...]) -> str:
    """The names in a sentence, those of words and signs quoted: `a numeral`, or "a numeral, `]` or `,`"."""
    quoted = [name if " " in name else f"`{name}`" for name in names]
    return " or ".join([", ".join(quoted[:-1]), quoted[-1]] if len(quoted) > 1 else quoted)
