"""A text of DecL: its tokens, the program that they spell, each part with its first byte, and the canonical spelling.

docs/LANGUAGE.md has the tokens and the grammar. A text that fits neither raises Fault, with the message of the program.
"""

import re
from collections import namedtuple
from fractions import Fraction
from functools import lru_cache

LONGEST = 1_048_576  # bytes of a text
KEYWORDS = set(
    "agg port claim claims loss prem premium at lr dfreq dsev sev dhistogram xps xs inf occurrence aggregate net of ceded to and so po"
    " fixed poisson bernoulli binomial mixed gamma wts geometric zt zm common note".split()
)
CONTINUOUS = set("lognorm gamma expon pareto weibull norm uniform beta chistogram".split())
ONE_SPELLING = {"claim": "claims", "prem": "premium"}
WORD = "[A-Za-z][A-Za-z0-9_-]*"
NUMERAL = r"[0-9]+/[0-9]+|(?:[0-9]+\.?[0-9]*|\.[0-9]+)%?"
TOKEN = re.compile(rf"(?P<ref>sev\.{WORD})|(?P<NOTE>note\{{[^{{}}]*\}})|(?P<word>{WORD})|(?P<numeral>{NUMERAL})|(?P<sign>[\[\]:,!])")
BLANKS = re.compile(r"(?:[\t\n\r ]|#[^\n]*)*")


class Fault(Exception):
    """A refusal: the message behind `decl: `, and the status."""

    def __init__(self, message, status=3):
        super().__init__(message)
        self.status = status


# A token has a kind (`ref`, `NOTE`, `numeral` or `name`, else its own text); `at` is the first byte of each part.
Token = namedtuple("Token", "kind text at")
Numeral = namedtuple("Numeral", "text at")
Item = namedtuple("Item", "numbers at")  # a number, or the two or three of a range
Listed = namedtuple("Listed", "items at")
Atom = namedtuple("Atom", "amounts chances")  # two lists, or one and None
Mixture = namedtuple("Mixture", "atoms weights at")  # with a list of weights, or None
Layer = namedtuple("Layer", "limit attachment at")  # the limit is None for `inf`
Cession = namedtuple("Cession", "kind share layer at")  # `so` or `po` and its number, or None twice
Clause = namedtuple("Clause", "side cessions at")  # the side is `net` or `ceded`
Exposure = namedtuple("Exposure", "kind number ratio at")  # `claims`, `loss`, or `premium` with its loss ratio
Frequency = namedtuple("Frequency", "kind number zero at")  # the zero is None, `zt`, or the number of `zm`
# A severity is a mixture or the token of a reference. A unit has an exposure and a frequency, or counts and perhaps their chances.
Unit = namedtuple("Unit", "name exposure counts chances layer severity bang occurrence frequency aggregate")
Program = namedtuple("Program", "severities port common units")  # pairs of a name and a mixture; a name, and a number, or None


def line_col(text, at):
    """Line and column of a byte, as a message has them."""
    return f"{text.count(chr(10), 0, at) + 1}:{at - text.rfind(chr(10), 0, at)}"


def covers(text):
    """The tokens that cover a text, of which each character is a byte."""
    if len(text) > LONGEST:
        raise Fault(f"the input has more than {LONGEST} bytes")
    found, at = [], BLANKS.match(text).end()
    while at < len(text):
        token = TOKEN.match(text, at)
        if not token:
            raise Fault(f"{line_col(text, at)}: no token begins here")
        kind, piece = token.lastgroup, token[0]
        if kind == "word":
            kind = piece if piece in KEYWORDS | CONTINUOUS else "name"
        found.append(Token(piece if kind == "sign" else kind, piece, at))
        at = BLANKS.match(text, token.end()).end()
    return found


class Reader:
    """Reads tokens by the grammar, one method a line of it; it stops at the first token with which no program goes on."""

    def __init__(self, text):
        self.text, self.tokens, self.k = text, covers(text), 0

    def kind(self, ahead=0):
        """The kind of the next token, or of one after it; at the end ''."""
        return self.tokens[self.k + ahead].kind if self.k + ahead < len(self.tokens) else ""

    def at(self):
        """The first byte of the next token, or the length of the text."""
        return self.tokens[self.k].at if self.k < len(self.tokens) else len(self.text)

    def take(self, *kinds):
        """The next token, which has to be of one of these kinds."""
        if self.kind() not in kinds:
            place, word = line_col(self.text, self.at()), self.kind()
            raise Fault(f"{place}: continuous severity {word}" if word in CONTINUOUS and "dhistogram" in kinds else f"{place}: syntax")
        self.k += 1
        return self.tokens[self.k - 1]

    def has(self, *kinds):
        """The next token, taken if it is of one of these kinds, else None."""
        return self.take(*kinds) if self.kind() in kinds else None

    def numeral(self):
        """A numeral."""
        return Numeral(*self.take("numeral")[1:])

    def program(self):
        """Named severities, then one unit, or a portfolio."""
        severities, port, common = [], None, None
        while self.has("sev"):
            severities.append((self.take("name"), self.mixture(True)))
        if self.has("port"):
            port = self.take("name")
            common = self.numeral() if self.has("common") else None
            self.has("NOTE")
        units = [self.unit()]
        while port and self.kind() == "agg":
            units.append(self.unit())
        if self.kind():
            self.take()
        return Program(severities, port, common, units)

    def unit(self):
        """One `agg`."""
        self.take("agg")
        name, exposure, counts, chances, frequency, aggregate = self.take("name"), None, None, None, None, None
        if self.has("dfreq"):
            counts, chances = self.read_list(), self.read_list() if self.kind() == "[" else None
        else:
            exposure = self.exposure()
        layer = self.read_layer() if self.kind() in ("numeral", "inf") else None
        severity = self.has("ref") or self.mixture(False)
        bang = bool(self.has("!"))
        occurrence = self.clause() if self.kind() == "occurrence" else None
        if exposure:
            frequency = self.frequency()
        if self.kind() == "aggregate":
            aggregate = self.clause()
        self.has("NOTE")
        return Unit(name, exposure, counts, chances, layer, severity, bang, occurrence, frequency, aggregate)

    def exposure(self):
        """An expected number of claims, a loss, or a premium at a loss ratio."""
        number, ratio = self.numeral(), None
        kind = self.take("claim", "claims", "loss", "prem", "premium").kind
        if kind in ("prem", "premium"):
            self.take("at")
            ratio = self.numeral()
            self.take("lr")
        return Exposure(ONE_SPELLING.get(kind, kind), number, ratio, number.at)

    def read_layer(self, limit=None):
        """A layer, of which the limit may have been taken."""
        limit = limit or self.take("numeral", "inf")
        self.take("xs")
        return Layer(None if limit.text == "inf" else Numeral(limit.text, limit.at), self.numeral(), limit.at)

    def mixture(self, named):
        """Atoms and weights. Behind the first atom of a named severity `sev` may begin the next name."""
        at, atoms = self.at(), [self.atom()]
        while self.kind() in ("dsev", "sev"):
            if named and len(atoms) == 1 and self.kind() == "sev" and self.kind(1) != "dhistogram":
                if self.kind(1) != "name":
                    self.k += 1
                    self.take("dhistogram", "name")
                break
            atoms.append(self.atom())
        weights = self.read_list() if (len(atoms) > 1 and self.take("wts")) or self.has("wts") else None
        return Mixture(atoms, weights, at)

    def atom(self):
        """`dsev`, or `sev dhistogram xps`, with one list or two."""
        if self.take("dsev", "sev").kind == "sev":
            self.take("dhistogram")
            self.take("xps")
        return Atom(self.read_list(), self.read_list() if self.kind() == "[" else None)

    def clause(self):
        """An occurrence or aggregate clause."""
        at = self.take("occurrence", "aggregate").at
        side = self.take("net", "ceded").kind
        self.take("of" if side == "net" else "to")
        cessions = [self.cession()]
        while self.has("and"):
            cessions.append(self.cession())
        return Clause(side, cessions, at)

    def cession(self):
        """A layer, perhaps with a share before it."""
        first = self.take("numeral", "inf")
        if first.kind == "numeral" and self.kind() in ("so", "po"):
            return Cession(self.take("so", "po").kind, Numeral(first.text, first.at), self.read_layer(), first.at)
        return Cession(None, None, self.read_layer(first), first.at)

    def frequency(self):
        """A claim count, perhaps with a changed zero."""
        word = self.take("fixed", "poisson", "geometric", "bernoulli", "binomial", "mixed")
        if word.kind == "mixed":
            self.take("gamma")
        number = self.numeral() if word.kind in ("binomial", "mixed") else None
        zero = self.has("zt", "zm")
        return Frequency(word.kind, number, self.numeral() if zero and zero.kind == "zm" else zero and "zt", word.at)

    def read_list(self):
        """A list in brackets."""
        at = self.take("[").at
        items = [self.item()]
        while self.kind() != "]":
            self.has(",")
            items.append(self.item())
        self.take("]")
        return Listed(items, at)

    def item(self):
        """A number, or a range."""
        at, numbers = self.at(), [self.numeral()]
        while len(numbers) < 3 and self.has(":"):
            numbers.append(self.numeral())
        return Item(numbers, at)


def spells(text):
    """The program that a text spells."""
    return Reader(text).program()


def is_bad(numeral, most=11):
    """Whether a numeral has too many digits for this limit, or is a fraction over 0."""
    if "/" in numeral:
        return any(len(part) > most for part in numeral.split("/")) or int(numeral.split("/")[1]) == 0
    return sum(map(str.isdigit, numeral)) > most - 2 * numeral.endswith("%")


@lru_cache(maxsize=4096)
def value(numeral):
    """The number that a good numeral is."""
    if numeral.endswith("%"):
        return value(numeral[:-1]) / 100
    whole, _, rest = numeral.partition(".")
    return Fraction(numeral) if "/" in numeral else Fraction(int(whole + rest), 10 ** len(rest))


def canonical(text):
    """The canonical text of the program that a text spells."""
    spells(text)
    tokens = covers(text)
    pieces, before = [], None
    for token, after in zip(tokens, [*tokens[1:], None]):
        if token.kind in (",", "dhistogram", "xps"):
            continue
        an_atom = token.kind == "sev" and after.kind == "dhistogram"
        if before not in (None, "[", ":") and token.kind not in ("]", ":"):
            pieces.append("\n" if token.kind in ("agg", "port", "sev") and not an_atom else " ")
        pieces.append("dsev" if an_atom else ONE_SPELLING.get(token.kind, token.text))
        before = token.kind
    return "".join(pieces) + "\n"


def made_of(number):
    """The made program of a number: eight units, drawn by a linear congruential generator."""
    kinds = ["poisson", "mixed gamma 0.5", "binomial 0.5", "fixed"]
    lines = ["port Made"]
    for unit in range(8):
        drawn = []
        for most in (21, 6):
            number = (1664525 * number + 1013904223) % 2**32
            drawn.append(number // 65536 % most)
        lines.append(f"agg U{unit + 1} {20 + drawn[0]} claims dsev [1:{5 + drawn[1]}] {kinds[unit % 4]}")
    return "\n".join(lines) + "\n"
