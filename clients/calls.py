#!/usr/bin/env python3
"""Whole calls of the built program: how each ends, and all that it writes to its two outputs, which are kept apart.

The calls of clients/calls.txt and clients/rules.txt, then those whose text is too long for a table or no text, totals on the longest grid, and
those whose input, outputs, words or memory fail: at least one for each status. Calls that write to /dev/full are skipped where there is none. The program is DECL, else
crates/decl/out/decl. The last line is 'N passed, M failed, K skipped'.
"""

import contextlib
import math
import os
import pathlib
import resource
import shlex
import subprocess
import sys
import tempfile

HERE = pathlib.Path(__file__).resolve().parent
DECL = os.environ.get("DECL") or str(HERE.parent / "crates" / "decl" / "out" / "decl")
SECONDS = 60

DONE, NO_WORDS, USAGE, REFUSED, TOO_WIDE, READ, WRITE, MEMORY, ASK = 0, 1, 2, 3, 4, 5, 6, 7, 8

FULL = "/dev/full"
LONGEST = 1_048_576  # bytes of an input
DIE = "agg D dfreq [1] dsev [1:6]\n"
SIXTH = "pmf:3 0.166666 0.166667\n"


class Call:
    """A call, and all that is due of it: the status, and the text of each output."""

    def __init__(self, words, source="", status=DONE, out="", err="", **how):
        self.words, self.source, self.status = words, source, status
        self.out, self.err, self.how = out, err, how

    def wrong(self):
        """What is not as due, in lines; none where all is."""
        status, out, err = self.ended(**self.how)
        if status != self.status:
            yield f"status {status}, due {self.status}"
        for name, written, due in (("output", out, self.out), ("error output", err, self.err)):
            if not is_one_of(written, due):
                yield f"{name} {short(written)}"
                yield f"  due  {short(due)}"

    def ended(self, stdin=None, stdout=None, stderr=None, prepare=None):
        """The status and the two outputs. A path in place of the input or of an output is opened, and not read back."""
        with contextlib.ExitStack() as files:
            given = opened(files, stdin, os.O_RDONLY)
            out, err = (opened(files, path, os.O_WRONLY) for path in (stdout, stderr))
            if stdin is None:
                given.write(self.source if isinstance(self.source, bytes) else self.source.encode())
                given.seek(0)
            done = subprocess.run(
                [DECL, *self.words], stdin=given, stdout=out, stderr=err, preexec_fn=prepare, timeout=SECONDS
            )
            written = [b"" if isinstance(file, int) else os.pread(file.fileno(), 1 << 30, 0) for file in (out, err)]
        return done.returncode, *(text.decode(errors="replace") for text in written)


def opened(files, path, mode):
    """The file of this path as a descriptor, else a new one that can be read back."""
    if path is None:
        return files.enter_context(tempfile.TemporaryFile())
    descriptor = os.open(path, mode)
    files.callback(os.close, descriptor)
    return descriptor


def short(text):
    return repr(text) if len(text) <= 400 else f"{text[:400]!r}.. ({len(text)} characters)"


def is_one_of(written, due):
    """Whether each line is the one that is due, or one of two with ' | ' between them."""
    lines, wanted = written.split("\n"), due.split("\n")
    return len(lines) == len(wanted) and all(line in choice.split(" | ") for line, choice in zip(lines, wanted))


def table():
    """The calls of the two tables."""
    calls, group, last = [], [], ""
    lines = [line for name in ("calls.txt", "rules.txt") for line in (HERE / name).read_text().splitlines()]
    for each in lines:
        mark, text = each[:1], each[2:]
        if mark == "$":  # beside the calls right before it: what comes next is due of each
            group = [*(group if last == "$" else ()), Call(shlex.split(text))]
            calls.append(group[-1])
        elif mark == "<" and last in ("!", ">", "="):  # a further input of the same words
            group = [Call(call.words) for call in group]
            calls.extend(group)
        for call in group:
            if mark == "<":
                call.source += text + "\n"
            elif mark == "*":
                many, _, line = text.partition(" ")
                call.source += "".join(line.replace("#", str(number)) + "\n" for number in range(int(many)))
            elif mark == ">":
                call.out += text + "\n"
            elif mark == "!":
                call.err += text + "\n"
            elif mark == "=":
                call.status = int(text)
        last = mark or last
    return calls


def long_texts():
    """Texts that are longer than one read, than a list's room or than a text may be."""
    amounts = ", ".join(str(amount) for amount in range(1, 1025))
    chances = ", ".join(["1/1024"] * 1024)
    thousand = f"agg D dfreq [1] dsev [{amounts}] [{chances}]\n"  # 1,024 single values, twice: over 4,096 tokens
    rows = "pmf:1 0.000976 0.000977\nmean 512.500000 512.500000\nq:1/3 342 342\n"
    yield Call("run --log2 11 pmf:1 mean q:1/3".split(), thousand, out=rows)
    yield Call(["fmt"], thousand, out=thousand.replace(",", ""))
    amounts, chances = " ".join(map(str, range(1, 65_537))), " ".join(["1/65536"] * 65_536)
    most = f"agg D dfreq [1] dsev [{amounts}] [{chances}]\n"  # 65,536 single values, twice: 900,000 bytes
    yield Call("run --rules extended --log2 16 cdf:32768 mean".split(), most, out="cdf:32768 0.500000 0.500000\nmean 32768.500000 32768.500000\n")
    one_more = most.replace("[1 2 ", "[1 1 2 ").replace("] [", "] [0 ")
    yield Call("run --rules extended mean".split(), one_more, REFUSED, err="decl: 1:22: unit 0: rule 4 ListTooLong\n")
    comment = "# " + "x" * 200_000 + "\n"
    yield Call(["run", "pmf:3"], comment + DIE, out=SIXTH)
    yield Call(["run", "pmf:3"], comment + "agg D dfreq [1] dsev [1;6]\n", REFUSED, err="decl: 2:24: no token begins here\n")
    yield Call(["run", "pmf:3"], DIE + " " * (LONGEST - len(DIE)), out=SIXTH)
    too_long = "decl: the input has more than 1048576 bytes\n"
    yield Call(["run", "pmf:3"], DIE + " " * (LONGEST + 1 - len(DIE)), REFUSED, err=too_long)
    yield Call(["run", "pmf:3"], " " * LONGEST, REFUSED, err="decl: 1:1048577: syntax\n")
    yield Call(["run", "pmf:3"], " " * (LONGEST + 1), REFUSED, err=too_long)
    yield Call(["run", "pmf:3"], status=REFUSED, err=too_long, stdin="/dev/zero")
    for units, status, out, err in (
        (16, DONE, "pmf:16 1.000000 1.000000\n", ""),
        (17, REFUSED, "", "decl: 18:5: unit 16: rule 22 TooManyUnits\n"),
    ):
        text = "port P" + "".join(f"\nagg U{number} dfreq [1] dsev [1]" for number in range(units)) + "\n"
        yield Call(["run", "pmf:16"], text, status, out, err)
    same = "port P" + " agg A dfreq [1] dsev [1]" * 17
    yield Call(["run", "pmf:1"], same, REFUSED, err="decl: 1:412: unit 16: rule 22 TooManyUnits\n")
    atoms, layers = "agg D dfreq [1]", "agg D dfreq [1] dsev [1:6] occurrence net of 0 xs 0"
    long = "decl: 1:{}: unit 0: rule 4 ListTooLong\n"
    yield Call(["run", "pmf:1"], atoms + " dsev [1]" * 64 + " wts [0:1/32:1/2016]", out="pmf:1 1.000000 1.000000\n")
    yield Call(["run", "pmf:1"], atoms + " dsev [1]" * 65 + " wts [1]", REFUSED, err=long.format(17))
    yield Call(["run", "pmf:1"], layers + " and 0 xs 0" * 15, out="pmf:1 0.166666 0.166667\n")
    yield Call(["run", "pmf:1"], layers + " and 0 xs 0" * 16, REFUSED, err=long.format(28))
    yield Call(["cert"], "agg F 1 claims dsev [1] fixed\n", out=f"start 0 0,0 {1 << 56},{1 << 56}{' 0,0' * 1022}\n")
    yield Call(["run", *["mean"] * 256], DIE, out="mean 3.500000 3.500000\n" * 256)
    yield Call(["run", *["mean"] * 257], DIE, USAGE, err="decl: usage\n")


def odd_bytes():
    """Bytes that no token has, and lines that end in two bytes; in a comment or a note any byte may stand."""
    for text, place in ((b"\x80", "1:1"), (b"a\xff", "1:2"), (b"\x0b", "1:1"), (b"port\0", "1:5"), (b"\r\nagg\x85", "2:4")):
        yield Call(["fmt"], text, REFUSED, err=f"decl: {place}: no token begins here\n")
    text = b"# {\xff} note{\n\r\nagg\r\nD dfreq [1]\tdsev [1] note{a \xe9#\r\n[b]}"
    yield Call(["fmt"], text, out="agg D dfreq [1] dsev [1] note{a \ufffd#\r\n[b]}\n")


def pairs(x, first, second):
    """How many pairs of numbers of two runs, each from a number on and so many, come to at most x."""
    (a, n), (b, m) = first, second
    return sum(sign * math.comb(max(x - a - b - less + 2, 0), 2) for sign, less in ((1, 0), (-1, n), (-1, m), (1, n + m)))


def inside(part, whole):
    """The two ends of nine digits between which a quotient lies."""
    return " ".join(f"{end // 10**9}.{end % 10**9:09d}" for end in (part * 10**9 // whole, -(-part * 10**9 // whole)))


def longest_grids():
    """Totals of two amounts on 65,536 cells, each one of some 60,000 in a row that are equally likely: an amount is the sum of two units,
    one of steps and one within a step. They are worked by counting pairs."""
    runs = {"A": (100, 60_000, "dsev [0:249]", "dsev [100:59850:250]"), "B": (3, 50_000, "dsev [0:199]", "dsev [3:49803:200]")}
    for one, other in ("AB", "AA"):
        units = [f"agg U{k} dfreq [1] {severity}" for k, severity in enumerate((*runs[one][2:], *runs[other][2:]))]
        ends = [runs[each][:2] for each in (one, other)]
        most, rows = ends[0][1] * ends[1][1], ""
        for kind, x in (("pmf", 30_001), ("cdf", 29_995), ("cdf", 50_104), ("cdf", 60_099), ("pmf", 65_535), ("cdf", 65_535)):
            rows += f"{kind}:{x} {inside(pairs(x, *ends) - (pairs(x - 1, *ends) if kind == 'pmf' else 0), most)}\n"
        asks = [row.split(" ")[0] for row in rows.splitlines()]
        yield Call(["run", "--log2", "16", "--digits", "9", *asks], "port P\n" + "\n".join(units) + "\n", out=rows)
    amounts = 65_535  # of one list; of two claims x - 1 of its square come to x, and x * (x - 1) / 2 to at most x
    rows = f"pmf:40000 {inside(39_999, amounts**2)}\ncdf:20010 {inside(20_010 * 20_009 // 2, amounts**2)}\nmean 65536.000000000 65536.000000000\n"
    words = "run --rules extended --log2 16 --digits 9 pmf:40000 cdf:20010 mean"
    yield Call(words.split(), "agg D dfreq [2] dsev [1:65535]\n", out=rows)


def little_stack():
    """A megabyte of short tokens, a deep text and a wide one, on a stack of 256 KB."""
    limits = [(words, small(resource.RLIMIT_STACK, 256 * 1024)) for words in (["run", "pmf:3"], ["fmt"])]
    brackets = "agg D dfreq " + "[" * (LONGEST - 12)
    tokens = "1 " * (LONGEST // 2)
    wide = "port P\n" + "agg U dfreq [1] dsev [1]\n" * ((LONGEST - 7) // 25)
    for words, prepare in limits:
        yield Call(words, brackets, REFUSED, err="decl: 1:14: syntax\n", prepare=prepare)
        yield Call(words, tokens, REFUSED, err="decl: 1:1: syntax\n", prepare=prepare)
    yield Call(["run", "pmf:3"], wide, REFUSED, err="decl: 18:5: unit 16: rule 22 TooManyUnits\n", prepare=limits[0][1])
    yield Call(["fmt"], wide, out=wide, prepare=limits[1][1])


def small(limit, most):
    """Before a run, limits what it may use."""
    return lambda: resource.setrlimit(limit, (most, most))


def without(descriptor):
    """Before a run, closes one of its standard streams."""
    return lambda: os.close(descriptor)


def failing():
    """Words, inputs and outputs that fail. Only the output that is due is written, and it alone matters."""
    usage, beyond = "decl: usage\n", "decl: ask 0: beyond the grid\n"
    yield Call([b"run", b"pmf:\xff"], DIE, NO_WORDS)
    yield Call([], DIE, USAGE, err=usage)
    yield Call(["run"], status=USAGE, err=usage, stdin="/")  # a folder: the input is not read
    yield Call(["run", "pmf:3"], status=READ, err="decl: the input could not be read\n", stdin="/")
    yield Call(["run", "pmf:3"], status=READ, err="decl: the input could not be read\n", prepare=without(0))
    yield Call(["run", "--make", "0", "mean"], out="mean 1194.500000 1194.500000\n", stdin="/")
    yield Call(["run", "pmf:3"], DIE, WRITE, prepare=without(1))
    yield Call(["run", "pmf:9999"], DIE, WRITE, prepare=without(2))
    yield Call(["run", "pmf:9999"], DIE, ASK, err=beyond, prepare=without(1))
    yield Call(["run", "pmf:3"], DIE, DONE, out=SIXTH, prepare=without(2))


def full_device():
    """Outputs to a full device."""
    beyond = "decl: ask 0: beyond the grid\n"
    yield Call(["run", "pmf:3"], DIE, WRITE, stdout=FULL)
    yield Call(["fmt"], DIE, WRITE, stdout=FULL)
    yield Call(["run", "pmf:9999"], DIE, WRITE, stderr=FULL)
    yield Call(["run"], DIE, WRITE, stderr=FULL)
    yield Call(["run", "pmf:3"], status=WRITE, stdin="/", stderr=FULL)
    yield Call(["run", "pmf:9999"], DIE, ASK, err=beyond, stdout=FULL)
    yield Call(["run", "pmf:3"], DIE, DONE, out=SIXTH, stderr=FULL)


def little_memory():
    """Half a million tokens have no room in 16 MB."""
    yield Call(["fmt"], "agg D dfreq [1] dsev [" + "1 " * 520_000 + "]\n", MEMORY, prepare=small(resource.RLIMIT_AS, 16 << 20))


def main():
    """Runs all calls."""
    if not os.access(DECL, os.X_OK):
        sys.exit(f"calls: there is no program {DECL}: make builds it")
    passed, failed, skipped, statuses = 0, 0, 0, set()
    to_full = list(full_device())
    if not os.path.exists(FULL):
        skipped, to_full = len(to_full), []
        print(f"SKIPPED: {skipped} calls that write to {FULL}: there is none")
    for call in [*table(), *long_texts(), *odd_bytes(), *longest_grids(), *little_stack(), *failing(), *to_full, *little_memory()]:
        wrong = list(call.wrong())
        passed, failed = passed + (not wrong), failed + bool(wrong)
        statuses.add(call.status)
        if wrong:
            print(f"FAILED: decl {short(' '.join(map(str, call.words)))} < {short(call.source)}", *wrong, sep="\n")
    passed, failed = passed + (statuses == set(range(9))), failed + (statuses != set(range(9)))
    print(f"{passed} passed, {failed} failed, {skipped} skipped")
    return 1 if failed else 0


if __name__ == "__main__":
    sys.exit(main())
