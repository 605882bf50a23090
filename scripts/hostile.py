#!/usr/bin/env python3
"""Hostile use of the built program: objects that fail, texts made to hurt, little memory.

usage: scripts/hostile.py [-v] PROGRAM

Each case says what is due: the status, the bytes on standard output and the bytes on standard
error. It holds where all three are as due, within one second of processor time and 300 MB. Where an
allocation could not be refused, for want of a C compiler or because the allocator that refuses it is
not in effect, that is a case that does not hold. The last line says how many held. The expected bytes
were worked by hand, never taken from the program.
"""

import contextlib
import os
import random
import re
import resource
import shutil
import signal
import subprocess
import sys
import tempfile
import threading

DONE, NO_WORDS, USAGE, REFUSED, TOO_WIDE, READ, WRITE, MEMORY, ASK = 0, 1, 2, 3, 4, 5, 6, 7, 8

MEGABYTE = 1 << 20
LONGEST = 1_048_576  # bytes of an input
MOST_SECONDS = 1.0  # of processor time
MOST_KILOBYTES = 300 * 1024
PATIENCE = 120  # seconds after which a run is ended

DIE = b"agg D dfreq [1] dsev [1:6]\n"
ASKED = ["run", "pmf:3"]
SIXTH = b"pmf:3 0.166666 0.166667\n"
BEYOND = ["run", "pmf:9999"]
MESSAGE = b"decl: ask 0: beyond the grid\n"
UNREAD = b"decl: the input could not be read\n"
TOO_LONG = b"decl: the input has more than 1048576 bytes\n"
USED_WRONG = b"decl: usage\n"

BOOK = b"""port Book
agg Motor 20 claims 50 xs 0 dsev [1 2 5 10 80] [0.4 0.3 0.2 0.08 0.02] poisson
agg Property 200 premium at 65% lr dsev [5 10 20 60] [0.5 0.3 0.15 0.05] mixed gamma 0.25
agg Liability dfreq [0 1 2] [0.5 0.3 0.2] 40 xs 10 dsev [5 15 30 100] [0.6 0.2 0.15 0.05] \
occurrence net of 0.5 so 20 xs 20 aggregate net of 20 xs 30
"""
BOOK_ASKS = "run --digits 4 mean q:0.99 tail:0.99 joint:Motor:200 kappa:Motor:200".split()
BOOK_ROWS = b"""mean 214.7812 214.7813
q:0.99 425 425
tail:0.99 465.6967 465.6968
joint:Motor:200 0.4013 0.4014
kappa:Motor:200 73.6485 73.6486
"""

PAIR = b"port T agg A dfreq [1] dsev [1:3] agg B dfreq [1] dsev [1:3] [1/2 1/6 1/3]\n"
PAIR_ASKS = "run --log2 4 joint:A:4 kappa:A:4 kappa:A:1".split()
PAIR_ROWS = b"joint:A:4 0.722222 0.722223\nkappa:A:4 2.166666 2.166667\nkappa:A:1 - -\n"

MADE = b"""port Made
agg U1 34 claims dsev [1:9] poisson
agg U2 31 claims dsev [1:10] mixed gamma 0.5
agg U3 32 claims dsev [1:9] binomial 0.5
agg U4 34 claims dsev [1:10] fixed
agg U5 33 claims dsev [1:9] poisson
agg U6 28 claims dsev [1:6] mixed gamma 0.5
agg U7 32 claims dsev [1:9] binomial 0.5
agg U8 21 claims dsev [1:7] fixed
"""

KEYWORDS = (
    "agg port claim claims loss prem premium at lr dfreq dsev sev dhistogram xps xs inf occurrence "
    "aggregate net of ceded to and so po fixed poisson bernoulli binomial mixed gamma wts lognorm "
    "expon pareto weibull norm uniform beta chistogram note geometric zt zm common"
).split()

# Makes the allocation number REFUSED answer that there is no memory.
REFUSER = """
#define _GNU_SOURCE
#include <dlfcn.h>
#include <stdlib.h>
static long number(void) {
    static long calls;
    return ++calls;
}
static int refused(void) {
    const char *which = getenv("REFUSED");
    return which && number() == atol(which);
}
void *malloc(size_t size) {
    static void *(*next)(size_t);
    if (!next) next = dlsym(RTLD_NEXT, "malloc");
    return refused() ? NULL : next(size);
}
void *realloc(void *old, size_t size) {
    static void *(*next)(void *, size_t);
    if (!next) next = dlsym(RTLD_NEXT, "realloc");
    return refused() ? NULL : next(old, size);
}
"""


class End:
    """How a run ended: its status, its bytes, and what it took."""

    def __init__(self, status, out, err, seconds, kilobytes):
        self.status, self.out, self.err = status, out, err
        self.seconds, self.kilobytes = seconds, kilobytes

    def told(self):
        return self.status, self.out, self.err


class Run:
    """A run that was started. Its input is bytes, a path or a descriptor; its outputs are files
    that are read at the end, or paths or descriptors that are not."""

    def __init__(self, program, words, source, out=None, err=None, prepare=None, variables=None):
        self.files = contextlib.ExitStack()
        self.outputs = [self.opened(out), self.opened(err)]
        self.process = subprocess.Popen(
            [program, *words],
            stdin=self.input(source),
            stdout=self.outputs[0],
            stderr=self.outputs[1],
            preexec_fn=prepare,
            env={**os.environ, **(variables or {})},
        )

    def input(self, source):
        if isinstance(source, bytes):
            file = self.files.enter_context(tempfile.TemporaryFile())
            file.write(source)
            file.seek(0)
            return file
        return self.descriptor(source, os.O_RDONLY)

    def opened(self, output):
        if output is None:
            return self.files.enter_context(tempfile.TemporaryFile())
        return self.descriptor(output, os.O_WRONLY)

    def descriptor(self, file, mode):
        if isinstance(file, str):
            file = os.open(file, mode)
            self.files.callback(os.close, file)
        return file

    def end(self):
        timer = threading.Timer(PATIENCE, self.process.kill)
        timer.start()
        _, status, usage = os.wait4(self.process.pid, 0)
        timer.cancel()
        self.process.returncode = os.waitstatus_to_exitcode(status)
        with self.files:
            out, err = (
                b"" if isinstance(output, int) else os.pread(output.fileno(), 1 << 30, 0)
                for output in self.outputs
            )
        seconds = usage.ru_utime + usage.ru_stime
        return End(self.process.returncode, out, err, seconds, usage.ru_maxrss)


class Cases:
    """Runs cases and counts those that held."""

    def __init__(self, program, verbose):
        self.program, self.verbose = program, verbose
        self.held, self.all = 0, 0
        self.seconds, self.kilobytes = 0.0, 0

    def start(self, words, source, **how):
        return Run(self.program, words, source, **how)

    def judge(self, name, end, *dues):
        """A case that holds where the run ended in one of the ways that are due."""
        self.count(name, end, end.told() in dues, dues)

    def count(self, name, end, is_due, dues):
        self.all += 1
        self.seconds = max(self.seconds, end.seconds)
        self.kilobytes = max(self.kilobytes, end.kilobytes)
        small = end.seconds <= MOST_SECONDS and end.kilobytes <= MOST_KILOBYTES
        holds = small and is_due
        self.held += holds
        if self.verbose or not holds:
            took = f"{end.seconds:.2f} s, {end.kilobytes // 1024} MB"
            print(f"{'held' if holds else 'FAILED'}: {name}: status {end.status}, {took}")
        if not holds:
            print(f"  out {short(end.out)}\n  err {short(end.err)}")
            for status, out, err in dues:
                print(f"  due: status {status}\n  out {short(out)}\n  err {short(err)}")

    def fact(self, name, holds):
        """A case of its own, that is no run."""
        self.all += 1
        self.held += holds
        if self.verbose or not holds:
            print(f"{'held' if holds else 'FAILED'}: {name}")

    def case(self, name, words, source, status, out=b"", err=b"", **how):
        self.judge(name, self.start(words, source, **how).end(), (status, out, err))

    def text(self, name, source, place, message="syntax"):
        """A text that is refused at a place, in both forms."""
        err = f"decl: {place}: {message}\n".encode()
        for words in (ASKED, ["fmt"]):
            self.case(f"{name}, {words[0]}", words, source, REFUSED, err=err)

    def ruled(self, name, source, place, rule):
        """A text that breaks a rule, and that has a canonical form: its own."""
        err = f"decl: {place}: {rule}\n".encode()
        self.case(f"{name}, run", ASKED, source, REFUSED, err=err)
        self.case(f"{name}, fmt", ["fmt"], source, DONE, out=source)

    def last_line(self):
        most = f"at most {self.seconds:.2f} s and {self.kilobytes // 1024} MB"
        print(f"hostile: {self.held} of {self.all} cases held, each in {most}")
        return self.held == self.all


def short(text):
    return repr(text) if len(text) <= 160 else f"{text[:160]!r}.. ({len(text)} bytes)"


def times(piece, most=LONGEST):
    """A piece as often as it goes into so many bytes."""
    return piece * (most // len(piece))


def closing(descriptor):
    """Before a run, closes a standard stream of it."""
    return lambda: os.close(descriptor)


def limiting(limit, most, ignored=None):
    """Before a run, limits what it may use, and has it ignore a signal."""

    def prepare():
        if ignored is not None:
            signal.signal(ignored, signal.SIG_IGN)
        resource.setrlimit(limit, (most, most))

    return prepare


def failing_outputs(cases):
    """Where the output fails the status is that of a failed write, and the other output is empty.
    An output that is not written may fail: nothing is told of it."""
    cases.case("outputs that are open", ASKED, DIE, DONE, out=SIXTH)
    closed_out, closed_err = closing(1), closing(2)
    cases.case("a closed output", ASKED, DIE, WRITE, prepare=closed_out)
    cases.case("a closed output, unused", BEYOND, DIE, ASK, err=MESSAGE, prepare=closed_out)
    cases.case("a closed error output", BEYOND, DIE, WRITE, prepare=closed_err)
    cases.case("a closed error output, unused", ASKED, DIE, DONE, out=SIXTH, prepare=closed_err)

    def to(name, file):
        cases.judge(name, cases.start(ASKED, DIE, out=file).end(), (WRITE, b"", b""))
        used = cases.start(BEYOND, DIE, err=file).end()
        cases.judge(f"{name} for errors", used, (WRITE, b"", b""))
        unused = cases.start(BEYOND, DIE, out=file).end()
        cases.judge(f"{name}, unused", unused, (ASK, b"", MESSAGE))
        unused = cases.start(ASKED, DIE, err=file).end()
        cases.judge(f"{name} for errors, unused", unused, (DONE, SIXTH, b""))

    to("a full device", "/dev/full")
    broken = pipe_without_reader()
    to("a broken pipe", broken)
    os.close(broken)
    reader, full = full_pipe()
    to("a full pipe that does not wait", full)
    os.close(reader)
    os.close(full)
    short_file = limiting(resource.RLIMIT_FSIZE, 7, signal.SIGXFSZ)
    cases.case("a file of 7 bytes at most", ASKED, DIE, WRITE, out=SIXTH[:7], prepare=short_file)
    cases.case("the same for errors", BEYOND, DIE, WRITE, err=MESSAGE[:7], prepare=short_file)


def pipe_without_reader():
    reader, writer = os.pipe()
    os.close(reader)
    return writer


def full_pipe():
    reader, writer = os.pipe()
    os.set_blocking(writer, False)
    with contextlib.suppress(BlockingIOError):
        while True:
            os.write(writer, bytes(4096))
    return reader, writer


def failing_inputs(cases):
    """Where a read fails the status and the message say so; nothing is read that need not be."""
    cases.case("an input that is a folder", ASKED, "/", READ, err=UNREAD)
    cases.case("a closed input", ASKED, DIE, READ, err=UNREAD, prepare=closing(0))
    folder = cases.start(ASKED, "/", err="/dev/full").end()
    cases.judge("a folder, and errors to a full device", folder, (WRITE, b"", b""))
    cases.case("a folder that is not read: usage", ["run"], "/", USAGE, err=USED_WRONG)
    cases.case("a folder that is not read: made", ["fmt", "--make", "0"], "/", DONE, out=MADE)
    reader, writer = os.pipe()
    cases.case("an output as the input", ASKED, writer, READ, err=UNREAD)
    os.set_blocking(reader, False)
    cases.case("an input that does not wait", ASKED, reader, READ, err=UNREAD)
    os.close(reader)
    os.close(writer)
    cases.case("an input without end", ASKED, "/dev/zero", REFUSED, err=TOO_LONG)
    cases.case("an input of noise without end", ASKED, "/dev/urandom", REFUSED, err=TOO_LONG)
    cases.text("no input", "/dev/null", "1:1")
    reader, writer = os.pipe()
    slow = cases.start(ASKED, reader)
    for byte in DIE:
        os.write(writer, bytes([byte]))
    os.close(writer)
    cases.judge("an input a byte at a time", slow.end(), (DONE, SIXTH, b""))
    os.close(reader)


def tokens_of_a_megabyte(cases):
    """Each kind of token as often as it goes into the longest input, and as long as that."""
    for word in KEYWORDS:
        place = {"agg": "1:5", "port": "1:6", "sev": "1:5"}.get(word, "1:1")
        cases.text(f"a megabyte of {word}", times(word.encode() + b" "), place)
    for token in ("x", "1", "1.5", ".5", "1%", "1/2", "[", "]", ":", ",", "!", "note{}"):
        gap = "" if token in "[]:,!note{}" else " "
        cases.text(f"a megabyte of {token}", times((token + gap).encode()), "1:1")
    longest = {
        "name": times(b"x"),
        "number": times(b"1"),
        "decimal": b"1." + times(b"0", LONGEST - 2),
        "percent": times(b"1", LONGEST - 1) + b"%",
        "fraction": b"1/" + times(b"1", LONGEST - 2),
        "note": b"note{" + times(b"x", LONGEST - 6) + b"}",
    }
    for kind, text in longest.items():
        cases.text(f"a {kind} of a megabyte", text, "1:1")
    cases.text("a comment of a megabyte", b"#" + times(b"#", LONGEST - 1), "1:1048577")
    cases.text("a megabyte of blanks", times(b" "), "1:1048577")
    cases.text("a megabyte of newlines", times(b"\n"), "1048577:1")
    no_token = "no token begins here"
    for byte in (b"\0", b"\xff", b";"):
        cases.text(f"a megabyte of {byte!r}", times(byte), "1:1", no_token)
    cases.text("a note without end", b"note{" + times(b"x", LONGEST - 5), "1:5", no_token)
    for name, text in (("blank", b" "), ("comment", b"#"), ("name", b"x"), ("bracket", b"[")):
        over = text * (LONGEST + 1)
        cases.case(f"a byte too many: {name}", ASKED, over, REFUSED, err=TOO_LONG)


def between(head, piece, tail):
    """The head, the piece as often as the longest input allows, and the tail."""
    return head + times(piece, LONGEST - len(head) - len(tail)) + tail


def programs_of_a_megabyte(cases):
    """A program of which one part is as long as an input may be."""
    name = between(b"agg ", b"x", b" dfreq [1] dsev [1:6]\n")
    cases.case("a long name", ASKED, name, DONE, out=SIXTH)
    cases.case("a long name, fmt", ["fmt"], name, DONE, out=name)
    note = between(b"agg D dfreq [1] dsev [1:6] note{", b"x", b"}\n")
    cases.case("a long note", ASKED, note, DONE, out=SIXTH)
    cases.case("a long note, fmt", ["fmt"], note, DONE, out=note)
    comment = between(DIE + b"#", b"x", b"\n")
    cases.case("a long comment", ASKED, comment, DONE, out=SIXTH)
    cases.case("a long comment, fmt", ["fmt"], comment, DONE, out=DIE)
    numeral = between(b"agg D dfreq [1] dsev [", b"0", b"3]\n")
    cases.ruled("a long numeral", numeral, "1:23", "unit 0: rule 2 BadNumeral")
    values = between(b"agg D dfreq [1] dsev [1", b" 1", b"]\n")
    cases.ruled("a long list", values, "1:22", "unit 0: rule 4 ListTooLong")
    counts = between(b"agg D dfreq [1", b" 1", b"] dsev [1]\n")
    cases.ruled("a long list of counts", counts, "1:13", "unit 0: rule 4 ListTooLong")
    atoms = between(b"agg D dfreq [1] dsev [1]", b" dsev [1]", b" wts [1]\n")
    cases.ruled("many atoms", atoms, "1:17", "unit 0: rule 4 ListTooLong")
    layers = between(b"agg D dfreq [1] dsev [1] occurrence net of 0 xs 0", b" and 0 xs 0", b"\n")
    cases.ruled("many layers", layers, "1:26", "unit 0: rule 4 ListTooLong")
    cases.text("open brackets in a list", between(b"agg D dfreq ", b"[", b""), "1:14")
    die_and = between(b"agg D dfreq [1] dsev [1] ", b"[", b"")
    cases.text("open brackets after a unit", die_and, "1:27")


def portfolio(units):
    return b"port P" + b"".join(b"\nagg U%d dfreq [1] dsev [1]" % i for i in range(units)) + b"\n"


def broken(text, random_numbers):
    """A text with one to three of its parts lost, doubled, or replaced by other tokens or bytes."""
    others = [word.encode() for word in KEYWORDS] + [b"[", b"]", b"!", b"0", b"1/3", b"\0", b"\xff"]
    parts = re.split(rb"(\s+|[\[\]:,!])", text)
    for _ in range(random_numbers.randint(1, 3)):
        at = random_numbers.randrange(len(parts))
        parts[at : at + 1] = random_numbers.choice(
            ([], [parts[at], b" ", parts[at]], [random_numbers.choice(others)])
        )
    return b"".join(parts)


def is_told(text, end):
    """One output alone is written: a report, or one line that names a place inside the text."""
    if end.status == DONE:
        return end.out != b"" and end.err == b""
    place = re.fullmatch(rb"decl: (\d+):(\d+): [^\n]+\n", end.err)
    if end.status != REFUSED or end.out or not place:
        return False
    line, column = int(place[1]), int(place[2])
    lines = text.split(b"\n")
    return 1 <= line <= len(lines) and 1 <= column <= len(lines[line - 1]) + 1


def broken_texts(cases):
    """Texts near a program are answered, or refused at a place of theirs. The numbers are fixed."""
    random_numbers = random.Random(0)
    for number in range(500):
        text = broken(BOOK, random_numbers)
        for words in (["run", "--log2", "4", "mean", "tail:0.5"], ["fmt"]):
            end = cases.start(words, text).end()
            cases.count(f"broken text {number}, {words[0]}", end, is_told(text, end), ())


def units_to_the_limit(cases):
    """Sixteen units are answered, and more are refused at the name of the seventeenth."""
    for units in (1, 15, 16):
        text, row = portfolio(units), b"pmf:%d 1.000000 1.000000\n" % units
        cases.case(f"{units} units", ["run", f"pmf:{units}"], text, DONE, out=row)
    dense = b"".join(b"agg U%d 20 claims dsev [1:9] poisson\n" % i for i in range(16))
    rows = b"mean 1600.000000 1600.000000\npmf:0 0.000000 0.000001\n"
    cases.case("16 Poisson units", ["run", "mean", "pmf:0"], b"port P\n" + dense, DONE, out=rows)
    rule = "unit 16: rule 22 TooManyUnits"
    for units in (17, 1_000, 33_000):
        cases.ruled(f"{units} units", portfolio(units), "18:5", rule)
    same = between(b"port P", b"\nagg U dfreq [1] dsev [1]", b"\n")
    cases.ruled("units of one name", same, "18:5", rule)


def books_by_the_extended_rules(cases):
    """As many units and values as there may be are answered, and more are refused before any list of them is made."""
    words, rule = ["run", "--rules", "extended", "mean"], "unit 0: rule 4 ListTooLong"
    cases.case("256 units", words, portfolio(256), DONE, out=b"mean 256.000000 256.000000\n")
    for units in (257, 33_000):
        err = b"decl: 258:5: unit 256: rule 22 TooManyUnits\n"
        cases.case(f"{units} units by the extended rules", words, portfolio(units), REFUSED, err=err)
    single = b"agg D dfreq [1] dsev [" + b" ".join(b"%d" % i for i in range(1, 65_537)) + b"]\n"
    cases.case("65,536 values", words, single, DONE, out=b"mean 32768.500000 32768.500000\n")
    for name, text, place in (
        ("a long list by the extended rules", between(b"agg D dfreq [1] dsev [1", b" 1", b"]\n"), "1:22"),
        ("a long range", b"agg D dfreq [1] dsev [1:99999999999]\n", "1:22"),
        ("64 lists of 65,536 values", b"agg D dfreq [1]" + b" dsev [1:65536]" * 64 + b" wts [1]\n", "1:17"),
        ("ranges of 65,536 values", between(b"agg D dfreq [1] dsev [1:65536", b" 1:65536", b"]\n"), "1:22"),
    ):
        cases.case(name, words, text, REFUSED, err=f"decl: {place}: {rule}\n".encode())


def words_of_all_kinds(cases):
    """Words in great number, of great length, and of bytes that are no text."""
    cases.case("no word", [], DIE, USAGE, err=USED_WRONG)
    rows = b"mean 3.500000 3.500000\n" * 256
    cases.case("256 asks", ["run"] + ["mean"] * 256, DIE, DONE, out=rows)
    for name, words in (
        ("257 asks", ["run"] + ["mean"] * 257),
        ("100,000 words", ["run"] * 100_000),
        ("100,000 asks", ["run"] + ["mean"] * 99_999),
        ("100,000 options", ["run", "mean"] + ["--log2=4"] * 99_998),
        ("100,000 ends of options", ["--"] * 100_000),
        ("100,000 empty words", [""] * 100_000),
        ("a long option", ["run", "mean", "--" + "x" * 100_000]),
        ("a long value", ["run", "mean", "--log2=" + "4" * 100_000]),
        ("a long first word", ["r" * 100_000, "mean"]),
    ):
        cases.case(name, words, DIE, USAGE, err=USED_WRONG)
    no_ask = b"decl: ask 0: not an ask\n"
    cases.case("a long ask", ["run", "pmf:" + "1" * 100_000], DIE, USAGE, err=no_ask)
    cases.case("an empty ask", ["run", ""], DIE, USAGE, err=no_ask)
    cases.case("an ask of other letters", ["run", "pmf:\u0663"], DIE, USAGE, err=no_ask)
    for words in ([b"\xff"], [b"run", b"pmf:\xff"], [b"run", b"mean", b"--bs=\xc3"]):
        cases.case(f"words that are no text: {words}", words, DIE, NO_WORDS)


def little_memory(cases):
    """A run with little memory gives its own answer, or ends for want of it and writes nothing."""
    values = between(b"agg D dfreq [1] dsev [1", b" 1", b"]\n")
    rule = b"decl: 1:22: unit 0: rule 4 ListTooLong\n"
    runs = (
        ("a die", ASKED, DIE, (DONE, SIXTH, b"")),
        ("a book", BOOK_ASKS, BOOK, (DONE, BOOK_ROWS, b"")),
        ("a made program", ["fmt", "--make", "0"], b"", (DONE, MADE, b"")),
        ("a long list", ASKED, values, (REFUSED, b"", rule)),
        ("a long list, fmt", ["fmt"], values, (DONE, values, b"")),
        ("a megabyte of blanks", ASKED, times(b" "), (REFUSED, b"", b"decl: 1:1048577: syntax\n")),
        ("100,000 words", ["run"] * 100_000, DIE, (USAGE, b"", USED_WRONG)),
    )
    for megabytes in (32, 64, 128):
        prepare = limiting(resource.RLIMIT_AS, megabytes * MEGABYTE)
        for name, words, source, own in runs:
            end = cases.start(words, source, prepare=prepare).end()
            cases.judge(f"{name} in {megabytes} MB", end, own, (MEMORY, b"", b""))


def refused_memory(cases):
    """Each allocation of two runs is refused in turn: the run ends for want of memory and writes
    nothing, or gives its own answer. A C compiler builds what refuses it."""
    compiler = shutil.which("cc")
    cases.fact("a C compiler, to refuse allocations", compiler is not None)
    if compiler is None:
        return
    with tempfile.TemporaryDirectory() as folder:
        library = os.path.join(folder, "refuser.so")
        made = [compiler, "-shared", "-fPIC", "-x", "c", "-o", library, "-", "-ldl"]
        subprocess.run(made, input=REFUSER.encode(), check=True)
        for name, words, source, rows in (
            ("a pair", PAIR_ASKS, PAIR, PAIR_ROWS),
            ("a book", BOOK_ASKS, BOOK, BOOK_ROWS),
        ):
            refuse_in_turn(cases, library, name, words, source, (DONE, rows, b""))


def refuse_in_turn(cases, library, name, words, source, own):
    """Goes on until 20 runs in a row gave their own answer: they have no such allocation. Some run
    has to end for want of memory, else none was refused."""
    number, in_a_row, refused = 0, 0, 0
    while in_a_row < 20 and number < 20_000:
        number += 1
        variables = {"LD_PRELOAD": library, "REFUSED": str(number)}
        end = cases.start(words, source, variables=variables).end()
        cases.judge(f"{name}, allocation {number} refused", end, own, (MEMORY, b"", b""))
        in_a_row = in_a_row + 1 if end.told() == own else 0
        refused += end.told() != own
    cases.fact(f"{name}: some allocation was refused", refused > 0)
    print(f"hostile: {name}: {refused} of its allocations were refused in turn")


def many_at_once(cases):
    runs = [cases.start(BOOK_ASKS, BOOK) for _ in range(100)]
    for number, run in enumerate(runs):
        cases.judge(f"one of a hundred at once: {number}", run.end(), (DONE, BOOK_ROWS, b""))


def main():
    arguments = [word for word in sys.argv[1:] if word != "-v"]
    if len(arguments) != 1:
        sys.exit(__doc__)
    cases = Cases(os.path.abspath(arguments[0]), "-v" in sys.argv)
    for group in (
        failing_outputs,
        failing_inputs,
        tokens_of_a_megabyte,
        programs_of_a_megabyte,
        broken_texts,
        units_to_the_limit,
        books_by_the_extended_rules,
        words_of_all_kinds,
        little_memory,
        refused_memory,
        many_at_once,
    ):
        group(cases)
    sys.exit(0 if cases.last_line() else 1)


if __name__ == "__main__":
    main()
