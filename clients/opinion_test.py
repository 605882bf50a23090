#!/usr/bin/env python3
"""Random calls of decl, compared with the second opinion (clients/opinion); and faults planted in what decl writes, which it has to find.

    python3 clients/opinion_test.py [COUNT [SEED]]

Of each call the report is read row by row, and a refusal or a canonical text compared as it is. Where decl refuses a call for its width, it
is run once more with the width that it names. A call is too large where some row is too large for the second opinion, and no row is
wrong; more than one in fifty of them is a failure. The last line is 'N passed, M failed'.
"""

import pathlib
import random
import re
import subprocess
import sys
import time

from calls import DECL
from opinion import AGREES, Opinion
from random_calls import call

HERE = pathlib.Path(__file__).resolve().parent
CALLS = 500
STANDARD = set("bisect collections decimal fractions functools itertools json math opinion re sys typing".split())
DIE, DICE, TENTH = "agg D dfreq [1] dsev [1:6]", "agg D dfreq [2] dsev [1:6]", "agg D dfreq [1] dsev [1:10]"
PAIR = "port T agg A dfreq [1] dsev [1:3] agg B dfreq [1] dsev [1:3] [1/2 1/6 1/3]"
FACTOR = "port C common 0.5 agg A 1 claims dsev [1] poisson agg B 2 claims dsev [1] poisson"
TENTHS = "agg D dfreq [1] dsev [0 1] [0.9 0.1]"
SHAPE = "agg G 3 claims dsev [0 1 4] mixed gamma 1.25"
LARGE = " ".join(["port P", *(f"agg U{k} 1 claims dsev [1] poisson zt" for k in range(17))])
SHARES = ["joint:A:4 0.722222 0.722223", "kappa:A:4 2.166666 2.166667", "cotail:A:0.8 2.703703 2.703704"]
ROWS = ["pmf:3 0.166666 0.166667", "cdf:2 0.333333 0.333334", "mean 3.500000 3.500000"]
#: Calls, what each has to write, and the faults that are planted there: a piece, and another one in its place.
PLANTED = [
    ("run --width 2 --mwidth 2 pmf:3 cdf:2 mean", DIE, "\n".join([*ROWS, ""]), [
        ("0.166666", "0.166667"), ("0.166667", "0.166666"), ("0.333333", "0.333334"), ("0.333334", "0.333333"),
        ("mean 3.500000", "mean 3.500001"), ("3.500000\n", "3.499999\n"), ("\n".join(ROWS[:2]), "\n".join(ROWS[1::-1])),
    ]),
    ("run --width 2 pmf:3", TENTH, "pmf:3 0.099999 0.100001\n", [("0.099999", "0.099998"), ("0.100001", "0.100002")]),
    ("run --mwidth 2 mean", TENTHS, "mean 0.099999 0.100001\n", [("0.099999", "0.099998"), ("1\n", "2\n")]),
    ("run q:0.9 tail:0.9 layer:5xs5", DICE, "q:0.9 10 10\ntail:0.9 11.111111 11.111112\nlayer:5xs5 2.166666 2.166667\n", [
        ("10 10", "9 10"), ("10 10", "10 11"), ("11.111112", "11.111111"), ("2.166666", "2.166667"),
    ]),
    ("run joint:A:4 kappa:A:4 cotail:A:0.8", PAIR, "\n".join([*SHARES, ""]), [
        ("0.722222", "0.722223"), ("2.166667", "2.166666"), ("2.703704", "2.703703"),
    ]),
    ("run --rules extended --log2 4 cotail:A:0.8 cotail:A:0", FACTOR, "cotail:A:0.8 2.188934 2.188935\ncotail:A:0 1.000000 1.000000\n", [
        ("2.188935", "2.188934"), ("2.188934", "2.188935"), ("1.000000 1.000000", "- -"), ("1.000000 1.000000", "beyond beyond"),
    ]),
    ("run --rules extended --log2 4 pmf:0 pmf:4", SHAPE, "pmf:0 0.403765 0.403766\npmf:4 0.101375 0.101376\n", [
        ("0.403766", "0.403765"), ("0.101375 0.101376", "0.101374 0.101375"), ("0.101376", "0.101386"),
    ]),
    ("run --rules extended mean", LARGE, "decl: 1:6: unit 0: rule 30 TotalTooLarge\n", [("30 Total", "29 Total"), ("unit 0", "unit 16")]),
    ("run cotail:A:0.8", FACTOR, "decl: ask 0: no share under a common factor\n", [("ask 0", "ask 1"), ("no share", "not a share")]),
    ("run --format csv pmf:3", DIE, "ask,low,high\npmf:3,0.166666,0.166667\n", [("0.166667", "0.166666")]),
    ("run --log2 4 --format json pmf:3", DIE, '{"bs":"1","cells":16,"rows":[{"ask":"pmf:3","high":"0.166667","low":"0.166666"}]}\n', [
        ("0.166666", "0.166667"), ('"cells":16', '"cells":17'),
    ]),
    ("run mean", "agg D dfreq [1] dsev [1;6]", "decl: 1:24: no token begins here\n", [("1:24", "1:25")]),
    ("run mean", "agg D dfreq [1] dsev [1 2] [1/3 1/3]", "decl: 1:28: unit 0: rule 6 NotOne\n", [
        ("1:28", "1:29"), ("6 NotOne", "5 LengthsDiffer"),
    ]),
    ("fmt", DIE + "# a die", DIE + "\n", [("[1:6]", "[1 :6]")]),
]  # fmt: skip


def run(words, text):
    """The status of a call, and what it writes to both outputs."""
    done = subprocess.run([DECL, *words], input=text.encode("latin-1"), capture_output=True, close_fds=False)
    return done.returncode, done.stdout.decode("latin-1"), done.stderr.decode("latin-1")


def wider(words, fault):
    """The words of a call with the width that its refusal names."""
    i, width = map(int, re.fullmatch(r"decl: ask (\d+): needs width (\d+)\n", fault).groups())
    kept, left = [], list(words)
    while left:
        word = left.pop(0)
        if word in ("--width", "--mwidth"):
            left.pop(0)
        elif not word.startswith(("--width=", "--mwidth=")):
            kept.append(word)
    return [*kept, "--width", str(min(width, 10**9)), "--mwidth", str(width)]


def compared(words, text):
    """What is said of each row, refusal or text that a call writes."""
    status, out, err = run(words, text)
    opinion = Opinion(text, words)
    if status == 4 and opinion.book:
        words = wider(words, err)
        status, out, err = run(words, text)
        opinion = Opinion(text, words)
        if status == 4:
            return ["width"]
    return told(opinion, status, out, err)


def told(opinion, status, out, err):
    """What is said of what a call has written."""
    if opinion.fault or status:
        is_due = (status, out, err) == (opinion.status, "", opinion.fault)
        return [AGREES if is_due else f"not: due is {opinion.fault}, and it is {status} {err}"]
    if opinion.text is not None:
        return [AGREES if (out, err) == (opinion.text, "") else f"not: due is {opinion.text!r}"]
    return opinion.of_report(out) if not err else [f"not: {err}"]


def planted():
    """For each call of the table whether it writes what it has to, which agrees; and for each fault planted there whether it is found."""
    for words, text, due, faults in PLANTED:
        opinion, (status, out, err) = Opinion(text, words.split()), run(words.split(), text)
        yield out + err == due and told(opinion, status, out, err)[0] == AGREES, words
        for piece, other in faults:
            wrong = [each.replace(piece, other, 1) for each in (out, err)]
            yield wrong != [out, err] and any(said != AGREES for said in told(opinion, status, *wrong)), f"{words}: {other} for {piece}"


def named():
    """For each name of the last part of docs/DEFINITIONS.md whether one function of the second opinion has it; and whether that is as short,
    and stands on as little, as it has to."""
    page = (HERE.parent / "docs" / "DEFINITIONS.md").read_text(encoding="utf-8").split("## A second opinion\n")[1]
    code = "".join(path.read_text(encoding="utf-8") for path in (HERE / "second_opinion.py", *(HERE / "opinion").glob("*.py")))
    yield len(code.splitlines()) <= 1650, "the second opinion has more than 1,650 lines"
    others = set(re.findall(r"^(?:from|import) (\w+)", code, re.M)) - STANDARD
    yield not others, f"the second opinion imports {others}"
    for name in re.findall("`([a-z_]+)`", page[page.index("- tokens") :]):
        yield len(re.findall(rf"def {name}\(", code)) == 1, f"there is not one function {name}"


def campaign(count, seed):
    """How many random calls pass and fail."""
    rng, begun = random.Random(seed), time.time()
    passed = failed = large = rows = refused = 0
    for number in range(count):
        words, text = call(rng)
        said = compared(words, text)
        wrong = [each for each in said if each != AGREES and not each.startswith(("too large", "width"))]
        is_large = not wrong and any(each.startswith("too large") for each in said)
        passed, failed, large = passed + (not wrong), failed + bool(wrong), large + is_large
        rows += len(said)
        if wrong:
            print("FAILED:", " ".join(words), repr(text), *wrong, sep="\n  ", flush=True)
        if number % 10_000 == 9_999:
            print(f"{number + 1} calls, {failed} wrong, {large} too large, {rows} rows, in {time.time() - begun:.0f} s", flush=True)
    print(f"{count} calls with {rows} rows, refusals and texts: {failed} wrong, {large} too large")
    return passed, failed + (50 * large > count)


if __name__ == "__main__":
    count = int(sys.argv[1]) if len(sys.argv) > 1 else CALLS
    passed, failed = campaign(count, int(sys.argv[2]) if len(sys.argv) > 2 else 1)
    for is_right, what in [*planted(), *named()]:
        passed, failed = passed + is_right, failed + (not is_right)
        if not is_right:
            print("FAILED:", what)
    print(f"{passed} passed, {failed} failed")
    sys.exit(failed > 0)
