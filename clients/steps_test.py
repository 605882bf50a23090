#!/usr/bin/env python3
"""Tests of the checkers of certificates: clients/check_steps.py, clients/check_steps.c, whose plan `check_steps.py --plan` writes,
and `decl verify`.

A maker of its own writes certificates: it takes each number from the table of docs/STEPS.md, in fractions and
plain sums, and shares nothing with the checkers. Tables name good and bad steps with the result, plans with their programs,
limits just kept and passed, and how calls end, all worked by hand. Then all checkers have to name the same first bad step of
2,000 single changes of good certificates, and none before the change; and of what `decl cert` writes for random programs, as it
is and changed. What it writes has, cell for cell, the numbers of that maker. Last come the largest inputs, within the seconds
and the memory of docs/STEPS.md. Where the C compiler has sanitizers, the tables go through a build with them.

    clients/steps_test.py                  all, with 500 random programs; --times writes the seconds of the largest inputs
    clients/steps_test.py --programs N     N random programs alone

The last line is 'N passed, M failed, K skipped'."""

import os
import random
import shutil
import subprocess
import sys
import tempfile
from fractions import Fraction
from pathlib import Path

HERE = Path(__file__).resolve().parent
sys.path.insert(0, str(HERE))
import check_steps  # the checker in Python, which is tested here
from calls import DECL
from steps_programs import program_of

S = 1 << 56
CHANGES = 2000
MOST_PROGRAM, MOST_INPUT = 1_048_576, 67_108_864
PROGRAMS = 500
MOST_SECONDS, MOST_MEMORY = 10, 1_000_000  # of one processor, and KB of addresses: what a checker takes at most
SANITIZERS = ["-g", "-fsanitize=address,undefined", "-fno-sanitize-recover=all"]
REFUSED_STATUS = 3  # of `decl`, for a refused text
counts = {"passed": 0, "failed": 0, "skipped": 0}


def test(what, good):
    counts["passed" if good else "failed"] += 1
    if not good:
        print(f"steps: {what}: FAILED")


# ---- the maker


def down(x):
    return x.numerator // x.denominator


def up(x):
    return -down(-x)


def least_halvings(mean):
    halvings = 0
    while 2 * mean > 2**halvings:
        halvings += 1
    return halvings


def exp_ends(x):
    """exp(-x) from 18 rounded terms of the series of exp(x), the last once more, in units of 2^-63."""
    low = high = last_low = last_high = 1 << 63
    for n in range(18):
        last_low, last_high = down(last_low * x / (n + 1)), up(last_high * x / (n + 1))
        low, high = low + last_low, high + last_high
    return down(Fraction(S << 63, high + last_high)), up(Fraction(S << 63, low))


def base(unit, cells):
    """The ends of a start step of a unit, which is a kind, its numbers and its amounts with whole weights."""
    kind, numbers, weights = unit
    total = sum(weights.values())
    chance = {amount: Fraction(weight, total) for amount, weight in weights.items()}
    if kind in ("fixed", "bernoulli", "binomial"):
        q = Fraction(1) if kind == "fixed" else numbers[-1]
        parts = [q * chance.get(y, 0) + (1 - q if y == 0 else 0) for y in range(cells)]
        return [(down(p * S), up(p * S)) for p in parts]
    if kind == "poisson":
        v = numbers[0] / 2 ** least_halvings(numbers[0])
        ends = [exp_ends(v)]
    else:
        beta = numbers[1] / numbers[0]
        ends = [(down(S / (1 + beta)), up(S / (1 + beta)))]
    for s in range(1, cells):
        by = {j: j * p if kind == "poisson" else p for j, p in chance.items() if j <= s}
        rate = v / s if kind == "poisson" else beta / (1 + beta)
        low = down(down(Fraction(sum(p * ends[s - j][0] for j, p in by.items()))) * rate)
        high = up(up(Fraction(sum(p * ends[s - j][1] for j, p in by.items()))) * rate)
        ends.append((low, min(S, high)))
    return ends


def times(a, b):
    """The ends of the product of two grids."""
    ends = []
    for s in range(len(a)):
        low = sum(a[i][0] * b[s - i][0] for i in range(s + 1))
        high = sum(a[i][1] * b[s - i][1] for i in range(s + 1))
        ends.append((low // S, min(S, -(-high // S))))
    return ends


def target(unit):
    kind, numbers, _ = unit
    if kind in ("fixed", "binomial"):
        return numbers[0]
    if kind == "bernoulli":
        return 1
    if numbers[-1] == 0:
        return 0
    return 2 ** least_halvings(numbers[0]) if kind == "poisson" else numbers[0]


def certificate(units, cells):
    """Steps of the total: powers of each base from the top bit down, and the running product."""
    steps, whole = [], None

    def add(line, ends):
        steps.append((line, ends))
        return len(steps) - 1

    for number, unit in enumerate(units):
        count = target(unit)
        if count == 0:
            continue
        first = power = add(f"start {number}", base(unit, cells))
        for bit in bin(count)[3:]:
            power = add(f"times {power} {power}", times(steps[power][1], steps[power][1]))
            if bit == "1":
                power = add(f"times {power} {first}", times(steps[power][1], steps[first][1]))
        whole = power if whole is None else add(f"times {whole} {power}", times(steps[whole][1], steps[power][1]))
    if whole is None:
        add("one", [(S, S)] + [(0, 0)] * (cells - 1))
    return steps


def written(steps):
    return [" ".join([line, *(f"{low},{high}" for low, high in ends)]) for line, ends in steps]


# ---- the checkers


def plan_lines(units, log2):
    lines = [f"log2 {log2}"]
    for kind, numbers, weights in units:
        items = [f"{amount}:{weight}" for amount, weight in sorted(weights.items())]
        lines.append(" ".join(["unit", kind, *map(str, numbers), "of", *items]))
    return lines


def in_python(program, steps, log2, bucket="1"):
    """What check_steps.py says of a program and its steps, and its status."""
    words = ["--bs", bucket, "--log2", str(log2)]
    status, said = check_steps.answer(f"{program}\n---\n{steps}".encode("latin-1"), *check_steps.words_of(words)[:2])
    return said, status


def planned(program, log2, bucket="1"):
    """The plan that check_steps.py writes for a program, or what it says, and its status."""
    words = ["--bs", bucket, "--log2", str(log2)]
    status, said = check_steps.answer(program.encode("latin-1"), *check_steps.words_of(words)[:2], plan_alone=True)
    return said, status


def ran(words, text):
    """What a call writes, and its status."""
    run = subprocess.run(words, input=text.encode("latin-1"), capture_output=True)
    return (run.stdout + run.stderr).decode().strip(), run.returncode


def built(folder, name, flags):
    """The checker in C, built with these flags; None where no compiler takes them. With sanitizers, what is not given back at the
    end is a leak, even where a variable holds it; only the C library's own buffers are not. Clang comes first then, since each run
    of what gcc builds reads the names of all frames of such a buffer, in ten times the time."""
    program, nothing = Path(folder) / name, Path(folder) / "nothing.c"
    nothing.write_text('#include <stdio.h>\nint main(void) { return puts("verified") == EOF; }\n')
    (Path(folder) / "leaks").write_text("leak:file_doallocate\nleak:libstdc++\n")
    os.environ["LSAN_OPTIONS"] = f"use_globals=0:print_suppressions=0:suppressions={folder}/leaks"
    compilers = [os.environ.get("CC"), *(["clang"] if flags else []), "cc", "gcc", "clang"]
    for compiler in dict.fromkeys(each for each in compilers if each and shutil.which(each)):
        words = [compiler, "-std=c11", "-O2", *flags, "-o", str(program)]
        if subprocess.run([*words, str(nothing)], capture_output=True).returncode == 0 and ran([program], "")[1] == 0:
            subprocess.run([*words, "-Wall", "-Wextra", "-Werror", str(HERE / "check_steps.c")], check=True)
            return str(program)
    counts["skipped"] += 1
    print(f"steps: check_steps.c, built with {' '.join(flags) or 'no flags'}: SKIPPED, there is no compiler for it")
    return None


def answer(bad):
    return ("verified", 0) if bad is None else (f"step {bad}: not verified", 1)


def in_decl(program, steps, log2, bucket="1"):
    """What `decl verify` says of a program and its steps, and 1 where it refuses them."""
    said, status = ran([DECL, "verify", "--log2", str(log2), "--bs", bucket], f"{program}\n---\n{steps}")
    return said.removeprefix("decl: "), {REFUSED_STATUS: 1}.get(status, status)


def certified(program, log2, bucket="1"):
    """The steps that `decl cert` writes for a program."""
    words = [DECL, "cert", "--log2", str(log2), "--bs", bucket]
    return subprocess.run(words, input=program.encode(), capture_output=True, check=True).stdout.decode()


def all_say(what, checker, program, units, steps, log2, bad, bucket="1"):
    """All checkers say that step `bad` is the first bad one, or that there is none."""
    test(f"{what}, in Python", in_python(program, steps, log2, bucket) == answer(bad))
    test(f"{what}, decl verify", in_decl(program, steps, log2, bucket) == answer(bad))
    if checker:
        lines = "\n".join(plan_lines(units, log2))
        test(f"{what}, in C", ran([checker], f"{lines}\n---\n{steps}") == answer(bad))


# ---- the tables

ONE_CLAIM = "agg F 1 claims dsev [1] fixed"
HALF = S // 2
# One claim of 1 with probability 1 / 2, on 2 cells: text of the steps, and the first bad step.
TRIAL = "agg B 1/2 claims dsev [1] bernoulli"
STEPS = [
    (f"start 0 {HALF},{HALF} {HALF},{HALF}", None),
    (f"start 0 {HALF},{HALF} {HALF},{HALF}\n", None),
    (f"start 0 0,{S} 0,{S}", None),
    (f"start 00 {HALF},{HALF} {HALF},{HALF}", None),
    (f"one {S},{S} 0,0\nstart 0 {HALF},{HALF} {HALF},{HALF}", None),
    (f"one {S},{S} 00,{0:017}\nstart 0 {HALF},{HALF} {HALF},{HALF}", None),
    (f"one {S},{S} 00,{0:018}\nstart 0 {HALF},{HALF} {HALF},{HALF}", 0),
    (f"one {S},{S} 0,0\nstart 0 {HALF},{HALF} {HALF},{HALF}\ntimes 0 1 {HALF},{HALF} {HALF},{HALF}", None),
    (f"one {S},{S} 0,0\ntimes 0 0 {S},{S} 0,0\nstart 0 {HALF},{HALF} {HALF},{HALF}", None),
    (f"one 0,{S} 0,{S}\nstart 0 0,{S} 0,{S}\ntimes 1 0 0,{S} 0,{S}", None),
    ("", 0),
    ("\n", 0),
    (f"one {S},{S} 0,0", 1),
    (f"start 0 {HALF},{HALF} {HALF},{HALF}\n\n", 1),
    (f"start 0 {HALF},{HALF} {HALF},{HALF}\none {S},{S} 0,0", 2),
    (f"start 0 {HALF},{HALF} {HALF},{HALF}\r\n", 0),
    (f"start  0 {HALF},{HALF} {HALF},{HALF}", 0),
    (f"start 0  {HALF},{HALF} {HALF},{HALF}", 0),
    (f"start\t0 {HALF},{HALF} {HALF},{HALF}", 0),
    (f" start 0 {HALF},{HALF} {HALF},{HALF}", 0),
    (f"start 0 {HALF},{HALF} {HALF},{HALF} ", 0),
    (f"start 0 {HALF}, {HALF} {HALF},{HALF}", 0),
    (f"start +0 {HALF},{HALF} {HALF},{HALF}", 0),
    (f"start 0 {HALF},{HALF}", 0),
    (f"start 0 {HALF},{HALF} {HALF},{HALF} 0,0", 0),
    (f"start 1 {HALF},{HALF} {HALF},{HALF}", 0),
    (f"start 0000000000 {HALF},{HALF} {HALF},{HALF}", 0),
    (f"start {HALF},{HALF} {HALF},{HALF}", 0),
    (f"begin 0 {HALF},{HALF} {HALF},{HALF}", 0),
    (f"start 0 0{HALF},{HALF} {HALF},{HALF}", 0),
    (f"start 0 {HALF},{HALF} {HALF},{S + 1}", 0),
    (f"start 0 {HALF},{HALF} {HALF},99999999999999999", 0),
    (f"start 0 {HALF},{HALF} {HALF},{HALF - 1}", 0),
    (f"start 0 {HALF + 1},{HALF + 1} {HALF},{HALF}", 0),
    (f"start 0 {HALF},{HALF} {HALF - 1},{HALF - 1}", 0),
    (f"start 0 {HALF - 1},{HALF - 1} {HALF},{HALF}", 0),
    (f"one {S},{S} 0,0\none {S - 1},{S - 1} 0,0", 1),
    (f"one {S},{S} 1,1", 0),
    (f"one {S},{S} 0,0\ntimes 0 1 {S},{S} 0,0", 1),
    (f"one {S},{S} 0,0\ntimes 0 2 {S},{S} 0,0", 1),
    (f"times 0 0 {S},{S} 0,0", 0),
    (f"one {S},{S} 0,0\ntimes 0 {S},{S} 0,0", 1),
    (f"one {S},{S} 0,0\ntimes 0 0 {S},{S} 1,1", 1),
    (f"start 0 {HALF},{HALF} {HALF},{HALF}\ntimes 0 0 {S // 4},{S // 4} {HALF},{HALF}", 1),
]
# Two exact claims of 1 on 4 cells: counted once, twice and three times.
TWICE = "agg T 2 claims dsev [1] fixed"
ONCE = f"start 0 0,0 {S},{S} 0,0 0,0"
TWO = f"times 0 0 0,0 0,0 {S},{S} 0,0"
LABELS = [
    (f"{ONCE}\n{TWO}", None),
    (f"{ONCE}\n{ONCE}\ntimes 1 0 0,0 0,0 {S},{S} 0,0", None),
    (ONCE, 1),
    (f"{ONCE}\n{TWO}\ntimes 1 0 0,0 0,0 0,0 {S},{S}", 2),
    (f"{ONCE}\ntimes 0 0 0,0 0,0 {S - 1},{S} 0,0", None),
    (f"{ONCE}\ntimes 0 0 0,0 0,0 {S - 1},{S - 1} 0,0", 1),
    (f"{ONCE}\ntimes 0 0 0,0 1,1 {S - 1},{S} 0,0", 1),
    (f"{ONCE}\ntimes 0 0 0,{S} 0,{S} 0,{S} 0,{S}", None),
]
# No claim above 0 is expected: the unit is counted by 0, and a start of it passes its target.
NEVER = "agg Z 2 claims dsev [0] poisson"
NONE = "agg Z 0 claims dsev [1] mixed gamma 1/2"
EMPTY = [(f"one {S},{S} 0,0", None), (f"start 0 {S},{S} 0,0", 0), ("", 0)]
# Low ends that are each below the number of the table, and together above 1.
MASS = [
    (f"start 0 {S // 4},{S} {S // 2},{S} {S // 4},{S} 0,{S}", None),
    (f"start 0 {S // 4},{S} {S // 2},{S} {S // 4 + 1},{S} 0,{S}", 0),
]

PORTFOLIOS = [
    ("agg P 2 claims dsev [1:6] poisson", [("poisson", [Fraction(2)], {k: 1 for k in range(1, 7)})]),
    ("agg G 3 claims 3 xs 2 dsev [1:6] mixed gamma 0.5", [("gamma", [4, Fraction(3)], {1: 1, 2: 1, 3: 2})]),
    ("agg B 4 loss dsev [1 2] binomial 1/3", [("binomial", [8, Fraction(1, 3)], {1: 1, 2: 1})]),
    ("agg L 5 claims 3 xs 2 dsev [1:6] ! fixed", [("fixed", [5], {0: 2, 1: 1, 2: 1, 3: 2})]),
    ("agg O 3 claims dsev [1:6] occurrence net of 0.5 so 2 xs 4 poisson # of 5 it leaves 4.5", None),
    ("sev A dsev [0 1 3] [1/2 1/3 1/6] port Book agg X 1/3 claims sev.A bernoulli agg Y 2.5 claims sev.A poisson "
     "agg Z 10 premium at 50% lr dsev [2] geometric note{x}",
     [("bernoulli", [Fraction(1, 3)], {0: 3, 1: 2, 3: 1}), ("poisson", [Fraction(5, 4)], {1: 2, 3: 1}),
      ("gamma", [1, Fraction(5, 2)], {2: 1})]),
    ("agg M 1/4 claims dsev [1] dsev [2 3] wts [1/4 3/4] occurrence ceded to 2 xs 1 poisson",
     [("poisson", [Fraction(3, 16)], {1: 1, 2: 1})]),
    # Layers that are empty: they take nothing, and lie beside, inside and above other layers.
    ("agg E 1 claims dsev [1] occurrence net of 0 xs 0 and inf xs 0 fixed", [("fixed", [1], {0: 1})]),
    ("agg E 2 claims dsev [1 3] occurrence net of 2 xs 0 and 0 xs 1 poisson", [("poisson", [Fraction(1)], {1: 1})]),
    ("agg E 3 claims dsev [1 5] occurrence ceded to 0 xs 7 and 0 xs 7 and 3 xs 1 and 1/3 so 0 xs 2 fixed",
     [("fixed", [3], {0: 1, 3: 1})]),
    ("agg E 2 claims 0 xs 1 dsev [1 2] fixed", [("fixed", [2], {0: 1})]),
    ("sev A dsev [0 1] port P agg E 4 claims 2 xs 0 sev.A occurrence net of 0 xs 3 poisson agg F 2 claims sev.A poisson "
     "agg G 2 claims sev.A fixed",
     [("poisson", [Fraction(2)], {1: 1}), ("poisson", [Fraction(1)], {1: 1}), ("fixed", [2], {0: 1, 1: 1})]),
    # No claim, and none above 0: no amounts follow in the plan.
    ("port P agg Y 0 claims dsev [1] poisson agg Z 3 claims dsev [2] occurrence net of inf xs 0 geometric "
     "agg F 1 claims dsev [1] fixed",
     [("poisson", [0], {}), ("gamma", [1, 0], {}), ("fixed", [1], {1: 1})]),
]
REFUSED = [
    ("agg D dfreq [1] dsev [1]", "unit 0: not covered"),
    ("agg A 1 claims dsev [1] poisson aggregate net of 1 xs 0", "unit 0: not covered"),
    ("port P agg A 1 claims dsev [1] fixed agg B 1 claims dsev [1] poisson zt", "unit 1: not covered"),
    ("port P common 0.5 agg A 1 claims dsev [1] poisson", "unit 0: not covered"),
    ("agg A 1 claims dsev [1;2] poisson", "not read: "),
    ("agg A 1 claims dsev [1 2] [1/2 1/3] poisson", "not read: "),
    ("agg A 1 claims dsev [1.5] poisson", "not read: "),
    ("agg A 1/2 claims dsev [1] fixed", "not read: "),
    ("agg A 1 claims dsev [1] poisson agg B 1 claims dsev [1] poisson", "not read: "),
    ("agg A 1 claims sev lognorm 50 cv 1 poisson", "not read: "),
    ("agg A 1 claims sev.B poisson", "not read: "),
    ("agg A 1 claims dsev [1] mixed gamma 0.3", "not read: "),
    ("agg A 1 loss dsev [0] poisson", "not read: "),
    ("agg A 1 claims dsev [1] occurrence net of 2 xs 0 and 0 xs 1 and 1 xs 1 fixed", "not read: "),
    ("agg A 1 claims dsev [1] occurrence net of inf xs 0 and 0 xs 0 and 1 xs 1048576 fixed", "not read: "),
    ("agg A 1 claims dsev [1] occurrence net of 0 po 0 xs 0 fixed", "not read: "),
    ("agg A 1 claims 0 xs 1 dsev [1] fixed", "not read: "),
]


def tables(checker):
    one = [("fixed", [1], {1: 1})]
    all_say("one claim of 1", checker, ONE_CLAIM, one, f"start 0 0,0 {S},{S}", 1, None)
    all_say("one claim of 1, one unit less", checker, ONE_CLAIM, one, f"start 0 0,0 {S},{S - 1}", 1, 0)
    rows = [
        (TRIAL, [("bernoulli", [Fraction(1, 2)], {1: 1})], 1, STEPS),
        (TWICE, [("fixed", [2], {1: 1})], 2, LABELS),
        (NEVER, [("poisson", [Fraction(0)], {})], 1, EMPTY),
        (NONE, [("gamma", [4, Fraction(0)], {})], 1, EMPTY),
        ("agg M 1 claims dsev [0 1 2] [1/4 1/2 1/4] fixed", [("fixed", [1], {0: 1, 1: 2, 2: 1})], 2, MASS),
    ]
    for program, units, log2, cases in rows:
        for number, (steps, bad) in enumerate(cases):
            all_say(f"{program}, steps {number}", checker, program, units, steps, log2, bad)
    other = "agg O 6 loss dsev [3] fixed"
    all_say("the same list for another program and bucket", checker, other, [("fixed", [2], {1: 1})], LABELS[0][0], 2, None, "3")
    for program, want in REFUSED:
        said, status = in_python(program, "", 2)
        test(program, said.startswith(want) and status == 2)
        said, status = ran([DECL, "cert", "--log2", "2"], program)
        refused = f"decl: {want}" if "covered" in want else "decl: 1:"
        test(f"{program}, decl cert", said.startswith(refused) and status == REFUSED_STATUS)
        if "covered" in want:
            test(f"{program}, decl verify", in_decl(program, "", 2) == (want, 1))


def plans(checker):
    """Programs with the plan that they have, certificates of it, and each end of a start made too narrow."""
    for program, units in PORTFOLIOS:
        if units is None:
            said, status = in_python(program, "", 4)
            test(program, said.startswith("not read: ") and status == 2)
            continue
        said, status = planned(program, 4)
        test(f"the plan of {program}", (said.splitlines(), status) == (plan_lines(units, 4), 0))
        steps = certificate(units, 16)
        all_say(program, checker, program, units, "\n".join(written(steps)), 4, None)
        made = certified(program, 4)
        all_say(f"{program}, from decl cert", checker, program, units, made, 4, None)
        test(f"{program}, the last step of decl cert", made.splitlines()[-1].split()[3:] == written(steps)[-1].split()[3:])
        for place, cell, by in [(0, 0, 1), (0, 15, 1), (len(steps) - 1, 0, 1), (len(steps) - 1, 15, 1)]:
            for end in (0, 1):
                line, ends = steps[place]
                low, high = ends[cell]
                ends = ends[:cell] + [(low + by, high) if end == 0 else (low, high - by)] + ends[cell + 1 :]
                text = "\n".join(written(steps[:place] + [(line, ends)] + steps[place + 1 :]))
                all_say(f"{program}, step {place}, cell {cell}, end {end}", checker, program, units, text, 4, place)
    half = "agg H 3 claims dsev [0.5 1 1.5] poisson"
    units = [("poisson", [Fraction(3)], {1: 1, 2: 1, 3: 1})]
    all_say("buckets of 1 / 2", checker, half, units, "\n".join(written(certificate(units, 8))), 3, None, "1/2")


# ---- single changes


def changed(lines, draw):
    """One change of one line: a digit, a byte taken out or put in, a line twice or gone; and the line's number."""
    number = draw.randrange(len(lines))
    line = lines[number]
    at = draw.randrange(len(line))
    kind = draw.randrange(6)
    if kind < 3:
        digits = [k for k, byte in enumerate(line) if byte.isdigit()]
        at = draw.choice(digits)
        line = line[:at] + draw.choice([d for d in "0123456789" if d != line[at]]) + line[at + 1 :]
    elif kind == 3:
        line = line[:at] + line[at + 1 :]
    elif kind == 4:
        line = line[:at] + draw.choice("0123456789 ,+") + line[at:]
    else:
        return lines[:number] + lines[number + 1 :], number
    return lines[:number] + [line] + lines[number + 1 :], number


def changes(checker):
    """Single changes of good certificates: all checkers name one step, and none before the change."""
    draw = random.Random(20)
    plans = []
    for program, units in PORTFOLIOS:
        if units:
            plan = check_steps.plan_of(program.encode(), Fraction(1))
            plans.append((program, plan, units, written(certificate(units, 16))))
    agreed = early = bad = ours = 0
    for _ in range(CHANGES):
        program, plan, units, steps = draw.choice(plans)
        lines, number = changed(steps, draw)
        text = "\n".join(lines)
        first = check_steps.first_bad(plan, 16, text.encode())
        bad += first is not None
        early += first is not None and first < number
        ours += in_decl(program, text, 4) == answer(first)
        if checker:
            said = ran([checker], "\n".join(plan_lines(units, 4)) + f"\n---\n{text}")
            agreed += said == answer(first)
    test(f"{early} bad steps before the change", early == 0)
    test(f"{bad} of {CHANGES} changes are found", bad > CHANGES // 2)
    test(f"decl verify agrees on {ours} of {CHANGES} changes", ours == CHANGES)
    if checker:
        test(f"C and Python agree on {agreed} of {CHANGES} changes", agreed == CHANGES)


# ---- limits and the ends of calls


def repeated(text, count, between=" "):
    """A text so often; {} in it is the number."""
    return between.join(text.replace("{}", str(number)) for number in range(count))


def one_unit(severity, count="fixed", exposure="1 claims"):
    """A program of one unit."""
    return f"agg A {exposure} {severity} {count}"


# A rule and the size of the bucket, a program that just keeps the rule, and one that breaks it.
LIMITS = [
    ("digits", "1", one_unit("dsev [00000000003]"), one_unit("dsev [000000000003]")),
    ("digits of a percent", "1", one_unit("dsev [1 2] [25.0000000% 75%]"), one_unit("dsev [1 2] [25.00000000% 75%]")),
    ("parts of a range", "1", one_unit("dsev [1 2] [1/1000000:1:999998/1000000]"),
     one_unit("dsev [1 2] [1/1000001:1:999999/1000001]")),
    ("values", "1", one_unit("dsev [1:1024]"), one_unit("dsev [1:1025]")),
    ("values in items", "1", one_unit(f"dsev [{repeated('{}', 1024)}]"), one_unit(f"dsev [{repeated('{}', 1023)} 0:1]")),
    ("atoms", "1", one_unit(f"{repeated('dsev [{}]', 64)} wts [{repeated('1/64', 64)}]"),
     one_unit(f"{repeated('dsev [{}]', 65)} wts [{repeated('1/65', 65)}]")),
    ("layers", "1", one_unit(f"dsev [1] occurrence net of {repeated('0 xs {}', 16, ' and ')}"),
     one_unit(f"dsev [1] occurrence net of {repeated('0 xs {}', 17, ' and ')}")),
    ("units", "1", "port P " + repeated("agg U{} 1 claims dsev [1] fixed", 16),
     "port P " + repeated("agg U{} 1 claims dsev [1] fixed", 17)),
    ("an amount", "1/2", one_unit("dsev [524288]"), one_unit("dsev [524288.5]")),
    ("an amount of a range", "1", one_unit("dsev [1048566:1048577:10]"), one_unit("dsev [1048567:1048577:10]")),
    ("an amount of probability 0", "1", one_unit("dsev [1 1048576] [1 0]"), one_unit("dsev [1 1.5] [1 0]")),
    ("an attachment", "1", one_unit("dsev [1] occurrence net of 0 xs 1048576"),
     one_unit("dsev [1] occurrence net of 0 xs 1048577")),
    ("layers that touch", "1", one_unit("dsev [1] occurrence net of 2 xs 1 and inf xs 3 and 1 xs 0"),
     one_unit("dsev [1] occurrence net of 3 xs 1 and inf xs 3 and 1 xs 0")),
    ("a share", "1", one_unit("dsev [1] occurrence net of 5 po 5 xs 1"), one_unit("dsev [1] occurrence net of 6 po 5 xs 1")),
    ("a fine list", "1", one_unit("dsev [1 2] [1/1073741824 1073741823/1073741824]"),
     one_unit("dsev [1 2] [1/1073741825 1073741824/1073741825]")),
    ("fine shares", "1", one_unit("dsev [1] occurrence net of 1/1073741824 so 0 xs 0"),
     one_unit("dsev [1] occurrence net of 1/1073741825 so 0 xs 0")),
    ("a fine mixture", "1", one_unit("dsev [1 2] [1/32768 32767/32768] dsev [3] wts [1/32768 32767/32768]"),
     one_unit("dsev [1 2] [1/32768 32767/32768] dsev [3] wts [1/65536 65535/65536]")),
    ("an expected count", "1", one_unit("dsev [4095]", "poisson", "1/68719476736 loss"),
     one_unit("dsev [4096]", "poisson", "1/68719476736 loss")),
    ("an expected loss", "1/4096", one_unit("dsev [1/4096]", "poisson", "1/68719476736 prem at 1/4095 lr"),
     one_unit("dsev [1/4096]", "poisson", "1/68719476736 prem at 1/4096 lr")),
    ("claims above 0", "1", one_unit("dsev [0 1] [4094/4095 1/4095]", "poisson", "1/68719476736 claims"),
     one_unit("dsev [0 1] [4095/4096 1/4096]", "poisson", "1/68719476736 claims")),
    ("claims above 0, of one claim at most", "1", one_unit("dsev [0 1] [4095/4096 1/4096]", "bernoulli", "1/68719476736 claims"),
     one_unit("dsev [0 1] [4095/4096 1/4096]", "geometric", "1/68719476736 claims")),
    ("claims", "1", one_unit("dsev [1]", "fixed", "65536 claims"), one_unit("dsev [1]", "fixed", "65537 claims")),
    ("trials", "1", one_unit("dsev [1]", "binomial 0.5", "32768 claims"),
     one_unit("dsev [1]", "binomial 0.5", "32768.5 claims")),
    ("expected claims", "1", one_unit("dsev [0 1]", "poisson", "8192 claims"),
     one_unit("dsev [0 1]", "poisson", "8192.01 claims")),
    ("shape", "1", one_unit("dsev [1]", "mixed gamma 0.01"), one_unit("dsev [1]", "mixed gamma 1/101")),
    ("a chance of bernoulli", "1", one_unit("dsev [1]", "bernoulli"), one_unit("dsev [1]", "bernoulli", "1.01 claims")),
    ("bytes", "1", one_unit("dsev [1]").ljust(MOST_PROGRAM - 1), one_unit("dsev [1]").ljust(MOST_PROGRAM + 1)),
]
PLANS = [  # a plan of one unit that the checker in C reads, and one that it does not
    ("fixed 65536 of 1:1", "fixed 65537 of 1:1"),
    ("fixed 000000001 of 000000001:0000000001", "fixed 0000000001 of 1:1"),
    ("bernoulli 1 of 1:1", "bernoulli 3/2 of 1:1"),
    ("bernoulli 281474976710655/281474976710655 of 1:1", "bernoulli 1/281474976710656 of 1:1"),
    ("binomial 65536 1/2 of 1:1", "binomial 65537 1/2 of 1:1"),
    ("poisson 4096 of 1:1", "poisson 4097 of 1:1"),
    ("gamma 10000 1 of 1:1", "gamma 10001 1 of 1:1"),
    ("fixed 1 of 0:1073741823 1:1", "fixed 1 of 0:1073741823 1:2"),
    ("poisson 0 of", "poisson 0 of 1:1"),
    ("gamma 1 0 of", "gamma 1 0 of 1:1"),
    ("poisson 1 of 1:1", "poisson 1 of"),
    ("poisson 1 of 1:1", "poisson 1 of 0:1 1:1"),
    ("fixed 1 of 1:1 2:1", "fixed 1 of 2:1 1:1"),
    ("fixed 1 of 1:1", "fixed 1 of 1:0"),
    ("fixed 1 of 1:1", "fixed 1 of 1:1 "),
    ("fixed 1 of 1:1", "fixed 1 of 1:1\n--- "),
]
UNREAD, UNWRITTEN = "the input could not be read: ", "the output could not be written"
ENDS = [  # words behind the program's name, redirections of the shell, what both checkers write, and the status
    ("nowhere", "", f"{UNREAD}No such file or directory", 4),
    (".", "", f"{UNREAD}Is a directory", 4),
    ("", "<&-", f"{UNREAD}Bad file descriptor", 4),
    ("GOOD", "", "verified", 0),
    ("", "< GOOD", "verified", 0),
    ("GOOD", "> /dev/full", UNWRITTEN, 5),
    ("GOOD", ">&-", UNWRITTEN, 5),
    ("GOOD GOOD", "", "usage: ", 3),
    ("-", "", "usage: ", 3),
    ("--size", "", "usage: ", 3),
]
WORDS = [  # words that check_steps.py does not understand
    "--bs", "--bs 0", "--bs 1/0", "--bs x", "--bs 000000000001", "--log2 0", "--log2 11", "--log2 x", "--log2 2 --log2 2",
    "--plan --plan",
]


def limits(checker):
    """Limits that are just kept and just passed: of programs for Python and `decl`, of plans for C."""
    for rule, bucket, kept, broken in LIMITS:
        said, status = in_python(kept, "", 1, bucket)
        test(f"{rule}, kept", (said, status) == answer(0) == in_decl(kept, "", 1, bucket))
        said, status = in_python(broken, "", 1, bucket)
        test(f"{rule}, broken", said.startswith("not read: ") and status == 2)
        refused = ran([DECL, "cert", "--log2", "1", "--bs", bucket], broken)
        test(f"{rule}, broken, decl cert", refused[1] == REFUSED_STATUS and "covered" not in refused[0])
        if checker:
            test(f"{rule}, kept, in C", ran([checker], planned(kept, 1, bucket)[0]) == answer(0))
    for kept, broken in PLANS if checker else []:
        said, status = ran([checker], f"log2 01\nunit {broken}")
        test(f"unit {kept}", ran([checker], f"log2 01\nunit {kept}") == answer(0))
        test(f"unit {broken}", said.startswith("not read: ") and status == 2)
    for text in ("", "log2 1", "log2 0\nunit fixed 1 of 1:1", "log2 11\nunit fixed 1 of 1:1", "unit fixed 1 of 1:1",
                 "log2 1" + 17 * "\nunit fixed 1 of 1:1"):
        test(f"plan {text[:20]}", not checker or ran([checker], text)[1] == 2)


def calls(checker, plain, folder):
    """How calls of both checkers end: files and outputs that fail, words that are not understood, and, in a build without sanitizers,
    little memory."""
    steps = f"---\nstart 0 0,0 {S},{S}\n"
    texts = {"py": f"agg F 1 claims dsev [1] fixed\n{steps}", "c": f"log2 1\nunit fixed 1 of 1:1\n{steps}"}
    programs = {"py": [sys.executable, str(HERE / "check_steps.py"), "--log2=1"], "c": [checker]}
    for kind, program in programs.items() if checker else [("py", programs["py"])]:
        good = Path(folder) / f"good.{kind}"
        good.write_text(texts[kind])

        def ends(words, where):
            """What the checker writes for these words and redirections, and its status."""
            return ran(["bash", "-c", f'exec "$@" {where}'.replace("GOOD", str(good)), "bash", *program,
                        *words.replace("GOOD", str(good)).split()], "")

        for words, where, want, status in ENDS:
            if "full" in where and not os.path.exists("/dev/full"):
                counts["skipped"] += 1
                print("steps: a full device: SKIPPED, there is no /dev/full")
                continue
            said = ends(words, where)
            test(f"{kind} {words} {where}", said[0].startswith(want) and said[1] == status and "\n" not in said[0])
    if plain:
        test("little memory", ran(["bash", "-c", 'ulimit -v 20000; exec "$0"', plain], texts["c"]) == ("memory is short", 6))
    half = "agg F 1 claims dsev [0.5] fixed"
    python = [*programs["py"][:2], "--log2=1", "--bs", "1/2"]
    test("--bs 1/2: verified", ran(python, f"{half}\n---\nstart 0 0,0 {S},{S}") == answer(None))
    test("--bs 1/2: a bad step", ran(python, half) == answer(0))
    test("no program", ran(python, "agg") == ("not read: token 1: wanted name", 2))
    for words in WORDS:
        said, status = ran([*python[:2], *words.split()], half)
        test(words, said.startswith("usage: ") and status == 3)


# ---- random programs


def is_refused(program, log2, bucket, fault):
    """Whether the checkers refuse a program that `decl cert` refuses with this fault."""
    in_steps, in_plan = in_python(program, "", log2, bucket), planned(program, log2, bucket)
    verified = in_decl(program, "", log2, bucket)
    if "covered" in fault:
        return in_steps == in_plan == (fault, 2) and verified == (fault, 1)
    return in_steps[1] == in_plan[1] == 2 and verified[1] == 1 and not verified[0].startswith("step ")


def random_program(checker, number):
    """What the checkers make of the program of a number: whether it has a certificate, and whether they agree on it and on a
    change of one byte or line of it."""
    program, bucket, log2 = program_of(number)
    steps, status = ran([DECL, "cert", "--bs", bucket, "--log2", str(log2)], program)
    if status != 0:
        return False, is_refused(program, log2, bucket, steps.removeprefix("decl: "))
    plan, _ = planned(program, log2, bucket)
    lines, _ = changed(steps.splitlines(), random.Random(number))
    agreed = in_python(program, steps, log2, bucket) == answer(None)
    for text in (steps, "\n".join(lines)):
        first = in_python(program, text, log2, bucket)
        agreed &= in_decl(program, text, log2, bucket) == first and first[1] < 2
        agreed &= not checker or ran([checker], f"{plan}\n---\n{text}") == first
    return True, agreed


def programs(checker, count):
    """Random programs: what `decl` refuses no checker reads, and of the others all checkers take the certificate."""
    certified = 0
    for number in range(count):
        has_certificate, agreed = random_program(checker, number)
        certified += has_certificate
        test(f"clients/steps_programs.py {number}", agreed)
    test(f"{certified} of {count} random programs have a certificate", 2 * certified > count)


# ---- the largest


def measured(words, given):
    """What a call within the memory of docs/STEPS.md writes for a file's bytes, its status, and its seconds of one processor."""
    given.seek(0)
    with tempfile.TemporaryFile() as output:
        words = ["bash", "-c", f'ulimit -v {MOST_MEMORY}; exec "$@"', "bash", *words]
        process = subprocess.Popen(words, stdin=given, stdout=output, stderr=output)
        _, status, used = os.wait4(process.pid, 0)
        process.returncode = os.waitstatus_to_exitcode(status)
        output.seek(0)
        return output.read().decode().strip(), process.returncode, used.ru_utime + used.ru_stime


def bounded(what, words, text, want):
    """Tests what a checker says of large input, within the memory and the seconds of docs/STEPS.md. Another process that shares a
    processor can make seconds longer, so the least of up to three runs counts."""
    with tempfile.TemporaryFile() as given:
        given.write(text.encode())
        seconds, runs = MOST_SECONDS + 1, 0
        while seconds > MOST_SECONDS and runs < 3:
            said, status, taken = measured(words, given)
            seconds, runs = min(seconds, taken), runs + 1
    test(f"{what}: {said[:80]}", (said, status) == want)
    test(f"{what}: {seconds:.1f} s", seconds <= MOST_SECONDS)
    if "--times" in sys.argv:
        print(f"{what}: {seconds:.1f} s of one processor")


def heavy_program():
    """16 units, each of 65,536 different amounts in 64 atoms, and of 16 layers; one claim of unit 0 and one of unit 1."""
    atoms = " ".join(f"dsev [{1024 * n}:{1024 * n + 1023}] [0:1023/523776:1/523776]" for n in range(64))
    severity = f"{atoms} wts [{repeated('1/64', 64)}] occurrence net of " + " and ".join(f"1 xs {100_000 + n}" for n in range(16))
    counts = [(1, "fixed")] * 2 + [(0, "poisson")] * 14
    return "port P\n" + "\n".join(f"agg U{u} {n} claims {severity} {count}" for u, (n, count) in enumerate(counts))


def two_claims(weights, count, cells):
    """So many steps for one claim of unit 0 and one of unit 1, of these weights: the two claims, and their sum over and over."""
    first = base(("fixed", [1], weights), cells)
    total = ("times 0 1", times(first, first))
    return "\n".join(written([("start 0", first), ("start 1", first)]) + written([total]) * (count - 2)) + "\n"


def largest(checker):
    """The largest inputs that are read, and larger ones."""
    heavy, weights = heavy_program(), {amount: amount % 1024 for amount in range(65_536)}
    small = "port P agg A 1 claims dsev [0:15] fixed agg B 1 claims dsev [0:15] fixed "
    small += repeated("agg U{} 0 claims dsev [1] poisson", 14)
    one = "agg A 1 claims dsev [1] fixed"
    values = f"dsev [{repeated('1', 1024)}] [1 {repeated('0', 1023)}]"
    many = repeated("agg U{} 2 claims " + repeated(values, 15) + f" wts [{repeated('1/15', 15)}] poisson", 16)
    wide = repeated("agg U{} 2 claims " + repeated("dsev [1:1024]", 100) + f" wts [{repeated('1/100', 100)}] poisson", 200)
    cases = [
        ("512 steps of 1,024 cells for 16 units of 65,536 amounts", heavy, two_claims(weights, 512, 1024), 10, answer(None)),
        ("513 steps of 1,024 cells", small, two_claims({1: 1}, 513, 1024), 10,
         ("not read: more than 524,288 cells in all steps", 2)),
        ("32,768 steps of 16 cells", small, two_claims(dict.fromkeys(range(16), 1), 32_768, 16), 4, answer(None)),
        ("32,769 steps of 2 cells", small, two_claims({1: 1}, 32_769, 2), 1, ("not read: more than 32,768 steps", 2)),
        ("67,000,000 empty lines", one, "\n" * 67_000_000, 1, ("not read: more than 32,768 steps", 2)),
        ("a line of 16,500,000 cells", one, "one" + " 0,0" * 16_500_000, 10, answer(0)),
        ("67,108,865 bytes", one, "0" * (MOST_INPUT + 1), 10, ("not read: more than 67,108,864 bytes", 2)),
        ("491,760 values", f"port P {many}", "", 10, answer(0)),
        ("200 units of 100 atoms", f"port P {wide}", "", 10, ("not read: a severity of more than 64 atoms", 2)),
    ]
    for what, program, steps, log2, want in cases:
        words = [sys.executable, str(HERE / "check_steps.py"), "--log2", str(log2)]
        bounded(f"{what}, in Python", words, f"{program}\n---\n{steps}", want)
        plan, status = planned(program, log2)
        if checker and status == 0:
            bounded(f"{what}, in C", [checker], f"{plan}\n---\n{steps}", want)
        if want[1] < 2:
            test(f"{what}, decl verify", in_decl(program, steps, log2) == want)
    program = "port P " + repeated("agg U{} 65535 claims dsev [0 1] [65535/65536 1/65536] fixed", 16)
    made = certified(program, 10)
    test("the largest list of decl cert", made.count("\n") == 511 and in_decl(program, made, 10) == answer(None))
    if checker:
        bounded("511 steps of decl cert, in C", [checker], f"{planned(program, 10)[0]}\n---\n{made}", answer(None))


def main():
    with tempfile.TemporaryDirectory() as folder:
        checker = built(folder, "check_steps", [])
        if "--programs" in sys.argv:
            programs(checker, int(sys.argv[sys.argv.index("--programs") + 1]))
        else:
            sanitized = built(folder, "sanitized", SANITIZERS) or checker
            tables(sanitized)
            plans(sanitized)
            limits(sanitized)
            calls(sanitized, checker, folder)
            changes(checker)
            programs(checker, PROGRAMS)
            largest(checker)
    print(f"{counts['passed']} passed, {counts['failed']} failed, {counts['skipped']} skipped")
    return counts["failed"] > 0


if __name__ == "__main__":
    sys.exit(main())
