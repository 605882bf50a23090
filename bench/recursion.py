#!/usr/bin/env python3
"""Measures `decl` beside bench/recursion.c (-O3, doubles, no enclosure), whole processes, the median of 21 calls each.

It builds the C program with cc, takes `decl` from DECL or crates/decl/out/decl, and prints a table: milliseconds of processor
time of both, and their ratio. The two take turns, so that a busy machine weighs on both."""
import os
import pathlib
import resource
import statistics
import subprocess
import tempfile

TOP = pathlib.Path(__file__).resolve().parent.parent
DECL = os.environ.get("DECL", str(TOP / "crates/decl/out/decl"))
CALLS = int(os.environ.get("CALLS", "21"))
BOOK = (TOP / "examples/portfolio.decl").read_text()
CASES = [
    ("a gamma count of shape 4, 16 cells", "agg G 2 claims dsev [1] mixed gamma 0.5", 4, 3, ["gamma", "2", "4", "1", "1", "16", "3"]),
    ("the portfolio, 1,024 cells", BOOK, 10, 425, ["book", "1024", "425"]),
    ("a Poisson mean of 1,000, 4,096 cells", "agg K 1000 claims dsev [1:5] poisson", 12, 3000, ["poisson", "1000", "1", "5", "1", "4096", "3000"]),
    ("a Poisson mean of 4,096, 4,096 cells", "agg K 4096 claims dsev [1] poisson", 12, 4000, ["poisson", "4096", "1", "1", "1", "4096", "4000"]),
    ("a gamma count of shape 10,000, 4,096 cells", "agg K 1000 claims dsev [1:5] mixed gamma 0.01", 12, 3000, ["gamma", "1000", "10000", "5", "1", "4096", "3000"]),
    ("1,024 amounts in a row, 4,096 cells", "agg K 4 claims dsev [1:1024] poisson", 12, 2000, ["poisson", "4", "1", "1024", "1", "4096", "2000"]),
    ("1,024 amounts two apart, 4,096 cells", "agg K 4 claims dsev [1:2047:2] poisson", 12, 4000, ["poisson", "4", "1", "1024", "2", "4096", "4000"]),
]


def once(words, text):
    """Processor time in milliseconds of one call, and what it wrote."""
    before = resource.getrusage(resource.RUSAGE_CHILDREN)
    done = subprocess.run(words, input=text, capture_output=True, text=True, check=True)
    after = resource.getrusage(resource.RUSAGE_CHILDREN)
    spent = after.ru_utime + after.ru_stime - before.ru_utime - before.ru_stime
    return 1000 * spent, done.stdout.strip()


def main():
    with tempfile.TemporaryDirectory() as room:
        plain = f"{room}/recursion"
        subprocess.run(["cc", "-O3", "-o", plain, TOP / "bench/recursion.c", "-lm"], check=True)
        print("| Case | decl | C | ratio | answers |")
        print("|---|---|---|---|---|")
        for name, text, log2, at, words in CASES:
            ask = [DECL, "run", "--log2", str(log2), f"cdf:{at}"]
            pairs = [(once(ask, text), once([plain, *words], None)) for _ in range(CALLS)]
            ours = statistics.median(ours[0] for ours, _ in pairs)
            theirs = statistics.median(theirs[0] for _, theirs in pairs)
            answers = f"{pairs[0][0][1]}; {pairs[0][1][1].split()[1]}"
            print(f"| {name} | {ours:.1f} ms | {theirs:.1f} ms | {ours / theirs:.1f} | {answers} |", flush=True)


main()
