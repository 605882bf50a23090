#!/usr/bin/env python3
"""Checks that each number above 2^20 in the code and the definitions of the crates has a name in dl_limits, with what it bounds and in
which unit: `2 ^ 97`, `1 << 97` or its digits stand there alone. What a machine word holds (2^32, 2^64, 2^128) may stand anywhere, and
other numbers in the places below. Tests, comments and texts are left out. The last line is 'N passed, M failed'."""
import pathlib
import re
import sys

CRATES = pathlib.Path(__file__).resolve().parent.parent / "crates"
MOST = 2**20
WORDS = {2**bits - low for bits in (32, 64, 128) for low in (0, 1)}

# the places where a number may stand bare, and why
ALLOWED = {
    "dl_limits/": "the names themselves",
    "dl_streams/src/whole.rt": "half a word of 32 bits, of any reader: the crate stands on no other",
    "dl_top/src/parts.rt": "what that reader takes",
    "dl_top/specs/Made.antt": "the multiplier and the increment of a generator",
    "dl_top/src/generator.rt": "the same, computed",
    "dl_recursion/src/quotient.rt": "half a word of 128 bits, in guesses on which no quotient rests",
    "dl_transform/": "two primes of 62 bits and words with a bit to spare, which speak of nothing outside",
}

NUMBER = re.compile(
    r"\b(?P<base>2|10) ?\^ ?(?P<power>\d+)\b"
    r"|\b1(?:[ui]\d+|usize)? ?<< ?(?P<shift>\d+)\b"
    r"|\b0x(?P<hex>[0-9a-fA-F_]+)\b"
    r"|\b(?P<digits>\d[\d_]*)(?:[ui](?:8|16|32|64|128|size))?\b"
)


def value(found):
    """The number that was found."""
    if found["base"]:
        return int(found["base"]) ** int(found["power"])
    if found["shift"]:
        return 1 << int(found["shift"])
    return int((found["hex"] or found["digits"]).replace("_", ""), 16 if found["hex"] else 10)


def bare_numbers(path):
    """The lines of a file with a number above 2^20 that no word holds, each with its number."""
    comment = re.compile(r"//.*" if path.suffix == ".rt" else r"(^|\s)--(\s.*)?$")
    for row, line in enumerate(path.read_text(encoding="utf-8").split("\n"), 1):
        for found in NUMBER.finditer(comment.sub("", re.sub(r'b?"([^"\\]|\\.)*"', '""', line))):
            if value(found) > MOST and value(found) not in WORDS:
                yield row, line.strip()


def main():
    passed = failed = 0
    for path in sorted([*CRATES.glob("*/src/**/*.rt"), *CRATES.glob("*/specs/**/*.antt")]):
        name = path.relative_to(CRATES).as_posix()
        if name.split("/")[0].endswith("_tests") or any(name.startswith(place) for place in ALLOWED):
            continue
        bare = list(bare_numbers(path))
        passed += not bare
        failed += bool(bare)
        for row, line in bare:
            print(f"FAILED: crates/{name}:{row}: a number without a name of dl_limits: {line}")
    if passed == 0:
        failed += 1
        print("FAILED: no file was read")
    print(f"{passed} passed, {failed} failed")
    return failed > 0


if __name__ == "__main__":
    sys.exit(main())
