#!/usr/bin/env python3
"""Says of each row of a report of decl whether it agrees with an evaluator that shares nothing with decl (clients/opinion).

    python3 clients/second_opinion.py PROGRAM REPORT [OPTION].. [ASK]..

PROGRAM is the file of the text, and REPORT that of what decl wrote, or `-` for standard input: rows as text, CSV or JSON, or the message of a refusal, or with the
one option --fmt the canonical text. The options are those of the call: --bs, --log2, --digits, --width, --mwidth, --rules; without --digits
they are those of the rows. Asks are named only where REPORT is a refusal of one. There is a line for each row: `agrees`, `not: ..` or
`too large: ..`, and the row. A row agrees where an interval of its own, of at most a tenth of the last digit, meets the two ends, and these
lie as close together as asked; a refusal where rule and place are the same. How much width an ask needs is worked by
clients/widths.py, not here. The status is 0 only where all agree.
"""

import re
import sys

from opinion import AGREES, Fault, Opinion, read, read_words


def of_refusal(source, report, options):
    """What is said of a refusal."""
    try:
        read_words(["run", *options])
    except Fault:
        options = [*options, "mean"]  # no ask is named, as for a fault of the text
    opinion = Opinion(source, ["run", *options])
    if opinion.book and re.fullmatch(r"decl: ask \d+: needs width \d+\n", report):
        return "too large: how much width is needed is worked by clients/widths.py"
    return AGREES if opinion.fault == report else f"not: {opinion.fault or 'no refusal is due'}"


def said(source, report, options):
    """What is said of each line of a report."""
    if "--fmt" in options:
        opinion = Opinion(source, ["fmt"])
        return [(AGREES if opinion.text == report else f"not: {opinion.text or opinion.fault}", report)]
    if report.startswith("decl: "):
        return [(of_refusal(source, report, options), report)]
    rows, form = read(report)
    digits = max((len(end.partition(".")[2]) for row in rows for end in row[1:]), default=0)
    given = [] if any(word.startswith("--digits") for word in options) or not digits else ["--digits", str(digits)]
    opinion = Opinion(source, ["run", "--format", form, *given, *options, *(row[0] for row in rows)])
    found = [f"not: {opinion.fault}"] if opinion.fault else opinion.of_report(report)
    return list(zip(found, map(" ".join, rows))) if len(found) == len(rows) else [(found[0], report)]


def main():
    """Reads both files and says what it finds."""
    if len(sys.argv) < 3 or sys.argv[1].startswith("-"):
        sys.exit(__doc__)
    source, report = (open(0 if path == "-" else path, encoding="latin-1", newline="").read() for path in sys.argv[1:3])
    found = said(source, report, sys.argv[3:])
    for verdict, row in found:
        print(verdict.rstrip("\n"), row.rstrip("\n"), sep="  ")
    return 0 if all(verdict == AGREES for verdict, _ in found) else 1


if __name__ == "__main__":
    sys.exit(main())
