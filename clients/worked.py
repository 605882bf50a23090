#!/usr/bin/env python3
"""Works the calls of clients/calls.txt and clients/rules.txt apart from the program, by the second opinion (clients/opinion).

Each row has to hold its value and to be as narrow as asked, each refusal to name the first broken rule and its place, and each canonical
text to be that of its program. Certificates are checked by clients/steps_test.py, and the widths that asks need by clients/widths.py.
The last line is 'N passed, M failed'.
"""

import sys

from calls import TOO_WIDE, table
from opinion import AGREES, Opinion


def found(call):
    """What is said of each row, refusal or canonical text of a call; of a line with a choice, of each of the two."""
    opinion = Opinion(call.source.encode().decode("latin-1"), call.words)
    if opinion.book is None or call.status:
        due = opinion.status, (opinion.text or "").encode("latin-1").decode(), opinion.fault or ""
        return [AGREES if due == (call.status, call.out, call.err) else f"not: {due}"]
    lines = [line.split(" | ") for line in call.out.splitlines()]
    reports = ["".join(line[min(k, len(line) - 1)] + "\n" for line in lines) for k in (0, 1)]
    return [each for report in sorted(set(reports)) for each in opinion.of_report(report)]


def main():
    """Works each call."""
    passed = failed = 0
    for call in table():
        if {"cert", "verify"} & set(call.words) or call.status == TOO_WIDE:
            continue
        said = found(call)
        wrong = [each for each in said if each != AGREES]
        passed, failed = passed + len(said) - len(wrong), failed + len(wrong)
        if wrong:
            print("FAILED:", " ".join(call.words), call.source, *wrong, sep="\n")
    print(f"{passed} passed, {failed} failed")
    return 1 if failed else 0


if __name__ == "__main__":
    sys.exit(main())
