#!/usr/bin/env python3
"""Writes the sentences of the typing rules into the Python client and the R client, from the one file that has them.

    python3 clients/sentences.py [--check]

A line of clients/sentences.txt is the number of a rule, a tab and its sentence, where `{bucket}` is the call that tells the greatest
bucket. Each package is installed alone, so each has the sentences in a file of its own: with --check nothing is written, and the last
line is 'N passed, M failed'.
"""

import pathlib
import re
import sys

HERE = pathlib.Path(__file__).resolve().parent
PYTHON, R = HERE / "python" / "src" / "decl" / "rules.py", HERE / "r" / "R" / "sentences.R"


def sentences():
    """Each rule with its sentence, by its number."""
    lines = (HERE / "sentences.txt").read_text(encoding="utf-8").splitlines()
    found = {int(number): told for number, told in (line.split("\t") for line in lines)}
    if len(found) < len(lines) or list(found) != sorted(found) or min(found) != 1:
        sys.exit("clients/sentences.txt: a line is the number of a rule, a tab and its sentence, from rule 1 on, in their order")
    return found


def in_python(found):
    """The file of the Python client with these sentences."""
    body = "".join(f'    {number}: "{told.format(bucket="decl.bucket(text)")}",\n' for number, told in found.items())
    return re.sub(r"(?s)(?<=^SENTENCES: Dict\[int, str\] = \{\n).*?(?=^\}\n)", lambda _: body, PYTHON.read_text(encoding="utf-8"), flags=re.M)


def in_r(found):
    """The file of the R client with these sentences."""
    told = (found.get(number, "").format(bucket="decl_bucket(text)") for number in range(1, max(found) + 1))
    body = ",\n".join(f'    "{each}"' for each in told)
    return (
        "# What each typing rule asks, by its number; docs/LANGUAGE.md has them as a table, with examples. From clients/sentences.txt.\n"
        f"decl_sentences <- c(\n{body}\n)\n"
    )


def main(words):
    """Writes both files, or compares them."""
    found = sentences()
    texts = {PYTHON: in_python(found), R: in_r(found)}
    if words == ["--check"]:
        apart = [path for path, text in texts.items() if path.read_text(encoding="utf-8") != text]
        for path in apart:
            print(f"{path}: its sentences are not those of clients/sentences.txt: python3 clients/sentences.py writes them")
        print(f"{len(texts) - len(apart)} passed, {len(apart)} failed")
        return 1 if apart else 0
    if words:
        sys.exit(__doc__)
    for path, text in texts.items():
        path.write_text(text, encoding="utf-8")
    return 0


if __name__ == "__main__":
    sys.exit(main(sys.argv[1:]))
