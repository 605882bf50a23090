#!/usr/bin/env python3
"""Writes the parts of docs/PROOFS.md that follow from the sources: what is proved crate by crate, which wrong program each edit plants, and
the lines of each crate.

A crate has the text at the head of its root file, and each public function with the names of its clauses. An edit has its comment, and
its line `# refused by:`. With `--check` nothing is written: the page has to be what the sources say, and each edit needs one line
`# shows:`, one `# refused by:` and a comment. The last line is then 'N passed, M failed'.
"""

import pathlib
import re
import subprocess
import sys
import textwrap

ROOT = pathlib.Path(__file__).resolve().parent.parent
PAGE = ROOT / "docs" / "PROOFS.md"
PARTS = ("crates", "edits", "lines")
WIDTH = 130
FUNCTION = re.compile(r"( *)pub (?:const )?fn (\w+)")
BLOCK = re.compile(r"(?:pub )?(?:impl|trait)\b(?:<[^{]*?>)?\s+(?:[\w:<>', ]+ for )?(\w+)")
CLAUSE = re.compile(r" *(ensures|law)\b ?(\w*) ?\{")
USED = re.compile(r"^pub use (?:crate::)?(\w+)(?:::\w+)*::(?:\{([^}]*)\}|(\w+));", re.M)
MODULE = re.compile(r"^pub mod (\w+);", re.M)


def crates():
    """The names of the crates, lowest first."""
    lines = (ROOT / "crates.txt").read_text(encoding="utf-8").splitlines()
    return [re.split(r"[ :]", line)[0] for line in lines if line and not line.startswith("#")]


def head_of(text):
    """The comment at the head of a root file, as paragraphs."""
    lines = [line[3:].strip() for line in text.splitlines() if line.startswith("//!")]
    return [" ".join(it.split()) for it in re.sub(r"\[(`[^`]+`)\]", r"\1", "\n".join(lines)).split("\n\n") if it.strip()]


def clauses_of(lines):
    """The names of what is promised by the function whose lines these are, up to its body; "" for a clause without a name."""
    names = []
    for line in lines[1:]:
        if line.strip() == "{" or FUNCTION.match(line) or line.startswith("}"):
            break
        found = CLAUSE.match(line)
        names += [found[2]] if found else []
    return names


def functions_of(path):
    """The public functions of a file: the type of which each is a method, or none, its name, and the names of its clauses."""
    lines, block, found = path.read_text(encoding="utf-8").splitlines(), None, []
    for at, line in enumerate(lines):
        opened, function = BLOCK.match(line), FUNCTION.match(line)
        if opened:
            block = opened[1]
        elif line == "}":
            block = None
        if function:
            names = clauses_of(lines[at:])
            if names:
                found.append((block if function[1] else None, function[2], names))
    return found


def is_public(root, path, block, name):
    """Whether a function of this file can be named outside of the crate."""
    if path.stem == "lib" or path.stem in MODULE.findall(root):
        return True
    for found in USED.finditer(root):
        names = [it.strip().split(" ")[0] for it in (found[2] or found[3]).split(",")]
        if (block or name) in names:
            return True
    return False


def promises_of(crate):
    """The public functions of a crate with the names of their clauses, as a sentence."""
    source = ROOT / "crates" / crate / "src"
    root, said = (source / "lib.rt").read_text(encoding="utf-8"), []
    for path in sorted(source.rglob("*.rt")):
        for block, name, names in functions_of(path):
            if not is_public(root, path, block, name):
                continue
            named = ", ".join(f"`{it}`" for it in names if it)
            said.append(f"`{block + '::' if block else ''}{name}`" + (f" ({named})" if named else ""))
    return said


def crates_part():
    """What is proved, crate by crate."""
    written = []
    for crate in crates():
        root = ROOT / "crates" / crate / "src" / "lib.rt"
        if crate.endswith("_tests") or not root.exists():
            continue
        written += [f"### `{crate}`", ""]
        for paragraph in head_of(root.read_text(encoding="utf-8")):
            written += [*textwrap.wrap(paragraph, WIDTH, break_long_words=False, break_on_hyphens=False), ""]
        said = promises_of(crate)
        if said:
            written += [*textwrap.wrap("Promised: " + ", ".join(said) + ".", WIDTH, break_long_words=False, break_on_hyphens=False), ""]
    return written


class Edit:
    """A wrong program: its crate and name, what it does, what refuses it, and what its lines lack."""

    def __init__(self, path):
        self.name = f"{path.parts[-3]}/{path.stem}"
        lines = path.read_text(encoding="utf-8").splitlines()
        notes = [line[2:].strip() for line in lines if line.startswith("# ")]
        prose = [it for it in notes if not it.startswith(("shows:", "refused by:"))]
        refused = [it[len("refused by:") :].strip() for it in notes if it.startswith("refused by:")]
        self.prose, self.refused = " ".join(prose).rstrip("."), " ".join(refused)
        counts = [("# shows:", sum(it.startswith("shows:") for it in notes)), ("# refused by:", len(refused))]
        self.lacks = [f"{self.name} has not one line '{what}'" for what, count in counts if count != 1]
        self.lacks += [] if prose else [f"{self.name} has no comment that says what the wrong program does"]


def edits():
    """All edits, in the order of the crates."""
    folders = [ROOT / "crates" / crate / "must-fail" for crate in crates()]
    return [Edit(path) for folder in folders for path in sorted(folder.glob("*.edit"))]


def edits_part():
    """Which wrong program each edit plants, and what refuses it."""
    rows = [f"| `{it.name}` | {it.prose} | {it.refused} |" for it in edits()]
    return ["| Edit | Wrong program | Refused by |", "|---|---|---|", *rows, ""]


def lines_part():
    """The lines of each crate."""
    ran = subprocess.run([ROOT / "scripts" / "lines.sh"], stdout=subprocess.PIPE, encoding="utf-8", check=True)
    return [*ran.stdout.splitlines(), ""]


def page():
    """The page as it is, and as the sources say it."""
    text = PAGE.read_text(encoding="utf-8")
    made = text
    for part, write in zip(PARTS, (crates_part, edits_part, lines_part)):
        begin, end = f"<!-- {part}: scripts/proofs_page.py -->\n", f"<!-- end of {part} -->\n"
        head, _, rest = made.partition(begin)
        made = head + begin + "\n" + "\n".join(write()) + "\n" + end + rest.partition(end)[2]
    return text, made


def main():
    """Writes the page, or checks it; the status to end with."""
    text, made = page()
    if sys.argv[1:] != ["--check"]:
        PAGE.write_text(made, encoding="utf-8")
        return 0
    all_edits = edits()
    lacks = [lack for it in all_edits for lack in it.lacks]
    if text != made:
        lacks.append("docs/PROOFS.md is not what the sources say: scripts/proofs_page.py writes it")
    print(*lacks, sep="\n", end="\n" if lacks else "")
    print(f"{2 * len(all_edits) + 1 - len(lacks)} passed, {len(lacks)} failed")
    return 1 if lacks else 0


if __name__ == "__main__":
    sys.exit(main())
