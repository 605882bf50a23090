#!/usr/bin/env python3
"""Checks docs/decl.1 against the other pages, and runs its examples.

It renders without a warning (which is skipped where groff is not installed); each line of the synopsis, option, ask and message of
docs/USAGE.md and each rule of docs/LANGUAGE.md is in it; and each example writes what stands below it, where `$ cat FILE` makes the
file. The program is DECL, else crates/decl/out/decl. The last line is 'N passed, M failed, K skipped'.
"""

import os
import pathlib
import re
import shutil
import subprocess
import sys
import tempfile

ROOT = pathlib.Path(__file__).resolve().parent.parent
PAGE = ROOT / "docs" / "decl.1"


def read(name):
    """The text of a file of the repository."""
    return (ROOT / name).read_text(encoding="utf-8")


def plain(text):
    """A page as it is read: without requests, fonts and escapes, with one blank between two words."""
    words = []
    for line in text.splitlines():
        alternates = re.match(r"\.(BI|IB|RI|IR|BR|RB) (.*)", line)
        if alternates:
            parts = re.findall(r'"([^"]*)"|(\S+)', alternates[2])
            words.append("".join(quoted or bare for quoted, bare in parts))
        else:
            words.append(re.sub(r"^\.(B|I|SH|TP|PP|nf|fi|br|RS|RE)\b ?", "", line))
    return " ".join(re.sub(r"\\f.|\\&", "", " ".join(words)).replace("\\-", "-").replace('"', "").split())


def named():
    """What the man page has to say, each with the page that says it too."""
    usage = read("docs/USAGE.md")
    for option in re.findall(r"^\| `(--[a-z0-9]+) ", usage, re.M):
        yield "docs/USAGE.md", option
    for synopsis in re.findall(r"^    (decl .*)$", usage[: usage.index("    $ ")], re.M):
        yield "docs/USAGE.md", synopsis.replace("TEXT_AND_STEPS", "FILE_AND_STEPS").replace("< TEXT", "< FILE")
    for ask in re.findall(r"^\| `([^`]+)` \|", usage[usage.index("## Asks") : usage.index("## Options")], re.M):
        yield "docs/USAGE.md", ask
    for message in re.findall(r"`(decl: [^`]*)`", usage[usage.index("## How it ends") :]):
        yield "docs/USAGE.md", message
    for number, name in re.findall(r"^\| (\d+) ([A-Z][A-Za-z]+) \|", read("docs/LANGUAGE.md"), re.M):
        yield "docs/LANGUAGE.md", f"{number} {name}"


def examples():
    """The commands of the page, each with the lines below it."""
    found = []
    for block in re.findall(r"^\.nf\n(.*?)^\.fi", PAGE.read_text(), re.M | re.S):
        for line in block.replace("\\-", "-").splitlines():
            if line.startswith("    $ "):
                found.append((line[6:], []))
            elif found and line.startswith("    "):
                found[-1][1].append(line[4:])
    return found


def wrong():
    """For each thing that is checked, what is wrong with it, or nothing."""
    if shutil.which("groff"):
        done = subprocess.run(["groff", "-ww", "-man", "-Tutf8", PAGE], capture_output=True, text=True)
        yield done.stderr and f"groff warns: {done.stderr}"
    text = plain(PAGE.read_text())
    for place, words in named():
        yield words not in text and f"{place} says {words}, and the man page does not"
    built = os.path.abspath(os.environ.get("DECL") or ROOT / "crates" / "decl" / "out" / "decl")
    with tempfile.TemporaryDirectory() as folder:
        os.symlink(built, pathlib.Path(folder) / "decl")
        world = {**os.environ, "PATH": folder + os.pathsep + os.environ["PATH"]}
        for command, stored in examples():
            if command.startswith("cat "):
                pathlib.Path(folder, command[4:]).write_text("\n".join(stored) + "\n")
                continue
            done = subprocess.run(["bash", "-c", command], cwd=folder, env=world, capture_output=True, text=True)
            yield (done.stdout + done.stderr).splitlines() != stored and f"$ {command}\nwrites\n{done.stdout}{done.stderr}"


def main():
    """Checks the page."""
    found = [*wrong()]
    for what in filter(None, found):
        print("FAILED:", what)
    failed, skipped = sum(map(bool, found)), 0
    if not shutil.which("groff"):
        skipped = 1
        print("SKIPPED: whether the page renders without a warning: groff is not installed")
    print(f"{len(found) - failed} passed, {failed} failed, {skipped} skipped")
    return 1 if failed else 0


if __name__ == "__main__":
    sys.exit(main())
