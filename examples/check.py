#!/usr/bin/env python3
"""Runs the commands of the pages and of the examples as they stand, and compares what they write with what is stored.

A command stands behind `$ ` in an indented block of a page, or in the comment on top of an example, and what it writes
stands below it, up to a blank line or the next command. A line `..` stands for any lines. Where a command ends with
`> FILE`, what it writes is compared with that file, and the file is left alone. The program is DECL, else
crates/decl/out/decl; `decl` on the path of a command is that one. It fails where a kind of page, a file that is named, the
table of rules or the gallery has nothing to compare. The last line is 'N passed, M failed'.

    examples/check.py                   all
    examples/check.py FILE..            these
    examples/check.py --store FILE..    puts what the commands of these write below them, in place of what is stored
"""

import os
import pathlib
import re
import subprocess
import sys
import tempfile

ROOT = pathlib.Path(__file__).resolve().parent.parent
PAGES = ["README.md", "docs/*.md", "examples/*.decl", "examples/*/*.decl"]
#: The reports whose numbers are written into a picture of the gallery, with the column, the size of their buckets there, and how
#: the asks of these numbers begin.
DRAWN = {
    "common": [("common-years.csv", 2, 1, "tail"), ("common-years-alone.csv", 2, 1, "tail")],
    "exceedance": [("exceedance-years.csv", 1, 0.01, "")],
    "layers": [("layers.csv", 2, 1, "")],
    "long": [("long-years.csv", 1, 0.00025, "")],
    "tails": [("tails.csv", 2, 1, "")],
}
RULE = re.compile(r"\| \d+ [A-Za-z]+ \|.*\| `([^`]*)` \| `(decl: 1:\d+: [^`]*)` \|")


def code_lines(path):
    """The lines of the file that are code: indented in a page, a comment in an example; None where another line stands."""
    mark = "    " if path.suffix == ".md" else "#"
    for line in path.read_text(encoding="utf-8").splitlines():
        if not line.startswith(mark):
            yield None
        else:
            yield line[len(mark) :] if mark == "    " else line[len(mark) :].removeprefix("   ")


def commands(path):
    """Each command of the file with the lines that are stored below it."""
    found = []
    command = stored = None
    for line in [*code_lines(path), None]:
        if line is None or not line.strip() or line.startswith("$ "):
            if command is not None:
                found.append((command, stored))
            command = stored = None
        if line is not None and line.startswith("$ "):
            command, stored = line[2:], []
        elif command is not None and command.endswith("\\"):
            command += "\n" + line  # as it is pasted: inside single quotes the shell keeps the backslash
        elif command is not None:
            stored.append(line)
    return [(command, stored) for command, stored in found if stored or ">" in command]


def is_as_stored(written, stored):
    """Whether the lines are the stored ones, where `..` stands for any lines."""
    if ".." not in stored:
        return written == stored
    at = stored.index("..")
    tail = stored[at + 1 :]
    if written[:at] != stored[:at] or len(written) < at + len(tail):
        return False
    return ".." in tail or not tail or written[-len(tail) :] == tail


def run(command, world):
    """What the command writes, to both outputs."""
    done = subprocess.run(["bash", "-c", command], cwd=ROOT, env=world, stdin=subprocess.DEVNULL, capture_output=True)
    return (done.stdout + done.stderr).decode("utf-8", "replace").splitlines()


def check(path, world):
    """How many commands of the file wrote what is stored, and how many did not."""
    passed = failed = 0
    for command, stored in commands(path):
        kept = re.fullmatch(r"(.*[^>0-9])> *(\S+)", command, re.DOTALL)
        if kept:
            command, stored = kept[1], (ROOT / kept[2]).read_text(encoding="utf-8").splitlines()
        written = run(command, world)
        if is_as_stored(written, stored):
            passed += 1
        else:
            failed += 1
            print(f"FAILED: {path.relative_to(ROOT)}: $ {command}\nstored:", *stored[:20], "written:", *written[:20], sep="\n")
    return passed, failed


def store(path, world):
    """Puts what each command of the file writes below it, and into the file behind its `>`."""
    mark = "    " if path.suffix == ".md" else "#   "
    made, command, skips = [], None, False
    for line in [*path.read_text(encoding="utf-8").splitlines(), ""]:
        code = line[len(mark) :] if line.startswith(mark) else None
        skips = skips and code is not None and bool(code.strip()) and not code.startswith("$ ")
        if skips:
            continue
        made.append(line)
        if code is None or (command is None and not code.startswith("$ ")):
            command = None
            continue
        command = code[2:] if command is None else command + "\n" + code
        if not command.endswith("\\"):
            made += [mark + written for written in run(command, world)]
            command, skips = None, True
    path.write_text("\n".join(made[:-1]) + "\n", encoding="utf-8")


def check_rules(world):
    """The tables of rules: each text gets the message that stands beside it, by the standard rules, or by the extended ones."""
    passed = failed = 0
    standard, extended = (ROOT / "docs" / "LANGUAGE.md").read_text(encoding="utf-8").split("## The extended rules\n")
    calls = [("standard", *row) for row in RULE.findall(standard)] + [("extended", *row) for row in RULE.findall(extended)]
    for rules, text, message in calls:
        done = subprocess.run(["decl", "run", "--rules", rules, "pmf:0"], input=text.encode(), env=world, capture_output=True)
        if done.stderr.decode() == message + "\n" and done.returncode == 3:
            passed += 1
        else:
            failed += 1
            print(f"FAILED: docs/LANGUAGE.md: {text}\nstored:\n{message}\nwritten:\n{done.stderr.decode()}")
    return some("the rules of docs/LANGUAGE.md", passed, failed)


def check_pictures():
    """Each picture of the gallery is there as PNG and as SVG, with the numbers of the stored report that are written into it."""
    passed = failed = 0
    folder = ROOT / "examples" / "gallery"
    for path in sorted(folder.glob("*.decl")):
        drawing = path.with_suffix(".svg").read_text(encoding="utf-8") if path.with_suffix(".svg").exists() else ""
        there = set(re.findall(r">\s*([^<>]*?)\s*</", drawing))
        missing = []
        for report, column, size, begin in DRAWN.get(path.stem, []):
            rows = [row for row in (folder / report).read_text(encoding="utf-8").splitlines()[1:] if row.startswith(begin)]
            missing += [row for row in rows if f"{float(row.split(',')[column]) * size:.2f}" not in there]
        if drawing and path.with_suffix(".png").exists() and not missing:
            passed += 1
        else:
            failed += 1
            print(f"FAILED: {path.relative_to(ROOT)}: its picture has not:", *missing, sep="\n")
    return some("the pictures of examples/gallery", passed, failed)


def check_plot():
    """The names that examples/plot_cdf.sh is given are in none of the words of gnuplot, which runs what stands in them: a program in its
    place keeps its words, and the picture comes under each name."""
    passed = failed = 0
    with tempfile.TemporaryDirectory() as folder:
        room = pathlib.Path(folder)
        (room / "gnuplot").write_text('#!/bin/sh\nprintf "%s\\n" "$@" >> "$WORDS"\nwc -l < rows > picture\n')
        (room / "gnuplot").chmod(0o755)
        (room / "report.csv").write_text("ask,low,high\ncdf:0,0.1,0.2\nmean,1,1\ncdf:1,0.3,0.4\n")
        world = {**os.environ, "PATH": folder + os.pathsep + os.environ["PATH"], "WORDS": str(room / "words")}
        for name in ("plain.png", "a'; system('touch ran'); b='.png", "|touch ran", "-o", "two\nlines"):
            done = subprocess.run([ROOT / "examples" / "plot_cdf.sh", "report.csv", name], cwd=room, env=world, capture_output=True)
            drawn = (room / name).read_text() if (room / name).exists() else ""
            if done.returncode == 0 and drawn.split() == ["2"] and name not in (room / "words").read_text():
                passed += 1
            else:
                failed += 1
                print(f"FAILED: examples/plot_cdf.sh: {name!r}\n{done.stderr.decode()}")
    return some("examples/plot_cdf.sh", passed, failed)


def check_all(what, paths, world):
    """How many commands of these files passed, and how many failed; one more where they have none."""
    counts = [check(path, world) for path in paths]
    passed, failed = (sum(count[side] for count in counts) for side in (0, 1))
    return some(what, passed, failed)


def some(what, passed, failed):
    """The two numbers, and a failure where both are 0."""
    if passed + failed == 0:
        print(f"FAILED: {what}: nothing to compare")
        return 0, 1
    return passed, failed


def main():
    """Checks the named files, or all."""
    built = os.path.abspath(os.environ.get("DECL") or ROOT / "crates" / "decl" / "out" / "decl")
    stores = "--store" in sys.argv
    named = [pathlib.Path(name).resolve() for name in sys.argv[1:] if name != "--store"]
    groups = {str(path): [path] for path in named} or {page: sorted(ROOT.glob(page)) for page in PAGES}
    with tempfile.TemporaryDirectory() as folder:
        os.symlink(built, os.path.join(folder, "decl"))
        world = {**os.environ, "PATH": folder + os.pathsep + os.environ["PATH"], "DECL": built}
        world["PYTHONPATH"] = str(ROOT / "clients" / "python" / "src")
        for path in named if stores else []:
            store(path, world)
        counts = [check_all(what, paths, world) for what, paths in groups.items()]
        if not named:
            counts += [check_rules(world), check_pictures(), check_plot()]
    passed, failed = (sum(count[side] for count in counts) for side in (0, 1))
    print(f"{passed} passed, {failed} failed")
    return 1 if failed else 0


if __name__ == "__main__":
    sys.exit(main())
