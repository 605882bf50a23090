#!/usr/bin/env python3
"""Tests `.ci/build` and `.ci/test` on a small repository and a program in place of `rt`, which writes what rt writes: what is proved,
what is told and counted, and what is left where it fails or is stopped.

The last line is 'N passed, M failed'.
"""

import importlib.machinery
import importlib.util
import json
import os
import pathlib
import re
import shutil
import signal
import subprocess
import sys
import tempfile
import time
import unittest
import zlib

import installs

ROOT = pathlib.Path(__file__).resolve().parent.parent
CRATES = """# lowest first
low:
mid: low thiserror
side: low   # beside mid
decl: mid side
low_tests: low
apart:
"""
FILES = ["low/must-fail/wrong.edit", "low/specs/Low.antt", "low/proofs/Lib.antt", "low/out/kept", "decl/stdin"]
ANY = """#!/usr/bin/env python3
import json, os, pathlib, sys, time
files = sorted(str(it) for it in pathlib.Path(".").rglob("*") if it.is_file())
rows = open("crates.txt").read().splitlines() if sys.argv[1] == "ci" else []
said = {"words": sys.argv[1:], "place": os.path.basename(os.getcwd()), "files": files, "rows": rows, "given": sys.stdin.read()}
if sys.argv[1] == "try":
    said.update(texts=[open(it).read() for it in files], above=open("../../crates.txt").read().splitlines())
pathlib.Path(os.environ["SAID"]).write_text(json.dumps(said))
way = os.environ["WAY"]
if way == "waits":
    time.sleep(60)
if sys.argv[1] == "try":
    is_wrong = way == "fails"
    print(f"test low_tests::one ... {'FAILED' if is_wrong else 'ok'}", f"test result: {'FAILED' if is_wrong else 'ok'}. 3 passed; {int(is_wrong)} failed; 0 ignored", sep="\\n")
    sys.exit(is_wrong)
for name in ("low", "side", "mid", "decl"):
    if sys.argv[1] == "run":
        print(f"crate {name}: modules loaded=1 checked=2")
    elif way == "fails" and name == "side":
        print("== side", "fn side::well: proved", "error: side::wrong is not proved", "rt: side NOT PROVED", sep="\\n")
        print("1 passed, 1 failed")
        sys.exit(1)
    else:
        ends = "is kept: an earlier run proved the same" if name == "low" else "proved"
        print(f"== {name}", f"fn {name}::well: proved", f"rt: {name} {ends}", sep="\\n")
if way == "gate":
    print("rt: low: its tests are proved", "rt: must-fail low/wrong.edit: refused, as it must be", "rt: ok", sep="\\n")
    print("5 passed, 0 failed")
program = pathlib.Path("out/decl" if sys.argv[1] == "run" else "crates/decl/out/decl")
program.parent.mkdir(exist_ok=True)
program.write_text("#!/bin/sh\\n")
program.chmod(0o755)
"""


class Case(unittest.TestCase):
    """A test with a small repository."""

    def setUp(self):
        room = tempfile.TemporaryDirectory()
        self.addCleanup(room.cleanup)
        self.room = pathlib.Path(room.name)
        self.top = self.room / "top"
        for name in ("low", "mid", "side", "decl", "low_tests", "apart"):
            self.put(f"crates/{name}/src/{'main' if name == 'decl' else 'lib'}.rt", "//\n")
        for name in FILES:
            self.put(f"crates/{name}", "")
        self.put("crates.txt", CRATES)
        self.put("HANDLES", "Handles allowed: none.\n")
        self.put("examples/die.decl", "agg Die dfreq [1] dsev [1:6]\n")
        for name in (".ci/build", ".ci/test"):
            self.put(name, (ROOT / name).read_text(encoding="utf-8")).chmod(0o755)
        self.tools, self.copies = self.room / "tools", self.room / "copies"
        self.copies.mkdir()
        self.program = self.top / "crates" / "decl" / "out" / "decl"

    def put(self, name, text):
        """Writes a file of the small repository; its path."""
        path = self.top / name
        path.parent.mkdir(parents=True, exist_ok=True)
        path.write_text(text, encoding="utf-8")
        return path

    def begin(self, way, command=".ci/build", *words):
        """The command with the program in place of `rt`; that fails or waits where `way` says so."""
        self.tools.mkdir()
        (self.tools / "rt").write_text(ANY, encoding="utf-8")
        (self.tools / "rt").chmod(0o755)
        world = {**os.environ, "PATH": f"{self.tools}:{os.environ['PATH']}", "TMPDIR": str(self.copies)}
        world.update(WAY=way, SAID=f"{self.room}/said")
        words = [sys.executable, "-B", str(self.top / command), *words]
        return subprocess.Popen(words, env=world, stdout=subprocess.PIPE, stderr=subprocess.STDOUT, text=True)

    def ended(self, *words):
        """The status and the lines of the command, once it has ended; no copy is left."""
        with self.begin(*words) as ran:
            lines = ran.stdout.read().splitlines()
        self.assertEqual([*self.copies.iterdir()], [])
        return ran.returncode, lines

    def without_kit(self, command):
        """The same of the command where no `rt` is on the path."""
        self.tools.mkdir()
        os.symlink(shutil.which("env"), self.tools / "env")
        words = [sys.executable, "-B", str(self.top / command)]
        done = subprocess.run(words, env={"PATH": str(self.tools)}, stdout=subprocess.PIPE, stderr=subprocess.STDOUT, text=True)
        return done.returncode, done.stdout.splitlines()

    def said(self):
        """How `rt` was called, and on what files."""
        return json.loads((self.room / "said").read_text(encoding="utf-8"))


class Builds(Case):
    """A build of the small repository."""

    def test_what_the_program_stands_on_is_proved(self):
        status, _ = self.ended("well")
        self.assertEqual((status, os.access(self.program, os.X_OK)), (0, True))
        said = self.said()
        self.assertEqual(said["words"], ["ci"])
        self.assertEqual(said["rows"], CRATES.splitlines()[1:5])
        wanted = ["HANDLES", "crates.txt", "crates/decl/src/main.rt", "crates/decl/stdin", "crates/low/proofs/Lib.antt"]
        wanted += ["crates/low/specs/Low.antt", "crates/low/src/lib.rt", "crates/mid/src/lib.rt", "crates/side/src/lib.rt"]
        self.assertEqual(said["files"], wanted)

    def test_each_crate_is_told_in_a_line(self):
        _, lines = self.ended("well")
        self.assertEqual(lines[0], "decl: proves and builds 4 crates, side by side; the first time this takes many minutes")
        told = [re.sub(r", about \d+ min \d+ s left$", ", TIME", line) for line in lines[1:5]]
        self.assertEqual(told[0], "decl:  1 of 4, low was proved before")
        self.assertIn(told[1], ("decl:  2 of 4, side proved", "decl:  2 of 4, side proved, TIME"))
        self.assertEqual(told[2:], ["decl:  3 of 4, mid proved, TIME", "decl:  4 of 4, decl proved"])
        self.assertRegex(lines[5], r"\Adecl: done in \d+ min \d+ s, \d+ min \d+ s of processor time: crates/decl/out/decl\Z")
        self.assertEqual(len(lines), 6)

    def test_what_fails_is_told_and_nothing_replaced(self):
        self.put("crates/decl/out/decl", "an older program")
        status, lines = self.ended("fails")
        self.assertEqual(status, 1)
        self.assertEqual(lines[2:5], ["== side", "error: side::wrong is not proved", "rt: side NOT PROVED"])
        self.assertRegex(lines[5], r"\Adecl: FAILED after \d+ min \d+ s, \d+ min \d+ s of processor time\Z")
        self.assertEqual(self.program.read_text(), "an older program")

    def test_kept_work_is_gone_on_from(self):
        for name in ("low", "mid", "side"):
            (self.top / "crates" / name / "out" / "incremental").mkdir(parents=True)
        status, lines = self.ended("well")
        said = self.said()
        self.assertEqual((status, said["words"], said["place"]), (0, ["run", "--", "run", "pmf:3"], "decl"))
        self.assertEqual(said["given"], "agg Die dfreq [1] dsev [1:6]\n")
        self.assertEqual(lines[0], "decl: proves and builds 4 crates over what rt check has kept")
        self.assertRegex(lines[4], r"\Adecl: decl proved, after \d+ min \d+ s\Z")

    def test_kept_work_of_some_crates_is_not_enough(self):
        (self.top / "crates" / "low" / "out" / "incremental").mkdir()
        self.ended("well")
        self.assertEqual(self.said()["words"], ["ci"])

    def test_a_build_that_is_stopped_leaves_nothing(self):
        with self.begin("waits") as ran:
            while not (self.room / "said").exists():
                time.sleep(0.05)
            ran.send_signal(signal.SIGTERM)
            ran.stdout.read()
        self.assertEqual(ran.returncode, 143)
        self.assertEqual([*self.copies.iterdir()], [])

    def test_the_time_that_is_left_does_not_jump(self):
        loader = importlib.machinery.SourceFileLoader("build", str(ROOT / ".ci" / "build"))
        build = importlib.util.module_from_spec(importlib.util.spec_from_loader("build", loader))
        loader.exec_module(build)
        progress = build.Progress(build.needed())
        took = {name: 2 * (0.8 + zlib.crc32(name.encode()) % 40 / 100) * each for name, each in progress.weights.items()}
        waits, runs, before, now = [*progress.crates], {}, None, 0
        while waits or runs:
            ready = [name for name in waits if all(below in progress.ends for below in progress.crates[name])]
            for name in sorted(ready, key=progress.chains.get, reverse=True)[: progress.lanes - len(runs)]:
                waits.remove(name)
                runs[name] = now + took[name]
            name, last, now = min(runs, key=runs.get), now, min(runs.values())
            progress.ends[name] = runs.pop(name)
            left = progress.left(name, now)
            if before is not None and left is not None and len(progress.ends) > len(took) / 10:
                self.assertLess(abs(left - before + now - last), before / 3)
            before = left

    def test_no_kit(self):
        status, lines = self.without_kit(".ci/build")
        self.assertEqual((status, len(lines)), (1, 1))
        self.assertIn("a build needs the Rattle kit, and there is no `rt` on the path", lines[0])


class Tests(Case):
    """The one test command, and its short form."""

    def clients(self, line, status=0):
        """Puts tests of the clients in place that write this line and end so."""
        self.put("clients/test", f"#!/bin/sh\necho 'clients: one part'\necho '{line}'\nexit {status}\n").chmod(0o755)

    def test_both_are_counted(self):
        self.clients("7 passed, 0 failed, 2 skipped")
        status, lines = self.ended("gate", ".ci/test")
        self.assertEqual((status, lines[-1]), (0, "12 passed, 0 failed, 2 skipped"))
        self.assertEqual(lines[-4], "clients: one part")
        self.assertNotIn("5 passed, 0 failed", lines)

    def test_the_times_of_the_parts(self):
        self.clients("7 passed, 0 failed, 0 skipped")
        _, lines = self.ended("gate", ".ci/test")
        time = r"\d+ min \d+ s"
        marks = [f"{what} after {time}" for what in ("crates proved", "tests proved", "must-fail edits tried", "all run")]
        self.assertRegex(lines[-3], rf"\Art ci: {', '.join(marks)}\Z")
        self.assertRegex(lines[-2], rf"\Aclients: {time}; both: {time}, {time} of processor time, on \d+ processors\Z")

    def test_what_fails_is_counted(self):
        for line, ends, wanted in (
            ("7 passed, 1 failed, 0 skipped", 1, "12 passed, 1 failed, 0 skipped"),
            ("7 passed, 0 failed, 0 skipped", 1, "12 passed, 1 failed, 0 skipped"),
            ("broken off", 1, "5 passed, 1 failed, 0 skipped"),
        ):
            self.clients(line, ends)
            status, lines = self.ended("gate", ".ci/test")
            self.assertEqual((status, lines[-1]), (1, wanted))
            shutil.rmtree(self.tools)

    def test_without_proofs(self):
        self.clients("7 passed, 0 failed, 1 skipped")
        status, lines = self.ended("well", ".ci/test", "--quick")
        self.assertEqual((status, lines), (1, ["decl: there is no crates/decl/out/decl to test: `make` builds it", "0 passed, 1 failed, 0 skipped"]))
        self.put("crates/decl/out/decl", "").chmod(0o755)
        for way, failed in (("well", 0), ("fails", 1)):
            shutil.rmtree(self.tools)
            status, lines = self.ended(way, ".ci/test", "--quick")
            self.assertEqual((status, lines[-1]), (failed, f"10 passed, {failed} failed, 1 skipped"))
            self.assertEqual("test low_tests::one ... FAILED" in lines, failed == 1)
            self.assertIn(f"rt try: low_tests: {1 - failed} passed, {failed} failed", lines)
            time = r"\d+ min \d+ s"
            parts = rf"rt try: {time}, {time} of processor time; clients: {time}, {time}"
            self.assertRegex(lines[-2], rf"\A{parts}; both: {time}, {time}, on \d+ processors\Z")

    def test_all_tests_are_in_one_crate(self):
        self.clients("7 passed, 0 failed, 0 skipped")
        self.put("crates/decl/out/decl", "").chmod(0o755)
        self.put("crates/low_tests/src/lib.rt", "//! Tests.\n#![tactic(auto)]\n\n#[cfg(test)]\nmod tests;\n")
        self.put("crates/low_tests/src/tests.rt", "mod deep;\n")
        self.put("crates/low_tests/src/tests/deep.rt", "use crate::tests::deep;\n")
        self.ended("well", ".ci/test", "--quick")
        said = self.said()
        self.assertEqual((said["words"][:2], said["place"]), (["try", "--test"], "decl_tests"))
        self.assertEqual(said["files"], ["src/lib.rt", "src/low_tests.rt", "src/low_tests/tests.rt", "src/low_tests/tests/deep.rt"])
        self.assertEqual(said["texts"][0].splitlines()[-2:], ["#[cfg(test)]", "mod low_tests;"])
        self.assertEqual(said["texts"][1:], ["//! Tests.\n\n#[cfg(test)]\nmod tests;\n", "mod deep;\n", "use crate::low_tests::tests::deep;\n"])
        self.assertEqual(said["above"], [*CRATES.splitlines()[:5], "apart:", "decl_tests: low"])

    def test_a_proof_that_fails_is_counted(self):
        self.clients("7 passed, 0 failed, 0 skipped")
        status, lines = self.ended("fails", ".ci/test")
        self.assertEqual((status, lines[-1]), (1, "8 passed, 1 failed, 0 skipped"))

    def test_no_kit(self):
        status, lines = self.without_kit(".ci/test")
        self.assertEqual((status, lines[1:]), (1, ["0 passed, 1 failed, 0 skipped"]))
        self.assertIn("the tests need the Rattle kit, and there is no `rt` on the path", lines[0])


if __name__ == "__main__":
    sys.exit(installs.told(sys.modules[__name__]))
