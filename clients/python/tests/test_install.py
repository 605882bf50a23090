"""`pip install` of the folder, with no network, into a folder and into a fresh environment; what is then there. Which program is found."""

import os
import pathlib
import subprocess
import sys
import tempfile
import unittest
import unittest.mock

from support import ROOT, BUILT, Case, decl, main

TRY = """
import decl
print(decl.__file__)
book = decl.from_frame([{"name": "D", "claims": 2, "count": "fixed", "amounts": [1, 2, 3, 4, 5, 6]}])
tower = book.tower(["3 xs 3"], 1)
table = decl.compare({"gross": book, "text": book.text}, ["mean", "q:0.9"])
print(f"{book.mean():.1f}", int(book.q([0.5])[0]), float(tower[0][1].mid), f"{table[1][3]:.0f}", decl.run_many([book.text], "mean")[0][1])
print(decl.run("agg D dfreq [2] dsev [1:6]", ["pmf:2"]), end="")
"""

FACTS = """
import importlib.metadata, pathlib, decl
facts = importlib.metadata.metadata("decl-client")
print(facts["Version"] == decl.__version__)
print((pathlib.Path(decl.__file__).parent / "py.typed").exists())
print(facts["Description-Content-Type"])
found = importlib.metadata.entry_points()
lexers = found.select(group="pygments.lexers") if hasattr(found, "select") else found["pygments.lexers"]
print(*(f"{each.name} {each.value}" for each in lexers if each.name == "decl"))
"""


class Found(Case):
    def test_the_program_of_the_package(self):
        """DECL comes first, then the program that a wheel brought along, then the path."""
        with tempfile.TemporaryDirectory() as folder:
            for name in ("inside", "decl"):
                path = pathlib.Path(folder) / name
                path.touch(mode=0o755)
            with unittest.mock.patch.object(decl.program, "INSIDE", pathlib.Path(folder) / "inside"):
                self.assertEqual(decl.program.find(), BUILT)
                with unittest.mock.patch.dict(os.environ, {"DECL": "", "PATH": folder}):
                    self.assertEqual(decl.program.find(), os.path.join(folder, "inside"))
            with unittest.mock.patch.dict(os.environ, {"DECL": "", "PATH": folder}):
                self.assertEqual(decl.program.find(), os.path.join(folder, "decl"))


class Install(Case):
    def test_an_environment_of_its_own(self):
        """The three lines of the page: an environment, its pip, and the client with its facts."""
        with tempfile.TemporaryDirectory() as folder:
            made = subprocess.run([sys.executable, "-m", "venv", folder], capture_output=True)
            if made.returncode:
                raise unittest.SkipTest("python3 -m venv does not run here")
            python = os.path.join(folder, "bin", "python")
            words = [python, "-m", "pip", "install", "--quiet", "--no-index", str(ROOT / "clients" / "python")]
            done = subprocess.run(words, capture_output=True, text=True)
            self.assertEqual(done.returncode, 0, done.stderr)
            world = {name: value for name, value in os.environ.items() if name != "PYTHONPATH"}
            tried = subprocess.run([python, "-c", FACTS], capture_output=True, text=True, env=world, cwd=folder)
            self.assertEqual(tried.returncode, 0, tried.stderr)
            self.assertEqual(tried.stdout.split("\n")[:4], ["True", "True", "text/markdown", "decl decl.highlight:DeclLexer"])

    def test_pip_installs_the_folder(self):
        pip = [sys.executable, "-m", "pip"]
        if subprocess.run([*pip, "--version"], capture_output=True).returncode:
            raise unittest.SkipTest("pip is not installed")
        with tempfile.TemporaryDirectory() as folder:
            words = [*pip, "install", "--quiet", "--no-index", "--no-deps", "--target", folder]
            done = subprocess.run([*words, str(ROOT / "clients" / "python")], capture_output=True, text=True)
            self.assertEqual(done.returncode, 0, done.stderr)
            world = {**os.environ, "PYTHONPATH": folder, "DECL": BUILT}
            tried = subprocess.run([sys.executable, "-c", TRY], capture_output=True, text=True, env=world, cwd=folder)
            self.assertEqual(tried.returncode, 0, tried.stderr)
            self.assertTrue(tried.stdout.startswith(folder), tried.stdout)
            self.assertTrue(tried.stdout.endswith("\n7.0 7 2.0 0 mean 7 7\npmf:2 0.027777 0.027778\n"), tried.stdout)


if __name__ == "__main__":
    main()
