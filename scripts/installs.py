#!/usr/bin/env python3
"""Tests `make install` and the packages: each is installed into a folder, an empty root or a fresh environment of its own, and the
examples of its README are run there, by its program. The root has nothing else but the C library; it is entered by chroot, as root, or
in a namespace of the user's. And tests that each place of the version has the number of the file VERSION.

The program is DECL, else crates/decl/out/decl. The last line is 'N passed, M failed', and ', K skipped' where a tool is not there.
"""

import io
import os
import pathlib
import re
import shutil
import subprocess
import sys
import tempfile
import unittest

ROOT = pathlib.Path(__file__).resolve().parent.parent
BUILT = pathlib.Path(os.environ.get("DECL") or ROOT / "crates" / "decl" / "out" / "decl").resolve()
PAST = 86400  # seconds after 1970: older than any source
INSIDE = ["share/man/man1/decl.1", "share/bash-completion/completions/decl", "share/zsh/site-functions/_decl"]
INSIDE += ["share/fish/vendor_completions.d/decl.fish", "share/doc/decl/CHANGELOG.md", "share/doc/decl/docs/USAGE.md"]
INSIDE += ["share/vim/vimfiles/ftdetect/decl.vim", "share/vim/vimfiles/syntax/decl.vim"]
INSIDE += ["share/doc/decl/clients/r/R/book.R", "share/doc/decl/clients/r/NAMESPACE", "share/doc/decl/clients/r/man/decl_book.Rd"]
INSIDE += ["share/doc/decl/clients/r/decl.R", "share/doc/decl/clients/python/pyproject.toml", "share/doc/decl/examples/many/one"]


class Case(unittest.TestCase):
    """A test with a folder of its own, in which `rt` is a program that fails and leaves a mark."""

    def setUp(self):
        room = tempfile.TemporaryDirectory()
        self.addCleanup(room.cleanup)
        self.room = pathlib.Path(room.name)
        tools = self.room / "tools"
        tools.mkdir()
        self.mark = self.room / "rt-was-called"
        (tools / "rt").write_text(f"#!/bin/sh\ntouch '{self.mark}'\nexit 1\n")
        (tools / "rt").chmod(0o755)
        self.world = {**os.environ, "PATH": f"{tools}{os.pathsep}{os.environ['PATH']}"}
        for name in ("MAKEFLAGS", "DESTDIR", "PREFIX"):
            self.world.pop(name, None)

    def make(self, *words, program=BUILT):
        """A finished run of make with the program in its place, which has called no `rt`."""
        done = subprocess.run(
            ["make", "-s", f"PROGRAM={program}", *words], cwd=ROOT, env=self.world, capture_output=True, text=True
        )
        self.assertFalse(self.mark.exists(), f"make {' '.join(words)} has called rt")
        return done

    def made(self, *words, program=BUILT):
        """The same, ended with status 0."""
        done = self.make(*words, program=program)
        self.assertEqual(done.returncode, 0, done.stdout + done.stderr)
        return done

    def runs_examples(self, pages, program):
        """Runs the examples of the installed README, by the copy of examples/check.py beside it."""
        words = [sys.executable, "-B", str(pages / "examples" / "check.py"), str(pages / "README.md")]
        done = subprocess.run(words, env={**self.world, "DECL": str(program)}, capture_output=True, text=True)
        self.assertRegex(done.stdout, r"\A[1-9]\d* passed, 0 failed\n\Z", done.stderr)


class Installs(Case):
    def files(self, folder):
        """The files below a folder."""
        return {str(each.relative_to(folder)) for each in folder.rglob("*") if not each.is_dir()}

    def test_nothing_built(self):
        done = self.make("install", f"PREFIX={self.room}/to", program=self.room / "none")
        self.assertNotEqual(done.returncode, 0)
        self.assertIn(f"there is no {self.room}/none to install: 'make' builds it", done.stderr)
        self.assertFalse((self.room / "to").exists())

    def test_an_older_program_is_installed_as_it_is(self):
        old = self.room / "decl"
        shutil.copy(BUILT, old)
        os.utime(old, (PAST, PAST))
        to = self.room / "to"
        self.made("install", f"PREFIX={to}", program=old)
        self.assertEqual((to / "bin" / "decl").read_bytes(), BUILT.read_bytes())
        self.runs_examples(to / "share" / "doc" / "decl", to / "bin" / "decl")

    def test_the_pages_that_the_man_page_names(self):
        self.made("install", f"DESTDIR={self.room}/root", "PREFIX=/usr")
        share = self.room / "root" / "usr" / "share"
        page = (share / "man" / "man1" / "decl.1").read_text(encoding="utf-8")
        named = re.findall(r"docs/[A-Z-]+\.md", page.partition(".SH SEE ALSO")[2])
        self.assertGreater(len(named), 2)
        for each in named:
            self.assertTrue((share / "doc" / "decl" / each).is_file(), each)

    def test_the_files_that_the_readme_names(self):
        self.made("install", f"DESTDIR={self.room}/root", "PREFIX=/usr")
        pages = self.room / "root" / "usr" / "share" / "doc" / "decl"
        text = (pages / "README.md").read_text(encoding="utf-8")
        named = re.findall(r"\b(?:docs|examples|clients/python|clients/r)/[\w./-]*\w\.\w+", text)
        self.assertGreater(len(named), 10)
        for each in named:
            self.assertTrue((pages / each).is_file(), each)

    def test_uninstall_leaves_no_file(self):
        self.made("install", f"DESTDIR={self.room}/root", "PREFIX=/usr")
        other = self.room / "root" / "usr" / "bin" / "other"
        other.touch()
        self.assertGreater(len(self.files(self.room / "root")), 20)
        self.made("uninstall", f"DESTDIR={self.room}/root", "PREFIX=/usr")
        self.assertEqual(self.files(self.room / "root"), {"usr/bin/other"})

    def test_help_names_each_target(self):
        listed = re.findall(r"^make (\w+)", self.made("help").stdout, re.M)
        targets = re.search(r"^\.PHONY: (.*)$", (ROOT / "Makefile").read_text(encoding="utf-8"), re.M)[1].split()
        self.assertEqual(sorted(listed), sorted(targets))


class Packages(Case):
    """What `make dist`, `make deb` and `make wheel` make."""

    @classmethod
    def setUpClass(cls):
        room = tempfile.TemporaryDirectory()
        cls.addClassCleanup(room.cleanup)
        cls.folder, cls.once = pathlib.Path(room.name), {}

    def packed(self, kind, *tools):
        """The package, made once for all tests, where these tools and those that it is made with are installed."""
        for tool in ("strip", *{"deb": ["dpkg-deb"]}.get(kind, []), *tools):
            if not shutil.which(tool):
                raise unittest.SkipTest(f"{tool} is not installed")
        if kind not in self.once:
            self.once[kind] = pathlib.Path(self.made(kind, f"PACKAGES={self.folder}").stdout.splitlines()[-1])
        return self.once[kind]

    def empty_root(self):
        """A root with what the program needs of this system, the C library and its loader, and how to enter it."""
        root = self.room / "root"
        needed = subprocess.run(["ldd", str(BUILT)], capture_output=True, text=True).stdout
        for file in re.findall(r"(/\S+) \(0x", needed):
            (root / file[1:]).parent.mkdir(parents=True, exist_ok=True)
            shutil.copy(file, root / file[1:])
            loader = file
        for enter in (["chroot", str(root)], ["unshare", "--map-root-user", f"--root={root}"]):
            try:
                if not subprocess.run([*enter, loader, "--version"], capture_output=True).returncode:
                    return root, enter
            except OSError:
                pass
        raise unittest.SkipTest("no root can be entered: neither chroot nor unshare runs here")

    def environment(self, *packages):
        """An environment with these packages alone, which are files or folders: the path of its Python."""
        fresh = self.room / "venv"
        if subprocess.run([sys.executable, "-m", "venv", fresh], capture_output=True).returncode:
            raise unittest.SkipTest("python3 -m venv does not run here")
        done = subprocess.run([fresh / "bin" / "pip", "install", "--no-index", *packages], capture_output=True, text=True)
        self.assertEqual(done.returncode, 0, done.stderr)
        listed = subprocess.run([fresh / "bin" / "pip", "list", "--format=freeze"], capture_output=True, text=True).stdout
        self.assertFalse({line.split("==")[0] for line in listed.splitlines()} - {"decl-client", "pip", "setuptools", "wheel"})
        return fresh / "bin" / "python"

    def makes_pages(self, python, pages, program):
        """The installed client, which has nothing beside it, writes the pages that the client of the repository writes: of an example, of it
        between two programs, and of two of them."""
        examples = [str(pages / "examples" / f"{name}.decl") for name in ("common", "dice")]
        world = {} if program is None else {"DECL": str(program)}
        own = {"DECL": str(BUILT), "PYTHONPATH": str(ROOT / "clients" / "python" / "src")}
        for words in (["report", examples[0]], ["report", examples[1], "--coarser", "2"], ["compare", *examples]):
            words = ["-m", "decl", *words, "--table", "10,50", "--currency", "EUR", "--date", "31 December 2026"]
            found = [
                subprocess.run([first, *words], env=env, cwd=self.room, capture_output=True, text=True)
                for first, env in ((python, world), (sys.executable, own))
            ]
            self.assertEqual(found[0].returncode, 0, found[0].stderr)
            self.assertTrue(found[0].stdout.startswith("<!DOCTYPE html>") and found[0].stdout == found[1].stdout)

    def installs_in_r(self, pages, program):
        """R CMD INSTALL of the package in this folder gives a library that answers by the program, where R is installed."""
        if not shutil.which("R"):
            self.without_r = True
            return
        library = self.room / "library"
        library.mkdir()
        words = ["R", "--vanilla", "CMD", "INSTALL", f"--library={library}", str(pages / "clients" / "r")]
        done = subprocess.run(words, capture_output=True, text=True)
        self.assertIn("DONE (decl)", done.stdout + done.stderr)
        ask = 'library(decl); cat(decl_ask(decl_book("agg Dice dfreq [2] dsev [100:600:100]"), c("mean", "q:0.9"))$low)'
        world = {**os.environ, "DECL": str(program), "R_LIBS": str(library)}
        done = subprocess.run(["Rscript", "--vanilla", "-e", ask], env=world, capture_output=True, text=True)
        self.assertEqual(done.stdout, "700 1000", done.stderr)

    def brings_clients(self, prefix, program):
        """The clients below the prefix are installed as the pages say, and work; the test counts as skipped where R is not installed."""
        pages = prefix / "share" / "doc" / "decl"
        self.makes_pages(self.environment(pages / "clients" / "python"), pages, program)
        self.installs_in_r(pages, program)
        if getattr(self, "without_r", False):
            raise unittest.SkipTest("R is not installed")

    def runs_in(self, root, enter, prefix):
        """Runs the examples of the README below the prefix by the program there, inside the root."""
        inside = self.room / "inside"
        inside.write_text(f"#!/bin/sh\nexec {' '.join(enter)} {prefix}/bin/decl \"$@\"\n")
        inside.chmod(0o755)
        self.runs_examples(root / prefix[1:] / "share" / "doc" / "decl", inside)

    def test_the_tarball(self):
        packed = self.packed("dist")
        root, enter = self.empty_root()
        prefix = root / "usr" / "local"
        prefix.mkdir(parents=True)
        unpack = ["tar", "-xzf", packed.name, "--strip-components=1", "-C", prefix]
        for words in (["sha256sum", "-c", f"{packed.name}.sha256"], unpack):
            done = subprocess.run(words, cwd=packed.parent, capture_output=True, text=True)
            self.assertEqual(done.returncode, 0, done.stderr)
        sums = subprocess.run(["sha256sum", "-c", "share/doc/decl/SHA256SUMS"], cwd=prefix, capture_output=True, text=True)
        self.assertEqual(sums.returncode, 0, sums.stderr)
        self.assertEqual([each for each in INSIDE if not (prefix / each).is_file()], [])
        self.assertNotIn(b".symtab", (prefix / "bin" / "decl").read_bytes())
        self.runs_in(root, enter, "/usr/local")

    def test_the_clients_of_the_tarball(self):
        packed, prefix = self.packed("dist"), self.room / "local"
        prefix.mkdir()
        subprocess.run(["tar", "-xzf", packed, "--strip-components=1", "-C", prefix], check=True)
        self.brings_clients(prefix, prefix / "bin" / "decl")

    def test_the_clients_of_the_debian_package(self):
        packed = self.packed("deb", "dpkg-deb")
        subprocess.run(["dpkg-deb", "--extract", packed, self.room / "root"], check=True)
        self.brings_clients(self.room / "root" / "usr", self.room / "root" / "usr" / "bin" / "decl")

    def test_the_debian_package(self):
        packed = self.packed("deb", "dpkg")
        as_root = [] if os.geteuid() == 0 else ["fakeroot"]
        if as_root and not shutil.which("fakeroot"):
            raise unittest.SkipTest("fakeroot is not installed")
        root, enter = self.empty_root()
        before = {each for each in root.rglob("*") if each.is_file()}
        (root / "var/lib/dpkg/info").mkdir(parents=True)
        (root / "var/lib/dpkg/updates").mkdir()
        libc = subprocess.run(["ldd", "--version"], capture_output=True, text=True).stdout.split("\n")[0].split()[-1]
        facts = ["Package: libc6", "Status: install ok installed", "Maintainer: none", "Architecture: amd64", f"Version: {libc}"]
        (root / "var/lib/dpkg/status").write_text("\n".join([*facts, "Description: the C library", ""]))
        dpkg = [*as_root, "dpkg", f"--root={root}", "--force-bad-path"]
        done = subprocess.run([*dpkg, "--install", packed], capture_output=True, text=True)
        self.assertEqual(done.returncode, 0, done.stderr)
        self.runs_in(root, enter, "/usr")
        done = subprocess.run([*dpkg, "--purge", "decl"], capture_output=True, text=True)
        self.assertEqual(done.returncode, 0, done.stderr)
        left = {each for each in root.rglob("*") if each.is_file()} - before
        self.assertFalse({each for each in left if not each.is_relative_to(root / "var")})

    def test_the_debian_package_has_no_errors(self):
        packed = self.packed("deb", "lintian")
        done = subprocess.run(["lintian", "--allow-root", "--fail-on", "error", packed], capture_output=True, text=True)
        self.assertEqual(done.returncode, 0, done.stdout + done.stderr)

    def test_the_wheel(self):
        fresh = self.environment(self.packed("wheel")).parent.parent
        self.assertEqual([each for each in INSIDE if not (fresh / each).is_file()], [])
        pages = fresh / "share" / "doc" / "decl"
        self.runs_examples(pages, fresh / "bin" / "decl")
        for page in ("README.md", "clients/python/README.md"):
            text = (pages / page).read_text(encoding="utf-8")
            named = set(re.findall(r"(?<![\w/])(?:docs|examples|clients/python|clients/r)/[\w./-]*\w\.\w+", text))
            self.assertGreater(len(named), 3)
            self.assertEqual([each for each in sorted(named) if not (pages / each).is_file()], [], page)
        ask = "import decl; print(decl.program.find()); print(decl.run('agg D dfreq [2] dsev [1:6]', ['pmf:2']), end='')"
        done = subprocess.run([fresh / "bin" / "python", "-c", ask], env={}, cwd=self.room, capture_output=True, text=True)
        self.assertRegex(done.stdout, rf"\A{self.room}/venv/lib/\S*/decl/bin/decl\npmf:2 0.027777 0.027778\n\Z", done.stderr)
        self.makes_pages(fresh / "bin" / "python", pages, None)
        self.installs_in_r(pages, fresh / "bin" / "decl")

    def test_the_same_bytes_again(self):
        for kind in ("dist", "wheel", "deb"):
            first = self.packed(kind)
            self.made(kind, f"PACKAGES={self.room}")
            self.assertEqual((self.room / first.name).read_bytes(), first.read_bytes(), kind)

    def test_names_have_the_version(self):
        version = (ROOT / "VERSION").read_text(encoding="utf-8").strip()
        self.assertEqual(self.packed("dist").name, f"decl-{version}-x86_64-linux.tar.gz")
        self.assertEqual(self.packed("wheel").name, f"decl_client-{version}-py3-none-manylinux_2_34_x86_64.whl")
        self.assertEqual(self.packed("deb").name, f"decl_{version}_amd64.deb")

    def test_no_program_no_package(self):
        for kind in ("dist", "deb", "wheel"):
            done = self.make(kind, f"PACKAGES={self.room}/packages", program=self.room / "none")
            self.assertNotEqual(done.returncode, 0)
            self.assertIn(f"there is no {self.room}/none, which 'make' builds", done.stderr)

    def test_a_later_libc_is_refused(self):
        later = self.room / "later"
        later.write_bytes(BUILT.read_bytes() + b"\0GLIBC_2.99\0")
        later.chmod(0o755)
        done = self.make("dist", f"PACKAGES={self.room}/packages", program=later)
        self.assertNotEqual(done.returncode, 0)
        self.assertIn("needs glibc 2.99", done.stderr)


class Version(unittest.TestCase):
    """One number, in VERSION, and one date, in CHANGELOG.md."""

    def found(self, name, pattern):
        """The groups of the first place in a file of the repository where the pattern fits."""
        found = re.search(pattern, (ROOT / name).read_text(encoding="utf-8"), re.M)
        self.assertIsNotNone(found, name)
        return found.groups()

    def test_each_place_has_the_number(self):
        (version,) = self.found("VERSION", r"\A(\d+\.\d+(?:\.\d+)?)\n\Z")
        released, date = self.found("CHANGELOG.md", r"^## ([0-9.]+) \((\d{4}-\d\d-\d\d)\)$")
        self.assertEqual(self.found("docs/decl.1", r'^\.TH DECL 1 "([0-9-]+)" "decl ([0-9.]+)"'), (date, version))
        self.assertEqual(released, version)
        self.assertEqual(self.found("clients/python/pyproject.toml", r'^version = "(.*)"$'), (version,))
        self.assertEqual(self.found("clients/r/DESCRIPTION", r"^Version: (.*)$"), (version,))
        self.assertEqual(self.found("clients/python/src/decl/__init__.py", r'^__version__ = "(.*)"$'), (version,))

    def test_the_pages_name_packages_of_the_number(self):
        version = (ROOT / "VERSION").read_text(encoding="utf-8").strip()
        for page, least in (("README.md", 3), ("clients/python/README.md", 1)):
            named = re.findall(r"\bdecl(?:_client)?[-_](\d+(?:\.\d+)+)[-_]", (ROOT / page).read_text(encoding="utf-8"))
            self.assertGreaterEqual(len(named), least, page)
            self.assertEqual({*named}, {version}, page)


def told(module):
    """Runs the tests of a module, and tells how many passed; the status to end with."""
    written = io.StringIO()
    found = unittest.defaultTestLoader.loadTestsFromModule(module)
    result = unittest.TextTestRunner(stream=written).run(found)
    failed = len(result.failures) + len(result.errors)
    if failed:
        print(written.getvalue())
    for test, why in result.skipped:
        print(f"skipped: {test.id().partition('.')[2]}: {why}")
    skipped = len(result.skipped)
    print(f"{result.testsRun - failed - skipped} passed, {failed} failed" + (f", {skipped} skipped" if skipped else ""))
    return 1 if failed else 0


if __name__ == "__main__":
    sys.exit(told(sys.modules[__name__]))
