"""What the tests share: the built program, and programs in its place that end in a way of their own."""

import os
import pathlib
import stat
import sys
import tempfile
import unittest

ROOT = pathlib.Path(__file__).resolve().parents[3]
sys.path.insert(0, str(ROOT / "clients" / "python" / "src"))
BUILT = os.path.abspath(os.environ.get("DECL") or ROOT / "crates" / "decl" / "out" / "decl")
os.environ["DECL"] = BUILT

import decl  # noqa: E402

BOOK = """port Book
agg Motor 20 claims 50 xs 0 dsev [1 2 5 10 80] [0.4 0.3 0.2 0.08 0.02] poisson
agg Property 200 premium at 65% lr dsev [5 10 20 60] [0.5 0.3 0.15 0.05] mixed gamma 0.25
agg Liability dfreq [0 1 2] [0.5 0.3 0.2] 40 xs 10 dsev [5 15 30 100] [0.6 0.2 0.15 0.05] \
occurrence net of 0.5 so 20 xs 20 aggregate net of 20 xs 30
"""


class Case(unittest.TestCase):
    """A test over the built program."""

    def setUp(self):
        os.environ["DECL"] = BUILT

    def raises(self, kind, call, *words, **settings):
        """The exception of this kind that the call has to raise."""
        with self.assertRaises(kind) as raised:
            call(*words, **settings)
        self.assertIs(type(raised.exception), kind)
        return raised.exception

    def new_folder(self):
        """A folder that goes with the test."""
        room = tempfile.TemporaryDirectory()
        self.addCleanup(room.cleanup)
        return pathlib.Path(room.name)

    def instead(self, body):
        """Puts a shell script in the place of the program; `$BUILT` names the built one."""
        script = self.new_folder() / "decl"
        script.write_text(f"#!/bin/sh\nBUILT='{BUILT}'\n{body}\n")
        script.chmod(script.stat().st_mode | stat.S_IXUSR)
        os.environ["DECL"] = str(script)


def main():
    """Runs the tests of a file."""
    unittest.main()


__all__ = ["BOOK", "BUILT", "Case", "ROOT", "decl", "main"]
