"""The types of the client, by mypy where that is installed (Debian has it as `mypy`)."""

import shutil
import subprocess
import tempfile
import unittest

from support import ROOT, Case, main


class Types(Case):
    def test_the_types_are_right(self):
        mypy = shutil.which("mypy")
        if mypy is None:
            raise unittest.SkipTest("mypy is not installed")
        with tempfile.TemporaryDirectory() as room:
            words = [mypy, "--strict", f"--cache-dir={room}", str(ROOT / "clients" / "python" / "src")]
            done = subprocess.run(words, capture_output=True, text=True, cwd=room)
        self.assertEqual(done.returncode, 0, done.stdout + done.stderr)


if __name__ == "__main__":
    main()
