"""The examples in Python of the pages, which stand behind `>>>`: what they print is what stands below them."""

import doctest
import os
import pathlib
import unittest

from support import ROOT, Case, main

PAGES = {"README.md": 3, "docs/RECIPES.md": 20}


class Examples(Case):
    def test_the_pages(self):
        """Each page has so many lines of code at least, run at the top of the repository."""
        here = pathlib.Path.cwd()
        self.addCleanup(os.chdir, here)
        os.chdir(ROOT)
        for name, least in PAGES.items():
            text = (ROOT / name).read_text(encoding="utf-8")
            found = doctest.DocTestParser().get_doctest(text, {}, name, name, 0)
            self.assertGreaterEqual(len(found.examples), least, name)
            told = []
            result = doctest.DocTestRunner(verbose=False).run(found, out=told.append)
            self.assertEqual(result.failed, 0, "".join(told))


if __name__ == "__main__":
    main()
