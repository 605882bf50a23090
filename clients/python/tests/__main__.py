"""Runs all tests; each that is skipped is named, with the reason. The last line is 'N passed, M failed, K skipped'."""

import io
import os
import sys
import unittest

HERE = os.path.dirname(os.path.abspath(__file__))


def main():
    """Runs the tests beside this file, and writes how many passed."""
    sys.path.insert(0, HERE)
    written = io.StringIO()
    found = unittest.defaultTestLoader.discover(HERE, top_level_dir=HERE)
    result = unittest.TextTestRunner(stream=written).run(found)
    failed, skipped = len(result.failures) + len(result.errors), len(result.skipped)
    if failed:
        print(written.getvalue())
    for test, why in result.skipped:
        print(f"SKIPPED: {test.id()}: {why}")
    print(f"{result.testsRun - failed - skipped} passed, {failed} failed, {skipped} skipped")
    return 1 if failed else 0


if __name__ == "__main__":
    sys.exit(main())
