#!/usr/bin/env python3
"""Runs the Python tests; the last line is 'N passed, M failed'. A skipped test counts as failed: nothing has been shown."""

import pathlib
import sys
import unittest


def main():
    here = str(pathlib.Path(__file__).parent)
    result = unittest.TextTestRunner(stream=sys.stdout, verbosity=1).run(unittest.defaultTestLoader.discover(here))
    failed = len(result.failures) + len(result.errors) + len(result.unexpectedSuccesses) + len(result.skipped)
    passed = result.testsRun - failed
    for test, reason in result.skipped:
        print(f"skipped, counted as failed: {test}: {reason}")
    print(f"{passed} passed, {failed} failed")
    return 0 if failed == 0 and passed > 0 else 1


if __name__ == "__main__":
    sys.exit(main())
