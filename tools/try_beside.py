#!/usr/bin/env python3
"""Tries the tools beside the program, over the program that is built. Ends with 1 where a test fails.

tools/try_beside.py [NAME..]    the tests of these modules of tools/beside/tests, or all
"""
import os
import sys
import unittest

sys.dont_write_bytecode = True
TOOLS = os.path.dirname(os.path.abspath(__file__))
sys.path.insert(0, TOOLS)


def main():
    loader = unittest.TestLoader()
    if sys.argv[1:]:
        suite = loader.loadTestsFromNames([f'beside.tests.test_{name}' for name in sys.argv[1:]])
    else:
        suite = loader.discover(f'{TOOLS}/beside/tests', top_level_dir=TOOLS)
    run = unittest.TextTestRunner(verbosity=1).run(suite)
    for test, why in run.skipped:
        print(f'skipped: {test.id()}: {why}')
    return 0 if run.wasSuccessful() else 1


sys.exit(main())
