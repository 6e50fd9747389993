#!/usr/bin/env python3
"""Tests of the package `vast`: over the shared library and over `vast_replay --session`, whichever are there.

    python3 bindings/python/test.py [-v] [NAME..]       a NAME as test_faults.Conditions

After the tests it says over which sessions they ran, and it fails where there is none, or where some call of the table was
never made in some dialect. `README.md` beside it says how library and program are built.
"""
import json
import os
import sys
import unittest

sys.dont_write_bytecode = True
HERE = os.path.dirname(os.path.abspath(__file__))
TABLE = f"{os.path.dirname(HERE)}/calls.json"
sys.path[:0] = [HERE, f"{HERE}/tests"]
from sessions import MADE, SESSIONS  # noqa: E402, beside the tests



def never_made():
    """For each session and dialect the calls of the table that no test made."""
    with open(TABLE, encoding="utf-8") as file:
        calls = {row["call"] for row in json.load(file)["calls"]}
    return [(*where, sorted(calls - made)) for where, made in MADE.items() if calls - made]


def main():
    """Runs the tests; the status."""
    names = [word for word in sys.argv[1:] if not word.startswith("-")]
    loader = unittest.TestLoader()
    suite = loader.loadTestsFromNames(names) if names else loader.discover(f"{HERE}/tests")
    result = unittest.TextTestRunner(verbosity=2 if "-v" in sys.argv else 1).run(suite)
    missing = [] if names else never_made()
    for session, dialect, calls in missing:
        print(f"never made over {session} in {dialect}: {' '.join(calls)}")
    print(f"python: {result.testsRun} tests over {' and '.join(SESSIONS) or 'no session'}")
    return 0 if result.wasSuccessful() and SESSIONS and not missing else 1


if __name__ == "__main__":
    sys.exit(main())
