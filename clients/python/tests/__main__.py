"""Runs all tests; those that fail once more, alone. It ends with 1 where one fails twice."""
import sys
import unittest

from .support import HERE


def run(suite):
    """Runs tests: the names of those that did not pass. A part of a test stands for the test."""
    result = unittest.TextTestRunner(buffer=True).run(suite)
    failed = [test for test, _ in result.failures + result.errors]
    return sorted({getattr(test, "test_case", test).id() for test in failed})


def tests():
    return unittest.defaultTestLoader.discover(str(HERE), top_level_dir=str(HERE.parent))


def main():
    names = run(tests())
    if names:
        print("once more, alone:", *names, file=sys.stderr)
        return bool(run(unittest.defaultTestLoader.loadTestsFromNames(names)))
    return 0


if __name__ == "__main__":
    sys.exit(main())
