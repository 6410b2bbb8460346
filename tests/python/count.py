"""Runs the tests of bindings/python from the root of the repository; the last line is 'N passed, M failed'."""

import sys
import unittest


class Counted(unittest.TextTestResult):
    """Counts what passed by itself, because a test may fail more than once, and an error may belong to no test."""

    passed = 0

    def addSuccess(self, test):
        super().addSuccess(test)
        self.passed += 1


def main():
    tests = unittest.defaultTestLoader.discover("bindings/python")
    result = unittest.TextTestRunner(stream=sys.stdout, resultclass=Counted).run(tests)
    failed = len(result.failures) + len(result.errors) + len(result.unexpectedSuccesses)
    # where no test was found something is wrong
    failed = failed if result.passed else max(failed, 1)
    print(f"{result.passed} passed, {failed} failed")
    return 1 if failed else 0


if __name__ == "__main__":
    sys.exit(main())
