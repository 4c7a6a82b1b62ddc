"""Finds the tests as `python3 -m unittest` does, runs them, and counts them in the last line."""

import sys
import time
import unittest

import desk


class Result(unittest.TestResult):
    """Prints a line for each test that failed or was skipped, and how long each slow one took."""

    def startTest(self, test):
        super().startTest(test)
        self.began = time.monotonic()

    def stopTest(self, test):
        super().stopTest(test)
        took = time.monotonic() - self.began
        if took > 5:
            print(f"{test.id()}: {took:.0f} s", flush=True)

    def addSkip(self, test, reason):
        super().addSkip(test, reason)
        print(f"{test.id()}: skipped: {reason}", flush=True)


def names_of(suite):
    for part in suite:
        if isinstance(part, unittest.TestSuite):
            yield from names_of(part)
        else:
            yield part


def main(words):
    if not desk.is_built():
        print(f"there is no program at {desk.PROGRAM}: run make, which builds it")
        print("tests: 0 passed, 1 failed")
        return 1
    found = names_of(unittest.defaultTestLoader.discover(str(desk.ROOT / "tests")))
    chosen = [test for test in found if not words or any(word in test.id() for word in words)]
    result = Result()
    unittest.TestSuite(chosen).run(result)
    bad = [*result.failures, *result.errors, *((test, "passed, and was expected to fail") for test in result.unexpectedSuccesses)]
    for test, why in bad:
        print(f"\nFAILED {test.id()}\n{why}")
    # (a row of a table that fails counts its test as failed once, however many rows failed)
    failed = len({getattr(test, "test_case", test).id() for test, _ in bad})
    passed = len(chosen) - failed - len(result.skipped)
    print(f"tests: {passed} passed, {failed} failed")
    return 1 if failed or not chosen else 0


if __name__ == "__main__":
    sys.exit(main(sys.argv[1:]))
