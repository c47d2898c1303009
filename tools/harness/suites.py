"""Suites of unittest as parts of ./test: how many of their tests passed, and how many failed."""

import re
import subprocess
import sys
import unittest

from . import network


def suite_of(module: str) -> unittest.TestSuite:
    """All tests of a module, by its name."""
    return unittest.defaultTestLoader.loadTestsFromModule(sys.modules[module])


def name_of(test: object) -> str:
    """The name of a test, also that of a part of it (subTest), or of what comes before a class's tests."""
    return getattr(test, 'test_case', test).id()


def counts_of(ran: unittest.TestResult, part: str) -> tuple[int, int]:
    """How many tests passed, and how many failed, each of them once. One that was skipped is neither, and is named."""
    for test, why in ran.skipped:
        print(f'{part}: {test}: not tried: {why}')
    wrong = [*(test for test, _ in [*ran.failures, *ran.errors]), *ran.unexpectedSuccesses]
    skipped = [test for test, _ in ran.skipped]
    # What fails or is skipped before a class's tests is no test, and has none of them run.
    ended = {name_of(it) for it in [*wrong, *skipped] if isinstance(it, unittest.TestCase)}
    return ran.testsRun - len(ended), len({*map(name_of, wrong)})


def run_suite(suite: unittest.TestSuite, part: str) -> tuple[int, int]:
    """Runs tests, and returns how many passed, and how many failed."""
    return counts_of(unittest.TextTestRunner(stream=sys.stdout, verbosity=0).run(suite), part)


def started_apart(suite: unittest.TestSuite, part: str, words: list[str]) -> subprocess.Popen | None:
    """The process that runs these tests in a network namespace of its own, by these words of the script. None where there are
    no such tests, or no namespace, which is said."""
    if not suite.countTestCases():
        return None
    if why := network.is_there():
        print(f'{part}: there is no network namespace, so groups are not tried: {why}')
        return None
    command = [*network.apart(), sys.executable, *words]
    return subprocess.Popen(command, stdout=subprocess.PIPE, stderr=subprocess.STDOUT, text=True)


def counts_apart(process: subprocess.Popen | None) -> tuple[int, int]:
    """What the tests of that process have printed, and how many of them passed and failed; one where it has no such end."""
    if process is None:
        return 0, 0
    said = process.communicate()[0]
    print(said, end='')
    found = re.search(r'^(\d+) passed, (\d+) failed\n\Z', said, re.M)
    passed, failed = (int(found[1]), int(found[2])) if found else (0, 1)
    return passed, failed or int(process.returncode != 0)
