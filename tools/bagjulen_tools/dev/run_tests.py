"""Runs the tests of the tools, or those whose names have a WORD, and tells which were skipped and why.

The last line is `N passed, M failed`, with `, K skipped` behind it where some were; the status is 0 where none failed. Those
that need the program take the one that is built here, or that BAGJULEN names. The classes of the tests run beside each other,
each in a process of its own, which is ended where it takes too long.
"""

import io
import json
import os
import re
import subprocess
import sys
import time
import unittest
from collections.abc import Iterator
from concurrent.futures import ThreadPoolExecutor, as_completed
from dataclasses import asdict, dataclass

from bagjulen_tools.paths import TOOLS
from bagjulen_tools.trouble import DIFFERENT, DONE, ToolParser

TESTS = os.path.join(TOOLS, "tests")
PYTHON, GIT = (3, 10), (2, 36)
MOST_SECONDS = 900


@dataclass(frozen=True)
class ClassResult:
    """What became of the tests of one class: how many ran in how long, what failed, with its text, and what was skipped."""

    name: str
    seconds: float
    run: int
    failed: list[str]
    skipped: list[str]


def lack() -> str | None:
    """What the tools need and this machine hasn't."""
    if sys.version_info[:2] < PYTHON:
        return "Python %d.%d" % PYTHON
    try:
        version = subprocess.run(["git", "version"], stdout=subprocess.PIPE, text=True).stdout
    except OSError:
        return "git"
    numbers = re.search(r"(\d+)\.(\d+)", version)
    if numbers is None or tuple(map(int, numbers.groups())) < GIT:
        return "git %d.%d" % GIT
    return None


def cases_in(suite: unittest.TestSuite) -> Iterator[unittest.TestCase]:
    """The tests of a suite, without the suites that hold them."""
    for item in suite:
        if isinstance(item, unittest.TestSuite):
            yield from cases_in(item)
        else:
            yield item


def groups_of(words: list[str]) -> list[list[str]]:
    """The names of the tests that have one of the words, class by class."""
    loader = unittest.TestLoader()
    loader.testNamePatterns = [f"*{word}*" for word in words] or None
    groups: dict[str, list[str]] = {}
    for case in cases_in(loader.discover(TESTS, top_level_dir=TESTS)):
        groups.setdefault(case.id().rpartition(".")[0], []).append(case.id())
    return list(groups.values())


def result_of(names: list[str]) -> ClassResult:
    """Runs these tests of one class, here."""
    sys.path.insert(0, TESTS)
    suite = unittest.defaultTestLoader.loadTestsFromNames(names)
    begin = time.monotonic()
    result = unittest.TextTestRunner(stream=io.StringIO(), verbosity=0).run(suite)
    failed = [f"FAILED {case.id()}\n{text}" for case, text in result.failures + result.errors]
    failed += [f"FAILED {case.id()}\nit was to fail" for case in result.unexpectedSuccesses]
    skipped = [f"skipped {case.id()}: {why}" for case, why in result.skipped]
    return ClassResult(class_of(names), time.monotonic() - begin, result.testsRun, failed, skipped)


def class_of(names: list[str]) -> str:
    """The class that these tests are of."""
    return names[0].rpartition(".")[0]


def result_beside(names: list[str]) -> ClassResult:
    """Runs these tests of one class in a process of their own. Where that doesn't tell a result, all of them failed."""
    words = [os.path.join(TOOLS, "test-tools"), "--class", *names]
    try:
        ended = subprocess.run(words, capture_output=True, text=True, timeout=MOST_SECONDS, start_new_session=True)
        return ClassResult(**json.loads(ended.stdout.splitlines()[-1]))
    except subprocess.TimeoutExpired:
        why = f"it took more than {MOST_SECONDS} seconds"
    except (IndexError, ValueError, TypeError):
        why = f"its process ended with {ended.returncode}\n{ended.stderr[-2000:]}"
    return ClassResult(class_of(names), 0, len(names), [f"FAILED {name}\n{why}" for name in names], [])


def summary_of(passed: int, failed: int, skipped: int) -> str:
    """The closing line."""
    return f"{passed} passed, {failed} failed" + (f", {skipped} skipped" if skipped else "")


def report(results: list[ClassResult]) -> int:
    """Tells what was skipped and what failed, and the closing line. The number is that of the tests that failed."""
    for line in sorted(line for result in results for line in result.skipped):
        print(line)
    for text in [text for result in results for text in result.failed]:
        print(text)
    failed = sum(len({text.split("\n")[0].split(" (")[0] for text in result.failed}) for result in results)
    skipped = sum(len(result.skipped) for result in results)
    print(summary_of(sum(result.run for result in results) - failed - skipped, failed, skipped))
    return failed


def main(arguments: list[str]) -> int:
    """Runs the tests, and returns 0 where none failed."""
    parser = ToolParser(__doc__, "a test failed")
    parser.add_argument("words", nargs="*", metavar="WORD")
    parser.add_argument("--jobs", type=int, default=os.cpu_count() or 1, metavar="N", help="so many classes at a time")
    parser.add_argument("--class", action="store_true", dest="is_class", help="run these tests here, and tell it as JSON")
    given = parser.parse_args(arguments)
    if given.is_class:
        print(json.dumps(asdict(result_of(given.words))))
        return DONE
    groups = groups_of(given.words)
    lacking = lack()
    if lacking is not None:
        print(f"skipped all: the tools need {lacking}")
        print(summary_of(0, 0, sum(map(len, groups))))
        return DONE
    results = []
    with ThreadPoolExecutor(given.jobs) as pool:
        for done in as_completed([pool.submit(result_beside, names) for names in groups]):
            results.append(done.result())
            print(f"{results[-1].name}: {results[-1].run} tests, {results[-1].seconds:.1f} s", flush=True)
    return DIFFERENT if report(results) else DONE
