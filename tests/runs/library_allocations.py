#!/usr/bin/env -S python3 -B
"""Runs tests of library calls with each of their allocations failing in turn, and tests of calls that do not allocate.
usage: tests/runs/library_allocations.py TESTS

TESTS is a test program, as `rt ci` and `rt test` leave it in a crate's out/. Each test of its module `out_of_memory` runs with its
Nth allocation failing, N = 1, 2, .., until a run has no failing allocation. Such a run passes if each call gives its usual answer,
also when it is repeated; or it ends by an error that names memory. A wrong answer stops the test by a signal. The tests of its
module `allocations` make calls that do not allocate, each test another number of times, and have equal numbers of allocations."""
import os
import re
import sys

import running
from running import complain, counted_run, failing_run, run, skip

# The text of an error that comes from a failed allocation.
MEMORY = re.compile(rb"(error: .*)?(Memory|AllocError|AllocFailed|OutOfMemory)")


def each_failing(test):
    """Runs one test with each of its allocations failing: how many runs had a failing allocation, and how many passed."""
    failing = passed = 0
    while True:
        came, has_failed = failing_run([test], str(failing + 1))
        status, _, err = came
        if not has_failed:
            if status:
                complain(f"{test}, none failing", came)
            return failing, passed
        failing += 1
        if status == 0:
            passed += 1
        elif status != 101 or not MEMORY.match(err):
            complain(f"{test}, allocation {failing} failing", came)


def tests_of(module):
    """The names of the tests of a module."""
    _, listed, _ = run(["--list"])
    tests = re.findall(rf"^({module}::\S+): test$", listed.decode(), re.M)
    if not tests:
        complain(f"no test of a module `{module}`", listed)
    return tests


def count_allocations(tests):
    """The number of allocations of each test, which is the same for all of them."""
    counts = []
    for test in tests:
        came, count = counted_run([test])
        if came[0]:
            complain(test, came)
        counts.append(count)
    if len(set(counts)) > 1 or 0 in counts:
        complain("calls that do not allocate: numbers of allocations", dict(zip(tests, counts)))
    return counts[0] if counts else 0


def main():
    if not os.path.exists(running.program):
        skip("allocations of the libraries", "there is no program of tests (rt ci leaves one)")
    tests = tests_of("out_of_memory")
    allocations = 0
    for test in tests:
        failing, passed = each_failing(test)
        allocations += failing
        if "-v" in sys.argv:
            print(f"{test}: {failing} allocations, {passed} passed", flush=True)
    runs = allocations + len(tests)
    counting = tests_of("allocations")
    print(f"calls that do not allocate: {len(counting)} tests of {count_allocations(counting)} allocations each")
    print(f"calls with failing allocations: {len(tests)} tests, {allocations} allocations, {runs} runs, {running.wrong} wrong")
    return running.wrong != 0


sys.exit(main())
