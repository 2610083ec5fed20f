#!/usr/bin/env python3
"""Runs the front end as a person would and compares what it says, draws and ends with. tests/tools/run starts it.

    front_end.py            every test
    front_end.py NAME ..    these tests, such as test_svg
"""
import sys
import tempfile
import time
from concurrent.futures import ThreadPoolExecutor

import answers
import engines
import large
import logs
import pictures
import replays
import sixteen
import troubles
from common import wrong

MODULES = (answers, engines, large, logs, pictures, replays, sixteen, troubles)
TESTS = {name: value for module in MODULES for name, value in vars(module).items() if name.startswith("test_")}


def run_test(name):
    with tempfile.TemporaryDirectory() as folder:
        TESTS[name](folder)


def main():
    began = time.monotonic()
    # a test waits for programs most of the time
    with ThreadPoolExecutor(2) as workers:
        list(workers.map(run_test, sys.argv[1:] or TESTS))
    print(f"tools: {len(wrong)} wrong, in {time.monotonic() - began:.0f} seconds")
    return 1 if wrong else 0


if __name__ == "__main__":
    sys.exit(main())
