#!/usr/bin/env python3
"""Runs the tests in tests/hostile/: what stands around the checker, used by strangers and where the system gives way. What needs what is not there is
left out, and said. The last line counts what passed and failed. usage: tests/hostile.py [FILE..], with names of files in that folder, such as
wrappers"""
import sys
import unittest
from pathlib import Path

from results import run_unit_tests

FOLDER = Path(__file__).resolve().parent / "hostile"


def main() -> int:
    sys.path.insert(0, str(FOLDER))
    names = sys.argv[1:] or sorted(path.stem for path in FOLDER.glob("*.py"))
    return run_unit_tests("hostile", unittest.defaultTestLoader.loadTestsFromNames(names))


if __name__ == "__main__":
    sys.exit(main())
