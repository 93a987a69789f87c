#!/usr/bin/env python3
"""Runs files of tests, and fails if one of them tests nothing.

    scripts/run-tests.py FILE..

Each test that was skipped is named, with the reason. Exits with 1 if a test fails, or if a file has no test that was run.
"""
import sys
import unittest
from importlib.util import module_from_spec, spec_from_file_location
from pathlib import Path


def run(file):
    """Runs the tests of a file; says whether all is well."""
    spec = spec_from_file_location(Path(file).stem, file)
    module = module_from_spec(spec)
    sys.modules[spec.name] = module
    spec.loader.exec_module(module)
    result = unittest.TextTestRunner(stream=sys.stdout).run(unittest.defaultTestLoader.loadTestsFromModule(module))
    for test, reason in result.skipped:
        print(f"NOT TRIED: {test.id()}: {reason}")
    tried = result.testsRun - len(result.skipped)
    if not tried:
        print(f"{file}: no test was run")
    return result.wasSuccessful() and tried > 0


def main(files):
    well = [run(file) for file in files]
    return 0 if well and all(well) else 1


if __name__ == "__main__":
    sys.exit(main(sys.argv[1:]))
