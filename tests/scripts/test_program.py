#!/usr/bin/env python3
"""Tests how the proved program ends when it is called alone, without the front: target/bin/sazamkhri.

    python3 tests/scripts/test_program.py

Needs target/bin/sazamkhri (`make program`). After a listing and after a refusal alike it ends with 0 (docs/DECISIONS.md, S16);
where it cannot read or write it says so in a line on standard error, and ends with 1.
"""
import os
import subprocess
import time
import unittest
from pathlib import Path

ROOT = Path(__file__).resolve().parent.parent.parent
PROGRAM = ROOT / "target" / "bin" / "sazamkhri"
SHEET = (ROOT / "examples" / "three.sheet").read_bytes()
LISTING = (ROOT / "examples" / "three.listing").read_bytes()


def ends(words, **settings):
    """The program, called by a shell with these words behind its name: status, output, what it says."""
    run = subprocess.run(["bash", "-c", f'"$0" {words}', PROGRAM], capture_output=True, timeout=60, check=False, **settings)
    return run.returncode, run.stdout, run.stderr


class Endings(unittest.TestCase):
    def told(self, words, output, **settings):
        self.assertEqual(ends(words, **settings), (0, output, b""))

    def failed(self, words, **settings):
        status, output, said = ends(words, **settings)
        self.assertEqual((status, output), (1, b""))
        self.assertRegex(said, rb"\A[^\n]+\n\Z")

    def test_a_listing(self):
        self.told("", LISTING, input=SHEET)

    def test_a_refusal(self):
        self.told("", b"refused=9 13\n", input=SHEET.replace(b"=3", b"=x", 1))

    def test_no_bytes(self):
        self.told("", b"refused=9 0\n", input=b"")
        self.told("< /dev/null", b"refused=9 0\n")

    def test_a_closed_input(self):
        self.told("<&-", b"refused=9 0\n")

    def test_as_many_bytes_as_fit_and_one_more(self):
        self.told("", b"refused=9 0\n", input=b"x" * 24576)
        self.told("", b"refused=11 24576\n", input=b"x" * 24577)
        self.told("", b"refused=11 24576\n", input=SHEET + b"\0" * 100000)

    def test_input_in_pieces(self):
        with subprocess.Popen([PROGRAM], stdin=subprocess.PIPE, stdout=subprocess.PIPE, stderr=subprocess.PIPE) as run:
            for at in range(0, len(SHEET), 7):
                run.stdin.write(SHEET[at : at + 7])
                run.stdin.flush()
                time.sleep(0.01)
            output, said = run.communicate(timeout=60)
        self.assertEqual((run.returncode, output, said), (0, LISTING, b""))

    def test_a_folder_as_input(self):
        self.failed("< /")

    def test_a_full_disk(self):
        self.failed("> /dev/full", input=SHEET)
        self.failed("> /dev/full", input=b"x")

    def test_a_closed_output(self):
        self.failed(">&-", input=SHEET)

    def test_a_reader_that_has_gone(self):
        reading, writing = os.pipe()
        os.close(reading)
        run = subprocess.run([PROGRAM], input=SHEET, stdout=writing, stderr=subprocess.PIPE, timeout=60, check=False)
        os.close(writing)
        self.assertNotEqual(run.returncode, 0)


if __name__ == "__main__":
    unittest.main()
