#!/usr/bin/env python3
"""Tries the gate itself: it counts what passed and what failed, goes on behind a failure, and keeps its logs; it takes a
must-fail edit that no longer fits for a failure; the check of the stored sheets notices what it should; and README shows
what is printed.
"""
import os
import re
import shutil
import subprocess
import tempfile
import unittest
from pathlib import Path

ROOT = Path(__file__).resolve().parent.parent.parent

# A small crate.
LIBRARY = """// A library with one function.
#![tactic(auto)]

ghost use Rattle.std.specs.Prelude.{◌≡◌};

// The number itself.
pub fn same(x: u8) -> u8
    ensures { result ≡ x }
{
    x
}
"""


class Steps(unittest.TestCase):
    def setUp(self):
        self.place = Path(tempfile.mkdtemp())
        self.addCleanup(shutil.rmtree, self.place)

    def gate(self, steps):
        script = f". '{ROOT}/scripts/steps.sh'\n{steps}\ntally '{self.place}/logs'\n"
        run = subprocess.run(["bash", "-c", script], capture_output=True, text=True)
        return run.returncode, run.stdout.splitlines()[-1], run.stdout

    def test_counts(self):
        prover = "printf '119 passed, 0 failed\\n'"
        refused = "sh -c 'echo 117 passed, 2 failed; exit 1'"
        for steps, status, line in (
            ("step a true; step b true", 0, "2 passed, 0 failed"),
            ("step a true; step b false; step c true", 1, "2 passed, 1 failed"),
            ("step a false", 1, "0 passed, 1 failed"),
            (f"step a true; step proofs {prover}", 0, "120 passed, 0 failed"),
            (f"step a true; step proofs {refused}; step c false", 1, "118 passed, 3 failed"),
            ("step proofs sh -c 'echo 119 passed, 0 failed; exit 1'", 1, "119 passed, 1 failed"),
            ("step a no-such-command", 1, "0 passed, 1 failed"),
            ("step a sh -c 'kill -9 $$'", 1, "0 passed, 1 failed"),
            ("step proofs echo 0 passed, 0 failed", 1, "0 passed, 1 failed"),
            ("step proofs echo 3 passed, 2 failed", 1, "3 passed, 2 failed"),
            ("step proofs echo 09 passed, 0 failed", 0, "9 passed, 0 failed"),
            ("step nothing", 1, "0 passed, 1 failed"),
            ("", 1, "0 passed, 0 failed"),
        ):
            self.assertEqual(self.gate(steps)[:2], (status, line), steps)

    def test_says_what_failed_and_goes_on(self):
        _, _, said = self.gate("step 'first one' false; step second echo still here; step third echo 3 passed, 2 failed")
        self.assertIn("== first one: FAILED", said)
        self.assertIn("failed: third", said)
        self.assertIn("failed: first one", said)
        self.assertIn("still here", said)

    def test_keeps_a_log_of_each_step(self):
        self.gate("step 'one (of two)' echo first; step two sh -c 'echo second >&2; false'")
        logs = sorted((self.place / "logs").iterdir())
        self.assertEqual([log.name for log in logs], ["01-one-of-two.log", "02-two.log"])
        self.assertEqual([log.read_text() for log in logs], ["first\n", "second\n"])
        self.gate("step other echo again")
        self.assertEqual([log.name for log in (self.place / "logs").iterdir()], ["01-other.log"])

    def test_no_room_for_logs(self):
        script = f". '{ROOT}/scripts/steps.sh'\nstep a true\ntally '{self.place}/logs'\n"
        run = subprocess.run(["bash", "-c", script], capture_output=True, env={**os.environ, "TMPDIR": "/nowhere"})
        self.assertNotEqual(run.returncode, 0)
        self.assertEqual(run.stdout, b"")


class Proofs(unittest.TestCase):
    """scripts/rt-ci.sh passes on what `rt ci` says, and fails where an edit is bad."""

    OK = "rt: ok; handles allowed: none; must-fail edits: {}; every proof and must-fail edit was done in this run"

    def setUp(self):
        self.place = Path(tempfile.mkdtemp())
        self.addCleanup(shutil.rmtree, self.place)
        (self.place / "scripts").mkdir()
        for script in ("rt-ci.sh", "steps.sh"):
            shutil.copy(ROOT / "scripts" / script, self.place / "scripts" / script)

    def gate(self, **more):
        """The status of the step alone, and the gate's last line."""
        step = f"'{self.place}/scripts/rt-ci.sh'"
        run = subprocess.run(
            ["bash", "-c", f". scripts/steps.sh; step proofs {step}; tally logs"],
            cwd=self.place, capture_output=True, text=True, env={**os.environ, **more},
        )
        self.log = (self.place / "logs/01-proofs.log").read_text()
        return run.returncode, run.stdout.splitlines()[-1]

    def said(self, *lines, status=0):
        """What the gate makes of these lines, from a stand-in for rt."""
        tools = self.place / "tools"
        tools.mkdir(exist_ok=True)
        note = f"echo \"$PWD $*\" > '{self.place}/called'"
        (tools / "rt").write_text("\n".join(["#!/bin/sh", note, "cat <<'END'", *lines, "END", f"exit {status}", ""]))
        (tools / "rt").chmod(0o755)
        return self.gate(PATH=f"{tools}:{os.environ['PATH']}")

    def test_what_rt_says_counts(self):
        ok = self.OK.format("3 refused")
        limit = self.OK.format("3 refused, 2 of them only by a limit")
        none = "rt: ok; handles allowed: none; every proof and must-fail edit was done in this run"
        for lines, status, found in (
            ((ok, "5 passed, 0 failed"), 0, (0, "5 passed, 0 failed")),
            ((limit, "5 passed, 0 failed"), 0, (0, "5 passed, 0 failed")),
            ((none, "2 passed, 0 failed"), 0, (0, "2 passed, 0 failed")),
            (("rt: FAILED: join", "4 passed, 1 failed"), 1, (1, "4 passed, 1 failed")),
            (("0 passed, 1 failed",), 2, (1, "0 passed, 1 failed")),
            ((ok, "5 passed, 0 failed"), 1, (1, "5 passed, 1 failed")),
            (("5 passed, 0 failed",), 0, (1, "5 passed, 1 failed")),
            ((), 0, (1, "0 passed, 1 failed")),
        ):
            self.assertEqual(self.said(*lines, status=status), found, lines)

    def test_a_bad_edit_is_a_failure(self):
        for words, line in (
            ("3 refused, 1 bad", "5 passed, 1 failed"),
            ("3 refused, 2 of them only by a limit, 12 bad", "5 passed, 12 failed"),
            ("0 refused, 2 bad", "5 passed, 2 failed"),
        ):
            self.assertEqual(self.said(self.OK.format(words), "5 passed, 0 failed"), (1, line), words)
        last = "rt: ok; must-fail edits: 0 refused, 4 bad"
        self.assertEqual(self.said(last, "5 passed, 0 failed"), (1, "5 passed, 4 failed"))

    def test_plain_and_at_the_top(self):
        self.said(self.OK.format("3 refused"), "5 passed, 0 failed")
        self.assertEqual((self.place / "called").read_text(), f"{self.place} ci\n")

    def test_no_kit(self):
        (self.place / "tools").mkdir()
        for tool in ("bash", "cat", "cp", "date", "dirname", "grep", "mkdir", "mktemp", "rm", "sed", "tail", "tee", "tr"):
            (self.place / "tools" / tool).symlink_to(shutil.which(tool))
        self.assertEqual(self.gate(PATH=str(self.place / "tools")), (1, "0 passed, 1 failed"))

    def test_with_the_kit(self):
        """The words of rt itself: a small crate with an edit that is refused, and then with another that fits no more."""
        crate = self.place / "crates/one"
        (crate / "src").mkdir(parents=True)
        (crate / "must-fail").mkdir()
        (crate / "src/lib.rt").write_text(LIBRARY, encoding="utf-8")
        (crate / "must-fail/zero.edit").write_text("file: src/lib.rt\nold:     x\nnew:     0\n")
        (self.place / "crates.txt").write_text("one:\n")
        self.assertEqual(self.gate(), (0, "2 passed, 0 failed"))
        (crate / "must-fail/gone.edit").write_text("file: src/lib.rt\nold:     y\nnew:     0\n")
        self.assertEqual(self.gate(), (1, "2 passed, 1 failed"))
        self.assertIn("must-fail one/gone.edit: BAD EDIT", self.log)


class Runner(unittest.TestCase):
    """scripts/run-tests.py passes a file of tests only if it tests something."""

    def run_file(self, text):
        with tempfile.TemporaryDirectory() as folder:
            file = Path(folder) / "test_some.py"
            file.write_text(text)
            run = subprocess.run(["python3", ROOT / "scripts/run-tests.py", file], capture_output=True, text=True)
        return run.returncode, run.stdout

    def test_what_passes(self):
        case = "import unittest\nclass T(unittest.TestCase):\n    def test_one(self):\n        "
        self.assertEqual(self.run_file(case + "pass\n")[0], 0)
        for bad in (case + "self.fail()\n", case + "self.skipTest('why')\n", case.replace("test_", "tried_") + "pass\n", ""):
            self.assertEqual(self.run_file(bad)[0], 1, bad)
        two = case + "pass\n    def test_two(self):\n        self.skipTest('no root')\n"
        status, said = self.run_file(two)
        self.assertEqual(status, 0)
        self.assertRegex(said, r"NOT TRIED: .*test_two.*: no root")


class Examples(unittest.TestCase):
    def setUp(self):
        self.place = Path(tempfile.mkdtemp())
        self.addCleanup(shutil.rmtree, self.place)
        shutil.copytree(ROOT / "examples", self.place / "examples")

    def check(self, program=ROOT / "target/bin/sazamkhri"):
        folders = [self.place / "examples", self.place / "examples/refused"]
        return subprocess.run([ROOT / "scripts/check-examples.sh", program, *folders], capture_output=True).returncode

    def stand_in(self, behind):
        program = self.place / "program"
        program.write_text(f"#!/bin/sh\n'{ROOT}/target/bin/sazamkhri'\n{behind}\n")
        program.chmod(0o755)
        return program

    def test_as_stored(self):
        self.assertEqual(self.check(), 0)

    def test_each_listing_is_compared(self):
        listings = sorted(self.place.rglob("*.listing"))
        self.assertGreater(len(listings), 8)
        for listing in listings:
            text = listing.read_bytes()
            listing.write_bytes(text[:-2] + b"7\n")
            self.assertNotEqual(self.check(), 0, listing.name)
            listing.write_bytes(text)

    def test_a_listing_without_a_sheet_and_a_sheet_without_a_listing(self):
        (self.place / "examples/three.sheet").rename(self.place / "examples/3.sheet")
        self.assertNotEqual(self.check(), 0)
        (self.place / "examples/three.listing").unlink()
        self.assertNotEqual(self.check(), 0)

    def test_a_program_that_dies_or_says_more(self):
        for behind in ("exit 3", "kill -9 $$", "echo more"):
            self.assertNotEqual(self.check(self.stand_in(behind)), 0, behind)
        self.assertEqual(self.check(self.stand_in("exit 0")), 0)


class Readme(unittest.TestCase):
    """What README shows of a sheet, a listing and a refusal is what is there."""

    def blocks(self):
        return re.findall(r"^```text\n(.*?)^```$", (ROOT / "README.md").read_text(encoding="utf-8"), re.M | re.S)

    def test_sheet_and_listing(self):
        for name in ("examples/three.sheet", "examples/three.listing"):
            self.assertIn((ROOT / name).read_text(), self.blocks())

    def test_words_of_a_refusal(self):
        run = subprocess.run(["scripts/list.py", "examples/refused/09.sheet"], cwd=ROOT, capture_output=True, text=True)
        self.assertEqual((run.returncode, run.stdout), (1, (ROOT / "examples/refused/09.listing").read_text()))
        self.assertIn(run.stderr, self.blocks())


if __name__ == "__main__":
    unittest.main()
