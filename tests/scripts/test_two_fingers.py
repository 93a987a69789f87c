#!/usr/bin/env python3
"""Tries the page on two fingers, its script, and that neither can part from the routine in the code.

    python3 tests/scripts/test_two_fingers.py

What is expected is worked out here by other means: sets, and the codes of both rows in one order. What the proved
routine itself answers is taken from the stored output of the program that runs it, and from a stored listing.
"""
import random
import re
import shutil
import subprocess
import sys
import tempfile
import unittest
from bisect import bisect_left
from pathlib import Path

ROOT = Path(__file__).resolve().parent.parent.parent
SOURCE = "crates/walk/src/two_fingers.rt"
PAGE = "docs/TWO-FINGERS.md"
LIMIT = 60  # seconds, for whatever might wait for ever
PYTHON = [sys.executable, "-S"]  # the scripts need the standard library alone, and start sooner so

BOTH = "Both fingers are on the same code: count it, and both move on."
LEFT = "The left finger is on the smaller code: it moves on."
RIGHT = "The right finger is on the smaller code: it moves on."
STOP = "A finger is past its row's end: stop."


def run(root, script, *arguments, **more):
    command = [*PYTHON, str(root / "scripts" / script), *arguments]
    return subprocess.run(command, stdin=subprocess.DEVNULL, capture_output=True, timeout=LIMIT, **more)


def words(row):
    return " ".join(map(str, sorted(row)))


def turns_of(left, right):
    """The turns of a walk, by the codes of both rows in one order: each is met in turn, up to the end of the shorter reach."""
    rows = sorted(left), sorted(right)
    last = min(rows[0][-1], rows[1][-1]) if left and right else -1
    turns = []
    for code in sorted(left | right):
        if code <= last:
            why = BOTH if code in left & right else LEFT if code in left else RIGHT
            turns.append((*(bisect_left(row, code) for row in rows), sum(c < code for c in left & right), why))
    ends = (bisect_left(row, last + 1) for row in rows)
    return [*turns, (*ends, len(left & right), STOP)]


def with_finger(row, finger):
    cards = [str(code) for code in sorted(row)] + [""]
    cards[finger] = f"[{cards[finger]}]"
    return " ".join(cards).strip()


def printed(left, right):
    """What the script has to print, but for the spaces between two columns."""
    lines = [("left finger", "right finger", "shared so far", "why it moves")]
    lines += [(with_finger(left, i), with_finger(right, j), str(n), why) for i, j, n, why in turns_of(left, right)]
    shared = len(left & right)
    return [*lines, (f"Shared: {shared}. In all: {len(left)} + {len(right)} - {shared} = {len(left | right)}.",)]


def columns(output):
    """The lines of a table, each cut where two spaces or more stand."""
    return [tuple(re.split(" {2,}", line)) for line in output.decode("ascii").splitlines()]


class Walks(unittest.TestCase):
    def walked(self, left, right):
        done = run(ROOT, "two-fingers.py", words(left), words(right))
        self.assertEqual((done.returncode, done.stderr), (0, b""))
        return columns(done.stdout)

    def test_random_rows(self):
        chance = random.Random(31)
        seen = set()
        for trial in range(40):
            codes = range(chance.choice((4, 12, 4096)))
            left, right = (set(chance.sample(codes, chance.randint(0, min(len(codes), 10)))) for _ in range(2))
            with self.subTest(trial=trial, left=words(left), right=words(right)):
                self.assertEqual(self.walked(left, right), printed(left, right))
                seen |= {turn[3] for turn in turns_of(left, right)}
        self.assertEqual(seen, {BOTH, LEFT, RIGHT, STOP})

    def test_borders(self):
        every = set(range(4096))
        for left, right in (
            (set(), set()), (set(), {7}), ({7}, set()), ({7}, {7}), ({0}, {4095}), ({4095}, {0}), ({0, 4095}, {0, 4095}),
            ({1, 2, 3}, {3}), ({3}, {1, 2, 3}), ({1, 2, 3}, {1}), (every, every),
        ):
            with self.subTest(left=words(left)[:20], right=words(right)[:20]):
                self.assertEqual(self.walked(left, right), printed(left, right))

    def test_columns_are_straight(self):
        done = run(ROOT, "two-fingers.py", "2 30 500", "7 4000")
        heads, *lines, _ = done.stdout.decode().splitlines()
        for head in ("right finger", "why it moves"):
            at = heads.index(head)
            self.assertEqual({line[at - 2 : at] for line in lines}, {"  "}, head)

    def test_the_proved_routine_counts_the_same(self):
        """The pairs that `leaves_run` hands to the proved routine, with what it printed: shared and union come last."""
        code = (ROOT / "crates/leaves_run/src/main.rt").read_text(encoding="utf-8")
        calls = re.findall(r'say_pair\(\s*rt,\s*"(\w+)",\s*&\[([\d, ]*)\],\s*&\[([\d, ]*)\],?\s*\)', code)
        told = dict(line.split(" ", 1) for line in (ROOT / "crates/leaves_run/stdout").read_text().splitlines())
        self.assertGreater(len(calls), 10)
        for name, offsets, codes in calls:
            middle, codes = int(offsets.split(",")[1]), [int(code) for code in codes.split(",") if code]
            left, right = set(codes[:middle]), set(codes[middle:])
            with self.subTest(name=name):
                shared, union = told[name].split()[2:]
                last = self.walked(left, right)[-1][0]
                self.assertEqual(last, f"Shared: {shared}. In all: {len(left)} + {len(right)} - {shared} = {union}.")

    def test_the_cemetery(self):
        """Every pair of the stored listing, which is the proved program's: its shared and its union."""
        sheet = (ROOT / "examples/cemetery.sheet").read_text(encoding="ascii").splitlines()[2:]
        listing = (ROOT / "examples/cemetery.listing").read_text(encoding="ascii")
        pairs = re.findall(r"^pair=(\d+) (\d+) (\d+) (\d+) \d+$", listing, re.M)
        self.assertEqual(len(pairs), 10)
        for lower, higher, shared, union in pairs:
            done = run(ROOT, "two-fingers.py", sheet[int(lower)][2:], sheet[int(higher)][2:])
            last = done.stdout.decode().splitlines()[-1]
            self.assertTrue(last.startswith(f"Shared: {shared}. ") and last.endswith(f" = {union}."), (lower, higher, last))

    def test_what_is_refused(self):
        for rows, status, said in (
            (("5 5", ""), 1, "The left row: code 5 stands behind 5."),
            (("", "1 7 6"), 1, "The right row: code 6 stands behind 7."),
            (("4096", ""), 1, "'4096' is no code"),
            (("1", "-1"), 1, "'-1' is no code"),
            (("1,2", ""), 1, "'1,2' is no code"),
            (("1 two", ""), 1, "'two' is no code"),
            (("٣", ""), 1, "is no code"),
            (("9" * 9000, ""), 1, "'99999999999999999999' is no code"),
            (("1",), 2, "scripts/two-fingers.py LEFT RIGHT"),
            (("1", "2", "3"), 2, "scripts/two-fingers.py LEFT RIGHT"),
        ):
            done = run(ROOT, "two-fingers.py", *rows)
            with self.subTest(rows=str(rows)[:40]):
                self.assertEqual((done.returncode, done.stdout), (status, b""))
                self.assertIn(said, done.stderr.decode())
                self.assertNotIn("Traceback", done.stderr.decode())

    def test_nobody_listens(self):
        with open("/dev/full", "wb") as full:
            command = [*PYTHON, str(ROOT / "scripts/two-fingers.py"), "1", "1"]
            done = subprocess.run(command, stdout=full, stderr=subprocess.PIPE, timeout=LIMIT)
        self.assertEqual(done.returncode, 2)
        self.assertIn("standard output: cannot be written", done.stderr.decode())


class Copies(unittest.TestCase):
    """A copy of all that the page rests on, in which one thing is damaged."""

    def setUp(self):
        folder = tempfile.TemporaryDirectory()
        self.addCleanup(folder.cleanup)
        self.root = Path(folder.name)
        shutil.copytree(ROOT / "scripts", self.root / "scripts", ignore=shutil.ignore_patterns("__pycache__"))
        for name in (SOURCE, PAGE, "examples/cemetery.listing"):
            (self.root / name).parent.mkdir(parents=True, exist_ok=True)
            shutil.copy(ROOT / name, self.root / name)

    def damaged(self, name, old, new):
        """Changes a file at the first place that has the old text, and gives the line of that place."""
        text = (ROOT / name).read_text(encoding="utf-8")
        self.assertIn(old, text)
        (self.root / name).write_text(text.replace(old, new, 1), encoding="utf-8")
        return text[: text.index(old)].count("\n") + 1

    def mended(self, name):
        shutil.copy(ROOT / name, self.root / name)

    def page(self):
        return run(self.root, "check-lesson.py", str(self.root / PAGE)).returncode


class Routine(Copies):
    EQUAL = BOTH + "\n            shared += 1;\n            left_finger += 1;\n            right_finger += 1;"
    # What is changed in the routine: the old text, the new one, and what the script then does with two rows.
    OTHER = {
        "the finger on the greater code": ("if left_card < right_card", "if right_card < left_card", b"Shared: 0."),
        "two for one": ("shared += 1;", "shared += 2;", b"Shared: 4."),
        "one too many": ("shared: u16 = 0", "shared: u16 = 1", b"Shared: 3."),
        "the right finger from its second card": ("right_finger: usize = 0", "right_finger: usize = 1", b"Shared: 1."),
        "one finger at an equal code": (EQUAL, EQUAL[: EQUAL.rindex("\n")], b"Shared: 2."),
        "another sentence": (STOP, "That was it.", b"That was it."),
    }
    BROKEN = {
        "no finger moves": (LEFT + "\n            left_finger += 1;", LEFT, "walk may not end"),
        "a finger stays": (LEFT + "\n            left_finger += 1;", LEFT + "\n            left_finger += 0;", "walk may not end"),
        "the other row's end": ("left_finger < left_row.len() && right_finger < right_row.len()",
                                "left_finger < left_row.len() && right_finger < left_row.len()", "cannot be carried out"),
        "a branch without its sentence": (f"            // {RIGHT}\n", "", "line {line}: a branch begins with its sentence"),
        "a form that is not known": ("shared += 1;", "shared -= 1;", "line {line}: what stands here is none of the forms"),
        "a name that is not there": ("let left_card = left_row[left_finger]", "let left_card = row[left_finger]", "carried out"),
        "no routine": ("pub fn shared_count(", "pub fn count(", "the routine is not there"),
        "no end": ("\n}\n", "\n", "the routine is not there"),
    }

    def test_the_routine_is_carried_out(self):
        """A change of the routine changes the table, and the page no longer fits."""
        for name, (old, new, told) in self.OTHER.items():
            self.damaged(SOURCE, old, new)
            done = run(self.root, "two-fingers.py", "2 3 5 8", "3 4 5 9")
            with self.subTest(name=name):
                self.assertEqual((done.returncode, done.stderr), (0, b""))
                self.assertIn(told, done.stdout)
                self.assertEqual(self.page(), 1)

    def test_what_cannot_be_carried_out(self):
        for name, (old, new, said) in self.BROKEN.items():
            line = self.damaged(SOURCE, old, new)
            done = run(self.root, "two-fingers.py", "2 3 5 8", "3 4 5")
            with self.subTest(name=name):
                self.assertEqual((done.returncode, done.stdout), (2, b""))
                self.assertIn(said.format(line=line), done.stderr.decode())
                self.assertNotIn("Traceback", done.stderr.decode())

    def test_no_source(self):
        (self.root / SOURCE).unlink()
        for rows in ((), ("1", "2")):
            done = run(self.root, "two-fingers.py", *rows)
            self.assertEqual((done.returncode, done.stdout), (2, b""))
            self.assertIn("two_fingers.rt: cannot be read", done.stderr.decode())


class Page(Copies):
    def test_as_it_stands(self):
        self.assertEqual(self.page(), 0)

    def test_damage_is_noticed(self):
        row = "2 3 [5] 8    3 [4] 5 9                 1  The right"
        for name, file, old, new in (
            ("a line of the routine on the page", PAGE, "let right_card = right_row[right_finger];", "let right_card = 0;"),
            ("a comment of the routine on the page", PAGE, "    // As long as each", "    // While each"),
            ("the contract on the page", PAGE, "(length xs.now ≤ 4096)", "(length xs.now ≤ 4095)"),
            ("a line of the table", PAGE, row, row.replace("1  The", "2  The")),
            ("a finger of the table", PAGE, row, row.replace("[4] 5 9", "4 [5] 9")),
            ("a line that is missing", PAGE, "103 105 [201] 401", "103 105 201 [401]"),
            ("the answer of the exercise", PAGE, "Shared: 4. In all", "Shared: 5. In all"),
            ("the line of the listing", PAGE, "\npair=6 9 4 6 103\n", "\npair=6 9 4 6 105\n"),
            ("a comment in the code", SOURCE, "    // As long as each", "    // While each"),
            ("the contract in the code", SOURCE, "(length xs.now ≤ 4096)", "(length xs.now ≤ 4095)"),
            ("an empty line in the code", SOURCE, "    let right_row = ys;\n\n", "    let right_row = ys;\n"),
            ("another listing", "examples/cemetery.listing", "pair=6 9 4 6 103", "pair=6 9 4 6 105"),
        ):
            self.damaged(file, old, new)
            with self.subTest(name=name):
                self.assertEqual(self.page(), 1)
            self.mended(file)
        self.assertEqual(self.page(), 0)

    def test_exercise_has_the_graves_of_the_sheet(self):
        contexts = (ROOT / "examples/cemetery.sheet").read_text(encoding="ascii").splitlines()[2:]
        page = (ROOT / PAGE).read_text(encoding="utf-8")
        for grave in (6, 9):
            self.assertIn(f"\n| {grave} | {contexts[grave][2:]} |\n", page)

    def test_the_exercises_of_others(self):
        """What the answers say of Ana and Beso: she counts nothing, he counts four in a longer table."""
        self.damaged(SOURCE, *Routine.OTHER["the finger on the greater code"][:2])
        self.assertIn(b"Shared: 0.", run(self.root, "two-fingers.py", "1 5", "5").stdout)
        self.damaged(SOURCE, *Routine.OTHER["one finger at an equal code"][:2])
        his = run(self.root, "two-fingers.py", "103 105 201 401 509", "103 105 401 503 509").stdout.splitlines()
        self.assertTrue(his[-1].startswith(b"Shared: 4."))
        self.assertGreater(len(his) - 2, 7)


if __name__ == "__main__":
    unittest.main()
