#!/usr/bin/env python3
"""Tries the scripts of the lesson, the check of its page, and the site where everybody owns the pot.

    python3 tests/scripts/test_lesson.py

What is expected is worked out here by other means: sets, fractions and sorting, or by hand. The program is
target/bin/sazamkhri; `make program` makes it.
"""
import os
import random
import re
import shutil
import subprocess
import sys
import tempfile
import unittest
from fractions import Fraction
from itertools import combinations
from pathlib import Path

ROOT = Path(__file__).resolve().parent.parent.parent
SCRIPTS = ROOT / "scripts"
EXAMPLES = ROOT / "examples"
PROGRAM = ROOT / "target" / "bin" / "sazamkhri"
LIMIT = 60  # seconds, for whatever might wait for ever
PYTHON = [sys.executable, "-S"]  # the scripts need the standard library alone, and start sooner so

CEMETERY = (EXAMPLES / "cemetery.sheet").read_text(encoding="ascii")


def run(script, *files, text="", **more):
    """A script with its input as text; the output comes back as text."""
    more.setdefault("stdout", subprocess.PIPE)
    command = [*PYTHON, str(SCRIPTS / script), *files]
    return subprocess.run(command, input=text.encode("latin-1"), stderr=subprocess.PIPE, timeout=LIMIT, **more)


def shell(script, line, *arguments):
    """A script with a shell's line behind it, for what only a shell can do: close its input and output."""
    command = ["sh", "-c", f'"$@" {line}', "sh", *PYTHON, str(SCRIPTS / script), *arguments]
    return subprocess.run(command, stdin=subprocess.DEVNULL, capture_output=True, timeout=LIMIT)


def listed(sheet):
    """What the program prints for a sheet."""
    done = subprocess.run([str(PROGRAM)], input=sheet.encode("latin-1"), capture_output=True, timeout=LIMIT)
    return done.stdout.decode("latin-1")


def sheet_of(site, k):
    """The sheet of a list of sets."""
    lines = ["c=" + " ".join(str(code) for code in sorted(context)) for context in site]
    return "\n".join([f"k={k}", f"contexts={len(site)}", *lines, ""])


def site_of(sheet):
    """The sets of a well-formed sheet."""
    return [{int(code) for code in line[2:].split()} for line in sheet.splitlines()[2:]]


def pairs_in(text):
    """The numbers of the `pair=` lines of a text."""
    return [tuple(int(n) for n in line[5:].split()) for line in text.splitlines() if line.startswith("pair=")]


def all_pairs(site):
    """Every pair that shares a code, by brute force, the most alike first."""
    pairs = []
    for a, b in combinations(range(len(site)), 2):
        shared, union = len(site[a] & site[b]), len(site[a] | site[b])
        if shared:
            pairs.append((a, b, shared, union, min(site[a] & site[b])))
    return sorted(pairs, key=lambda p: (-ratio(p), p[0], p[1]))


def ratio(pair):
    """How alike a pair is. The first shared code has no say in it."""
    return Fraction(pair[2], pair[3])


def ceiling(site, a, b):
    """The lower of the two shares of a and of b that stand from their first shared code on."""
    first = min(site[a] & site[b])
    return min(Fraction(sum(code >= first for code in site[x]), len(site[x])) for x in (a, b))


def met(site, k):
    """How many pairs meet, by the definition: those whose ceiling reaches the k-th ratio."""
    pairs = all_pairs(site)
    cut = ratio(pairs[k - 1]) if len(pairs) >= k else 0
    return sum(ceiling(site, *pair[:2]) >= cut for pair in pairs)


def random_site(chance):
    """Up to 14 contexts; few codes, so that ties are frequent."""
    codes = range(chance.choice((6, 20, 2048)))
    most = min(len(codes), 9)
    return [set(chance.sample(codes, chance.randint(0, most))) for _ in range(chance.randint(0, 14))]


def rows_of(output):
    """The table of who-moves.py: rows of words, and the lines below it."""
    head, *lines = output.decode("ascii").splitlines()
    rows = [line.split() for line in lines if re.match(r" *[0-9]", line)]
    return head.split(), rows, lines[len(rows) :]


class Case(unittest.TestCase):
    def setUp(self):
        self.assertTrue(PROGRAM.is_file(), f"{PROGRAM} is not there: make program")
        folder = tempfile.TemporaryDirectory()
        self.addCleanup(folder.cleanup)
        self.folder = Path(folder.name)

    def file(self, name, text):
        path = self.folder / name
        path.write_bytes(text.encode("latin-1"))
        return str(path)

    def refused(self, done, status, *words):
        """Nothing is printed, the words are said, no traceback, and the status is right."""
        said = done.stderr.decode("utf-8", "backslashreplace")
        self.assertEqual((done.returncode, done.stdout or b""), (status, b""), f"{done.args}: {said}")
        self.assertNotIn("Traceback", said)
        for word in words:
            self.assertIn(word, said)


class ByShared(Case):
    def test_random_sites(self):
        chance = random.Random(21)
        for trial in range(15):
            site, k = random_site(chance), chance.choice((1, 5, 64))
            listing = listed(sheet_of(site, k))
            done = run("by-shared.py", text=listing)
            expected = all_pairs(site)[:k]
            expected.sort(key=lambda p: p[1])
            expected.sort(key=lambda p: p[0])
            expected.sort(key=lambda p: p[2], reverse=True)
            with self.subTest(trial=trial):
                self.assertEqual((done.returncode, done.stderr), (0, b""))
                self.assertEqual(done.stdout.decode(), "".join("pair=%d %d %d %d %d\n" % p for p in expected))

    def test_file_and_standard_input_are_one(self):
        listing = str(EXAMPLES / "cemetery.listing")
        text = Path(listing).read_text(encoding="ascii")
        ways = [run("by-shared.py", listing), run("by-shared.py", "--", listing), run("by-shared.py", "-", text=text)]
        self.assertEqual(len({done.stdout for done in ways}), 1)
        self.assertEqual(len(ways[0].stdout.splitlines()), 10)

    def test_by_hand(self):
        """The code goes with its pair, and has no say in the order; both borders of a code are codes."""
        head, listed_pairs = "k=5\nfound=4\nevents=9\nmet=4\n", "1 2 3 4 0|0 3 4 8 4095|2 3 4 8 7|0 1 5 99 12"
        ranked = "0 1 5 99 12|0 3 4 8 4095|2 3 4 8 7|1 2 3 4 0"
        lines = ["".join(f"pair={pair}\n" for pair in pairs.split("|")) for pairs in (listed_pairs, ranked)]
        done = run("by-shared.py", text=head + lines[0])
        self.assertEqual((done.returncode, done.stdout.decode(), done.stderr), (0, lines[1], b""))

    def test_not_a_listing(self):
        head, two = "k=5\nfound=2\nevents=9\nmet=3\n", "pair=0 1 2 3 4\npair=0 2 1 2 0\n"
        old = "an older version, with four numbers", "List the sheet again"
        faults = {
            "": ("it is empty",),
            "refused=8 0\n": ("refused=8 0", "README"),
            CEMETERY: ("line 2", "found= and a number", "contexts=11"),
            "k=5\r\nfound=0\r\n": ("line 1", "'k=5\\r'"),
            "\xff\xfek\0=\0": ("line 1", "\\xff"),
            "k=5": ("line 2", "its end"),
            head.replace("k=5", "k=05") + two: ("line 1",),
            head.replace("events=9", "events=100000") + two: ("line 3", "events= and a number"),
            head.replace("k=5", "k=1") + two: ("line 2", "at most k=1"),
            head: ("line 5", "found=2", "''"),
            head + "pair=0 1 2 3 4\n": ("line 6", "found=2"),
            head + two + "pair=1 2 1 9 0\n": ("line 7", "no more"),
            head + two + "\n": ("line 7", "no more"),
            head + two[:-1]: ("line 6", "line end"),
            head + "pair=0 1 2 3\npair=0 2 1 2\n": ("line 5", "'pair=0 1 2 3'", *old),
            head + two.replace("0 2 1 2 0", "0 2 1 2"): ("line 6", "a pair belongs here", "'pair=0 2 1 2'"),
            head + two.replace("0 2 1 2 0", "0 2 1 2 "): ("line 6", "a pair belongs here"),
            head + two.replace("0 2 1 2 0", "0 2 1"): ("line 6", "a pair belongs here"),
            head + two.replace("0 2 1 2 0", "0 2 1 2 0 7"): ("line 6", "a pair belongs here", "first shared code"),
            head + two.replace("0 2 1 2 0", "0 2 1 2 4096"): ("line 6", "a pair belongs here"),
            head + two.replace("0 2 1 2 0", "0 2 1 2 65535"): ("line 6", "a pair belongs here"),
            head + two.replace("0 2 1 2 0", "0 2 1 2 00"): ("line 6", "a pair belongs here"),
            head + two.replace("0 2 1 2 0", "0 2 1 2 -1"): ("line 6", "a pair belongs here"),
            head + two.replace("0 2 1 2", "2 0 1 2"): ("line 6", "a pair belongs here"),
            head + two.replace("0 2 1 2", "0 2 0 2"): ("line 6", "a pair belongs here"),
            head + two.replace("0 2 1 2", "0 2 3 2"): ("line 6", "a pair belongs here"),
            head + two.replace("0 2 1 2", "0 1 1 2"): ("line 6", "once"),
            head + two.replace("0 2 1 2", "0 2 3 4"): ("line 6", "more alike"),
            head + "pair=0 2 1 2 3\npair=0 1 2 4 4\n": ("line 6", "same ratio"),
            head + "pair=0 2 1 2 4\npair=0 1 2 4 3\n": ("line 6", "same ratio"),
            head + two + "x" * 3000: ("more than 2,048 bytes",),
            "k=" + "9" * 2000 + "\n": ("line 1",),
        }
        self.assertEqual(run("by-shared.py", text=head + two).returncode, 0)
        for text, words in faults.items():
            with self.subTest(text=text[:60]):
                self.refused(run("by-shared.py", text=text), 1, "standard input", *words)
                self.refused(run("who-moves.py", text=text), 1, "standard input", *words)


class Doubled(Case):
    def test_random_sites(self):
        chance = random.Random(22)
        for trial in range(15):
            site, k = random_site(chance), chance.choice((1, 5, 64))
            done = run("doubled.py", text=sheet_of(site, k))
            with self.subTest(trial=trial):
                self.assertEqual((done.returncode, done.stderr), (0, b""))
                twice = [{2 * c for c in context} | {2 * c + 1 for c in context} for context in site]
                self.assertEqual(done.stdout.decode(), sheet_of(twice, k))
                before, after = listed(sheet_of(site, k)), listed(done.stdout.decode())
                self.assertEqual([(a, b, 2 * s, 2 * u, 2 * c) for a, b, s, u, c in pairs_in(before)], pairs_in(after))
                for kept in ("found=", "met="):
                    self.assertEqual(*[[x for x in t.splitlines() if x.startswith(kept)] for t in (before, after)])

    def test_the_stored_sheet(self):
        stored = EXAMPLES / "cemetery-doubled.sheet"
        done = run("doubled.py", str(EXAMPLES / "cemetery.sheet"))
        self.assertEqual(done.stdout, stored.read_bytes())
        self.assertEqual(listed(done.stdout.decode()), (EXAMPLES / "cemetery-doubled.listing").read_text())

    def test_the_limits_are_reached(self):
        full = sheet_of([set(range(2048))], 1)
        done = run("doubled.py", text=full)
        self.assertEqual(done.returncode, 0, done.stderr)
        self.assertEqual(listed(done.stdout.decode()), "k=1\nfound=0\nevents=4096\nmet=0\n")
        spread = sheet_of([set(range(1040, 2048)), set(range(1008, 2048))], 64)
        self.assertTrue(listed(run("doubled.py", text=spread).stdout.decode()).endswith("pair=0 1 2016 2080 2080\n"))

    def test_no_room_for_second_codes(self):
        code = sheet_of([{1, 2}, {7, 2047, 2048}], 1)
        self.refused(run("doubled.py", text=code), 1, "line 4, column 10", "code 2048", "up to 2,047")
        many = sheet_of([set(range(2000)), set(range(48)), {5, 17}], 1)
        self.refused(run("doubled.py", text=many), 1, "line 5, column 3", "code 5 ", "2,049", "split")
        several = sheet_of([set(range(2000)), set(range(49))], 1)  # before code 48: c=, 10 times 2 and 38 times 3
        self.refused(run("doubled.py", text=several), 1, "line 4, column 137", "code 48 ", "2,049")

    def test_not_a_sheet(self):
        top = "k=1\ncontexts=2\n"
        faults = {
            "": ("line 1, column 1", "end of the file", "k="),
            "k=1\nfound=0\nevents=0\nmet=0\n": ("line 2, column 1", "'f'", "contexts="),
            "refused=9 4\n": ("line 1, column 1", "'r'"),
            "k=1": ("line 1, column 4", "end of the file"),
            "k=0\ncontexts=0\n": ("line 1, column 3", "k is 0", "1 to 64"),
            "k=65\ncontexts=0\n": ("line 1, column 3", "k is 65"),
            "k=\ncontexts=0\n": ("line 1, column 3", "line's end"),
            "k=1\ncontexts=257\n": ("line 2, column 10", "257 contexts", "256"),
            "k=1\ncontexts=" + "9" * 9000 + "\n": ("line 2, column 10", "999999999... contexts"),
            "k=1\ncontexts =0\n": ("line 2, column 9", "a space"),
            "K=1\ncontexts=0\n": ("line 1, column 1", "'K'"),
            "\xef\xbb\xbfk=1\ncontexts=0\n": ("line 1, column 1", "no plain text"),
            "k=1\r\ncontexts=0\r\n": ("line 1, column 4", "Windows"),
            top + "c=1 2\n": ("line 4, column 1", "end of the file", "c="),
            top + "c=1 2\nc=1": ("line 4, column 4", "end of the file"),
            top + "c=1 2\nc=1 ": ("line 4, column 5", "end of the file"),
            top + "c=1 2\nc=1\nc=\n": ("line 5, column 1", "'c'", "contexts=2"),
            top + "c=1 2\nc=1\n\n": ("line 5, column 1", "line's end", "contexts=2"),
            top + "c=1,2\nc=1\n": ("line 3, column 4", "','", "one space"),
            top + "c=1  2\nc=1\n": ("line 3, column 5", "a space"),
            top + "c=1 \nc=1\n": ("line 3, column 5", "line's end"),
            top + "c= 1\nc=1\n": ("line 3, column 3", "a space"),
            top + "c=1\t2\nc=1\n": ("line 3, column 4", "a tab"),
            top + "c=1 02\nc=1\n": ("line 3, column 6", "'2'"),
            top + "c=1 -2\nc=1\n": ("line 3, column 5", "'-'"),
            top + "c=1 2\nc=3 3\n": ("line 4, column 5", "code 3 stands behind 3"),
            top + "c=1 2\nc=4 3\n": ("line 4, column 5", "code 3 stands behind 4", "Sort"),
            top + "c=1 2\nc=1 10000\n": ("line 4, column 5", "code 10000 cannot"),
            top + "c=1 2\nc=1 " + "7" * 5000 + "\n": ("line 4, column 5", "code 777777777... cannot"),
            "x" * 24577: ("more than 24,576 bytes",),
        }
        for text, words in faults.items():
            with self.subTest(text=text[:60]):
                self.refused(run("doubled.py", text=text), 1, "standard input", *words)

    def test_damaged_sheets_against_the_program(self):
        chance = random.Random(23)
        seen = {"accepted": 0, "refused": 0}
        for trial in range(80):
            site = [set(chance.sample(range(900), chance.randint(1, 5))) for _ in range(chance.randint(1, 4))]
            sheet = damaged(chance, sheet_of(site, chance.randint(1, 64)))
            with self.subTest(trial=trial, sheet=sheet):
                seen[self.agree(sheet)] += 1
        self.assertGreater(min(seen.values()), 10, seen)

    def agree(self, sheet):
        """The script refuses what the program refuses, at the same place, and codes above 2,047."""
        done, told = run("doubled.py", text=sheet), listed(sheet)
        high = [n for n in re.findall("[0-9]+", sheet.partition("c=")[2]) if 2047 < int(n) <= 4095]
        if not told.startswith("refused=") and not high:
            self.assertEqual(done.returncode, 0, done.stderr)
            self.assertFalse(listed(done.stdout.decode()).startswith("refused="))
            return "accepted"
        self.refused(done, 1, "standard input, line ")
        number, place = map(int, re.findall("[0-9]+", told)[:2])
        if not high and number in (9, 10, 11):
            before = sheet[:place].split("\n")
            self.refused(done, 1, f"line {len(before)}, column {len(before[-1]) + 1}:")
        return "refused"


def damaged(chance, sheet):
    """A sheet with one byte inserted, left out or changed; or as it is."""
    at, byte = chance.randrange(len(sheet) + 1), chance.choice("0123456789 ,\n\r\tkc=x\xff")
    return chance.choice((sheet, sheet[:at] + byte + sheet[at:], sheet[:at] + sheet[at + 1 :],
                          sheet[:at] + byte + sheet[at + 1 :]))


class WhoMoves(Case):
    def test_random_sites(self):
        chance = random.Random(24)
        for trial in range(12):
            site, k = random_site(chance), chance.choice((1, 5, 64))
            first = self.file("first", listed(sheet_of(site, k)))
            twice = [{2 * c for c in context} | {2 * c + 1 for c in context} for context in site]
            second = self.file("second", listed(sheet_of(twice, k)))
            with self.subTest(trial=trial):
                self.ranked(all_pairs(site)[:k], k, run("who-moves.py", first), [])
                self.ranked(all_pairs(site)[:k], k, run("who-moves.py", first, second), ["doubled"])

    def ranked(self, pairs, k, done, further):
        """The table has each pair of the brute force with both its ranks; nobody moves by doubling."""
        self.assertEqual((done.returncode, done.stderr), (0, b""))
        head, rows, below = rows_of(done.stdout)
        self.assertEqual(head, ["count", "ratio", "moved", *further, "pair", "shared", "union"])
        expected = []
        for pair in pairs:
            place = 1 + sum(better(other, pair, ratio) for other in pairs)
            count = 1 + sum(better(other, pair, lambda p: p[2]) for other in pairs)
            move = "0" if count == place else ("+" if count > place else "-") + str(abs(count - place))
            expected.append([str(count), str(place), move, *[str(place) for _ in further], *map(str, pair[:4])])
        self.assertEqual(rows, sorted(expected, key=lambda row: int(row[0])))
        self.assertEqual(any(f"(k={k})" in line for line in below), len(pairs) == k)
        self.assertEqual(below[-1:] == ["From ratio to doubled: nobody moved."], bool(further))

    def test_by_hand(self):
        # Shared 6 of 60, 4 of 5, 4 of 8: by ratio 4 of 5, 4 of 8, 6 of 60.
        listing = "k=3\nfound=3\nevents=9\nmet=3\npair=1 2 4 5 9\npair=0 12 4 8 8\npair=0 1 6 60 7\n"
        done = run("who-moves.py", text=listing)
        self.assertEqual(done.stdout.decode(), (
            "count  ratio  moved     pair  shared  union\n"
            "    1      3     -2    0   1       6     60\n"
            "    2      2      0    0  12       4      8\n"
            "    3      1     +2    1   2       4      5\n"
            "As many pairs as were asked for (k=3): there may be more, and only these are ranked.\n"))
        self.assertEqual(done.returncode, 0)

    def test_no_pairs(self):
        nothing = self.file("nothing", "k=3\nfound=0\nevents=0\nmet=0\n")
        done = run("who-moves.py", nothing, nothing)
        self.assertEqual((done.returncode, len(done.stdout.splitlines())), (0, 2))

    def doubled(self, first, second, k=9):
        """Status, rows and lines below for two lists of pairs."""
        files = []
        for name, pairs in (("first", first), ("second", second)):
            lines = "".join(f"pair={pair}\n" for pair in pairs)
            files.append(self.file(name, f"k={k}\nfound={len(pairs)}\nevents=9\nmet=9\n{lines}"))
        done = run("who-moves.py", *files)
        self.assertEqual(done.stderr, b"")
        return done.returncode, *rows_of(done.stdout)[1:]

    def test_somebody_moves(self):
        status, rows, below = self.doubled(["0 1 2 3 7", "0 2 1 2 0"], ["0 2 4 5 0", "0 1 4 6 14"])
        self.assertEqual(rows, [["1", "1", "0", "2", "0", "1", "2", "3"], ["2", "2", "0", "1", "0", "2", "1", "2"]])
        self.assertEqual((status, below), (1, ["Not twice the counts: 1 pair. First 0 2: 1 of 2, then 4 of 5.",
                                               "From ratio to doubled: 2 pairs moved."]))

    def test_somebody_is_missing(self):
        status, rows, below = self.doubled(["0 1 2 3 7", "0 2 1 2 0"], ["0 1 4 6 14"])
        self.assertEqual([row[3] for row in rows], ["1", "-"])
        self.assertEqual((status, below), (1, ["From ratio to doubled: 1 pair moved."]))

    def test_somebody_is_new(self):
        status, _, below = self.doubled(["0 1 2 3 7"], ["0 1 4 6 14", "0 2 2 4 1"])
        self.assertEqual((status, below), (1, ["From ratio to doubled: 1 pair moved."]))

    def test_not_twice(self):
        for second in ("0 1 2 3 14", "0 1 4 7 14", "0 1 5 6 14", "0 1 6 9 14"):
            status, _, below = self.doubled(["0 1 2 3 7"], [second])
            _, _, shared, union, _ = second.split()
            self.assertEqual(below[0], f"Not twice the counts: 1 pair. First 0 1: 2 of 3, then {shared} of {union}.")
            self.assertEqual((status, below[1:]), (1, ["From ratio to doubled: nobody moved."]))

    def test_not_twice_the_code(self):
        for code, other in ((7, 7), (7, 0), (7, 13), (7, 15), (7, 28), (0, 1), (2047, 4095)):
            status, _, below = self.doubled([f"0 1 2 3 {code}"], [f"0 1 4 6 {other}"])
            self.assertEqual(below, [f"Not twice the first shared code: 1 pair. First 0 1: {code}, then {other}.",
                                     "From ratio to doubled: nobody moved."])
            self.assertEqual(status, 1)
        for code, other in ((7, 14), (0, 0), (2047, 4094)):
            status, _, below = self.doubled([f"0 1 2 3 {code}"], [f"0 1 4 6 {other}"])
            self.assertEqual((status, below), (0, ["From ratio to doubled: nobody moved."]))

    def test_neither_is_twice(self):
        """The first in the order of ratios is named, be it wrong in its counts, in its code, or in both."""
        first, second = ["0 1 2 3 7", "0 2 1 2 5", "1 2 1 3 6"], ["0 1 4 6 14", "0 2 2 4 11", "1 2 2 5 13"]
        status, _, below = self.doubled(first, second)
        self.assertEqual((status, below), (1, ["Not twice the counts: 1 pair. First 1 2: 1 of 3, then 2 of 5.",
                                               "Not twice the first shared code: 2 pairs. First 0 2: 5, then 11.",
                                               "From ratio to doubled: nobody moved."]))

    def test_another_k(self):
        few = str(EXAMPLES / "cemetery.listing")
        many = self.file("many", listed(CEMETERY.replace("k=10", "k=64")))
        self.refused(run("who-moves.py", few, many), 1, "k=10", "k=64", "the same number")


def better(one, other, measure):
    """Whether one pair goes before the other: by the measure, then by context numbers."""
    return (-measure(one), one[:2]) < (-measure(other), other[:2])


class Faults(Case):
    """What can go wrong outside: each script says it in words and ends with 2."""

    GOOD = {"by-shared.py": "cemetery.listing", "who-moves.py": "cemetery.listing", "doubled.py": "cemetery.sheet"}

    def each(self):
        return [(script, str(EXAMPLES / example)) for script, example in self.GOOD.items()]

    def test_good_files_are_good(self):
        for script, good in self.each():
            self.assertEqual(run(script, good).returncode, 0)
            direct = subprocess.run([str(SCRIPTS / script), good], capture_output=True, timeout=LIMIT)
            self.assertEqual((direct.returncode, direct.stdout), (0, run(script, good).stdout))

    def test_missing_file(self):
        for script, _ in self.each():
            self.refused(run(script, "no such file"), 2, "no such file: cannot be read: No such file")
            self.refused(run(script, ""), 2, "'': cannot be read")

    def test_directory(self):
        for script, _ in self.each():
            self.refused(run(script, str(self.folder)), 2, f"{self.folder}: cannot be read: Is a directory")

    def test_closed_input(self):
        for script, _ in self.each():
            self.refused(shell(script, "<&-"), 2, "standard input: cannot be read")

    def test_no_permission(self):
        closed = self.file("closed", CEMETERY)
        os.chmod(closed, 0)
        os.chmod(self.folder, 0o755)
        for script, _ in self.each():
            self.refused(self.as_nobody(script, closed), 2, "closed: cannot be read: Permission denied")

    def as_nobody(self, script, file):
        """A script's main by a user who may not read all; root gives up its rights behind the imports."""
        lines = (
            "import os, sys",
            "from importlib import import_module",
            f"sys.path.insert(0, {str(SCRIPTS)!r})",
            f"script = import_module({Path(script).stem!r})",
            "os.geteuid() or os.seteuid(65534)",
            f"sys.exit(script.main([{file!r}]))",
        )
        return subprocess.run([*PYTHON, "-c", "\n".join(lines)], capture_output=True, timeout=LIMIT)

    def test_output_that_cannot_be_written(self):
        for script, good in self.each():
            self.refused(shell(script, "> /dev/full", good), 2, "standard output", "No space left")
            self.refused(shell(script, ">&-", good), 2, "standard output: cannot be written")

    def test_a_reader_that_has_gone(self):
        for script, good in self.each():
            reader, writer = os.pipe()
            os.close(reader)
            done = run(script, good, stdout=writer)
            os.close(writer)
            self.refused(done, 2, "standard output", "Broken pipe")

    def test_nobody_can_be_told(self):
        for script, good in self.each():
            for error in ("2>&-", "2> /dev/full"):
                self.refused(shell(script, error, "missing"), 2)
                self.refused(shell(script, error), 1)
                self.refused(shell(script, f"> /dev/full {error}", good), 2)

    def test_usage(self):
        for script, good in self.each():
            usage = f"scripts/{script} ["
            self.refused(run(script, "--help"), 2, usage)
            self.refused(run(script, good, good, good), 2, usage)
            self.refused(run(script, "-", "-"), 2, usage)
            self.refused(run(script, "--", "-x"), 2, "-x: cannot be read")

    def test_endless_input(self):
        for script, _ in self.each():
            self.refused(run(script, "/dev/zero"), 1, "/dev/zero", "this is not a", "more than")

    def test_awkward_names(self):
        names = ("my own.file", 'a "quoted" $HOME', "-dash", "ქვევრი", "Gräber", "line\nend",
                 b"bytes\xff\xe9")
        for script, good in self.each():
            for name in names:
                shutil.copy(good, os.path.join(os.fsencode(self.folder), os.fsencode(name)))
                found = run(script, "--", name, cwd=self.folder)
                self.assertEqual((found.returncode, found.stderr), (0, b""), name)

    def test_awkward_names_in_messages(self):
        said = {
            '"a" $HOME': b'"a" $HOME',
            "ქვევრი": "ქვევრი".encode(),
            "line\nend": b"'line\\nend'",
            b"\xff": b"'\\udcff'",
        }
        for script, _ in self.each():
            for name, words in said.items():
                done = run(script, "--", name, cwd=self.folder)
                self.refused(done, 2)
                self.assertEqual(done.stderr, words + b": cannot be read: No such file or directory\n")

    def test_second_listing(self):
        good = str(EXAMPLES / "cemetery.listing")
        self.refused(run("who-moves.py", good, "missing"), 2, "missing: cannot be read")
        self.refused(run("who-moves.py", good, "-", text="refused=8 0\n"), 1, "standard input", "refused=8 0")
        self.refused(shell("who-moves.py", "<&-", good, "-"), 2, "standard input: cannot be read")


class Pot(Case):
    """The site where everybody owns the common cooking pot."""

    FIRST, LAST = 0, 999

    def setUp(self):
        super().setUp()
        self.first = (EXAMPLES / "refused" / "08-pot-first.sheet").read_text(encoding="ascii")
        self.last = (EXAMPLES / "pot-last.sheet").read_text(encoding="ascii")

    def test_one_site_under_two_numberings(self):
        first, last = site_of(self.first), site_of(self.last)
        self.assertTrue(all(self.FIRST in grave and self.LAST not in grave for grave in first))
        self.assertTrue(all(self.LAST in grave and self.FIRST not in grave for grave in last))
        self.assertTrue(all(max(grave) == self.LAST for grave in last))
        renamed = [{self.LAST if code == self.FIRST else code for code in grave} for grave in first]
        self.assertEqual(renamed, last)
        self.assertEqual(self.first.splitlines()[:2], ["k=10", "contexts=80"])
        self.assertEqual(self.last.splitlines()[:2], ["k=10", "contexts=80"])

    def test_the_definition_of_meeting_is_the_programs(self):
        chance = random.Random(25)
        for trial in range(25):
            site, k = random_site(chance), chance.choice((1, 5, 64))
            with self.subTest(trial=trial):
                self.assertIn(f"met={met(site, k)}\n", listed(sheet_of(site, k)))

    def test_pot_first_is_refused(self):
        site = site_of(self.first)
        self.assertEqual(met(site, 10), 80 * 79 // 2)
        self.assertEqual(met(site, 1), 3160)
        self.assertEqual({ceiling(site, a, b) for a, b in combinations(range(80), 2)}, {1})
        for k in (1, 10, 64):
            self.assertEqual(listed(sheet_of(site, k)), "refused=8 0\n")
        self.assertEqual((EXAMPLES / "refused" / "08-pot-first.listing").read_text(), "refused=8 0\n")

    def test_pot_last_is_the_exact_list(self):
        site = site_of(self.last)
        stored = (EXAMPLES / "pot-last.listing").read_text(encoding="ascii")
        self.assertEqual(pairs_in(stored), all_pairs(site)[:10])
        self.assertTrue(stored.startswith("k=10\nfound=10\n"))
        self.assertIn(f"\nmet={met(site, 10)}\n", stored)
        self.assertEqual(stored, listed(self.last))

    def test_what_the_lesson_says_of_it(self):
        site = site_of(self.last)
        best = all_pairs(site)[:10]
        self.assertEqual({len(grave) for grave in site}, set(range(4, 13)))
        self.assertTrue(all(pair[0] // 5 == pair[1] // 5 for pair in best))
        self.assertEqual(best[-1][2:4], (7, 11))
        self.assertEqual(met(site, 10), 310)
        self.assertNotIn(self.LAST, [pair[4] for pair in best])
        first = all_pairs(site_of(self.first))[:10]
        self.assertEqual([pair[:4] for pair in first], [pair[:4] for pair in best])
        self.assertEqual({pair[4] for pair in first}, {self.FIRST})
        without = all_pairs([grave - {self.LAST} for grave in site])[:10]
        self.assertEqual([p[:2] for p in without], [p[:2] for p in best])
        new_ties = [
            (p[:2], q[:2])
            for (p, old_p), (q, old_q) in combinations(list(zip(without, best)), 2)
            if ratio(p) == ratio(q) and ratio(old_p) != ratio(old_q)
        ]
        self.assertEqual(new_ties, [((13, 14), (60, 62))])

    def test_64_contexts_always_fit(self):
        self.assertIn("met=2016\n", listed(sheet_of([{1}] * 64, 1)))
        self.assertEqual(listed(sheet_of([{1}] * 65, 1)), "refused=8 0\n")
        self.assertEqual(met([{1}] * 65, 1), 2080)


class Cemetery(Case):
    """What the lesson says in words about the practice cemetery."""

    def test_who_moves(self):
        pairs = all_pairs(site_of(CEMETERY))
        count = sorted(pairs, key=lambda p: (-p[2], p[0], p[1]))
        moves = {p[:2]: count.index(p) - pairs.index(p) for p in pairs}
        self.assertEqual((len(pairs), 0 in moves.values()), (36, False))
        pit = [move for pair, move in moves.items() if 5 in pair]
        self.assertEqual((len(pit), max(pit)), (10, -15))
        self.assertEqual((pairs[0][:2], count.index(pairs[0])), ((6, 9), 20))
        self.assertEqual((count[0][2:4], pairs.index(count[0])), ((12, 79), 15))

    def test_first_shared_codes(self):
        site, men = site_of(CEMETERY), {0, 1, 7, 10}
        best = {pair[:2]: pair[4] for pair in all_pairs(site)[:10]}
        self.assertEqual(best[6, 9], 103)
        self.assertTrue(all(101 <= code <= 130 for code in best.values()), "pottery, every time")
        self.assertEqual([code for pair, code in best.items() if men.issuperset(pair)], [101] * 5)
        self.assertTrue(102 in site[3] and best[3, 4] == 107 and 102 not in site[4])


class CheckLesson(Case):
    GOOD = "# A page\n\n```sh\nprintf 'one\\ntwo\\n'\n```\n\n```text\none\ntwo\n```\n"

    def checked(self, *pages):
        files = [self.file(f"page{number}.md", page) for number, page in enumerate(pages)]
        done = run("check-lesson.py", *files, text="what nobody asked for\n")
        self.assertEqual(done.stderr, b"")
        return done.returncode, done.stdout.decode()

    def test_good_pages(self):
        silent = "```sh\ntrue\n```\n\n```text\n```\n"
        self.assertEqual(self.checked(self.GOOD)[0], 0)
        self.assertEqual(self.checked(self.GOOD, silent)[0], 0)
        self.assertEqual(self.checked("```sh\ntest -f docs/LESSON.md\n```\n```text\n```\n")[0], 0)
        self.assertEqual(self.checked("```sh\necho words 1>&2\n```\n```text\n```\n")[0], 0)
        self.assertEqual(self.checked("```sh\ncat\n```\n```text\n```\n")[0], 0)

    def test_bad_pages(self):
        pages = {
            "another output": self.GOOD.replace("two\n```", "three\n```"),
            "a line more": self.GOOD.replace("two\n```", "two\n\n```"),
            "a space more": self.GOOD.replace("two\n```", "two \n```"),
            "no line end": self.GOOD.replace("two\\n'", "two'"),
            "a carriage return": self.GOOD.replace("two\\n'", "two\\r\\n'"),
            "a failure at the end": self.GOOD.replace("\n```\n\n", "\nexit 3\n```\n\n"),
            "a failure in the middle": self.GOOD.replace("printf", "false\nprintf"),
            "a failure behind it all": self.GOOD.replace("\n```\n\n", "\nfalse\n```\n\n"),
            "no output block": self.GOOD.split("```text")[0],
            "words between": self.GOOD.replace("```text", "prints\n\n```text"),
            "no step": "# A page\n",
            "an indented step": self.GOOD + "\n  ```sh\n  true\n  ```\n",
            "an open step": self.GOOD + "\n```sh\ntrue\n",
            "the second of two": self.GOOD + self.GOOD.replace("two\n```", "three\n```"),
        }
        for name, page in pages.items():
            with self.subTest(name=name):
                self.assertEqual(self.checked(page)[0], 1)
        self.assertEqual(self.checked(self.GOOD, page)[0], 1)
        self.assertEqual(self.checked(page, self.GOOD)[0], 1)

    def test_what_is_said(self):
        status, said = self.checked("\n\n```sh\necho out; echo oops 1>&2; exit 3\n```\n```text\nin\n```\n")
        self.assertEqual(status, 1)
        for words in ("page0.md, line 3", "\nin\n", "with status 3\nout\n", "oops", "1 steps, 1 problems"):
            self.assertIn(words, said)

    def test_missing_page(self):
        self.refused(run("check-lesson.py", "no page"), 2, "no page: cannot be read")

    def test_default_pages(self):
        """A copy of the script takes the pages of its own root: the lesson, the catalogues and the two fingers, which must be there."""
        (self.folder / "docs").mkdir()
        (self.folder / "scripts").mkdir()
        copy = shutil.copy(SCRIPTS / "check-lesson.py", self.folder / "scripts")
        good, bad = self.GOOD, self.GOOD.replace("two\n```", "three\n```")
        for name, page, status in (
            (None, None, 2),
            ("LESSON.md", good, 2),
            ("CATALOGUES.md", bad, 2),
            ("TWO-FINGERS.md", good, 1),
            ("CATALOGUES.md", good, 0),
            ("TWO-FINGERS.md", bad, 1),
            ("TWO-FINGERS.md", good, 0),
            ("LESSON.md", bad, 1),
        ):
            if name:
                self.file(f"docs/{name}", page)
            done = subprocess.run([*PYTHON, copy], capture_output=True, timeout=LIMIT)
            self.assertEqual(done.returncode, status, (name, done.stdout))


if __name__ == "__main__":
    unittest.main()
