#!/usr/bin/env python3
"""Tests scripts/list.py: words for each refusal, exit status, and what cannot be read, written or run.

    python3 tests/scripts/test_list.py

Needs target/bin/sazamkhri (`make program`). In the sheets below ▲ marks the byte that the refusal is about: it is
taken out before the sheet is listed, and place, line, column and caret are worked out from where it stood.
"""
import os
import random
import re
import signal
import subprocess
import sys
import tempfile
import time
import traceback
import unittest
from collections import namedtuple
from importlib.util import module_from_spec, spec_from_file_location
from itertools import product
from pathlib import Path

ROOT = Path(__file__).resolve().parent.parent.parent
SCRIPT = ROOT / "scripts" / "list.py"
PROGRAM = ROOT / "target" / "bin" / "sazamkhri"
GOOD = (ROOT / "examples" / "three.sheet").read_bytes()
LISTING = (ROOT / "examples" / "three.listing").read_bytes()
COMMA = b"k=1\ncontexts=1\nc=1,2\n"
HEAD = "k=1\ncontexts=2\n"
NOBODY = 65534
WINDOWS = ("The line ends as on Windows, in a carriage return. Save the sheet with Unix line ends (LF), or type: "
           "tr -d '\\r' < my.sheet > new.sheet")
PLAIN = "Save the sheet as plain text (UTF-8, without a byte order mark)."
CATALOGUE = ("If it is a catalogue, save it as CSV, and make a sheet of it with scripts/sheet-from-catalogue.py: "
             "docs/CATALOGUES.md tells how.")
OFFICE = "The file is a spreadsheet, an office document or an archive, not plain text. " + CATALOGUE
TABLE = "This looks like a table, not like a sheet. " + CATALOGUE
UTF_16 = "The file is UTF-16 text, with two bytes for each letter. " + PLAIN
K_BELONGS = "Here a line `k=` with the number of pairs wanted belongs."
CONTEXTS_BELONGS = "Here a line `contexts=` with the number of contexts belongs."
C_BELONGS = "Here a line `c=` with the codes of a context belongs (`c=` alone if it has none)."
SPLIT = "Split the site: at most 256 contexts, 4,096 codes and 24,576 bytes."
SMALL = "in small letters and without spaces."
ADD = "Add the lines that are missing (`c=` alone for a context without finds), or correct the number."
TAKE_OUT = "Take out what follows; if contexts follow, correct the number."

# Refusal 9: the marked sheet, the words, and the line as it is shown if that is not as it stands in the sheet.
HABITS = [
    (HEAD + "c=1▲,2\nc=\n", "A comma stands between two codes. Put one space there."),
    (HEAD + "c=1\nc=2 3▲;44\n", "A semicolon stands between two codes. Put one space there."),
    (HEAD + "c=1▲, 2\nc=\n", "A comma stands between two codes. Take it out: one space parts two codes."),
    (HEAD + "c=1 ▲,2\nc=\n", "A comma stands between two codes. Take it out: one space parts two codes."),
    (HEAD + "c=1 2▲,,\nc=\n", "A comma stands at the line's end. Take it out."),
    (HEAD + "c=▲,1\nc=\n", "A comma stands where a code belongs. Take it out: one space parts two codes."),
    ("k=1▲;\ncontexts=0\n", "A semicolon stands in the `k=` line. Take it out, and leave one number there."),
    ("k=1\ncontexts=1▲,000\n", "A comma stands in the `contexts=` line. Take it out, and leave one number there."),
    (HEAD + "c=1 ▲ 2\nc=\n", "Two spaces stand side by side. Leave one space between two codes."),
    (HEAD + "c=1 ▲   2\nc=\n", "Two spaces stand side by side. Leave one space between two codes."),
    (HEAD + "c=1 2 ▲\nc=\n", "A space stands at the line's end. Take it out."),
    (HEAD + "c=1 2 ▲  \nc=\n", "A space stands at the line's end. Take it out."),
    (HEAD + "c=▲ \nc=\n", "A space stands at the line's end. Take it out."),
    ("k=1▲ \ncontexts=0\n", "A space stands at the line's end. Take it out."),
    (HEAD + "c=1 2\nc=3 ▲", "A space stands at the line's end, and the line end is missing. "
     "Press Enter in place of the space.", "c=3 (end)"),
    (HEAD + "▲ c=1 2\nc=\n", "A space stands at the line's start. Take it out."),
    ("▲\tk=1\ncontexts=0\n", "A tab stands at the line's start. Take it out.", "\\tk=1"),
    (HEAD + "c=1▲\t2\nc=\n", "A tab stands between two codes. Put one space there.", "c=1\\t2"),
    (HEAD + "c=1▲\t\t2\nc=\n", "A tab stands between two codes. Take it out: one space parts two codes.", "c=1\\t\\t2"),
    (HEAD + "c=1 2▲\t\nc=\n", "A tab stands at the line's end. Take it out.", "c=1 2\\t"),
    (HEAD + "c=1 0▲5\nc=\n", "The number 05 has a leading zero. Write 5."),
    (HEAD + "c=0▲0\nc=\n", "The number 00 has a leading zero. Write 0."),
    ("k=0▲10\ncontexts=0\n", "The number 010 has a leading zero. Write 10."),
    ("k=1\ncontexts=0▲300\n", "The number 0300 has a leading zero. Write 300."),
    ("k=1▲\r\ncontexts=0\r\n", WINDOWS, "k=1\\r"),
    (HEAD + "c=1 2▲\r\nc=\n", WINDOWS, "c=1 2\\r"),
    (HEAD + "▲\r\nc=\nc=\n", WINDOWS, "\\r"),
    ("k=1▲\rcontexts=0\r", "A carriage return stands inside the line. Save the sheet with Unix line ends (LF).",
     "k=1\\rcontexts=0\\r"),
    ("▲\ufeffk=1\ncontexts=0\n", "A byte order mark stands in front of the text. " + PLAIN, "\\ufeffk=1"),
    (HEAD + "c=1\nc=2▲", "The last line has no line end. Press Enter behind it, and save.", "c=2(end)"),
    (HEAD + "c=1\nc=▲", "The last line has no line end. Press Enter behind it, and save.", "c=(end)"),
    ("k=1\ncontexts=0▲", "The last line has no line end. Press Enter behind it, and save.", "contexts=0(end)"),
    (HEAD + "c=1▲", "The last line has no line end. Press Enter behind it, and save. More lines are missing behind it.",
     "c=1(end)"),
    ("k=1\ncontexts=3▲", "The last line has no line end. Press Enter behind it, and save. "
     "More lines are missing behind it.", "contexts=3(end)"),
    ("k=1▲", "The last line has no line end. Press Enter behind it, and save. More lines are missing behind it.",
     "k=1(end)"),
    ("k=1\ncon▲", "The sheet stops too early: its `contexts=` line is missing or not complete. " + CONTEXTS_BELONGS,
     "con(end)"),
    ("k=1\ncontexts=▲", "The sheet stops too early: its `contexts=` line is missing or not complete. "
     + CONTEXTS_BELONGS, "contexts=(end)"),
    ("k=1\n▲", "The sheet stops too early: its `contexts=` line is missing or not complete. " + CONTEXTS_BELONGS,
     "k=1\n    (end)"),
    (HEAD + "c=1 2\n▲", "There are too few `c=` lines: contexts=2, but the sheet has 1. " + ADD, "c=1 2\n    (end)"),
    ("k=1\ncontexts=200\n▲", "There are too few `c=` lines: contexts=200, but the sheet has 0. " + ADD,
     "contexts=200\n    (end)"),
    (HEAD + "c=1\nc=\n▲c=4 5\nc=6\n", "There are too many `c=` lines: contexts=2, but the sheet has 4. "
     "Correct the number, or take out the lines that are too many."),
    (HEAD + "c=1\nc=\n▲\n", "Empty lines or spaces stand behind the last line. Take them out."),
    (HEAD + "c=1\nc=\n▲  \n\n", "Empty lines or spaces stand behind the last line. Take them out."),
    (HEAD + "c=1\nc=\n▲\nc=1\n", "Something stands behind the last line: contexts=2, and all of them are there. "
     + TAKE_OUT),
    (HEAD + "c=1\nc=\n▲total 2\n", "Something stands behind the last line: contexts=2, and all of them are there. "
     + TAKE_OUT),
    (HEAD + "c=1\n▲\nc=2\n", "The line is empty. Take it out. " + C_BELONGS),
    ("▲\nk=1\ncontexts=0\n", "The line is empty. Take it out. " + K_BELONGS),
    ("k=1\n▲\ncontexts=0\n", "The line is empty. Take it out. " + CONTEXTS_BELONGS),
    (HEAD + "c=1 2▲a 3\nc=\n", "The letter a stands in a number. Write digits alone."),
    (HEAD + "c=1 ▲A3\nc=\n", "The letter A stands where a number belongs. Write digits alone, without a sign."),
    ("k=▲x\ncontexts=0\n", "The letter x stands where a number belongs. Write digits alone, without a sign."),
    ("k=▲+1\ncontexts=0\n", "A plus sign stands where a number belongs. Write digits alone, without a sign."),
    (HEAD + "c=▲-1\nc=\n", "A minus sign stands where a number belongs. Write digits alone, without a sign."),
    (HEAD + "c=1 3▲-7\nc=\n", "A minus sign stands in a number. "
     "Write digits alone; if it means a range, write each code."),
    (HEAD + "c=1 3▲.5\nc=\n", "A full stop stands in a number. Write digits alone."),
    (HEAD + 'c=▲"1 3"\nc=\n', "A quotation mark stands where a number belongs. Write digits alone, without a sign."),
    (HEAD + "c=1 2▲გ 3\nc=\n", "The letter გ (U+10D2) stands in a number. Write digits alone."),
    (HEAD + "c=1▲\u00a02\nc=\n", "A special space (U+00A0) stands between two codes. Put one space there.",
     "c=1\\xa02"),
    ("▲K=1\ncontexts=0\n", "The key has capital letters. Write `k=`, " + SMALL),
    ("k=1\n▲Contexts=0\n", "The key has capital letters. Write `contexts=`, " + SMALL),
    ("k=1\ncon▲Texts=0\n", "The key has capital letters. Write `contexts=`, " + SMALL),
    (HEAD + "c=1\n▲C=2\n", "The key has capital letters. Write `c=`, " + SMALL),
    ("k▲ = 1\ncontexts=0\n", "A space or tab stands in front of `=`. Write `k=`, " + SMALL),
    ("▲K = 1\ncontexts=0\n", "A space or tab stands in front of `=`. Write `k=`, " + SMALL),
    (HEAD + "c▲\t=1\nc=\n", "A space or tab stands in front of `=`. Write `c=`, " + SMALL, "c\\t=1"),
    ("k=▲ 1\ncontexts=0\n", "A space stands behind `k=`. Take it out."),
    (HEAD + "c=▲ 1 2\nc=\n", "A space stands behind `c=`. Take it out."),
    ("k=1▲ 2\ncontexts=0\n", "Something stands behind the number. Leave one number in the `k=` line."),
    ("k=▲\ncontexts=0\n", "No number stands behind `k=`. Write the number there."),
    ("k=1\ncontexts=▲ \n", "No number stands behind `contexts=`. Write the number there."),
    ("▲contexts=2\nk=1\n", "The line begins with `contexts=`, not with `k=`. " + K_BELONGS),
    ("k=1\nc▲=1 2\n", "The line begins with `c=`, not with `contexts=`. " + CONTEXTS_BELONGS),
    ("k=1\ncontexts▲:2\n", "The line begins with `contexts:2`, not with `contexts=`. " + CONTEXTS_BELONGS),
    (HEAD + "▲1 2 3\nc=\n", "The line begins with `1 2 3`, not with `c=`. " + C_BELONGS),
    (HEAD + "c▲\nc=\n", "The line begins with `c`, not with `c=`. " + C_BELONGS),
    (HEAD + "▲с=1\nc=\n", "The letter с (U+0441) stands where `c=` belongs. " + C_BELONGS),
    ("▲", "The sheet is empty. " + K_BELONGS, "(end)"),
]
# Bytes that are no text: sheet, place, the line as it is shown, the words.
BYTES = [
    ("k=1\ncontexts=0\n".encode("utf-16"), 0, r"\xff\xfek\x00=\x001\x00", UTF_16),
    (b"\xfe\xff" + "k=1\ncontexts=0\n".encode("utf-16-be"), 0, r"\xfe\xff\x00k\x00=\x001\x00", UTF_16),
    ("k=1\n".encode("utf-16-le"), 1, r"k\x00=\x001\x00", UTF_16),
    ("k=1\n".encode("utf-16-be"), 0, r"\x00k\x00=\x001\x00", UTF_16),
    (b"PK\3\4\x14\0", 0, r"PK\x03\x04\x14\x00", OFFICE),
    (b"\xd0\xcf\x11\xe0\xa1", 0, r"\xd0\xcf\x11\xe0\xa1", OFFICE),
    (b"Grave;Bowl\nG 1;x\n", 0, "Grave;Bowl", TABLE),
    ("\ufeffGrave,k\n".encode(), 0, "\\ufeffGrave,k", TABLE),
    (b"k=1\xe4\n", 3, r"k=1\xe4", "Byte 228, which is no text, stands in a number. Write digits alone."),
    (b"k=\x1b[31m\n", 2, r"k=\x1b[31m",
     "The sign \\x1b (U+001B) stands where a number belongs. Write digits alone, without a sign."),
]


def load_script():
    sys.path.insert(0, str(SCRIPT.parent))
    spec = spec_from_file_location("list_script", SCRIPT)
    module = module_from_spec(spec)
    spec.loader.exec_module(module)
    return module


LIST = load_script()
Run = namedtuple("Run", "returncode stdout stderr")


def plain(sheet):
    """What the program prints by itself."""
    return subprocess.run([PROGRAM], input=sheet, stdout=subprocess.PIPE, check=True).stdout


def listed(*arguments, program=None, **more):
    """A run of the script, with its standard output and error."""
    environment = {**os.environ, "SAZAMKHRI_PROGRAM": str(program or "")}
    more = {"stdout": subprocess.PIPE, "stderr": subprocess.PIPE, "env": environment, "timeout": 60, **more}
    if "input" not in more and "stdin" not in more:
        more["stdin"] = subprocess.DEVNULL
    return subprocess.run([sys.executable, SCRIPT, *arguments], **more)


def through_shell(redirection, *arguments):
    """A run of the script as users call it, with streams that a shell has redirected."""
    return subprocess.run(["sh", "-c", f'exec "$0" "$@" {redirection}', SCRIPT, *arguments], timeout=60,
                          stdin=subprocess.DEVNULL, stdout=subprocess.PIPE, stderr=subprocess.PIPE)


def forked(arguments=(), sheet=b"", program=None, user=None, **constants):
    """A run of the script's main in a fork: quicker than to start it anew for hundreds of sheets."""
    with tempfile.TemporaryFile() as lent, tempfile.TemporaryFile() as out, tempfile.TemporaryFile() as err:
        lent.write(sheet)
        lent.seek(0)
        child = os.fork()
        if child == 0:
            in_child((lent, out, err), arguments, program, user, constants)
        status = os.waitstatus_to_exitcode(os.waitpid(child, 0)[1])
        return Run(status, *(stream.seek(0) or stream.read() for stream in (out, err)))


def in_child(streams, arguments, program, user, constants):
    try:
        for number, stream in enumerate(streams):
            os.dup2(stream.fileno(), number)
        os.environ["SAZAMKHRI_PROGRAM"] = str(program or "")
        for change in (os.setgid, os.setuid) if user else ():
            change(user)
        vars(LIST).update(constants)
        os._exit(LIST.main(list(map(str, arguments))))
    except BaseException:
        os.write(2, traceback.format_exc().encode())
        os._exit(99)


def message(head, before, shown, words):
    """What standard error must hold: the caret stands behind as many columns as `before` has characters."""
    return f"standard input: refused, number {head}\n    {shown}\n    {' ' * before}^\n{words}\n"


def place_of(marked):
    """The sheet without its mark; the mark's byte, line and column, counted one character after the other."""
    line, column = 1, 1
    for char in marked[: marked.index("▲")]:
        line, column = (line + 1, 1) if char == "\n" else (line, column + 1)
    return marked.replace("▲", "").encode(), len(marked[: marked.index("▲")].encode()), line, column


class Refusals(unittest.TestCase):
    def check(self, sheet, refusal, words):
        self.assertEqual(plain(sheet), f"refused={refusal}\n".encode())
        run = forked(sheet=sheet)
        self.assertEqual(run.stderr.decode(), words)
        self.assertEqual(run.stdout, plain(sheet))
        self.assertEqual(run.returncode, 1)

    def test_habits(self):
        for marked, words, *shown in HABITS:
            sheet, place, line, column = place_of(marked)
            stands = marked.replace("▲", "").split("\n")[line - 1]
            end = ", the sheet's end" if place == len(sheet) else ""
            head = f"9 at byte {place}{end}: line {line}, column {column}"
            with self.subTest(marked=marked):
                self.check(sheet, f"9 {place}", message(head, column - 1, *(shown or [stands]), words))

    def test_bytes_that_are_no_text(self):
        for sheet, place, shown, words in BYTES:
            head = f"9 at byte {place}: line 1, column {place + 1}"
            with self.subTest(sheet=sheet):
                self.check(sheet, f"9 {place}", message(head, place, shown, words))

    def test_k(self):
        for k in ("0", "65", "65535"):
            words = f"k is {k}, but 1 to 64 pairs can be listed. Ask for 1 to 64 pairs."
            with self.subTest(k=k):
                self.check(f"k={k}\ncontexts=0\n".encode(), "1 0", message("1: line 1, column 3", 2, f"k={k}", words))

    def test_codes(self):
        sheet = HEAD.encode() + b"c=7 8\nc=1 22 4096 9\n"
        words = "In context 1 (line 4) code 4096 is above 4,095. Give the type a smaller number."
        self.check(sheet, "4 4", message("4 at index 4: line 4, column 8", 7, "c=1 22 4096 9", words))

    def test_order(self):
        advice = "the code before it. Sort the context, and name each type once."
        for line, code, before, column in (("c=1 22 22 9", 22, 22, 8), ("c=4 22 9 30", 9, 22, 8)):
            sheet = b"k=1\ncontexts=3\nc=7 8\nc=\n" + line.encode() + b"\n"
            words = f"In context 2 (line 5) code {code} is not above {before}, {advice}"
            with self.subTest(line=line):
                self.check(sheet, "5 4", message(f"5 at index 4: line 5, column {column}", column - 1, line, words))

    def test_trail(self):
        sheet = b"k=1\ncontexts=65\n" + b"c=3\n" * 65
        run = listed(input=sheet)
        words = run.stderr.decode()
        self.assertEqual((run.returncode, run.stdout, plain(sheet)), (1, b"refused=8 0\n", b"refused=8 0\n"))
        self.assertTrue(words.startswith("standard input: refused, number 8\nMore pairs meet than the trail has room"))
        for part in ("rare types lower", "sheet-from-catalogue.py", "CSV", "fewer pairs", "fewer contexts", "64"):
            self.assertIn(part, words)

    def test_sixty_four_contexts_fit(self):
        run = listed(input=b"k=1\ncontexts=64\n" + b"c=3\n" * 64)
        self.assertEqual((run.returncode, run.stderr), (0, b""))

    def test_large_numbers(self):
        nines = "9" * 5000
        for marked, shown, number, most in (
            ("k=▲65536\n", "k=65536", "65536", "k is 1 to 64."),
            ("k=1\ncontexts=▲70000x", "contexts=70000x", "70000", "At most 256 contexts fit."),
            (HEAD + "c=1\nc=2 ▲70000\n", "c=2 70000", "70000", "Codes are 0 to 4,095."),
            (f"k=▲{nines}\n", "k=" + "9" * 36 + "…", "9" * 12 + "… (of 5,000 digits)", "k is 1 to 64."),
        ):
            sheet, place, line, column = place_of(marked)
            head = f"10 at byte {place}: line {line}, column {column}"
            words = f"The number {number} is above 65,535. Correct it. {most}"
            with self.subTest(marked=marked[:40]):
                self.check(sheet, f"10 {place}", message(head, column - 1, shown, words))

    def test_room_for_contexts(self):
        words = f"The sheet promises 257 contexts, but there is room for 256. {SPLIT}"
        head = "11 at byte 14: line 2, column 10"
        self.check(b"k=10\ncontexts=257\n", "11 14", message(head, 9, "contexts=257", words))

    def test_room_for_codes(self):
        # 'k=1\ncontexts=3\n' has 15 bytes, a line of 2,048 codes of one digit 2 + 4,095 + 1, and then `c=1 `.
        half = b"c=" + b" ".join([b"1"] * 2048) + b"\n"
        sheet = b"k=1\ncontexts=3\n" + half + half + b"c=1 2 3\n"
        words = ("In context 2 (line 5) code 1 is number 4,097 of 4,099 codes, but there is room for 4,096. " + SPLIT)
        self.check(sheet, "11 8213", message("11 at byte 8213: line 5, column 3", 2, "c=1 2 3", words))

    def test_room_for_bytes(self):
        # The last line's characters have 1, 3, 3 and 1 + 2 bytes; 漢 takes two columns, the accent none.
        for before, columns in (("k", 1), ("აბგ", 3), ("漢漢", 4), ("e\u0301x", 2)):
            sheet = b"k=" + b"\n" * (24574 - len(before.encode())) + before.encode() + b"?" * 24
            line = 24574 - len(before.encode()) + 1
            head = f"11 at byte 24576: line {line}, column {len(before) + 1}"
            words = f"The sheet has more than 24,576 bytes, but there is room for 24,576. {SPLIT}"
            with self.subTest(before=before):
                self.check(sheet, "11 24576", message(head, columns, before + "????", words))

    def test_place_inside_a_character(self):
        """Byte 24,576 is the second byte of the second letter, of three bytes each."""
        run = listed(input=b"\n" * 24572 + "აბგ".encode())
        self.assertIn("line 24573, column 2\n    აბ", run.stderr.decode())

    def test_size_of_a_file(self):
        for beginning, words in ((b"k=", "The sheet has 30,000 bytes, but"), (b"PK", "This is no sheet"), (b"a,b", CATALOGUE)):
            with tempfile.NamedTemporaryFile() as file:
                file.write(beginning.ljust(30000, b"x"))
                file.flush()
                run = listed(file.name)
                self.assertIn(words, run.stderr.decode())
                self.assertIn("30,000 bytes", run.stderr.decode())
                self.assertEqual((run.returncode, run.stdout), (1, b"refused=11 24576\n"))

    def test_help(self):
        for word in ("-h", "--help"):
            run = listed(word)
            self.assertEqual((run.returncode, run.stderr), (0, b""))
            self.assertIn(b"usage: scripts/list.py", run.stdout)

    def test_long_line(self):
        left, right = " ".join(map(str, range(100, 400))), " ".join(map(str, range(500, 800)))
        for line, shown, before in (
            (f"c={left}▲,{right}", f"…{left[-36:]},{right[:35]}…", 37),
            (f"c=1▲,{right}", f"c=1,{right[:35]}…", 3),
            (f"c={left}▲,1", f"…{left[-36:]},1", 37),
        ):
            sheet, place, _, column = place_of(f"k=1\ncontexts=1\n{line}\n")
            head = f"9 at byte {place}: line 3, column {column}"
            words = "A comma stands between two codes. Put one space there."
            with self.subTest(line=line[:20]):
                self.check(sheet, f"9 {place}", message(head, before, shown, words))

    def test_stored_sheets(self):
        sheets = sorted((ROOT / "examples").rglob("*.sheet"))
        self.assertGreaterEqual(len(sheets), 9)
        for sheet in sheets:
            run, stored = listed(sheet), sheet.with_suffix(".listing").read_bytes()
            with self.subTest(sheet=sheet.name):
                self.assertEqual(run.stdout, stored)
                self.assertEqual(run.returncode, 1 if stored.startswith(b"refused=") else 0)
                number = re.match(rb"refused=(\d+)|", stored)[1]
                told = f"{sheet}: refused, number {number.decode()}" if number else ""
                self.assertEqual(run.stderr.decode()[: len(told) or None], told)


class Streams(unittest.TestCase):
    """What cannot be read or written: status 2, and one line of words with the sheet's name."""

    def setUp(self):
        self.folder = tempfile.TemporaryDirectory()
        self.addCleanup(self.folder.cleanup)
        self.path = Path(self.folder.name)
        self.sheet = self.path / "good.sheet"
        self.sheet.write_bytes(GOOD)

    def trouble(self, run, *words):
        told = run.stderr.decode()
        self.assertEqual(run.returncode, 2, told)
        self.assertEqual(told.count("\n"), 1, told)
        for part in words:
            self.assertIn(str(part), told)

    def test_listing(self):
        for run in (listed(self.sheet), listed(input=GOOD), listed("-", input=GOOD), listed("--", "-", input=GOOD),
                    listed("--", input=GOOD), listed("--", self.sheet)):
            self.assertEqual((run.returncode, run.stdout, run.stderr), (0, LISTING, b""))

    def test_cannot_be_read(self):
        missing = self.path / "missing.sheet"
        self.trouble(listed(missing), missing, "there is no such file")
        self.trouble(listed(self.path), self.path, "it is a folder")
        self.trouble(listed(self.sheet / "x"), "good.sheet/x", "cannot be read")
        self.trouble(listed("--", ""), "no sheet was named")
        self.trouble(through_shell("<&-"), "standard input", "it is closed")
        self.trouble(through_shell(f"<'{self.path}'"), "standard input", "it is a folder")

    def test_arguments(self):
        self.trouble(listed("my", "finds.sheet"), "my: one sheet at a time, but finds.sheet", "quotes")
        self.trouble(listed("--", "a", "b"), "a: one sheet at a time")
        self.trouble(listed("-x"), "-x: no such option", "--")
        self.trouble(listed("-\n"), "-\\n: no such option")

    def test_no_permission(self):
        """Root may read everything, so as root this is tried as another user."""
        program, user = self.path / "sazamkhri", NOBODY if os.geteuid() == 0 else None
        program.write_bytes(PROGRAM.read_bytes())
        program.chmod(0o755)
        self.path.chmod(0o755)
        self.sheet.chmod(0o644)
        run = forked([self.sheet], program=program, user=user)
        if user and run.returncode == 99 and b"Operation not permitted" in run.stderr:
            self.skipTest("NOT TRIED: no run as another user, so a sheet without permission was not tried")
        self.assertEqual(run, (0, LISTING, b""))
        self.sheet.chmod(0)
        self.trouble(forked([self.sheet], program=program, user=user), self.sheet, "you have no permission")

    def test_cannot_be_written(self):
        for sheet in (self.sheet, ROOT / "examples" / "refused" / "09.sheet"):
            self.trouble(through_shell(">/dev/full", sheet), sheet, "the disk is full")
            self.trouble(through_shell(">&-", sheet), sheet, "standard output: it is closed")
            self.trouble(through_shell("<&- >&-", sheet), sheet, "standard output: it is closed")
        reader, writer = os.pipe()
        os.close(reader)
        with os.fdopen(writer, "wb") as gone:
            self.trouble(listed(self.sheet, stdout=gone), self.sheet, "the program that should read it has gone")

    def test_status_without_standard_error(self):
        cases = ((self.sheet, 0, LISTING), (ROOT / "examples" / "refused" / "09.sheet", 1, b"refused=9 20\n"),
                 (self.path / "missing", 2, b""))
        for closed, (sheet, *wanted) in product(("2>&-", "2>/dev/full", "<&- 2>&-"), cases):
            run = through_shell(closed, sheet)
            self.assertEqual([run.returncode, run.stdout, run.stderr], [*wanted, b""], closed)
        self.assertEqual(through_shell(">&- 2>&-", self.sheet).returncode, 2)
        self.assertEqual(through_shell("<&- >&- 2>&-", self.sheet).returncode, 2)

    def test_awkward_names(self):
        names = [b"two words", b"it's", b'say "k"', b"$HOME", b"`id`", b"new\nline", b"-dash", b"--", b"a;b&c", b"*",
                 b"\\x", "სამარე 5".encode(), "Gräber".encode(), "tombe \u202e".encode(), b"gr\xe4ber", b"\x1b[31m"]
        shown = {b"new\nline": "new\\nline", "tombe \u202e".encode(): "tombe \\u202e", b"gr\xe4ber": "gr\\xe4ber",
                 b"\x1b[31m": "\\x1b[31m"}
        for name in names:
            told = shown.get(name, name.decode("utf-8", "replace"))
            with self.subTest(name=name):
                self.awkward(name, told)

    def awkward(self, name, told):
        file = os.path.join(os.fsencode(self.path), name)
        here = {"cwd": self.path}
        self.trouble(listed(b"--", name, **here), f"{told}: cannot be read: there is no such file")
        with open(file, "wb") as sheet:
            sheet.write(COMMA)
        run = listed(b"--", name, **here)
        self.assertEqual((run.returncode, run.stdout), (1, b"refused=9 18\n"))
        self.assertEqual(run.stderr.decode().split("\n")[0],
                         f"{told}: refused, number 9 at byte 18: line 3, column 4")

    def test_endless_input(self):
        before = time.monotonic()
        with open("/dev/zero", "rb") as zero:
            runs = [listed("/dev/zero"), listed(stdin=zero)]
        with subprocess.Popen(["yes", "c=1 2"], stdout=subprocess.PIPE) as endless:
            runs.append(listed(stdin=endless.stdout))
            endless.stdout.close()
        for run in runs:
            self.assertEqual((run.returncode, run.stdout), (1, b"refused=11 24576\n"))
            self.assertIn(b"more than 24,576 bytes", run.stderr)
        self.assertLess(time.monotonic() - before, 20)

    def test_fifo_and_slow_pipe(self):
        fifo = self.path / "fifo"
        os.mkfifo(fifo)
        slowly = "for part in 'k=1' 'contexts=1' 'c=4'; do sleep 0.1; echo \"$part\"; done"
        with subprocess.Popen(["sh", "-c", f"{{ {slowly}; }} >'{fifo}'"]):
            from_fifo = listed(fifo)
        with subprocess.Popen(["sh", "-c", slowly], stdout=subprocess.PIPE) as pipe:
            os.set_blocking(pipe.stdout.fileno(), False)
            from_pipe = listed(stdin=pipe.stdout)
        for run in (from_fifo, from_pipe):
            self.assertEqual((run.returncode, run.stderr), (0, b""))
            self.assertEqual(run.stdout, plain(b"k=1\ncontexts=1\nc=4\n"))

    def test_interrupt(self):
        """Also where the gate runs behind a shell's `&`, which has interrupts ignored."""
        pipes = {name: subprocess.PIPE for name in ("stdin", "stdout", "stderr")}
        heard = lambda: signal.signal(signal.SIGINT, signal.SIG_DFL)
        with subprocess.Popen([sys.executable, SCRIPT], preexec_fn=heard, **pipes) as waiting:
            time.sleep(1.5)
            waiting.send_signal(signal.SIGINT)
            self.assertEqual((waiting.stdout.read(), waiting.stderr.read()), (b"", b""))
        self.assertEqual(waiting.returncode, -signal.SIGINT)


class StandIns(unittest.TestCase):
    """Programs that stand in for the listing program, and are missing or broken."""

    def setUp(self):
        self.folder = tempfile.TemporaryDirectory()
        self.addCleanup(self.folder.cleanup)
        self.program = Path(self.folder.name) / "stand-in"

    def listed(self, body, sheet=GOOD, **constants):
        self.program.write_text(f"#!/bin/sh\n{body}\n")
        self.program.chmod(0o755)
        return forked(sheet=sheet, program=self.program, **constants)

    def trouble(self, run, printed, words):
        told = run.stderr.decode()
        self.assertEqual((run.returncode, run.stdout), (2, printed), told)
        self.assertTrue(told.startswith("standard input: ") and told.count("\n") == 1, told)
        self.assertIn(words, told)

    def test_missing(self):
        self.trouble(listed(input=GOOD, program=self.program), b"", "is missing; build it with `make program`")
        self.program.write_text("not a program")
        self.trouble(listed(input=GOOD, program=self.program), b"", "cannot be run")
        self.program.chmod(0o755)
        self.trouble(listed(input=GOOD, program=self.program), b"", "cannot be run")
        self.trouble(listed(input=GOOD, program=self.folder.name), b"", "cannot be run")

    def test_without_a_folder(self):
        """A name without a slash is a file of this folder, not a command of the search path."""
        self.trouble(listed(input=GOOD, program="true", cwd=self.folder.name), b"", "./true is missing")

    def test_broken(self):
        listing = "printf 'k=1\\nfound=1\\nevents=4\\nmet=2\\npair=0 1 4 5 2\\n'"
        self.assertEqual(self.listed(f"cat >/dev/null; {listing}").returncode, 0)
        self.trouble(self.listed(f"{listing}; exit 3"), LISTING, "ended with status 3")
        self.trouble(self.listed("echo refused=9 0; exit 1"), b"refused=9 0\n", "ended with status 1")
        self.trouble(self.listed("kill -9 $$"), b"", "ended by signal 9")
        self.trouble(self.listed("echo oh >&2; exit 70"), b"", "ended with status 70")
        for body, printed in (("exit 0", b""), ("echo hello", b"hello\n"), ("printf 'refused=9 0'", b"refused=9 0"),
                              ("echo refused=9", b"refused=9\n"), ("printf '\\377\\000'", b"\xff\0"),
                              ("echo refused=9 -1", b"refused=9 -1\n"),
                              (listing.replace("found=1", "found=2"), LISTING.replace(b"found=1", b"found=2")),
                              (f"{listing} | head -c 30", LISTING[:30])):
            self.trouble(self.listed(body), printed, "neither a listing nor a refusal")

    def test_pairs_that_no_listing_has(self):
        """A pair has five numbers, and the last is a code: 0 to 4,095. How pairs are ranked is the program's to know."""
        head = "k=2\nfound=2\nevents=4\nmet=2\n"
        for pairs, fine in (("0 1 4 5 2|1 2 4 5 1", True), ("0 1 4 5 0|1 2 4 5 4095", True),
                            ("0 1 4 5|1 2 4 5", False), ("0 1 4 5 2|1 2 4 5", False), ("0 1 4 5 2 1|1 2 4 5 1", False),
                            ("0 1 4 5 2|1 2 4 5 4096", False), ("0 1 4 5 2|1 2 4 5 x", False),
                            ("1 2 4 5 1|0 1 4 5 2", True)):
            printed = head + "".join(f"pair={pair}\n" for pair in pairs.split("|"))
            run = self.listed(f"cat <<end\n{printed}end")
            with self.subTest(pairs=pairs):
                if fine:
                    self.assertEqual(run, (0, printed.encode(), b""))
                else:
                    self.trouble(run, printed.encode(), "neither a listing nor a refusal")

    def test_the_longest_listing(self):
        """64 pairs, and no number that could have a digit more."""
        printed = "k=64\nfound=64\nevents=4096\nmet=2048\n"
        printed += "".join(f"pair=100 {other} 1000 2000 4095\n" for other in range(101, 165))
        self.assertEqual(self.listed(f"cat <<end\n{printed}end"), (0, printed.encode(), b""))

    def test_much_input_is_not_read(self):
        self.trouble(self.listed("exit 5", b"x" * 24577), b"", "ended with status 5")

    def test_numbers_that_no_sheet_causes(self):
        for number in (2, 3, 6, 7, 12, 13, 17):
            run = self.listed(f"echo refused={number} 7")
            self.assertEqual((run.returncode, run.stdout), (1, f"refused={number} 7\n".encode()))
            self.assertTrue(run.stderr.startswith(f"standard input: refused, number {number} at place 7\n".encode()))
            self.assertIn(b"the program is broken", run.stderr)
        for number in (0, 14, 16, 18, 999):
            run = self.listed(f"echo refused={number} 7")
            self.assertEqual(run.returncode, 1)
            self.assertTrue(run.stderr.startswith(f"standard input: refused, number {number} at place 7\n".encode()))
            self.assertIn(b"This number is not known here", run.stderr)

    def test_general_words_where_no_cause_is_seen(self):
        """The good sheet has none of these causes, and places may lie behind its end."""
        general = {1: "k is 0 or above 64.", 4: "A code is above 4,095.", 9: "The sheet is badly formed.",
                   5: "A code is not above the one before it in its context.", 10: "A number is above 65,535.",
                   11: "There is no room for the sheet."}
        places, rubbish = (0, 5, 13, 20, len(GOOD), 24576, 999999999), b"\xff\xfe\n" * 9
        causes = {(9, 0, b""), (9, 0, rubbish)}
        for number, place, sheet in set(product(general, places, (GOOD, b"", rubbish, b"k=1\n"))) - causes:
            run = self.listed(f"echo refused={number} {place}", sheet)
            with self.subTest(number=number, place=place, sheet=sheet):
                self.assertEqual(run.returncode, 1)
                self.assertIn(f"\n{general[number]} ", run.stderr.decode())

    def test_a_program_that_hangs(self):
        self.trouble(self.listed("exec sleep 50", PATIENCE=1), b"", "did not end within 1 seconds")


class Damage(unittest.TestCase):
    """Sheets that are damaged at random: number, place, status, line, column and caret agree."""

    SHEETS = 300
    BITS = [b",", b";", b" ", b"  ", b"\t", b"\r", b"\n", b"0", b"7", b"99999", b"x", b"K", b"=", b"-", b"\0", b"\xe4",
            "გ".encode(), b"c=", b"\xef\xbb\xbf", b""]

    def sheet(self, chance):
        contexts = [sorted(chance.sample(range(4096), chance.randint(0, 9))) for _ in range(chance.randint(0, 7))]
        lines = [f"k={chance.randint(1, 64)}", f"contexts={len(contexts)}"]
        return "".join(line + "\n" for line in lines + ["c=" + " ".join(map(str, c)) for c in contexts]).encode()

    def damaged(self, chance):
        sheet = self.sheet(chance)
        at, end = chance.randint(0, len(sheet)), chance.randint(0, 2)
        lines = sheet.splitlines(keepends=True)
        kind = chance.choice("bit bit bit cut codes line lines windows swap".split())
        if kind == "bit":
            return sheet[:at] + chance.choice(self.BITS) + sheet[at + end :]
        if kind == "cut":
            return sheet[:at]
        if kind == "codes":
            return re.sub(rb" (\d+)$", rb" \g<1>9", sheet, count=1, flags=re.M)
        if kind == "windows":
            return sheet[:at] + sheet[at:].replace(b"\n", b"\r\n")
        if kind == "swap":
            return re.sub(rb"(\d+) (\d+)", rb"\2 \1", sheet, count=chance.randint(1, 3))
        spot = chance.randrange(len(lines))
        return b"".join(lines[:spot] + (lines[spot : spot + 1] * 2 if kind == "lines" else []) + lines[spot + 1 :])

    def place(self, sheet, number, place):
        """The byte, line and column of a refusal, or None: by counting, or by splitting lines and codes."""
        if number == 8:
            return None
        if number in (4, 5):
            codes = [(line, code) for line, text in enumerate(sheet.decode().split("\n")) if text.startswith("c=")
                     for code in range(len(text[2:].split()))]
            line, code = codes[place]
            texts = sheet.decode().split("\n")
            column = len(" ".join(texts[line][2:].split()[:code])) + (1 if code else 0) + 2
            return sum(len(text) + 1 for text in texts[:line]) + column, line + 1, column + 1
        at = 2 if number == 1 else place
        self.assertTrue(sheet[:at].isascii())
        line, column = 1, 1
        for byte in sheet[:at]:
            line, column = (line + 1, 1) if byte == 10 else (line, column + 1)
        return at, line, column

    def check(self, sheet, status, printed, told):
        self.assertEqual(printed, plain(sheet))
        refused = re.fullmatch(rb"refused=(\d+) (\d+)\n", printed)
        self.assertEqual(status, 1 if refused else 0, told)
        if not refused:
            self.assertEqual(told, b"")
            return None
        number, place = int(refused[1]), int(refused[2])
        where = self.place(sheet, number, place)
        lines = told.decode().split("\n")
        self.assertRegex(lines[0], rf": refused, number {number}( at (byte|index) {place})?(,|:|$)")
        for words in ("The sheet is badly formed.", "There is no room for the sheet.", "A number is above 65,535."):
            self.assertNotIn(words, told.decode())
        if where:
            self.check_excerpt(sheet, lines, *where)
        return number

    def check_excerpt(self, sheet, lines, at, line, column):
        self.assertTrue(lines[0].endswith(f": line {line}, column {column}"), (lines, line, column))
        caret = next(n for n, text in enumerate(lines) if re.fullmatch(" +\\^", text))
        above = lines[caret - 1][len(lines[caret]) - 1 :]
        char = sheet[at : at + 4].decode("utf-8", "surrogateescape")[:1]
        if at == len(sheet):
            self.assertEqual(above, "(end)")
        elif char == "\n":
            self.assertEqual(above, "")
        elif char.isprintable():
            self.assertTrue(above.startswith(char), lines)
        else:
            self.assertTrue(above.startswith("\\"), lines)

    def test_damaged_sheets(self):
        chance, numbers = random.Random(20), []
        for number in range(self.SHEETS):
            sheet = self.damaged(chance)
            with self.subTest(number=number, sheet=sheet):
                numbers.append(self.check(sheet, *forked(sheet=sheet)))
        # The damage is no good if it does not cause these refusals, or spoils every sheet.
        self.assertLessEqual({None, 4, 5, 9, 10}, set(numbers))
        self.assertGreater(numbers.count(9), self.SHEETS // 3)


def main(arguments):
    if not PROGRAM.is_file():
        print(f"{PROGRAM} is not there: build it with `make program`", file=sys.stderr)
        return 1
    return 0 if unittest.main(argv=[sys.argv[0], *arguments], exit=False).result.wasSuccessful() else 1


if __name__ == "__main__":
    sys.exit(main(sys.argv[1:]))
