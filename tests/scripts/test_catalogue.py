#!/usr/bin/env python3
"""Tries scripts/sheet-from-catalogue.py and scripts/names-in-listing.py.

    python3 tests/scripts/test_catalogue.py

What the scripts write is read back by this file's own code and by Python's csv module, which the scripts
do not read with. Listings come from target/bin/sazamkhri (`make program` builds it).
"""
import contextlib
import csv
import errno
import importlib.util
import io
import os
import random
import re
import resource
import subprocess
import sys
import tempfile
import unicodedata
import unittest
from fractions import Fraction
from math import floor
from pathlib import Path
from unittest import mock

ROOT = Path(__file__).resolve().parent.parent.parent
SCRIPTS = ROOT / "scripts"
MAKER = SCRIPTS / "sheet-from-catalogue.py"
NAMER = SCRIPTS / "names-in-listing.py"
PROGRAM = ROOT / "target" / "bin" / "sazamkhri"

sys.dont_write_bytecode = True
sys.path.insert(0, str(SCRIPTS))


def loaded(path):
    spec = importlib.util.spec_from_file_location(path.stem.replace("-", "_"), path)
    module = importlib.util.module_from_spec(spec)
    spec.loader.exec_module(module)
    return module


maker, namer = loaded(MAKER), loaded(NAMER)


def check_program():
    if not PROGRAM.is_file():
        raise AssertionError(f"{PROGRAM} is not there: build it with `make program`")


def listing_of(sheet):
    """What the program prints for the bytes of a sheet."""
    check_program()
    return subprocess.run([PROGRAM], input=sheet, capture_output=True, check=True).stdout


def read_sheet(data):
    """k, and the codes of each context."""
    text = data.decode("ascii")
    assert text.endswith("\n"), "no last line end"
    first, second, *rest = text[:-1].split("\n")
    assert first.startswith("k=") and second == f"contexts={len(rest)}", (first, second, len(rest))
    assert all(line.startswith("c=") for line in rest)
    contexts = [[int(word) for word in line[2:].split(" ")] if line != "c=" else [] for line in rest]
    assert all(codes == sorted(set(codes)) for codes in contexts), "codes do not rise"
    return int(first[2:]), contexts


def read_names(data):
    """Names of contexts and of codes."""
    text = data.decode("utf-8")
    assert text.startswith("\ufeff") and "\r" not in text
    heads, *rows = csv.reader(io.StringIO(text[1:], newline=""), strict=True)
    assert heads == ["kind", "number", "name"]
    contexts = [name for kind, _, name in rows if kind == "context"]
    codes = [name for kind, _, name in rows if kind == "code"]
    numbers = [str(n) for n in [*range(len(contexts)), *range(len(codes))]]
    assert [row[0] for row in rows] == ["context"] * len(contexts) + ["code"] * len(codes)
    assert [row[1] for row in rows] == numbers
    return contexts, codes


def pairs_in(listing):
    """The numbers of the `pair=` lines."""
    lines = listing.decode("ascii").splitlines()
    return [tuple(int(word) for word in line[5:].split()) for line in lines if line.startswith("pair=")]


def rarest_shared(site, one, other):
    """Of the types that two contexts share the one in the fewest contexts; of equally rare ones the first by name."""
    stands = lambda kind: sum(kind in types for types in site.values())
    return min(site[one] & site[other], key=lambda kind: (stands(kind), kind))


def read_table(path):
    """Heads and rows of an example, by Python's own reader."""
    with open(path, encoding="utf-8-sig", newline="") as file:
        heads, *rows = csv.reader(file, delimiter=";" if "finds" in path.name else ",", strict=True)
    return heads, rows


class Trial(unittest.TestCase):
    """A folder of its own, and calls of the first script in it."""

    def setUp(self):
        room = tempfile.TemporaryDirectory()
        self.addCleanup(room.cleanup)
        self.folder = Path(room.name)

    def make(self, data, *options):
        """Status and words of a call; standard output stays empty."""
        path = self.folder / "site.csv"
        path.write_bytes(data if isinstance(data, bytes) else data.encode("utf-8"))
        out, err = io.StringIO(), io.StringIO()
        with contextlib.redirect_stdout(out), contextlib.redirect_stderr(err):
            try:
                status = maker.main([*options, str(path), str(self.folder / "out")])
            except SystemExit as end:
                status = end.code
        self.assertEqual(out.getvalue(), "")
        return status, err.getvalue()

    def clear(self):
        for name in ("out.sheet", "out.names.csv"):
            (self.folder / name).unlink(missing_ok=True)

    def made(self, data, *options):
        """The site that was made: contexts with their types, in order, and the notes."""
        status, words = self.make(data, *options)
        self.assertEqual(status, 0, words)
        self.assertEqual(sorted(os.listdir(self.folder)), ["out.names.csv", "out.sheet", "site.csv"])
        self.k, sheet = read_sheet((self.folder / "out.sheet").read_bytes())
        contexts, self.codes = read_names((self.folder / "out.names.csv").read_bytes())
        self.assertEqual(len(contexts), len(sheet))
        self.notes = words
        return [(name, {self.codes[c] for c in codes}) for name, codes in zip(contexts, sheet)]

    def refused(self, data, habit, place, *words, options=()):
        """The catalogue is refused at the place with these words, in one line, and nothing is written."""
        self.clear()
        status, said = self.make(data, habit, *options)
        self.assertEqual((status, said.count("\n")), (1, 1), said)
        start = f"{self.folder / 'site.csv'}: "
        self.assertTrue(said.startswith(start + (place + ": " if place else "")), said)
        if not place:
            self.assertNotRegex(said[len(start) :], r"^(row|line) ")
        for word in words:
            self.assertIn(word, said)
        self.assertEqual(os.listdir(self.folder), ["site.csv"])


class Tables(Trial):
    def test_marks(self):
        present, absent = ("1", "x", "X", "7", "007", "9" * 5000, " x "), ("", "0", "000", "-", " - ", " ")
        for mark in present + absent:
            site = self.made(f"Grave,Bowl,Bead\nG 1,{mark},1\n", "--table")
            self.assertEqual(site, [("G 1", {"Bowl", "Bead"} if mark in present else {"Bead"})], mark)

    def test_other_marks(self):
        for mark in ("yes", "+", "1.0", '"2,5"', "-1", "0x", "xx", "х", "×", "١", "½", "?", "--", "1 2", "#REF!"):
            self.refused(f"Grave,Bowl,Bead\nG 1,1,1\n\nG 2,1,{mark}\n", "--table", "row 4, column 3 (C)", "neither")
        self.refused("Grave,Bowl\nG 1,х\n", "--table", "row 2, column 2 (B)", "U+0445", "--list")

    def test_dashes(self):
        for dash in "–—−‐‑":
            words = "a dash that is not -", f"U+{ord(dash):04X}"
            self.refused(f"G,Bowl\nG 1,{dash}\n", "--table", "row 2, column 2 (B)", *words)

    def test_hand_worked(self):
        table = "Grave;Pot;Bead;Knife;Comb\nG 2;x;1;;\nG 1;3;x;;\nPit;1;;X;0\nEmpty;-;0;;\n"
        self.made(table, "--table", "--pairs", "7")
        # Knife stands in one context, Bead in two, Pot in three; Comb in none.
        self.assertEqual((self.folder / "out.sheet").read_text(), "k=7\ncontexts=4\nc=1 2\nc=1 2\nc=0 2\nc=\n")
        names = "kind,number,name\ncontext,0,G 2\ncontext,1,G 1\ncontext,2,Pit\ncontext,3,Empty\n"
        names += "code,0,Knife\ncode,1,Bead\ncode,2,Pot\n"
        self.assertEqual((self.folder / "out.names.csv").read_bytes(), names.encode("utf-8-sig"))
        self.assertIn("4 contexts, 3 types, 6 codes.", self.notes)
        self.assertIn("stand in no context: 1.", self.notes)
        self.assertIn(f"\nNext: make list SHEET={self.folder}/out.sheet\n", self.notes)
        self.assertLessEqual(self.notes.count("\n"), 2)

    def test_names_of_equal_rarity_by_code_points(self):
        self.made("g,ä,b,Z,a,ა,10,9\nG,1,1,1,1,1,1,1\n", "--table")
        self.assertEqual(self.codes, ["10", "9", "Z", "a", "b", "ä", "ა"])
        self.assertNotIn("no context", self.notes)

    def test_names_file_quotes(self):
        self.made('g;"Bowl; big";5" nail;"a ""b"" c";Pot, red\nG, 1;1;1;1;1\n', "--table")
        self.assertEqual(self.codes, ['5" nail', "Bowl; big", "Pot, red", 'a "b" c'])

    def test_repeated(self):
        words = '"G 1" stands already in row 2'
        self.refused("g,Bowl\nG 1,1\nG 2,1\n G 1 ,\n", "--table", "row 4, column 1 (A)", words)
        words = '"Bowl" stands already in column 2 (B)'
        self.refused("g,Bowl,Bead,Bowl\nG,1,1,1\n", "--table", "row 1, column 4 (D)", words)
        self.refused("g,caf\u00e9,cafe\u0301\nG,1,1\n", "--table", "row 1, column 3 (C)", "stands already")

    def test_empty_names(self):
        self.refused("g,Bowl, ,Bead\nG,1,1,1\n", "--table", "row 1, column 3 (C)", "type is missing")
        self.refused("g,Bowl\nG,1\n\u00a0,1\n", "--table", "row 3, column 1 (A)", "context is missing")

    def test_ragged(self):
        self.refused("g,Bowl,Bead\nG 1,1,1\nG 2,1\n", "--table", "row 3, column 3 (C)", "2 cells", "row 1 have 3")
        self.refused("g,Bowl\nG 1,1,\n", "--table", "row 2, column 3 (C)", "3 cells", "row 1 have 2", "into quotes")
        self.refused("g,Bowl,Bead\nG 1,1\n", "--table", "row 2, column 3 (C)", "2 cells", "Type 0")

    def test_blank_rows(self):
        site = self.made("\n,,\ng,Bowl,Bead\n\n , ,\nG 1,1,\n\n\n,\nG 2,,1\n\n", "--table")
        self.assertEqual(site, [("G 1", {"Bowl"}), ("G 2", {"Bead"})])
        self.refused("\n\ng,Bowl\n\nG 1,1\n,,\nG 2,?\n", "--table", "row 7, column 2 (B)")
        # the first row that holds something tells the delimiter, although the rows are not even
        self.refused("\r\n\r\ng,Bowl\r\nG 1,1,1\r\n", "--table", "row 4, column 3 (C)", "3 cells")

    def test_hidden_characters(self):
        for hidden in "\n\t\x1b\x7f\x85\u2028\u200b\u00ad\ufeff\u202e":
            point = f"U+{ord(hidden):04X}"
            self.refused(f'g,"Bo{hidden}wl"\nG,1\n', "--table", "row 1, column 2 (B)", point)
            self.refused(f'g,Bowl\nA,1\n"G{hidden}1",1\n', "--table", "row 3, column 1 (A)", point)
        self.assertEqual(self.made("g,می\u200cخ\nG,1\n", "--table"), [("G", {"می\u200cخ"})])

    def test_messages_are_safe_to_print(self):
        self.refused("g,Bowl\nG,\x1b[31m\n", "--table", "row 2, column 2 (B)", "\\u001b[31m")
        self.refused("g,Bowl\nG," + "y" * 500 + "\n", "--table", "row 2, column 2 (B)", '"' + "y" * 39 + '…"')


class Lists(Trial):
    def test_heads(self):
        site = self.made("Grave,Type\nG 2,Bowl\nG 1,Bead\nG 2,Bead\n", "--list")
        self.assertEqual(site, [("G 2", {"Bowl", "Bead"}), ("G 1", {"Bead"})])
        self.assertIn('Heads in row 1: "Grave", "Type".', self.notes)
        self.assertNotIn("repeat", self.notes)
        self.assertEqual(self.k, 10)

    def test_no_heads(self):
        site = self.made("G 2,Bowl\nG 1,Bead\n\nG 2,Bead\n", "--list", "--no-heads")
        self.assertEqual(site, [("G 2", {"Bowl", "Bead"}), ("G 1", {"Bead"})])
        self.assertNotIn("Heads", self.notes)

    def test_first_row_looks_like_data(self):
        words = '"G 1" stands again in row 3', "--no-heads"
        self.refused("G 1,Bowl\nG 2,Bead\n G 1,Comb\n", "--list", "row 1, column 1 (A)", *words)
        words = '"Bowl" stands again in row 3', "--no-heads"
        self.refused("\nG 1,Bowl\nG 2,Bowl\n", "--list", "row 2, column 2 (B)", *words)
        # in the other column it is no sign of data
        self.assertEqual(self.made("Bowl,Grave\nGrave,Bowl\n", "--list"), [("Grave", {"Bowl"})])

    def test_repeats(self):
        site = self.made("g,t\nG,Bowl\nG,Bead\nG, Bowl\nG,Bowl\nH,Bowl\n", "--list")
        self.assertEqual(site, [("G", {"Bowl", "Bead"}), ("H", {"Bowl"})])
        self.assertIn("Rows that repeat a find: 2.", self.notes)
        self.assertIn("3 codes", self.notes)

    def test_one_name_in_two_ways(self):
        site = self.made("g,t\nCaf\u00e9,Bowl\nCafe\u0301,Bead\n", "--list")
        self.assertEqual(site, [("Caf\u00e9", {"Bowl", "Bead"})])

    def test_blanks_that_look_alike(self):
        for blank in ("  ", "\u00a0", " \u2009", "\u3000", "\u202f"):
            site = self.made(f"g,t\n\u00a0G{blank}1 ,Bowl\nG 1,Red{blank}bead\nG 1,Red bead\n", "--list")
            self.assertEqual(site, [("G 1", {"Bowl", "Red bead"})])

    def test_joiners(self):
        self.assertEqual(self.made("g,t\nمی\u200cخ,Bowl\n", "--list"), [("می\u200cخ", {"Bowl"})])
        for name in ("Bowl\u200d", "\u200cBowl"):
            self.refused(f"g,t\nG,Bowl\nG,{name}\n", "--list", "row 3, column 2 (B)", "hidden character")

    def test_a_title_is_no_head(self):
        self.refused("Finds of 2024;\nContext;Type\nG 1;Bowl\n", "--list", "row 1, column 2 (B)", "title")
        self.refused(";Type\nG 1;Bowl\n", "--list", "row 1, column 1 (A)", "head is missing")

    def test_empty_names(self):
        self.refused("g,t\nG,Bowl\n,Bead\n", "--list", "row 3, column 1 (A)", "context is missing")
        self.refused("g,t\nG,Bowl\nH, \n", "--list", "row 3, column 2 (B)", "type is missing")
        self.refused('g,t\nG,"Bo\nwl"\n', "--list", "row 2, column 2 (B)", "U+000A")

    def test_ragged(self):
        self.refused("g,t\nG,Bowl\nG,Bead,2\n", "--list", "row 3, column 3 (C)", "3 cells", "other columns", "--table")
        self.refused("g,t\nG\n", "--list", "row 2, column 2 (B)", "1 cell,")
        self.refused("g,t,n\nG,Bowl,1\n", "--list", "row 1, column 3 (C)")


class Reading(Trial):
    WANTED = [("Gräb 1", {"Bowl, big", "ქვევრი"}), ("G 2", {"ქვევრი"})]

    def written(self, delimiter, end):
        rows = (("g", '"Bowl, big"', "ქვევრი"), ("Gräb 1", "1", "1"), ("G 2", "", "x"))
        return end.join(delimiter.join(row) for row in rows)

    def test_each_form(self):
        for delimiter in ",;\t":
            for end in ("\n", "\r\n", "\r"):
                text = self.written(delimiter, end)
                for data in (text, text + end, "\ufeff" + text + end):
                    self.assertEqual(self.made(data, "--table"), self.WANTED, repr(data))

    def test_spreadsheets(self):
        for data in (b"PK\3\4\x14\0\6\0", b"\xd0\xcf\x11\xe0\xa1\xb1"):
            self.refused(data, "--table", "", "spreadsheet", "'CSV UTF-8'")

    def test_other_encodings(self):
        text = self.written(";", "\r\n")
        for name in ("utf-16", "utf-16-le", "utf-16-be", "utf-32"):
            self.refused(text.encode(name), "--table", "row 1, column 1 (A)", "UTF-16", "'CSV UTF-8'")
        self.refused(b"\xfe\xff" + text.encode("utf-16-be"), "--table", "row 1, column 1 (A)", "UTF-16")
        self.refused("g;Bowl\nG\u00e4;1\n".encode("latin-1"), "--table", "row 2, column 1 (A)", "E4", "'CSV UTF-8'")
        self.refused(b'g;Bowl;"Bead\n\xff"\nG;1\n', "--table", "row 1, column 3 (C)", "other than UTF-8", "'CSV UTF-8'")
        self.refused(b"g;Bowl, Bead\nG;\xff\n", "--table", "row 2, column 2 (B)", "'CSV UTF-8'")
        self.refused(b"g;Bowl\nG\xed\xa0\x80;1\n", "--table", "row 2, column 1 (A)", "'CSV UTF-8'")
        self.refused(b"g;Bowl\nG\x00;1\n", "--table", "row 2, column 1 (A)", "byte 00", "'CSV UTF-8'")
        self.refused(b"g,t\nG;1,\xc3", "--list", "row 2, column 2 (B)", "'CSV UTF-8'")

    def test_delimiter_from_all_rows(self):
        text = "g;Bowl, big;Bead\nG 1;1;1\n"
        self.assertEqual(self.made(text, "--table"), [("G 1", {"Bowl, big", "Bead"})])
        site = self.made("G 1, man;Bowl\nG 2;Bead\n", "--list", "--no-heads")
        self.assertEqual(site, [("G 1, man", {"Bowl"}), ("G 2", {"Bead"})])
        self.assertEqual(self.made('"g;x","t;y"\n"G;1","a,b"\n', "--list"), [("G;1", {"a,b"})])
        self.assertEqual(self.made('"g"" ;, "\t t\nG\tBowl\n', "--list"), [("G", {"Bowl"})])

    def test_delimiter_not_clear(self):
        text = "G 1, man;Bowl\nG 2, girl;Bead\n"
        self.refused(text, "--list", "", "not clear", "--delimiter", options=("--no-heads",))
        site = self.made(text, "--list", "--no-heads", "--delimiter", "semicolon")
        self.assertEqual(site, [("G 1, man", {"Bowl"}), ("G 2, girl", {"Bead"})])
        site = self.made(text, "--list", "--no-heads", "--delimiter", "comma")
        self.assertEqual(site, [("G 1", {"man;Bowl"}), ("G 2", {"girl;Bead"})])
        for text in ("g\nG 1\nG 2\n", "g|a|b\nG|1|x\n"):
            self.refused(text, "--table", "", "only one column")
        self.refused("g;a,b\nG;1,2;3\nH;1\n", "--table", "", "not clear", "--delimiter")

    def test_quotes(self):
        site = self.made('"g" , "Bowl ""A"", big"\n "G, 1" ,"1"\n', "--table")
        self.assertEqual(site, [("G, 1", {'Bowl "A", big'})])
        self.assertEqual(self.made('g,5" nail\nG,1\n', "--table"), [("G", {'5" nail'})])
        for other in ("g,t\n", "g;t, u\n"):
            d = other[1]
            self.refused(f'{other}\nG{d}Bowl\nH{d}"Bead\nI{d}Comb\n', "--list", "row 4, column 2 (B)", "none closes it")
        self.refused('g,t\nG,"Bead""', "--list", "row 2, column 2 (B)", "none closes it")
        self.refused('g,t\nG,"Bead" red\n', "--list", "row 2, column 2 (B)", "follows the closing quote")

    def test_rows_are_records(self):
        self.refused('"g\n\nraw",Bowl\r\nG 1,1\r\nG 2,?\r\n', "--table", "row 3, column 2 (B)")

    def test_column_letters(self):
        for column, name in ((26, "Z"), (27, "AA"), (52, "AZ"), (53, "BA"), (702, "ZZ"), (703, "AAA")):
            heads = ",".join(["g", *(f"t{n}" for n in range(2, column + 1))])
            cells = ",".join(["G", *[""] * (column - 2), "?"])
            self.refused(f"{heads}\n{cells}\n", "--table", f"row 2, column {column} ({name})")

    def test_note_for_excel(self):
        self.refused("sep=;\r\nGrave;Type\r\nG;Bowl\r\n", "--list", "row 1, column 1 (A)", "Excel")


class Limits(Trial):
    def test_contexts(self):
        rows = [f"G {n},Bowl" for n in range(1, 258)]
        self.assertEqual(len(self.made("\n".join(rows[:256]), "--list", "--no-heads")), 256)
        # there is room for the contexts (else 11), but not for all the pairs that meet in one bowl
        self.assertEqual(listing_of((self.folder / "out.sheet").read_bytes()), b"refused=8 0\n")
        words = '"G 257"', "256 contexts"
        self.refused("\n".join(rows), "--list", "row 257, column 1 (A)", *words, options=("--no-heads",))
        table = "g,Bowl\n" + "\n".join(f"G {n},1" for n in range(1, 258))
        self.refused(table, "--table", "row 258, column 1 (A)", "256 contexts")

    def test_types(self):
        heads = ",".join(f"t{n}" for n in range(4097))
        site = self.made(f"g,{heads[:heads.rindex(',')]}\nG,{'1,' * 4095}1\n", "--table")
        self.assertEqual(len(site[0][1]), 4096)
        self.assertNotIn(b"refused", listing_of((self.folder / "out.sheet").read_bytes()))
        self.refused(f"g,{heads}\nG,1{',' * 4096}\n", "--table", "row 1, column 4098 (FAP)", "4,096 types")

    def test_codes(self):
        heads = ",".join(f"t{n}" for n in range(16))
        rows = "".join(f"G {n}{',1' * 16}\n" for n in range(255))
        self.assertEqual(len(self.made(f"g,{heads}\n{rows}H{',1' * 16}\n", "--table")), 256)
        self.assertIn("4096 codes", self.notes)
        table = f"g,{heads},u\n" + rows.replace("\n", ",\n") + f"H{',1' * 17}\n"
        self.refused(table, "--table", "row 257, column 18 (R)", "4,096 codes")
        finds = "".join(f"G {n % 8},t{n // 8}\n" for n in range(4097))
        self.refused("g,t\n" + finds, "--list", "row 4098, column 2 (B)", "4,096 codes")

    def test_nothing_in_it(self):
        for data in ("", "\ufeff", "\n\r\n", " ;; \n;;\n", '""\n', "\u00a0\n"):
            self.refused(data, "--table", "", "nothing in the file")
            self.refused(data, "--list", "", "nothing in the file", options=("--no-heads",))
        self.refused("g,Bowl\n", "--table", "row 2, column 1 (A)", "no contexts")
        self.refused("g,t\n\n", "--list", "row 2, column 1 (A)", "no contexts")
        self.refused("g\nG 1\n", "--table", "row 1, column 2 (B)", "no types", options=("--delimiter", "comma"))
        self.refused("g,Bowl\nG,\nH,0\n", "--table", "", "no type is present")

    def test_one_of_each(self):
        self.made("G,Bowl\n", "--list", "--no-heads")
        self.assertIn(": 1 context, 1 type, 1 code.", self.notes)

    def test_size(self):
        self.refused(b"g,t\n" + b"\n" * (32 * 1024 * 1024), "--list", "", "32 MiB")


class Usage(Trial):
    def test_wrong_calls(self):
        text = "g,Bowl\nG,1\n"
        for call in ("", "--table --list", "--table --no-heads", "--tab", "--list --delimiter colon"):
            options = call.split()
            self.assertEqual(self.make(text, *options)[0], 2, options)
        for pairs in ("0", "65", "-1", "x", "1.5", "١", "999999999999"):
            status, words = self.make(text, "--table", "--pairs", pairs)
            self.assertEqual(status, 2, pairs)
        self.assertIn("1 to 64 pairs", words)
        self.assertEqual(os.listdir(self.folder), ["site.csv"])
        for pairs in ("1", "64"):
            self.made(text, "--table", "--pairs", pairs)
            self.assertEqual(self.k, int(pairs))


def call(script, *arguments, **more):
    return subprocess.run([sys.executable, script, *arguments], stdout=subprocess.PIPE, stderr=subprocess.PIPE, **more)


class Files(Trial):
    """Nothing by halves: faults of files leave no new file, and old ones untouched."""

    TEXT = "g,Bowl,Bead\nG 1,1,1\nG 2,,1\n"

    def setUp(self):
        super().setUp()
        self.csv = self.folder / "site.csv"
        self.csv.write_text(self.TEXT)

    def run_maker(self, name, catalogue=None, **more):
        return call(MAKER, "--table", self.csv if catalogue is None else catalogue, name, cwd=self.folder, **more)

    def unreachable(self, ran, *words):
        said = ran.stderr.decode()
        self.assertEqual((ran.returncode, ran.stdout, said.count("\n")), (2, b"", 1), said)
        for word in words:
            self.assertIn(word, said)

    def test_cannot_read(self):
        self.unreachable(self.run_maker("out", "none.csv"), "none.csv: cannot read: No such file")
        self.unreachable(self.run_maker("out", "."), ".: cannot read: Is a directory")
        self.unreachable(self.run_maker("out", ""), ": cannot read: No such file")
        self.assertEqual(os.listdir(self.folder), ["site.csv"])

    def test_no_folder(self):
        self.unreachable(self.run_maker("none/out"), "none/out.sheet: cannot write: No such file")
        self.unreachable(self.run_maker("site.csv/out"), "site.csv/out.sheet: cannot write: Not a directory")
        self.assertEqual(self.run_maker("none/").returncode, 2)
        self.assertEqual(self.run_maker("").returncode, 2)
        self.assertEqual(os.listdir(self.folder), ["site.csv"])

    def test_folder_in_the_way(self):
        for way, other in (("out.sheet", "out.names.csv"), ("out.names.csv", "out.sheet")):
            (self.folder / way).mkdir()
            self.unreachable(self.run_maker("out"), f"{way} is a folder")
            self.assertEqual(sorted(os.listdir(self.folder)), sorted([way, "site.csv"]))
            (self.folder / other).write_text("old")
            self.unreachable(self.run_maker("out"), f"{way} is a folder")
            self.assertEqual((self.folder / other).read_text(), "old")
            (self.folder / other).unlink()
            (self.folder / way).rmdir()

    def old_files(self):
        for name in ("out.sheet", "out.names.csv"):
            (self.folder / name).write_text("old " + name)

    def check_old_files(self):
        self.assertEqual(sorted(os.listdir(self.folder)), ["out.names.csv", "out.sheet", "site.csv"])
        for name in ("out.sheet", "out.names.csv"):
            self.assertEqual((self.folder / name).read_text(), "old " + name)

    def test_full_disk(self):
        """A file may grow to so many bytes: the sheet of 26 bytes fits at 40, the names do not."""
        for old in (False, True):
            for room in (0, 10, 40):
                limit = lambda: resource.setrlimit(resource.RLIMIT_FSIZE, (room, room))
                self.unreachable(self.run_maker("out", preexec_fn=limit), "out.sheet: cannot write: File too large")
                if old:
                    self.check_old_files()
                else:
                    self.assertEqual(os.listdir(self.folder), ["site.csv"])
            self.old_files()
        limit = lambda: resource.setrlimit(resource.RLIMIT_FSIZE, (4096, 4096))
        self.assertEqual(self.run_maker("out", preexec_fn=limit).returncode, 0)

    def test_full_tmpfs(self):
        """A real disk of 16 KiB that is full, where the system lets us make one."""
        script = "mount -t tmpfs -o size=16k none disk || exit\n"
        script += 'dd if=/dev/zero of=disk/fill bs=1k 2> dd; test "$(wc -c < disk/fill)" -gt 8000 || exit\n'
        script += 'echo full; "$1" "$2" --table site.csv disk/out; status=$?; ls -A disk; exit $status'
        (self.folder / "disk").mkdir()
        shell = ["unshare", "-m", "sh", "-c", script, "sh", sys.executable, MAKER]
        try:
            ran = subprocess.run(shell, cwd=self.folder, capture_output=True)
        except FileNotFoundError:
            self.skipTest("NOT TRIED: there is no unshare here, so no small disk can be made")
        if not ran.stdout.startswith(b"full\n"):
            self.skipTest("NOT TRIED: no small disk can be made here: " + ran.stderr.decode())
        self.assertEqual((ran.returncode, ran.stdout), (2, b"full\nfill\n"), ran.stderr)
        self.assertIn(b"No space left", ran.stderr)

    def test_rename_that_fails(self):
        """The second, third and fourth rename fails: those before it are taken back."""
        real = os.rename
        for bad in (1, 2, 3, 4):
            self.old_files()
            count = 0

            def rename(old, new):
                nonlocal count
                count += 1
                if count == bad:
                    raise OSError(errno.EPERM, "Operation not permitted")
                real(old, new)

            with mock.patch.object(maker.os, "rename", rename):
                status, words = self.make(self.TEXT, "--table")
            self.assertEqual(status, 2, words)
            self.assertIn("out.sheet: cannot write: Operation not permitted", words)
            self.check_old_files()
            self.assertGreaterEqual(count, bad)

    def test_over_old_files(self):
        self.old_files()
        self.assertEqual(self.run_maker("out").returncode, 0)
        self.assertEqual(sorted(os.listdir(self.folder)), ["out.names.csv", "out.sheet", "site.csv"])
        self.assertEqual((self.folder / "out.sheet").read_text(), "k=10\ncontexts=2\nc=0 1\nc=1\n")

    def test_refusal_leaves_old_files(self):
        self.old_files()
        self.csv.write_text("g,Bowl\nG,?\n")
        self.assertEqual(self.run_maker("out").returncode, 1)
        self.check_old_files()

    def test_never_over_the_catalogue(self):
        for name in ("a.names.csv", "a.sheet"):
            (self.folder / name).write_text(self.TEXT)
            self.unreachable(self.run_maker("a", name), f"{name}: this is the catalogue itself")
            self.assertEqual((self.folder / name).read_text(), self.TEXT)
            (self.folder / name).unlink()

    def test_modes_follow_the_mask(self):
        self.assertEqual(self.run_maker("out", preexec_fn=lambda: os.umask(0o027)).returncode, 0)
        for name in ("out.sheet", "out.names.csv"):
            self.assertEqual((self.folder / name).stat().st_mode & 0o777, 0o640)

    def test_awkward_names(self):
        names = "Gräber von მცხეთა", "a'b \"c\"", "cost $HOME $(x)", "-dash", "two\nlines", b"\xff\xfe", ".hidden"
        for name in names:
            raw = os.fsencode(name)
            ran = call(MAKER, "--table", "--", self.csv, raw, cwd=self.folder)
            self.assertEqual((ran.returncode, ran.stdout), (0, b""), ran.stderr)
            for end in (b".sheet", b".names.csv"):
                os.unlink(os.path.join(os.fsencode(self.folder), raw + end))
        self.assertEqual(os.listdir(self.folder), ["site.csv"])

    def test_next_command(self):
        """What the script says to type reaches the Makefile's commands whole, through the shell and through make."""
        ours = (ROOT / "Makefile").read_text(encoding="utf-8").splitlines()
        taken = [line for line in ours if line.startswith(("override SHEET", "export SHEET"))]
        (self.folder / "Makefile").write_text("\n".join([*taken, "list:", '\t@printf "%s" "$$SHEET"', ""]))
        for name in ("plain", "with space", "Gräber", "a'b", 'a"b', "cost $HOME $(x)", "a#b", "a\\b", "$$"):
            ran = self.run_maker(name)
            self.assertEqual(ran.returncode, 0, ran.stderr)
            typed = ran.stderr.decode().split("\nNext: ")[1]
            told = subprocess.run(["sh", "-c", typed], cwd=self.folder, capture_output=True)
            self.assertEqual(told.stdout.decode(), name + ".sheet", typed)

    def test_standard_error_is_gone(self):
        command = f'"{sys.executable}" "{MAKER}" --table site.csv out'
        for end, status in ((" 2>&-", 0), (" 2>/dev/full", 0), (" >&- 2>&- <&-", 0), ("x/y 2>&-", 2)):
            ran = subprocess.run(["sh", "-c", command + end], cwd=self.folder, capture_output=True)
            self.assertEqual((ran.returncode, ran.stdout), (status, b""), end)
        self.assertEqual((self.folder / "out.sheet").read_text(), "k=10\ncontexts=2\nc=0 1\nc=1\n")

    def test_endless_catalogue(self):
        ran = self.run_maker("out", "/dev/zero", timeout=60)
        self.assertEqual((ran.returncode, ran.stdout), (1, b""))
        self.assertIn(b"32 MiB", ran.stderr)


LISTING = "k=3\nfound=2\nevents=9\nmet=4\npair=0 2 1 3 1\npair=0 1 2 7 0\n"
NAMES = "kind,number,name\ncontext,0,Grave 1\ncontext,1,ქვევრი\ncontext,2,\"a, \"\"b\"\"\"\ncode,0,Bowl\ncode,1,ქვა\n"


class Listings(unittest.TestCase):
    def setUp(self):
        room = tempfile.TemporaryDirectory()
        self.addCleanup(room.cleanup)
        self.folder = Path(room.name)

    def store(self, names=NAMES, listing=LISTING):
        for name, text in (("names.csv", names), ("listing", listing)):
            (self.folder / name).write_bytes(text if isinstance(text, bytes) else text.encode("utf-8"))

    def named(self, names=NAMES, listing=LISTING):
        self.store(names, listing)
        return call(NAMER, "names.csv", "listing", cwd=self.folder)

    def refused(self, start, *words, **files):
        self.store(**files)
        said, out = io.StringIO(), []
        with contextlib.redirect_stderr(said), mock.patch.object(namer, "write", out.append):
            status = namer.main([str(self.folder / "names.csv"), str(self.folder / "listing")])
        said = said.getvalue()
        self.assertEqual((status, out, said.count("\n")), (1, [], 1), said)
        self.assertTrue(said.startswith(f"{self.folder}/{start}"), said)
        for word in words:
            self.assertIn(word, said)

    def test_table(self):
        wanted = (
            "2 of 3 wanted pairs found; 9 places of contexts looked at, 4 pairs compared.\n"
            "rank  alike  shared  first context  second context  first shared type\n"
            '   1  33.3%  1 of 3  Grave 1        a, "b"          ქვა\n'
            "   2  28.6%  2 of 7  Grave 1        ქვევრი          Bowl\n"
        )
        for names in (NAMES, "\ufeff" + NAMES.replace("\n", "\r\n"), NAMES.replace(",", ";")):
            ran = self.named(names.replace("a; ", "a, "))
            self.assertEqual((ran.returncode, ran.stdout.decode(), ran.stderr), (0, wanted, b""))
        piped = call(NAMER, "names.csv", cwd=self.folder, input=LISTING.encode())
        self.assertEqual(piped.stdout.decode(), wanted)
        dashed = call(NAMER, "names.csv", "-", cwd=self.folder, input=LISTING.encode(), env={"LC_ALL": "C"})
        self.assertEqual(dashed.stdout.decode(), wanted)

    def test_no_pairs(self):
        ran = self.named(listing="k=1\nfound=0\nevents=2\nmet=0\n")
        wanted = b"0 of 1 wanted pair found; 2 places of contexts looked at, 0 pairs compared.\n"
        self.assertEqual((ran.returncode, ran.stdout), (0, wanted))

    def test_widths(self):
        for text, places in (("", 0), ("Grave", 5), ("საფლავი", 7), ("墓12", 4), ("ｱﾊ", 2), ("Ａ", 2), ("한국", 4),
                             ("e\u0301", 1), ("Gr\u0308ab", 4), ("कि", 2), ("क्", 1), ("x\u20dd", 1), ("می\u200cخ", 3)):
            self.assertEqual(namer.width(text), places, text)

    def test_alignment(self):
        pool = ("Grave", "საფლავი 7", "墓 12", "Gra\u0308b", "q\u0307x", "Ａ１", "longer than all the others")
        plain = {"墓": 2, "Ａ": 2, "１": 2, "\u0307": 0, "\u0308": 0}
        rows = [("rank", "alike", "shared", "first", "second", "type")]
        rows += [(str(n), f"{n}.0%", f"{n} of 99", name, name[::-1], "end") for n, name in enumerate(pool, 7)]
        for line in namer.aligned(rows)[1:]:
            before = line[: line.rindex("end")]
            self.assertEqual(sum(plain.get(c, 1) for c in before), 4 + 2 + 5 + 2 + 8 + 2 + 26 + 2 + 26 + 2, line)

    def test_percentage(self):
        values = [(s, u) for u in range(1, 130) for s in range(1, u + 1)]
        values += [(s, u) for u in (999, 1000, 2000, 2001, 4095, 4096) for s in (1, 2, 3, u // 2, u - 2, u - 1, u)]
        for shared, union in values:
            tenths = floor(Fraction(1000 * shared, union) + Fraction(1, 2))
            if shared != union:
                tenths = sorted((1, tenths, 999))[1]
            self.assertEqual(namer.percentage(shared, union), f"{tenths // 10}.{tenths % 10}", (shared, union))
        by_hand = "1/1 100.0, 4/4 100.0, 4095/4096 99.9, 1999/2000 99.9, 1/4096 0.1, 1/2001 0.1, 1/2000 0.1, 3/2000 0.2"
        for worked in (by_hand + ", 2/3 66.7, 1/3 33.3, 1/16 6.3, 7/16 43.8, 1/2 50.0").split(", "):
            shared, union, words = re.split("[/ ]", worked)
            self.assertEqual(namer.percentage(int(shared), int(union)), words, worked)

    def test_refusal(self):
        self.refused("listing: line 1: the sheet was refused", "'refused=9 20'", listing="refused=9 20\n")
        ran = self.named(listing="refused=9 20\n")
        self.assertEqual((ran.returncode, ran.stdout, ran.stderr.count(b"\n")), (1, b"", 1))

    def test_malformed_listing(self):
        for line, old, new in (
            (1, "k=3", "K=3"),
            (1, "k=3\n", "k=3\r\n"),
            (1, "k=3\n", "\ufeffk=3\n"),
            (1, "k=3\nfound", "found"),
            (2, "found=2", "found=02"),
            (2, "found=2", "found="),
            (3, "events=9", "events=-9"),
            (4, "met=4\n", ""),
            (4, "met=4", "met=4 5"),
            (5, "pair=0 2 1 3 1", "pair=0 2 1"),
            (5, "pair=0 2 1 3 1", "pair=0 2 1 3"),
            (5, "pair=0 2 1 3 1", "pair=0 2 1 3 1 4"),
            (5, "pair=0 2", "pair=2 0"),
            (5, "pair=0 2", "pair=2 2"),
            (5, "1 3 1\n", "4 3 1\n"),
            (5, "1 3 1\n", "0 3 1\n"),
            (5, "1 3 1\n", "1 3 4096\n"),
            (5, "1 3 1\n", "1 3 x\n"),
            (6, "0 1 2 7 0", "0,1,2,7,0"),
            (6, "0 1 2 7 0", "0 \u0661 2 7 0"),
            (6, "0 1 2 7 0", "0 1 2 7 \u0661"),
            (6, "pair=0 1 2 7 0\n", "pair=0 1 2 7 0"),
            (6, "pair=0 1 2 7 0\n", ""),
            (6, "pair=0 1 2 7 0\n", "pair=0 \udcff"),
            (7, "2 7 0\n", "2 7 0\n\n"),
            (7, "2 7 0\n", "2 7 0\npair=1 2 1 9 0\n"),
        ):
            self.assertIn(old, LISTING)
            changed = LISTING.replace(old, new).encode("utf-8", "surrogateescape")
            self.refused(f"listing: line {line}: this is ", listing=changed)
        self.refused("listing: line 1: this is ", listing="")

    def test_older_listing(self):
        """Before version 2.0.0 a pair had four numbers: that is said, with what to do."""
        old = re.sub(r"(pair=.*) \d+\n", r"\1\n", LISTING)
        self.assertEqual(old.count("\n"), LISTING.count("\n"))
        words = "an older version, with four numbers: 'pair=0 2 1 3'", "List the sheet again"
        self.refused("listing: line 5: ", *words, listing=old)

    def test_names_do_not_belong(self):
        for missing, line in (("context,2", 5), ("context,1", 6), ("context,0", 5), ("code,1", 5), ("code,0", 6)):
            names = "".join(row for row in NAMES.splitlines(True) if not row.startswith(missing))
            self.refused(f"listing: line {line}: ", f"{missing.replace(',', ' ')} has no name", names=names)
        # a context and a code may have one number: neither gets the other's name
        self.refused("listing: line 5: ", "code 2 has no name", listing=LISTING.replace("1 3 1\n", "1 3 2\n"))
        self.refused("listing: line 6: ", "code 4095 has no name", listing=LISTING.replace("2 7 0\n", "2 7 4095\n"))

    def test_both_kinds_of_names(self):
        for kind, missing in (("code", ("code",)), ("context", ("context",)), ("context", ("context", "code"))):
            names = "".join(row for row in NAMES.splitlines(True) if not row.startswith(missing))
            self.refused("names.csv: ", f"no {kind} has a name here", "Make it anew", names=names)

    def test_malformed_names(self):
        for place, old, new in (
            ("line 1, column 1 (A)", "kind,number,name", "kind,number,names"),
            ("line 1, column 1 (A)", "kind,number,name\n", ""),
            ("line 2, column 1 (A)", "context,0", "contexts,0"),
            ("line 2, column 1 (A)", "context,0", "context,x"),
            ("line 2, column 1 (A)", "context,0", "context,00"),
            ("line 3, column 2 (B)", "context,1", "context,0"),
            ("line 3, column 3 (C)", "ქვევრი", ""),
            ("line 3, column 1 (A)", ",ქვევრი", ""),
            ("line 3, column 1 (A)", "ქვევრი", "a,b"),
            ("line 3, column 3 (C)", "ქვევრი", '"a\nb"'),
            ("line 4, column 3 (C)", '"a, ""b"""', '"a, ""b'),
            ("line 5, column 3 (C)", "Bowl", "\udcff"),
            ("line 5, column 3 (C)", "Bowl", " \x1b"),
        ):
            self.assertIn(old, NAMES)
            self.refused(f"names.csv: {place}: ", names=NAMES.replace(old, new).encode("utf-8", "surrogateescape"))
        self.refused("names.csv: ", "nothing in the file", names="")
        # mixed up: the sheet or the listing in place of the names
        for other in ("k=1\ncontexts=1\nc=1 2\n", LISTING, "Grave;Type\nG;Bowl\n"):
            self.refused("names.csv: line 1, column 1 (A): this is no file of names", names=other)

    def test_faults_of_files(self):
        self.named()
        for arguments, word in (
            (("none.csv", "listing"), "none.csv: cannot read: No such file"),
            ((".", "listing"), ".: cannot read: Is a directory"),
            (("names.csv", "none"), "none: cannot read: No such file"),
            (("names.csv", "."), ".: cannot read: Is a directory"),
        ):
            ran = call(NAMER, *arguments, cwd=self.folder)
            self.assertEqual((ran.returncode, ran.stdout, ran.stderr.count(b"\n")), (2, b"", 1), ran.stderr)
            self.assertIn(word, ran.stderr.decode())
        for arguments in ((), ("names.csv", "listing", "more"), ("--what", "names.csv")):
            self.assertEqual(call(NAMER, *arguments, cwd=self.folder).returncode, 2)

    def test_faults_of_streams(self):
        self.named()
        command = f'"{sys.executable}" "{NAMER}" names.csv '
        for end, word in (
            ("listing > /dev/full", "standard output: cannot write: No space left"),
            ("listing >&-", "standard output: cannot write: Bad file descriptor"),
            ("- <&-", "standard input: cannot read: Bad file descriptor"),
        ):
            ran = subprocess.run(["sh", "-c", command + end], cwd=self.folder, capture_output=True)
            self.assertEqual((ran.returncode, ran.stdout, ran.stderr.count(b"\n")), (2, b"", 1), (end, ran.stderr))
            self.assertIn(word, ran.stderr.decode())
        ran = subprocess.run(["sh", "-c", command + "none 2>&-"], cwd=self.folder, capture_output=True)
        self.assertEqual((ran.returncode, ran.stdout, ran.stderr), (2, b"", b""))
        read, write = os.pipe()
        os.close(read)
        command = [sys.executable, NAMER, "names.csv", "listing"]
        ran = subprocess.run(command, cwd=self.folder, stdout=write, stderr=subprocess.PIPE)
        os.close(write)
        self.assertEqual((ran.returncode, ran.stderr.count(b"\n")), (2, 1), ran.stderr)
        self.assertIn(b"standard output: cannot write: Broken pipe", ran.stderr)


class Examples(Trial):
    """The practice cemetery, as table and as list, against its stored sheet and listing."""

    KINDS = {1: "pottery", 2: "bead", 3: "fibula", 4: "tool", 5: "belt", 6: "weapon", 7: "glass"}

    def setUp(self):
        super().setUp()
        _, sheet = read_sheet((ROOT / "examples/cemetery.sheet").read_bytes())
        self.sheet = [set(codes) for codes in sheet]

    def test_table_holds_the_sheet(self):
        heads, rows = read_table(ROOT / "examples/cemetery.csv")
        codes = sorted(set().union(*self.sheet))
        self.assertEqual(len(heads), len(codes) + 1)
        marks = {"1", "x", "X", "", "0", "-"}
        for row, present in zip(rows, self.sheet):
            here = {code for code, mark in zip(codes, row[1:]) if mark not in ("", "0", "-")}
            self.assertEqual(here, present, row[0])
            marks -= set(row[1:])
        self.assertEqual((len(rows), marks), (len(self.sheet), set()))
        for code, head in zip(codes, heads[1:]):
            if code // 100 in (2, 3):
                self.assertIn(self.KINDS[code // 100], head.lower())
            else:
                self.assertNotRegex(head.lower(), r"\bbead\b|\bfibula\b")

    def test_list_holds_the_table(self):
        heads, rows = read_table(ROOT / "examples/cemetery.csv")
        table = {(row[0], head) for row in rows for head, mark in zip(heads[1:], row[1:]) if mark not in ("", "0", "-")}
        _, finds = read_table(ROOT / "examples/cemetery-finds.csv")
        self.assertEqual({tuple(find) for find in finds}, table)
        self.assertEqual(list(dict.fromkeys(find[0] for find in finds)), [row[0] for row in rows])
        data = (ROOT / "examples/cemetery-finds.csv").read_bytes()
        self.assertTrue(data.startswith(b"\xef\xbb\xbf") and data.count(b"\r\n") == data.count(b"\n") == len(finds) + 1)

    def test_same_pairs(self):
        """Types have other codes than in the stored sheet: all but the first shared code is the same."""
        stored = pairs_in((ROOT / "examples/cemetery.listing").read_bytes())
        for habit, name in (("--table", "cemetery.csv"), ("--list", "cemetery-finds.csv")):
            self.made((ROOT / "examples" / name).read_bytes(), habit)
            sheet = (self.folder / "out.sheet").read_bytes()
            listing = listing_of(sheet)
            contexts = [set(codes) for codes in read_sheet(sheet)[1]]
            self.assertEqual([pair[:4] for pair in pairs_in(listing)], [pair[:4] for pair in stored])
            for (lower, higher, *_, code), (*_, other) in zip(pairs_in(listing), stored):
                self.assertEqual(code, min(contexts[lower] & contexts[higher]))
                self.assertEqual(other, min(self.sheet[lower] & self.sheet[higher]))
                self.assertNotEqual(code, other)
            ran = call(NAMER, self.folder / "out.names.csv", input=listing)
            self.assertEqual((ran.returncode, ran.stdout), (0, (ROOT / "examples/cemetery.named").read_bytes()))

    def test_named_listing(self):
        """The stored table, worked out from the stored listing and the catalogue's own names."""
        site = self.catalogue()
        names = list(site)
        lines = (ROOT / "examples/cemetery.named").read_text(encoding="utf-8").splitlines()[2:]
        pairs = pairs_in((ROOT / "examples/cemetery.listing").read_bytes())
        self.assertEqual(len(lines), len(pairs))
        for rank, (line, (lower, higher, shared, union, _)) in enumerate(zip(lines, pairs), 1):
            percent = floor(Fraction(1000 * shared, union) + Fraction(1, 2)) / 10
            wanted = [str(rank), f"{percent:.1f}%", f"{shared} of {union}", names[lower], names[higher]]
            rarest = rarest_shared(site, names[lower], names[higher])
            self.assertEqual(re.split("  +", line.strip()), [*wanted, rarest])

    def catalogue(self):
        """The types of each context, from the table."""
        (_, *types), rows = read_table(ROOT / "examples/cemetery.csv")
        return {row[0]: {kind for kind, mark in zip(types, row[1:]) if mark not in ("", "0", "-")} for row in rows}

    def test_what_the_pages_say_of_the_last_column(self):
        site = self.catalogue()
        men = [name for number, name in enumerate(site) if number in (0, 1, 7, 10)]
        self.assertEqual(rarest_shared(site, *men[:2]), "Sword, double-edged")
        self.assertEqual([name for name, types in site.items() if "Sword, double-edged" in types], men[:2])
        self.assertIn("bowl", self.kinds()[101].lower())
        self.assertTrue(all(self.kinds()[101] in site[man] for man in men))
        child, few = "Grave 7 (child)", 'Grave 13 ("few finds")'
        self.assertEqual((len(site[child] & site[few]), rarest_shared(site, child, few)), (4, "Cooking pot, coarse"))

    def kinds(self):
        """The catalogue's name of each code of the stored sheet: its columns are in the order of these."""
        return dict(zip(sorted(set().union(*self.sheet)), read_table(ROOT / "examples/cemetery.csv")[0][1:]))

    def test_other_numbers_other_types(self):
        """Nearly every line of the lesson's last table has another type than the same line of its first listing."""
        site, kinds = self.catalogue(), self.kinds()
        names = list(site)
        pairs = pairs_in((ROOT / "examples/cemetery.listing").read_bytes())
        kept = [pair for pair in pairs if kinds[pair[4]] == rarest_shared(site, names[pair[0]], names[pair[1]])]
        self.assertEqual([pair[:2] for pair in kept], [(6, 9)])

    def test_page(self):
        """docs/CATALOGUES.md prints what it says; the program and the library for C are built already."""
        page = (ROOT / "docs/CATALOGUES.md").read_text(encoding="utf-8")
        check_program()
        steps = re.findall(r"```sh\n(.*?)```\s*```text\n(.*?)```", page, re.S)
        self.assertGreater(len(steps), 2)
        self.assertEqual(len(steps), page.count("```sh\n"))
        for commands, wanted in steps:
            typed = re.sub(r"make list SHEET=(\S+)", r"target/bin/sazamkhri < \1", commands)
            painted = r"PROGRAMS=heat_map KINDS=plain host/build.sh > /dev/null && target/host/heat_map \1"
            typed = re.sub(r"make heat SHEET=(\S+)", painted, typed)
            ran = subprocess.run(["sh", "-c", typed], cwd=ROOT, stdout=subprocess.PIPE, stderr=subprocess.DEVNULL)
            self.assertEqual(ran.stdout.decode(), wanted, commands)


ODD = """Bowl|bowl|Krüge|ქვევრი|é|a,b|c;d|say "yes"|"|$HOME|=1+1|'|x|1|-|0|墓|a  b|c=1 2|\\|#""".split("|")
ODD += ["kind,number,name", "t\u00e9 \u00a0x", "\u212b", "\U0001f3fa", "a\u0323\u0302"]


def odd_names(rng, count):
    names = []
    while len(names) < count:
        words = rng.sample(ODD, rng.randint(1, 2)) + rng.choice([[], [str(rng.randint(1, 40))]])
        name = unicodedata.normalize("NFC", re.sub("[ \u00a0]+", " ", " ".join(words)))
        names += [name] if name not in names else []
    return names


class Writer:
    """Writes rows as a CSV file in habits that are picked at random."""

    def __init__(self, rng):
        self.rng = rng
        self.delimiter = rng.choice(",;\t")
        self.end = rng.choice(["\n", "\r\n", "\r"])
        self.bom = rng.choice(["", "\ufeff"])
        self.quotes = rng.choice(["all", "needed", "bare"])

    def options(self):
        """With bare cells the other delimiters may stand in the first row, so this one is named."""
        said = {",": "comma", ";": "semicolon", "\t": "tab"}[self.delimiter]
        return ["--delimiter", said] if self.quotes == "bare" else []

    def name(self, name):
        """A name as somebody typed it: é in one sign or two, with blanks around."""
        form = self.rng.choice(["NFC", "NFD"])
        blank = self.rng.choice(["", "", " ", "\u00a0"])
        name = re.sub(" ", lambda _: self.rng.choice([" ", " ", "  ", "\u00a0", "\u2009 "]), name)
        return blank + unicodedata.normalize(form, name) + self.rng.choice(["", "", " "])

    def cell(self, text):
        special = self.delimiter + "\"\r\n" if self.quotes == "bare" else ",;\t\"\r\n"
        if self.quotes == "all" or any(c in text for c in special):
            return '"' + text.replace('"', '""') + '"'
        return text

    def text(self, rows):
        lines = []
        for row in rows:
            lines.append(self.delimiter.join(self.cell(cell) for cell in row))
            lines += [self.rng.choice(["", self.delimiter * 2])] * (self.rng.random() < 0.1)
        return (self.bom + self.end.join(lines) + self.rng.choice(["", self.end])).encode("utf-8")


def random_catalogue(rng):
    """A file, its options, and the site in it: contexts in order with their types."""
    writer = Writer(rng)
    contexts, types = odd_names(rng, rng.randint(1, 12)), odd_names(rng, rng.randint(1, 20))
    share = rng.choice([0.1, 0.4, 0.9])
    site = {name: {kind for kind in types if rng.random() < share} for name in contexts}
    site[contexts[0]].add(types[0])
    if rng.random() < 0.5:
        mark = lambda on: rng.choice(["1", "x", "X", "12", "03", " x"]) if on else rng.choice(["", "0", "-", "00", " "])
        rows = [[rng.choice(["", "Grave", 'a "b"\n c']), *map(writer.name, types)]]
        rows += [[writer.name(name), *(mark(kind in here) for kind in types)] for name, here in site.items()]
        return writer.text(rows), ["--table", *writer.options()], list(site.items())
    finds = [(name, kind) for name, here in site.items() for kind in types if kind in here]
    finds += rng.sample(finds, rng.randint(0, len(finds)))
    rng.shuffle(finds)
    rows = [[writer.name(name), writer.name(kind)] for name, kind in finds]
    options = ["--list", *writer.options()] + (["--no-heads"] if rng.random() < 0.5 else [])
    heads = [] if "--no-heads" in options else [["Head of contexts", "Head of types"]]
    order = dict.fromkeys(name for name, _ in finds)
    return writer.text(heads + rows), options, [(name, site[name]) for name in order]


def damaged(rng, data):
    """The bytes with a few random mistakes."""
    data = bytearray(data)
    for _ in range(rng.choice([1, 1, 2, 4])):
        at, length = rng.randrange(len(data) + 1), rng.randint(0, 3)
        junk = rng.choice([b"", b"\x00", b"\xff", b"\xc3", b"\xef\xbb\xbf", *(bytes([c]) for c in b' ",;\t\r\n-')])
        data[at : at + length] = junk
    return bytes(data[: rng.randrange(len(data) + 1)] if rng.random() < 0.2 else data)


class Random(Trial):
    def test_sites(self):
        for seed in range(300):
            rng = random.Random(seed)
            data, options, site = random_catalogue(rng)
            pairs = rng.randint(1, 64)
            self.assertEqual(self.made(data, *options, "--pairs", str(pairs)), site, (seed, data))
            self.assertEqual(self.k, pairs)
            stands = [(sum(kind in here for _, here in site), [ord(c) for c in kind]) for kind in self.codes]
            self.assertEqual(stands, sorted(stands), seed)
            self.assertTrue(all(count for count, _ in stands), seed)

    def outcome(self, seed, data, options):
        """Refused in one line with no file, or made; never anything else."""
        self.clear()
        status, words = self.make(data, *options)
        self.assertIn(status, (0, 1), (seed, words))
        if status == 1:
            self.assertEqual((words.count("\n"), os.listdir(self.folder)), (1, ["site.csv"]), (seed, words))
        else:
            self.made(data, *options)
        return status

    def test_damage(self):
        seen = []
        for seed in range(400):
            rng = random.Random(seed)
            data, options, _ = random_catalogue(rng)
            options = options if rng.random() < 0.8 else options[:1]
            seen.append(self.outcome(seed, damaged(rng, data), options))
        self.assertGreater(min(seen.count(0), seen.count(1)), 30, "the damage is too small or too great to try much")

    def test_random_bytes(self):
        for seed in range(400):
            rng = random.Random(seed)
            few = rng.choice([b'g,t;x1\n"', bytes(range(256)), b',;\t"\r\n \x00', 'ä–,"\n'.encode()])
            data = bytes(rng.choice(few) for _ in range(rng.randint(0, 80)))
            self.outcome(seed, data, [rng.choice(["--table", "--list"])])

    def test_sheets_are_listed(self):
        """The program accepts what is made, and the names come back."""
        for seed in range(40):
            data, options, site = random_catalogue(random.Random(seed))
            self.made(data, *options)
            listing = listing_of((self.folder / "out.sheet").read_bytes())
            both = [(a, b) for n, (_, a) in enumerate(site) for _, b in site[n + 1 :]]
            ratios = [Fraction(len(a & b), len(a | b)) for a, b in both if a & b]
            pairs = namer.listing_in(listing.decode()).pairs
            self.assertEqual([Fraction(s, u) for _, _, s, u, _ in pairs], sorted(ratios, reverse=True)[:10])
            names = namer.names_in((self.folder / "out.names.csv").read_bytes())
            contexts = [name for name, _ in site]
            wanted = [("context", n, name) for n, name in enumerate(contexts)]
            wanted += [("code", n, name) for n, name in enumerate(self.codes)]
            self.assertEqual([(*key, name) for key, name in names.items()], wanted)
            for lower, higher, *_, code in pairs:
                rarest = rarest_shared(dict(site), contexts[lower], contexts[higher])
                self.assertEqual(names["code", code], rarest, seed)

    def test_damaged_listings(self):
        names = namer.names_in(NAMES.encode())
        for seed in range(600):
            rng = random.Random(seed)
            try:
                namer.table(names, namer.listing_in(damaged(rng, LISTING.encode()).decode("latin-1")))
                namer.table(namer.names_in(damaged(rng, NAMES.encode())), namer.listing_in(LISTING))
            except (namer.Refused, namer.NoListing) as fault:
                self.assertTrue(str(fault))


if __name__ == "__main__":
    unittest.main()
