#!/usr/bin/env python3
"""Tries the heat map: the program of host/heat_map.c, what it prints where, the stored picture, and `make heat`.

    python3 tests/scripts/test_heat_map.py

What a picture must show is worked out here from the sheet alone: sets, fractions and sorting. Needs the programs
target/host/heat_map and target/host/heat_map.san, which host/build.sh makes; KINDS says which of the two are run, if
not both: plain san.
"""
import os
import random
import re
import shlex
import subprocess
import tempfile
import unittest
from collections import Counter, namedtuple
from fractions import Fraction
from itertools import combinations, product
from pathlib import Path
from xml.etree import ElementTree

ROOT = Path(__file__).resolve().parent.parent.parent
EXAMPLES = ROOT / "examples"
STORED = EXAMPLES / "cemetery.svg"
KINDS = os.environ.get("KINDS", "plain san").split()
PROGRAMS = [ROOT / "target" / "host" / f"heat_map{'' if kind == 'plain' else '.' + kind}" for kind in KINDS]
LIMIT = 60  # seconds, for whatever might wait for ever
SVG = "{http://www.w3.org/2000/svg}"
WHITE = "#ffffff"
DIGIT, LETTER = 0.65, 0.58  # ems, the widths of a digit and of a letter of words in a wide typeface

# What the words of a refusal have to say, by its number.
WORDS = {1: "k is 0 or above 64", 4: "above 4,095", 5: "not above the one before it", 8: "more than 2,048 pairs",
         9: "badly formed", 10: "above 65,535", 11: "over 24,576 bytes"}
# The elements of a picture, and the attributes that each may have: plain SVG 1.1, with nothing from elsewhere.
PLACED = {"x", "y", "width", "height"}
PLAIN = {
    "svg": {"version", "width", "height", "viewBox", "font-family", "font-size", "fill"},
    "title": set(), "desc": set(),
    "g": {"id", "fill", "text-anchor", "shape-rendering", "pointer-events"},
    "rect": PLACED | {"id", "fill", "stroke"},
    "path": {"id", "d", "stroke"},
    "text": {"x", "y", "dy", "font-size", "font-weight"},
}
WIDTH = 5  # words of an entry
Due = namedtuple("Due", "contexts pairs cells")


# ---- sheets, and what is due for them


def sheet_of(site, k):
    """The sheet of a list of sets."""
    lines = ["c=" + " ".join(map(str, sorted(context))) for context in site]
    return "".join(f"{line}\n" for line in (f"k={k}", f"contexts={len(site)}", *lines)).encode()


def site_of(sheet):
    """The sets of a sheet that is listed, and its k."""
    k, _, *lines = sheet.decode("ascii").splitlines()
    return [{int(code) for code in line[2:].split()} for line in lines], int(k[2:])


def entries_of(site, k):
    """The first k of all pairs that share a code, the most alike first: both contexts, shared, union, first shared."""
    pairs = [(a, b, site[a] & site[b], site[a] | site[b]) for a, b in combinations(range(len(site)), 2)]
    entries = [(a, b, len(shared), len(union), min(shared)) for a, b, shared, union in pairs if shared]
    return sorted(entries, key=lambda e: (-Fraction(e[2], e[3]), e[0], e[1]))[:k]


def cells_of(entries):
    """The cells of a list, both ways round, each with its value. Whole numbers are divided with one rounding."""
    cells = {(a, b): float(Fraction(shared, union)) for a, b, shared, union, _ in entries}
    return cells | {(b, a): value for (a, b), value in cells.items()}


def due_for(sheet):
    """What a picture of the sheet must show."""
    site, k = site_of(sheet)
    entries = entries_of(site, k)
    return Due(len(site), len(entries), cells_of(entries))


def shortest(value):
    """The shortest decimal that is read back as this value; a whole number has no point."""
    return repr(value).removesuffix(".0")


def large_site(chance):
    """256 contexts, most of them alone; among the alike ones are the first, the last, and neighbours."""
    site = [set(chance.sample(range(4096), 8)) for _ in range(256)]
    site[255] = set(site[0])
    site[254] = set(sorted(site[255])[:7])
    site[1] = set(sorted(site[0])[1:])
    return site


def sheets():
    """Every sheet whose picture is looked at, by name."""
    chance = random.Random(30)
    few = [set(chance.sample(range(12), chance.randint(0, 5))) for _ in range(20)]
    found = {str(path.relative_to(ROOT)): path.read_bytes() for path in sorted(EXAMPLES.glob("*.sheet"))}
    found["crates/sazamkhri/stdin"] = (ROOT / "crates/sazamkhri/stdin").read_bytes()
    found |= {
        "no contexts": sheet_of([], 1),
        "one context": sheet_of([{7}], 64),
        "two that are the same": sheet_of([{7, 9}, {7, 9}], 1),
        "two that share nothing": sheet_of([{7}, {9}], 64),
        "contexts without codes": sheet_of([set(), {5}, set(), {5, 6}], 2),
        "12 that are the same, 64 of their 66 pairs": sheet_of([{3}] * 12, 64),
        "ties": sheet_of(few, 17),
        "ties that k cuts": sheet_of(few, 64),
        "the cemetery's pairs, all": sheet_of(site_of(found["examples/cemetery.sheet"])[0], 64),
        "256 contexts": sheet_of(large_site(chance), 64),
    }
    for count in (18, 19, 30, 31, 60, 61, 100, 101, 144, 145, 180):
        found[f"{count} contexts"] = sheet_of([set(chance.sample(range(900), 4)) for _ in range(count)], 64)
    return found


# ---- runs and pictures


def run(program, *arguments, sheet=b"", **more):
    more = {"stdout": subprocess.PIPE, "stderr": subprocess.PIPE, "timeout": LIMIT, **more}
    if "stdin" not in more:
        more["input"] = sheet
    return subprocess.run([program, *arguments], **more)


def through_shell(program, redirection, *arguments):
    """A run with streams that a shell has redirected."""
    return subprocess.run(["sh", "-c", f'exec "$0" "$@" {redirection}', program, *arguments], timeout=LIMIT,
                          stdin=subprocess.DEVNULL, stdout=subprocess.PIPE, stderr=subprocess.PIPE)


class Picture:
    """The parts of a picture: numbers as numbers, cells by row and column."""

    def __init__(self, text, contexts, name=""):
        self.text, self.name = text, name
        self.root = ElementTree.fromstring(text)
        self.width, self.height = (float(self.root.get(name)) for name in ("width", "height"))
        self.square = self.placed(self.named("rect", "square"))
        self.contexts = contexts
        self.cell = self.square[2] / max(contexts, 1)

    def named(self, tag, name):
        found = [element for element in self.root.iter(SVG + tag) if element.get("id") == name]
        assert len(found) == 1, f"{len(found)} elements <{tag}> called {name}"
        return found[0]

    @staticmethod
    def placed(rect):
        return tuple(float(rect.get(name, 0)) for name in ("x", "y", "width", "height"))

    def cells(self):
        """The rows and columns of the coloured cells, each with its colour and its tooltip; as they stand there."""
        for rect in self.named("g", "cells"):
            x, y, *size = self.placed(rect)
            row, column = ((at - edge) / self.cell for at, edge in ((y, self.square[1]), (x, self.square[0])))
            assert size == [self.cell, self.cell], f"a cell with the size {size}"
            yield (row, column), rect.get("fill"), [child.text for child in rect if child.tag == SVG + "title"]

    def numbers(self, edge):
        """The numbers along an edge, with the places of their texts."""
        found = [(int(text.text), (float(text.get("x")), float(text.get("y")))) for text in self.named("g", edge)]
        assert len(dict(found)) == len(found), f"a number twice in {edge}"
        return dict(found)

    def size_of(self, text):
        return float(text.get("font-size") or self.root.get("font-size"))


def channels(colour):
    assert re.fullmatch("#[0-9a-f]{6}", colour), f"the colour {colour}"
    return [int(colour[at : at + 2], 16) for at in (1, 3, 5)]


def lightness(colour):
    """The relative luminance of a colour, from 0 for black to 1 for white."""
    shares = [part / 255 for part in channels(colour)]
    linear = [share / 12.92 if share <= 0.04045 else ((share + 0.055) / 1.055) ** 2.4 for share in shares]
    return sum(weight * part for weight, part in zip((0.2126, 0.7152, 0.0722), linear))


def of_each_picture(check):
    """A test that looks at every picture by itself."""
    def test(self):
        for picture, due in self.all:
            with self.subTest(picture.name):
                check(self, picture, due)
    return test


def of_each_program(check):
    """A test that runs every program by itself."""
    def test(self):
        for program in PROGRAMS:
            with self.subTest(program.name):
                check(self, program)
    return test


def setUpModule():
    lost = [str(program) for program in PROGRAMS if not program.is_file()]
    if lost or not PROGRAMS:
        raise AssertionError(f"{' and '.join(lost)} not there: host/build.sh" if lost else "KINDS names no program")


class Case(unittest.TestCase):
    def setUp(self):
        folder = tempfile.TemporaryDirectory()
        self.addCleanup(folder.cleanup)
        self.folder = Path(folder.name)

    def painted(self, done, contexts):
        """The picture of a run that went well."""
        self.assertEqual((done.returncode, done.stderr), (0, b""), done.stderr[:200])
        return Picture(done.stdout.decode("ascii"), contexts)

    def same_things(self, found, due, name):
        """The same things as often, in any order. A few that differ are named: all of a long list would take long."""
        found, due = Counter(found), Counter(due)
        self.assertEqual((list(found - due)[:3], list(due - found)[:3]), ([], []), name)

    def ramp(self, colours):
        """Colours by value: never white, never lighter for a greater value, and darker for one that is 0.01 greater."""
        values, apart = sorted(colours), []
        light = {value: lightness(colour) for value, colour in colours.items()}
        for low, high in zip(values, values[1:]):
            self.assertGreaterEqual(light[low], light[high], f"{high} is lighter than {low}")
        for value in values:
            self.assertGreater(1.05 / (light[value] + 0.05), 1.4, f"the colour of {value} is nearly white")
            apart += [value] if not apart or value >= apart[-1] + 0.01 else []
        for low, high in zip(apart, apart[1:]):
            self.assertGreater(light[low], light[high], f"{high} is not darker than {low}")


class Pictures(Case):
    """What a picture shows of its sheet, for every sheet and both programs."""

    @classmethod
    def setUpClass(cls):
        cls.all = []
        dues = {name: due_for(sheet) for name, sheet in sheets().items()}
        for (name, sheet), program in product(sheets().items(), PROGRAMS):
            done, told = run(program, sheet=sheet), f"{program.name}, {name}"
            if done.returncode or done.stderr:
                raise AssertionError(f"{told}: status {done.returncode}, {done.stderr}")
            cls.all.append((Picture(done.stdout.decode("ascii"), dues[name].contexts, told), dues[name]))

    def test_enough_pictures(self):
        self.assertEqual(len(self.all), 26 * len(PROGRAMS))
        coloured = [len(due.cells) for _, due in self.all]
        self.assertEqual((min(coloured), max(coloured)), (0, 128))

    @of_each_picture
    def test_form(self, picture, due):
        self.assertTrue(picture.text.startswith('<?xml version="1.0" encoding="UTF-8"?>\n<svg '))
        self.assertTrue(picture.text.endswith("</svg>\n"), "the last line")
        self.assertEqual(picture.root.get("viewBox"), f"0 0 {picture.width:g} {picture.height:g}")
        for element in picture.root.iter():
            tag = element.tag.removeprefix(SVG)
            self.assertIn(tag, PLAIN, "an element that is not plain")
            self.assertLessEqual(set(element.keys()), PLAIN[tag], f"an attribute of <{tag}>")

    @of_each_picture
    def test_for_those_who_listen(self, picture, due):
        title, desc = picture.root[0], picture.root[1]
        self.assertEqual((title.tag, desc.tag), (SVG + "title", SVG + "desc"))
        self.assertEqual(title.text, "Heat map of the listed pairs")
        self.assertIn(f"Contexts: {due.contexts}. Pairs listed: {due.pairs}.", " ".join(desc.text.split()))
        lines = [text.text for text in picture.root.findall(f"{SVG}text")]
        told = f"Contexts, in rows and columns: {due.contexts}. Pairs listed: {due.pairs}."
        self.assertEqual(lines, [title.text, told], "the heading")

    @of_each_picture
    def test_cells(self, picture, due):
        cells = list(picture.cells())
        self.same_things((place for place, _, _ in cells), due.cells.keys(), "the cells that are coloured")
        for place, _, tooltip in cells:
            self.assertNotEqual(*place, "a context against itself")
            value = due.cells[place]
            self.assertEqual(tooltip, ["contexts %d and %d: %s" % (*place, shortest(value))], "a tooltip")
            self.assertEqual(float(tooltip[0].split()[-1]), value)

    def test_colours(self):
        """One ramp for all pictures: a value has the same colour everywhere, also in the scale."""
        colours = {}
        for picture, due in self.all:
            for place, colour, _ in picture.cells():
                value = due.cells[place]
                self.assertEqual(colours.setdefault(value, colour), colour, f"the colour of {value}")
        self.assertGreater(len(colours), 30)
        self.assertEqual(max(colours), 1)
        self.ramp(colours)

    @of_each_picture
    def test_scale(self, picture, due):
        scale = picture.named("g", "scale")
        swatches, words = scale.findall(f"{SVG}rect"), scale.findall(f"{SVG}text")
        heading, told = [text.text for text in words[:2]], [text.text for text in words[2:]]
        self.assertEqual(heading, ["Similarity", "shared / union"])
        self.assertEqual(told, ["1", "0.8", "0.6", "0.4", "0.2", "0.05", "blank: not listed"], "the scale")
        self.assertEqual(len(swatches), len(told))
        for swatch, text in zip(swatches, words[2:]):
            x, y, width, height = picture.placed(swatch)
            self.assertTrue(y < float(text.get("y")) < y + height and x + width < float(text.get("x")), "a swatch")
        values = {float(text): swatch.get("fill") for text, swatch in zip(told[:-1], swatches)}
        self.assertEqual(swatches[-1].get("fill"), WHITE)
        for place, colour, _ in picture.cells():
            value = due.cells[place]
            self.assertEqual(values.setdefault(value, colour), colour, f"the swatch of {value}")
        self.ramp(values)

    @of_each_picture
    def test_grid(self, picture, due):
        """The lines of the grid are the borders between the cells, from edge to edge."""
        x, y, side, _ = picture.square
        grid = picture.named("path", "grid").get("d")
        lines = re.findall(r"M(\d+) (\d+)([hv])(\d+)", grid)
        borders = [at * picture.cell for at in range(1, due.contexts)]
        wanted = [(x, y + at, "h", side) for at in borders] + [(x + at, y, "v", side) for at in borders]
        self.same_things(((int(a), int(b), way, int(c)) for a, b, way, c in lines), wanted, "the grid")
        self.assertEqual(re.sub(r"M\d+ \d+[hv]\d+|\s", "", grid), "")

    @of_each_picture
    def test_what_lies_on_what(self, picture, due):
        """Everything on white ground; on the white square the cells, on them the grid, and nothing else."""
        over = [group for group in picture.root if picture.named("path", "grid") in group]
        self.assertEqual([group.get("pointer-events") for group in over], ["none"], "a grid over the tooltips")
        parts = [picture.named("rect", "square"), picture.named("g", "cells"), over[0], picture.named("g", "scale")]
        painted = list(picture.root)[2:]
        self.assertEqual([part for part in painted if part in parts], parts, "another order")
        self.assertEqual(picture.placed(painted[0]), (0, 0, picture.width, picture.height))
        self.assertEqual((painted[0].get("fill"), parts[0].get("fill")), (WHITE, WHITE))
        self.assertEqual([picture.placed(frame) for frame in over[0].findall(f"{SVG}rect")], [picture.square])
        others = [rect for rect in picture.root.iter(SVG + "rect") if not any(rect in part for part in parts[1:])]
        self.assertEqual(others, [painted[0], parts[0]])
        x, _, side, height = picture.square
        self.assertEqual((side, side >= 4 * due.contexts), (height, True))
        for element in parts[3]:
            self.assertGreater(float(element.get("x")), x + side, "a scale on the square")

    @of_each_picture
    def test_numbers_along_both_edges(self, picture, due):
        columns, rows = picture.numbers("columns"), picture.numbers("rows")
        step = sorted(columns)[1] if len(columns) > 1 else 1
        self.assertEqual(sorted(columns), list(range(0, due.contexts, step)), "numbers along the upper edge")
        self.assertEqual(sorted(rows), sorted(columns), "numbers along the left edge")
        self.assertTrue(step == 1 or due.contexts > 30, "a number is left out")
        x, y, *_ = picture.square
        for number, (at, height) in columns.items():
            self.assertEqual(at, x + (number + 0.5) * picture.cell, f"the number above column {number}")
            self.assertTrue(0 < y - height < 12)
        for number, (end, at) in rows.items():
            self.assertEqual(at, y + (number + 0.5) * picture.cell, f"the number beside row {number}")
            self.assertTrue(0 < x - end < 12)
        self.apart(picture, step)

    def apart(self, picture, step):
        """No number touches the next one, and the longest of them is not cut off."""
        size = float(picture.root.get("font-size"))
        longest = len(str(max(picture.contexts - 1, 0))) * DIGIT * size
        self.assertGreaterEqual(size, 10)
        if picture.contexts > step:
            self.assertGreater(step * picture.cell, longest + 4, "numbers that touch")
            self.assertGreater(step * picture.cell, size, "numbers that touch")
        self.assertLess(longest, picture.square[0] - 12)

    @of_each_picture
    def test_nothing_is_cut_off(self, picture, due):
        for rect in picture.root.iter(SVG + "rect"):
            x, y, width, height = picture.placed(rect)
            self.assertTrue(0 <= x <= x + width <= picture.width and 0 <= y <= y + height <= picture.height)
        for text in [*picture.root.findall(f"{SVG}text"), *picture.named("g", "scale").findall(f"{SVG}text")]:
            end = float(text.get("x")) + len(text.text) * LETTER * picture.size_of(text)
            self.assertLess(end, picture.width, text.text)
            self.assertLess(float(text.get("y")), picture.height)

    @of_each_program
    def test_the_stored_picture(self, program):
        done = run(program, EXAMPLES / "cemetery.sheet")
        self.assertEqual((done.returncode, done.stderr), (0, b""))
        self.assertEqual(done.stdout, STORED.read_bytes(), "the stored picture")

    def test_every_run_gives_the_same_bytes(self):
        for name, sheet in sheets().items():
            printed = {picture.text for picture, _ in self.all if picture.name.endswith(f", {name}")}
            again = run(PROGRAMS[0], sheet=sheet)
            self.assertEqual(printed, {again.stdout.decode("ascii")}, name)


class Streams(Case):
    """Where a sheet comes from, what is printed where, and the exit status."""

    def refused(self, done, number):
        self.assertEqual((done.returncode, done.stdout), (1, b""), "a refused sheet")
        told = done.stderr.decode()
        self.assertRegex(told, rf"\Arefused \({number}\): .*{WORDS[number]}.*\n\Z")

    def fault(self, done, *words):
        self.assertEqual((done.returncode, done.stdout), (2, b""), "a fault")
        told = done.stderr.decode()
        self.assertRegex(told, r"\A(heat_map|usage): .*\n\Z")
        for word in words:
            self.assertIn(str(word), told)

    @of_each_program
    def test_file_input_and_slow_pipe(self, program):
        sheet = EXAMPLES / "cemetery.sheet"
        slowly = 'head -c 100 "$0"; sleep 0.3; tail -c +101 "$0"'
        with subprocess.Popen(["sh", "-c", slowly, sheet], stdout=subprocess.PIPE) as pipe:
            runs = [run(program, stdin=pipe.stdout), run(program, sheet), run(program, sheet=sheet.read_bytes())]
        for done in runs:
            self.assertEqual((done.returncode, done.stdout, done.stderr), (0, STORED.read_bytes(), b""))

    @of_each_program
    def test_names_that_files_have(self, program):
        for name in ("two words", "l'âge $du \"bronze\"", "სამარხი", "%s%n", "-", "-x"):
            (self.folder / name).write_bytes((EXAMPLES / "cemetery.sheet").read_bytes())
            done = run(program, name, cwd=self.folder)
            self.assertEqual((done.returncode, done.stdout, done.stderr), (0, STORED.read_bytes(), b""), name)

    @of_each_program
    def test_refused_sheets(self, program):
        stored = sorted((EXAMPLES / "refused").glob("*.sheet"))
        self.assertGreaterEqual(len(stored), 8)
        for sheet in stored:
            number = int(re.match(r"refused=(\d+)", sheet.with_suffix(".listing").read_text())[1])
            self.refused(run(program, sheet), number)
            self.refused(run(program, sheet=sheet.read_bytes()), number)

    @of_each_program
    def test_odd_sheets(self, program):
        good = (EXAMPLES / "three.sheet").read_bytes()
        self.refused(run(program, sheet=good.ljust(24577, b"x")), 11)
        self.refused(run(program, sheet=good + b"x" * 24576), 11)
        self.refused(run(program, sheet=b""), 9)
        self.refused(run(program, sheet=b"k=1\0\ncontexts=0\n"), 9)
        self.refused(run(program, "/dev/zero"), 11)

    @of_each_program
    def test_cannot_be_read(self, program):
        missing, sheet = self.folder / "none.sheet", EXAMPLES / "three.sheet"
        self.fault(run(program, missing), missing, "No such file")
        self.fault(run(program, self.folder), self.folder, "directory")
        self.fault(run(program, sheet, sheet), "usage: heat_map [SHEET]")
        self.fault(through_shell(program, f"<'{self.folder}'"), "standard input")
        self.fault(through_shell(program, "<&-"), "standard input")

    @of_each_program
    def test_cannot_be_written(self, program):
        small, large, refused = self.folder / "small", self.folder / "large", EXAMPLES / "refused" / "09.sheet"
        small.write_bytes(sheet_of([], 1))
        large.write_bytes(sheet_of(large_site(random.Random(1)), 64))
        for sheet in (small, large):
            self.fault(through_shell(program, ">/dev/full", sheet), "standard output", "No space left")
            self.fault(through_shell(program, ">&-", sheet), "standard output")
            self.assertEqual(through_shell(program, "2>/dev/full", refused).returncode, 1)


# Calls that stand in for the true ones. `other_cell` is asked in the place of the call for a cell.
PARAMETERS = ("uint16_t contexts, const uint16_t *list, size_t list_len, size_t entries, uint16_t first, "
              "uint16_t second, double *value")
EACH = """
    *value = (first * contexts + second + 1) / 4096.0;
    return 1;"""
NOTED = """
    fprintf(stderr, "%d %d %d %d %d:", contexts, (int)list_len, (int)entries, first, second);
    for (size_t word = 0; word < list_len; word++) fprintf(stderr, " %d", list[word]);
    fprintf(stderr, "\\n");
    *value = 0;
    return 0;"""
ODD = """
    unsigned long row, column, answer;
    *value = 0.5;
    sscanf(getenv("ODD"), "%lu %lu %lu", &row, &column, &answer);
    return first == row && second == column ? answer : (uint64_t)(first == 0 && second == 1);"""
LISTING = """
    const char *from = getenv("LISTING");
    (void)sheet, (void)sheet_len;
    memcpy(text, from, strlen(from) < text_len ? strlen(from) : text_len);
    return strlen(from);"""
UNUSED = "(void)contexts, (void)list, (void)list_len, (void)entries, (void)first, (void)second;"


class StandIns(Case):
    """Every cell is the call's own answer, and what the calls never answer is a fault."""

    def program(self, calls, *flags):
        """heat_map with other calls: the source of each by the name of the true one."""
        headers = [f"#include {name}" for name in ("<stdio.h>", "<stdlib.h>", "<string.h>", '"sazamkhri.h"')]
        (self.folder / "calls.c").write_text("\n".join([*headers, *calls.values()]))
        names = [f"-Dsazamkhri_{name}=other_{name}" for name in calls]
        sanitizers = ["-fsanitize=address,undefined", "-fno-sanitize-recover=all"]
        done = subprocess.run(
            [*shlex.split(os.environ.get("CC", "cc")), "-std=c99", *sanitizers, f"-I{ROOT}/host", *names, *flags,
             ROOT / "host/heat_map.c", self.folder / "calls.c", f"-L{ROOT}/target/lib", "-lsazamkhri",
             "-o", self.folder / "heat_map"], capture_output=True, text=True)
        self.assertEqual((done.returncode, done.stderr), (0, ""))
        return self.folder / "heat_map"

    def cell(self, body, *flags):
        return self.program({"cell": f"uint64_t other_cell({PARAMETERS}) {{ {UNUSED}{body}\n}}"}, *flags)

    def listing(self):
        parameters = "const uint8_t *sheet, size_t sheet_len, uint8_t *text, size_t text_len"
        return self.program({"listing": f"uint64_t other_listing({parameters}) {{{LISTING}\n}}"})

    def fault(self, done, words, name):
        told = done.stderr.decode()
        self.assertEqual((done.returncode, done.stdout), (2, b""), f"{name!r}: {told[:200]}")
        self.assertRegex(told, rf"\Aheat_map: .*{words}.*\n\Z", name)

    def test_every_cell_is_asked_for_once(self):
        program = self.cell(NOTED)
        for name in ("cemetery", "three", "pot-last"):
            sheet = (EXAMPLES / f"{name}.sheet").read_bytes()
            site, k = site_of(sheet)
            entries = entries_of(site, k)
            done = run(program, sheet=sheet)
            words = "".join(f" {word}" for entry in entries for word in entry)
            wanted = [f"{len(site)} {WIDTH * len(entries)} {len(entries)} {row} {column}:{words}"
                      for row, column in product(range(len(site)), repeat=2)]
            self.same_things(done.stderr.decode().splitlines(), wanted, "the cells that are asked for")
            self.assertEqual(list(Picture(done.stdout.decode(), len(site)).cells()), [])

    def test_every_answer_is_painted_at_its_place(self):
        """64 contexts have 4,096 cells, and each gets a value of its own: this is the whole ramp."""
        done = run(self.cell(EACH), sheet=sheet_of([set()] * 64, 1))
        values = {(row, column): (64 * row + column + 1) / 4096 for row, column in product(range(64), repeat=2)}
        cells = {place: (colour, tooltip) for place, colour, tooltip in self.painted(done, 64).cells()}
        self.assertEqual(cells.keys(), values.keys(), "the cells that are coloured")
        for place, value in values.items():
            self.assertEqual(cells[place][1], ["contexts %d and %d: %s" % (*place, shortest(value))], "a tooltip")
        self.ramp({value: cells[place][0] for place, value in values.items()})

    def test_the_largest_square_in_one_colour(self):
        done = run(self.cell("*value = 1; return 1;"), sheet=sheet_of([set()] * 256, 1))
        self.assertEqual(len({place for place, _, _ in self.painted(done, 256).cells()}), 65536)

    def test_an_odd_answer_is_never_painted(self):
        program, sheet = self.cell(ODD), (EXAMPLES / "three.sheet").read_bytes()
        for row, column, answer, words in (
            (0, 0, 1000013, r"is refused \(13\): there is no context"),
            (2, 1, 1000017, r"is refused \(17\): the list"),
            (2, 2, 1000099, r"is refused \(99\): .*not know"),
            (1, 1, 1000000, r"is refused \(0\): .*not know"),
            (1, 2, 2, "has the answer 2, which no cell has"),
            (2, 0, 999999, "has the answer 999999, which no cell has"),
        ):
            done = run(program, sheet=sheet, env={"ODD": f"{row} {column} {answer}"})
            self.fault(done, f"the cell of contexts {row} and {column} {words}", answer)

    def test_the_picture_does_not_show_the_first_shared_code(self):
        """Nor does it matter for the picture, whatever number it is."""
        program, sheet = self.listing(), b"k=1\ncontexts=2\nc=\nc=\n"
        listing = "k=1\nfound=1\nevents=0\nmet=0\npair=0 1 1 2 %d\n"
        painted = {self.painted(run(program, sheet=sheet, env={"LISTING": listing % code}), 2).text
                   for code in (0, 7, 4095, 4096, 65535)}
        self.assertEqual(len(painted), 1, "another picture")

    def test_listings_that_never_are(self):
        """A listing of another form is a fault; so is a number of contexts that no listed sheet has."""
        program, good = self.listing(), "k=1\nfound=1\nevents=0\nmet=0\npair=0 1 1 2 7\n"
        sheet = b"k=1\ncontexts=2\nc=\nc=\n"
        # The number of contexts stands in the first line that begins so, also if another is in between.
        for other in (sheet, sheet.replace(b"k=1\n", b"k=1\nmore=contexts=9\n") + b"\ncontexts=3\n"):
            done = run(program, sheet=other, env={"LISTING": good})
            self.assertEqual([tooltip for _, _, tooltip in self.painted(done, 2).cells()],
                             [["contexts 0 and 1: 0.5"], ["contexts 1 and 0: 0.5"]], "the number of contexts")
        bad = [good[:-1], good + "pair=0 1 1 2 7\n", good + "x", good.replace("found=1", "found=2"), "",
               good.replace("found=1", "found=65"), good.replace("found=1", "found=0"), good.replace("k=1", "k="),
               good.replace("met", "Met"), good.replace("2 7\n", "2 ").ljust(2048, "0")]
        bad += [good.replace("1 1 2 7", other)
                for other in ("1 1 65536 7", "1 1 4294967298 7", "1 1 2 65536", "1 1 2 4294967298", "1 1 2", "1 1 2 ",
                              "1 1 2 7 7", "1 1 2 7 ", "1  1 2 7", "1 1 x 7", "1 1 2 x")]
        for listing in bad:
            self.fault(run(program, sheet=sheet, env={"LISTING": listing}), "not of the form", listing)
        for other in (b"", b"k=1", b"k=1\ncontexts=", b"k=1\ncontexts=2", b"k=1\ncontexts=257\n", b"k=1\ncontexts=x\n",
                      b"k=1\ncontexts=65538\n", b"k=1\ncontext=2\n", b"k=1\ncontexts=4294967298\n"):
            self.fault(run(program, sheet=other, env={"LISTING": good}), "not of the form", other)
        # The list names context 1, so with one context the cell is refused.
        done = run(program, sheet=b"k=1\ncontexts=1\nc=\n", env={"LISTING": good})
        self.fault(done, r"the cell of contexts 0 and 0 is refused \(17\)", "one context")


WORDS_FOR = "none one two three four five six seven eight nine ten eleven".split()


def in_words(things):
    """Things named one after the other: `0, 1, 7 and 10`."""
    *before, last = map(str, things)
    return f"{', '.join(before)} and {last}" if before else last


def groups_of(cells):
    """The contexts that listed pairs tie together, group by group, each group rising."""
    groups = []
    for a, b in cells:
        tied = [group for group in groups if group & {a, b}]
        groups = [group for group in groups if group not in tied] + [{a, b}.union(*tied)]
    return sorted(sorted(group) for group in groups)


class Lesson(unittest.TestCase):
    """What the lesson says in words about its two pictures: its sentences, with numbers from the cells."""

    SHEET = (EXAMPLES / "cemetery.sheet").read_bytes()
    PAGE = " ".join((ROOT / "docs" / "LESSON.md").read_text(encoding="utf-8").split())

    def setUp(self):
        self.listed, self.all = due_for(self.SHEET), due_for(re.sub(rb"\Ak=\d+", b"k=64", self.SHEET))
        self.contexts = range(self.listed.contexts)
        self.groups = groups_of(self.listed.cells)
        self.men, self.women, self.two = self.groups

    def says(self, sentence):
        self.assertIn(sentence, self.PAGE, "what the lesson says")

    def row(self, due, row):
        """The cells with colour in a row, by column."""
        return {column: due.cells[row, column] for column in self.contexts if (row, column) in due.cells}

    def missing(self, group):
        """The pairs of a group that are not listed, in words."""
        return [in_words(pair) for pair in combinations(group, 2) if pair not in self.listed.cells]

    def test_how_many(self):
        contexts, pairs = self.listed[:2]
        every = contexts * (contexts - 1) // 2
        self.says(f"{WORDS_FOR[pairs]} pairs, {len(self.listed.cells)} coloured cells.")
        self.says(f"{WORDS_FOR[contexts].capitalize()} contexts have {every} pairs. We asked for {WORDS_FOR[pairs]}, "
                  f"so the other {every - pairs} stay white")
        self.says(f"{self.all.pairs} pairs are found, which is fewer than 64")

    def test_men_and_women(self):
        (men,), (women, girl) = self.missing(self.men), self.missing(self.women)
        every = WORDS_FOR[len(self.men) * (len(self.men) - 1) // 2]
        self.says(f"**The men**, contexts {in_words(self.men)}. Their rows are coloured in their own "
                  f"{WORDS_FOR[len(self.men)]} columns and nowhere else. One of their {every} pairs is missing: {men}.")
        self.says(f"**The women**, contexts {in_words(self.women)}, in the same way. Here {women} is missing, "
                  f"and {girl}.")
        self.assertEqual([pair for pair in product(self.men, self.women) if pair in self.all.cells], [])
        self.says("No man's grave has a coloured cell with a woman's.")

    def test_the_pair_by_itself(self):
        first, second = self.two
        value, entry = self.listed.cells[first, second], entries_of(*site_of(self.SHEET))[0]
        darkest = [place for place, other in self.listed.cells.items() if other == max(self.listed.cells.values())]
        self.assertEqual(sorted(darkest), [(first, second), (second, first)])
        self.says(f"**The pair by itself**, {first} and {second}. Its two cells are the darkest of all, and each is "
                  "alone in its row.")
        self.says(f"{shortest(value)} for {first} and {second}, which is as near to {entry[2]} of {entry[3]} as")

    def test_the_pit(self):
        pit, = (row for row in self.contexts if not self.row(self.listed, row))
        self.says(f"**The pit.** Row {pit} is empty, and it is the only empty row.")
        self.says(f"| {pit} | {len(site_of(self.SHEET)[0][pit])} | **the rubbish pit** |")
        full = [row for row in self.contexts if len(self.row(self.all, row)) == self.listed.contexts - 1]
        child, = set(full) - {pit}
        pale = max(self.row(self.all, pit).values())
        dark, = (column for column, value in self.row(self.all, child).items() if value > 2 * pale)
        self.assertLess(pale, 0.2)
        self.says("The pit's row is full, and every cell of it is pale")
        self.says(f"Row {child}, the child, is full as well, but it has one dark cell, for {dark}.")
        self.says(" ".join(f"contexts {pit} and {column}: {shortest(value)}"
                           for column, value in sorted(self.row(self.all, pit).items())))


class Make(Case):
    """`make heat`, as users type it."""

    def make(self, *words, **more):
        clean = {name: value for name, value in os.environ.items() if not name.startswith(("MAKE", "MFLAGS", "SHEET"))}
        return run("make", *words, cwd=ROOT, env=clean, **more)

    def told(self, done, *words):
        self.assertNotEqual(done.returncode, 0, "the status")
        self.assertEqual(done.stdout, b"", "standard output")
        for word in words:
            self.assertIn(str(word), done.stderr.decode(), "what is said")

    def test_the_picture_and_nothing_else(self):
        for done in (self.make("heat", "SHEET=examples/cemetery.sheet"),
                     self.make("heat", "SHEET=-", sheet=(EXAMPLES / "cemetery.sheet").read_bytes())):
            self.assertEqual((done.returncode, done.stdout, done.stderr), (0, STORED.read_bytes(), b""), "make heat")

    def test_names_that_shells_and_make_could_misread(self):
        for name in ("two words", "it's \"so\"", "$HOME", "$(shell echo no)", "a#b", "`id`", "a\\b", " edge ", "ქვა"):
            (self.folder / name).write_bytes((EXAMPLES / "cemetery.sheet").read_bytes())
            done = self.make("heat", f"SHEET={self.folder / name}")
            self.assertEqual((done.returncode, done.stdout, done.stderr), (0, STORED.read_bytes(), b""), name)

    def test_no_sheet(self):
        for words in (["heat"], ["heat", "SHEET="]):
            self.told(self.make(*words), "Which sheet? For example: make heat SHEET=")
        missing = self.folder / "none.sheet"
        self.told(self.make("heat", f"SHEET={missing}"), missing, "there is no such file")
        self.told(self.make("heat", f"SHEET={self.folder}"), f"{self.folder}: Is a directory")

    def test_refused(self):
        done = self.make("heat", "SHEET=examples/refused/09.sheet")
        self.told(done, "refused (9): the sheet is badly formed", "'make list' with this sheet says where")

    def test_help(self):
        self.assertRegex(self.make().stdout.decode(), r"(?m)^make heat SHEET=FILE +paint")


if __name__ == "__main__":
    unittest.main()
