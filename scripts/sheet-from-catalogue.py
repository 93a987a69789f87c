#!/usr/bin/env python3
"""Makes a sheet from a catalogue that a spreadsheet or a database saved as CSV.

    scripts/sheet-from-catalogue.py (--table | --list) CATALOGUE.csv NAME
        [--pairs K] [--delimiter comma|semicolon|tab] [--no-heads]

Writes NAME.sheet, and NAME.names.csv with the name of each context and code for names-in-listing.py.
With --table a row is a context and a column a type; with --list a row is a find, its context and its
type. Either both files are written or none. docs/CATALOGUES.md tells more.

Exits with 0 if the sheet is made, 1 if the catalogue is refused, 2 if a file cannot be read or
written or the call is wrong.
"""
import argparse
import csv
import io
import os
import re
import shlex
import sys
import tempfile
import unicodedata
from collections import Counter

from csv_text import DELIMITERS, Refused, Unreachable
from csv_text import at_file, counted, letters, name_in, read_bytes, rows_of, say, shown, speaking_of, status_of, trimmed

# The sheet's own limits (README.md, 'Limits').
MOST_PAIRS, MOST_CONTEXTS, MOST_TYPES, MOST_CODES = 64, 256, 4096, 4096


def no_room(what, room, row, column):
    return Refused(f"{what} is one too many: a sheet has room for {room}. Split the site.", row, column)


class Site:
    """Contexts in the order of their first row, each with its types."""

    def __init__(self):
        self.contexts, self.first_rows, self.codes = {}, {}, 0

    def open(self, name, row):
        """Makes a context, if it is new."""
        if name not in self.contexts and len(self.contexts) == MOST_CONTEXTS:
            raise no_room(f"context {shown(name)}", f"{MOST_CONTEXTS} contexts", row, 1)
        self.contexts.setdefault(name, set())
        self.first_rows.setdefault(name, row)

    def add(self, name, kind, row, column):
        """Puts a type into a context. Says whether it is new there."""
        if kind in self.contexts[name]:
            return False
        if self.codes == MOST_CODES:
            raise no_room("this find", f"{MOST_CODES:,} codes in all contexts together", row, column)
        self.contexts[name].add(kind)
        self.codes += 1
        return True


def is_present(cell, row, column):
    """What a cell of a presence table says."""
    mark = cell.strip()
    if re.fullmatch("0*|-", mark):
        return False
    if re.fullmatch("[xX]|[0-9]+", mark):
        return True
    # Some letters only look like x: the number of the character tells them apart.
    said = f"{shown(mark)} (U+{ord(mark):04X})" if len(mark) == 1 else shown(mark)
    if len(mark) == 1 and (unicodedata.category(mark) == "Pd" or mark == "\u2212"):
        raise Refused(f"{said} is a dash that is not -. Type - for absent, or leave the cell empty.", row, column)
    words = f"{said} is neither present (1, x, X or a count) nor absent (empty, 0 or -)."
    raise Refused(f"{words} Correct the cell; if each row is a find, say --list.", row, column)


def check_width(cells, row, wanted, why, more, fewer):
    """Refuses a row with more or fewer cells than are wanted, each with its advice, at the first one that is wrong."""
    if len(cells) != wanted:
        words = f"the row has {counted(len(cells), 'cell')}, but {why}. {more if len(cells) > wanted else fewer}"
        raise Refused(words, row, min(len(cells), wanted) + 1)


def types_of(heads, row):
    """The type names in the heads of a presence table."""
    if len(heads) < 2:
        raise Refused("there are no types: behind the first cell of the heads the type names stand.", row, 2)
    if len(heads) > MOST_TYPES + 1:
        raise no_room("this type", f"{MOST_TYPES:,} types", row, MOST_TYPES + 2)
    seen = {}
    for column, cell in enumerate(heads[1:], 2):
        name = name_in(cell, "type", row, column)
        if name in seen:
            words = f"type {shown(name)} stands already in column {seen[name]} ({letters(seen[name])})."
            raise Refused(f"{words} Put the two columns together, or rename one.", row, column)
        seen[name] = column
    return list(seen)


def add_row(site, types, row, cells):
    """Puts a row of a presence table into the site."""
    name = name_in(cells[0], "context", row, 1)
    if name in site.contexts:
        words = f"context {shown(name)} stands already in row {site.first_rows[name]}."
        raise Refused(f"{words} Put the two rows together, or rename one.", row, 1)
    site.open(name, row)
    for column, (kind, cell) in enumerate(zip(types, cells[1:]), 2):
        if is_present(cell, row, column):
            site.add(name, kind, row, column)


def from_table(rows):
    """The site of a presence table, and what the user should know of it."""
    first, heads = rows[0]
    types = types_of(heads, first)
    site = Site()
    for row, cells in rows[1:]:
        # Some spreadsheets leave out empty cells at the end of a row, and nobody sees it there.
        check_width(cells, row, len(heads), f"the heads in row {first} have {len(heads)}",
                    "Put a name with a delimiter in it into quotes.", "Type 0 into the empty cells at its end.")
        add_row(site, types, row, cells)
    spare = len(types) - len(set().union(*site.contexts.values()))
    return site, [f"Types without a code, since they stand in no context: {spare}."] if spare else []


def check_heads(first, heads, rows):
    """Refuses heads that are none: a find that is lost in silence, or a title as a find, makes a wrong sheet."""
    for column, head in enumerate(heads):
        if not head:
            words = "a head is missing. Fill the cell; if a title stands above the list, take it out."
            raise Refused(words, first, column + 1)
        again = next((row for row, cells in rows if trimmed(cells[column]) == head), None)
        if again:
            words = f"the first row looks like data: {shown(head)} stands again in row {again}."
            raise Refused(f"{words} Give the list a first row of heads, or say --no-heads.", first, column + 1)


def from_list(rows, has_heads):
    """The site of a long list, and what the user should know of it."""
    for row, cells in rows:
        check_width(cells, row, 2, "a long list has 2: context and type",
                    "Take out other columns; for a presence table say --table.", "Fill in what is missing.")
    notes = []
    if has_heads:
        (first, cells), *rows = rows
        heads = [trimmed(cell) for cell in cells]
        check_heads(first, heads, rows)
        notes.append(f"Heads in row {first}: {shown(heads[0])}, {shown(heads[1])}.")
    site, repeats = Site(), 0
    for row, cells in rows:
        name, kind = name_in(cells[0], "context", row, 1), name_in(cells[1], "type", row, 2)
        site.open(name, row)
        repeats += not site.add(name, kind, row, 2)
    return site, notes + ([f"Rows that repeat a find: {repeats}."] if repeats else [])


def numbered(site):
    """The types in the order of their codes: rare ones first, so that pairs meet late and the trail stays short."""
    stands = Counter(kind for types in site.contexts.values() for kind in types)
    return sorted(stands, key=lambda kind: (stands[kind], kind))


def sheet_text(site, kinds, pairs):
    code = {kind: number for number, kind in enumerate(kinds)}
    lines = [f"k={pairs}", f"contexts={len(site.contexts)}"]
    for types in site.contexts.values():
        lines.append("c=" + " ".join(str(number) for number in sorted(code[kind] for kind in types)))
    return "\n".join(lines) + "\n"


def names_text(site, kinds):
    """The names file. The mark in front tells a spreadsheet that it is UTF-8."""
    text = io.StringIO()
    text.write("\ufeff")
    table = csv.writer(text, lineterminator="\n")
    table.writerow(("kind", "number", "name"))
    table.writerows(("context", number, name) for number, name in enumerate(site.contexts))
    table.writerows(("code", number, name) for number, name in enumerate(kinds))
    return text.getvalue()


def move_all(moves):
    """Renames all, or nothing: a rename that fails takes back those before it."""
    done = []
    try:
        for old, new in moves:
            os.rename(old, new)
            done.append((old, new))
    except BaseException:
        for old, new in reversed(done):
            os.rename(new, old)
        raise


def write_all(files):
    """Writes the files beside their places, then renames them. At no moment is a sheet beside other names."""
    folder = os.path.dirname(next(iter(files))) or "."
    with tempfile.TemporaryDirectory(prefix=".sheet-", dir=folder) as room:
        aside, into = [], []
        for number, (path, text) in enumerate(files.items()):
            new = os.path.join(room, f"new-{number}")
            with open(new, "w", encoding="utf-8", newline="") as file:
                file.write(text)
            if os.path.isdir(path):
                raise OSError(None, f"{path} is a folder")
            if os.path.lexists(path):
                aside.append((path, os.path.join(room, f"old-{number}")))
            into.append((new, path))
        move_all(aside + into[::-1])


def site_of(call):
    """The site that the catalogue tells of, and what the user should know of it."""
    rows = rows_of(read_bytes(call.catalogue), DELIMITERS.get(call.delimiter))
    site, notes = from_table(rows) if call.table else from_list(rows, not call.no_heads)
    if not site.contexts:
        raise Refused("there are no contexts: no row follows the heads.", rows[0][0] + 1, 1)
    if not site.codes:
        raise Refused("no type is present in any context. Mark what was found with 1, x or a count.")
    return site, notes


def make(call):
    """Makes both files, and says so."""
    sheet, names = call.name + ".sheet", call.name + ".names.csv"
    with speaking_of(call.catalogue, "row"):
        site, notes = site_of(call)
    for path in (sheet, names):
        if os.path.exists(path) and os.path.samefile(path, call.catalogue):
            raise Unreachable(f"{path}: this is the catalogue itself. Choose another NAME.")
    kinds = numbered(site)
    with at_file(sheet, "write"):
        write_all({sheet: sheet_text(site, kinds, call.pairs), names: names_text(site, kinds)})
    counts = counted(len(site.contexts), "context"), counted(len(kinds), "type"), counted(site.codes, "code")
    say(" ".join([f"Made {sheet} and {names}: {', '.join(counts)}.", *notes]))
    say("Next: make list SHEET=" + shlex.quote(sheet))


def pairs_in(word):
    if not re.fullmatch("[0-9]{1,2}", word) or not 1 <= int(word) <= MOST_PAIRS:
        raise argparse.ArgumentTypeError(f"ask for 1 to {MOST_PAIRS} pairs")
    return int(word)


def call_of(arguments):
    parser = argparse.ArgumentParser(description="Makes a sheet from a catalogue in CSV.", allow_abbrev=False)
    habit = parser.add_mutually_exclusive_group(required=True)
    habit.add_argument("--table", action="store_true", help="a row is a context, a column a type")
    habit.add_argument("--list", action="store_true", help="a row is a find: its context and its type")
    parser.add_argument("catalogue", metavar="CATALOGUE.csv")
    parser.add_argument("name", metavar="NAME", help="NAME.sheet and NAME.names.csv are written")
    parser.add_argument("--pairs", metavar="K", type=pairs_in, default=10, help="pairs to list, 1 to 64 (default 10)")
    parser.add_argument("--delimiter", choices=DELIMITERS, help="what parts the cells, if it is not clear")
    parser.add_argument("--no-heads", action="store_true", help="the first row of a long list is a find already")
    call = parser.parse_args(arguments)
    if call.no_heads and call.table:
        parser.error("--no-heads is for --list: the heads of a table are its type names")
    if not os.path.basename(call.name):
        parser.error("NAME must end in a name for the files, not in a folder")
    return call


def main(arguments):
    call = call_of(arguments)
    return status_of(lambda: make(call))


if __name__ == "__main__":
    sys.exit(main(sys.argv[1:]))
