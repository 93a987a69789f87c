#!/usr/bin/env python3
"""Prints a listing as a table with names in place of numbers.

    scripts/names-in-listing.py NAMES.csv [LISTING]

NAMES.csv is what sheet-from-catalogue.py wrote beside the sheet. No LISTING, or `-`, is standard
input. The last column has the first type that the two share. In such a sheet codes are numbered rare
first, so it is the rarest of them. docs/CATALOGUES.md has an example.

Exits with 0 if the table is printed, 1 if the listing is a refusal or one of the two is not what it
should be, 2 if a file cannot be read, the table cannot be written, or the call is wrong.
"""
import argparse
import os
import re
import sys

from csv_text import DELIMITERS, Refused
from csv_text import at_file, counted, name_in, read_bytes, rows_of, speaking_of, status_of
from listings import HEADS, NUMBER, NoListing, listing_in
from shown_text import width

COLUMNS = ("rank", "alike", "shared", "first context", "second context", "first shared type")
KINDS = ("context", "code")


def check_kinds(names):
    """A sheet that was made has contexts and codes, so its names are of both kinds."""
    for kind in KINDS:
        if not any(kind == named for named, _ in names):
            raise Refused(f"no {kind} has a name here: the file was changed or cut. Make it anew.")


def names_in(data):
    """The names of contexts and codes, each by its kind and number."""
    delimiter = next((d for d in DELIMITERS.values() if f"kind{d}".encode() in data[:12]), ",")
    (row, heads), *rows = rows_of(data, delimiter)
    if [cell.strip() for cell in heads] != ["kind", "number", "name"]:
        raise Refused("this is no file of names: its heads must be kind,number,name.", row, 1)
    names = {}
    for row, cells in rows:
        if len(cells) != 3 or cells[0] not in KINDS or not re.fullmatch(NUMBER, cells[1]):
            raise Refused("here must stand: context or code, its number, its name.", row, 1)
        key = cells[0], int(cells[1])
        if key in names:
            raise Refused(f"{cells[0]} {cells[1]} has a name already.", row, 2)
        names[key] = name_in(cells[2], cells[0], row, 3)
    check_kinds(names)
    return names


def percentage(shared, union):
    """For the eye, rounded half up to a tenth: all is 100.0, but what only comes near is not, nor is a little 0.0."""
    tenths = (2000 * shared + union) // (2 * union)
    if shared < union:
        tenths = min(max(tenths, 1), 999)
    return f"{tenths // 10}.{tenths % 10}"


def aligned(rows):
    """The rows as lines: numbers to the right, names to the left, two spaces between columns."""
    widths = [max(width(cell) for cell in column) for column in zip(*rows)]
    lines = []
    for row in rows:
        gaps = [" " * (most - width(cell)) for most, cell in zip(widths, row)]
        cells = [gap + cell if at < 3 else cell + gap for at, (gap, cell) in enumerate(zip(gaps, row))]
        lines.append("  ".join(cells).rstrip())
    return lines


def name_of(names, kind, number, line):
    """The name of a context or a code that the listing's line tells of."""
    if (kind, number) not in names:
        raise Refused(f"{kind} {number} has no name. The listing and the names do not belong together.", line)
    return names[kind, number]


def row_of(names, rank, pair):
    """A pair's row: how alike the two are, who they are, and the first type that they share."""
    told = f"{percentage(pair.shared, pair.union)}%", f"{pair.shared} of {pair.union}"
    parts = ("context", pair.lower), ("context", pair.higher), ("code", pair.code)
    return (str(rank), *told, *(name_of(names, *part, len(HEADS) + rank) for part in parts))


def table(names, listing):
    """The listing in words."""
    rows = [COLUMNS] + [row_of(names, rank, pair) for rank, pair in enumerate(listing.pairs, 1)]
    said = (f"{listing.found} of {counted(listing.k, 'wanted pair')} found; "
            f"{counted(listing.events, 'place')} of contexts looked at, {counted(listing.met, 'pair')} compared.")
    return "\n".join([said, *(aligned(rows) if listing.pairs else [])]) + "\n"


def read_listing(file):
    try:
        return listing_in(read_bytes(file).decode("latin-1"))
    except NoListing as fault:
        raise Refused(str(fault), fault.line) from None


def write(data):
    """Writes to standard output by its number, so that nothing is left over to fail at the end."""
    with at_file("standard output", "write"):
        while data:
            data = data[os.write(1, data) :]


def show(call):
    """Prints the listing with the names."""
    with speaking_of(call.names, "line"):
        names = names_in(read_bytes(call.names))
    with speaking_of("the listing" if call.listing == "-" else call.listing, "line"):
        text = table(names, read_listing(0 if call.listing == "-" else call.listing))
    write(text.encode("utf-8"))


def main(arguments):
    parser = argparse.ArgumentParser(description="Prints a listing with names.", allow_abbrev=False)
    parser.add_argument("names", metavar="NAMES.csv")
    parser.add_argument("listing", metavar="LISTING", nargs="?", default="-")
    call = parser.parse_args(arguments)
    return status_of(lambda: show(call))


if __name__ == "__main__":
    sys.exit(main(sys.argv[1:]))
