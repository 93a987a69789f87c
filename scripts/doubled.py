#!/usr/bin/env python3
"""Gives every type of a sheet a second code: each code c becomes 2c and 2c + 1.

    scripts/doubled.py [SHEET]        no SHEET, or `-`: standard input

Writes the doubled sheet. Nothing is written unless all of the sheet is in order, and the doubled one too:
it has twice the codes, twice as high, so the limits for this script are half those of the program.

Status: 0 fine; 1 not a sheet, or one that has no room for second codes; 2 a file cannot be read or written,
or wrong usage.
"""
import re
import sys
from os.path import commonprefix

from files import Fault, called, files_named, put, text_of, told

MOST_BYTES = 24576
MOST_PAIRS = 64
MOST_CONTEXTS = 256
MOST_CODES = 2048
HIGHEST_CODE = 2047

NUMBER = r"(?:0|[1-9][0-9]*)"
# Each kind of line: its key, its numbers, the beginnings of its numbers, and what it is in words.
K = ("k=", NUMBER, f"(?:{NUMBER})?", "The first line is k= and the number of pairs wanted.")
CONTEXTS = ("contexts=", NUMBER, f"(?:{NUMBER})?", "The second line is contexts= and the number of contexts.")
CODES = ("c=", f"(?:{NUMBER}(?: {NUMBER})*)?", f"(?:{NUMBER}(?: {NUMBER})* ?)?",
         "A context is c= and its codes, rising, with one space between two.")
STRANGE = {" ": "a space", "\t": "a tab", "\r": "a carriage return, as Windows ends lines,", "\n": "the line's end"}


class Sheet:
    """The lines of a sheet, and the faults that they can have."""

    def __init__(self, file, text):
        self.file = file
        self.lines = text.split("\n")

    def fault(self, line, column, words):
        return Fault(1, f"{called(self.file)}, line {line}, column {column}: {words}")

    def no_sheet(self, line, column, wanted):
        """The fault of a byte that no sheet has there."""
        byte = (self.lines[line - 1] + "\n")[column - 1]
        stands = STRANGE.get(byte) or (f"'{byte}'" if "!" <= byte <= "~" else "a byte that is no plain text")
        if byte == "\n" and line == len(self.lines):
            stands = "the end of the file"
        return self.fault(line, column, f"this is not a sheet: {stands} stands here. {wanted}")

    def line(self, number, kind):
        """The numbers of a line as pairs of column and digits."""
        key, numbers, beginning, wanted = kind
        text = self.lines[number - 1]
        if not text.startswith(key):
            raise self.no_sheet(number, len(commonprefix([text, key])) + 1, wanted)
        if number == len(self.lines) or not re.fullmatch(key + numbers, text):
            raise self.no_sheet(number, re.match(key + beginning, text).end() + 1, wanted)
        return [(m.start() + 1, m.group()) for m in re.finditer("[0-9]+", text)]


def value(digits):
    """A number that is compared with a limit: beyond five digits the exact value has no say."""
    return int(digits[:6])


def short(digits):
    return digits if len(digits) <= 12 else digits[:9] + "..."


def heads_of(sheet):
    """k and the number of contexts, from the first two lines."""
    ((column, k),) = sheet.line(1, K)
    if not 1 <= value(k) <= MOST_PAIRS:
        raise sheet.fault(1, column, f"k is {short(k)}. Ask for 1 to {MOST_PAIRS} pairs.")
    ((column, contexts),) = sheet.line(2, CONTEXTS)
    if value(contexts) > MOST_CONTEXTS:
        raise sheet.fault(2, column, f"{short(contexts)} contexts. There is room for {MOST_CONTEXTS}: split the site.")
    return value(k), value(contexts)


def codes_of(sheet, line, before):
    """The codes of a context, where `before` codes stand in front of it in the sheet."""
    codes = []
    for column, digits in sheet.line(line, CODES):
        code = value(digits)
        if code > HIGHEST_CODE:
            raise sheet.fault(line, column, f"code {short(digits)} cannot have a second code: codes end at 4,095, "
                                            "and 2c + 1 is above that. Give the type a number up to 2,047.")
        if codes and code <= codes[-1]:
            raise sheet.fault(line, column, f"code {code} stands behind {codes[-1]}. "
                                            "Sort the context, and name each type once.")
        if before + len(codes) == MOST_CODES:
            raise sheet.fault(line, column, f"code {code} is code number 2,049 of the sheet. There is room for 4,096 "
                                            "codes, so 2,048 can have a second one: split the site.")
        codes.append(code)
    return codes


def contexts_of(sheet, contexts):
    """The codes of each context; behind the last one the sheet ends."""
    read, codes = [], 0
    for line in range(3, 3 + contexts):
        read.append(codes_of(sheet, line, codes))
        codes += len(read[-1])
    if sheet.lines[2 + contexts :] != [""]:
        raise sheet.no_sheet(3 + contexts, 1, f"With contexts={contexts} the sheet ends before this line.")
    return read


def doubled(contexts):
    """The `c=` lines in which every code has become two."""
    for codes in contexts:
        yield "c=" + " ".join(f"{2 * code} {2 * code + 1}" for code in codes) + "\n"


def main(arguments):
    try:
        (file,) = files_named(arguments, 1, __doc__)
        text = text_of(file, MOST_BYTES)
        if len(text) > MOST_BYTES:
            raise Fault(1, f"{called(file)}: this is not a sheet: it has more than 24,576 bytes.")
        sheet = Sheet(file, text)
        k, contexts = heads_of(sheet)
        lines = "".join(doubled(contexts_of(sheet, contexts)))
        put(f"k={k}\ncontexts={contexts}\n{lines}")
    except Fault as fault:
        return told(fault)
    return 0


if __name__ == "__main__":
    sys.exit(main(sys.argv[1:]))
