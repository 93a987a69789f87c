"""Shows the text around a byte of a sheet so that no terminal is harmed: lines, columns, and a caret under the place."""
import unicodedata
from bisect import bisect_right
from collections import namedtuple
from itertools import accumulate

ROOM = 36  # columns of a sheet's line that are shown on either side of the place
NAMES = {",": "a comma", ";": "a semicolon", "\t": "a tab", " ": "a space", "+": "a plus sign", "-": "a minus sign",
         ".": "a full stop", ":": "a colon", '"': "a quotation mark", "\0": "a zero byte"}
Line = namedtuple("Line", "number start text")


def characters(text):
    """Bytes for display; each byte that is no text is a character of its own."""
    return text.decode("utf-8", "surrogateescape")


def cell(char):
    """A character as it can stand on a terminal: control characters and bytes that are no text are escaped."""
    if "\udc80" <= char <= "\udcff":
        return f"\\x{ord(char) - 0xDC00:02x}"
    return char if char.isprintable() else char.encode("unicode_escape").decode("ascii")


def shown(text):
    return "".join(map(cell, text))


def width(text):
    """How many columns of a terminal it takes."""
    columns = 0
    for letter in text:
        if unicodedata.category(letter) not in ("Mn", "Me", "Cf"):
            columns += 2 if unicodedata.east_asian_width(letter) in ("W", "F") else 1
    return columns


def named(char):
    """A character in words."""
    if char in NAMES:
        return NAMES[char]
    if "\udc80" <= char <= "\udcff":
        return f"byte {ord(char) - 0xDC00}, which is no text,"
    code = "" if "!" <= char <= "~" else f" (U+{ord(char):04X})"
    if char.isspace():
        return "a special space" + code
    return f"the {'letter' if char.isalpha() else 'sign'} {shown(char)}{code}"


def line_at(text, at):
    """The line around a byte, without its line end; lines count from 1."""
    start = text.rfind(b"\n", 0, at) + 1
    return Line(text.count(b"\n", 0, at) + 1, start, text[start:].split(b"\n", 1)[0])


def characters_before(line, at):
    """How many characters of the line end in front of a byte of the sheet."""
    ends = list(accumulate(len(char.encode("utf-8", "surrogateescape")) for char in characters(line.text)))
    return bisect_right(ends, at - line.start)


def fitting(cells):
    """As many of the cells as there is room for, and a mark if some are left out."""
    fit = bisect_right(list(accumulate(max(1, width(c)) for c in cells)), ROOM)
    return cells[:fit] + ["…"] * (fit < len(cells))


def excerpt(text, at):
    """The line around a byte, and a caret under it. At the sheet's end the last line is shown, too."""
    line, end = line_at(text, at), at == len(text)
    before = characters_before(line, at)
    cells = [cell(char) for char in characters(line.text)] + ["(end)"] * end
    left = "".join(reversed(fitting(cells[:before][::-1])))
    lines = [left + "".join(fitting(cells[before:])), " " * width(left) + "^"]
    if end and line.number > 1 and not line.text:
        lines.insert(0, "".join(fitting([cell(char) for char in characters(text.split(b"\n")[-2])])))
    return "".join(f"    {line}\n" for line in lines)
