"""Texts of CSV files as the scripts for catalogues read them.

Rows and columns count from 1, as in a spreadsheet: a row is a record, which may hold several lines.
"""
import re
import sys
import unicodedata
from contextlib import contextmanager

DELIMITERS = {"comma": ",", "semicolon": ";", "tab": "\t"}
# No catalogue within the limits of a sheet comes near this; endless input must not eat the memory.
MOST_BYTES = 32 * 1024 * 1024
# What a byte that is no UTF-8 is read as, and NUL, which tells of UTF-16.
NO_TEXT = re.compile("[\0\udc80-\udcff]")
# Joiners are hidden too, but some scripts need them inside a word.
JOINERS = "\u200c\u200d"
# Blanks that look alike: two names that differ in them alone are one.
BLANKS = re.compile("[ \u00a0\u1680\u2000-\u200a\u202f\u205f\u3000]+")
# How files of office programs begin, whatever their name ends in.
SPREADSHEETS = (b"PK\3\4", b"\xd0\xcf\x11\xe0")


class Refused(Exception):
    """What is wrong with a file, and in which row and column, where it is about one."""

    def __init__(self, words, row=None, column=None):
        super().__init__(words)
        self.words, self.row, self.column = words, row, column

    def told(self, path, unit):
        """The message, with the file and the place; a row is a line where no cell can hold several."""
        column = f", column {self.column} ({letters(self.column)})" if self.column else ""
        place = f"{unit} {self.row}{column}: " if self.row else ""
        return f"{path}: {place}{self.words}"


class Unreachable(Exception):
    """A file that cannot be read or written, in words."""


class Unclosed(Refused):
    """A quote that nothing closes: it reaches to the end of the text."""


def say(words):
    """Tells the user. If even standard error is gone, the exit status still tells."""
    try:
        sys.stderr.write(words + "\n")
        sys.stderr.flush()
    except (OSError, ValueError, AttributeError):
        pass


@contextmanager
def speaking_of(path, unit):
    """A refusal that comes out of here is about this file, whose places count in this unit."""
    try:
        yield
    except Refused as fault:
        fault.said = fault.told(path, unit)
        raise


def status_of(work):
    """Does the work, and gives the exit status; what went wrong is told."""
    try:
        work()
        return 0
    except Refused as fault:
        say(fault.said)
        return 1
    except (Unreachable, KeyboardInterrupt) as fault:
        say(str(fault) or "Stopped.")
        return 2


@contextmanager
def at_file(path, deed):
    """Puts what the system says of a file into words."""
    try:
        yield
    except OSError as fault:
        raise Unreachable(f"{path}: cannot {deed}: {fault.strerror}.") from fault


def letters(column):
    """A column as spreadsheets name it: A to Z, AA, AB .."""
    name = ""
    while column:
        column, rest = divmod(column - 1, 26)
        name = chr(ord("A") + rest) + name
    return name


def counted(number, what):
    return f"{number} {what}{'' if number == 1 else 's'}"


def shown(text):
    """A cell's text for a message: cut, in quotes, with all that is hidden or harmful written out."""
    text = text if len(text) <= 40 else text[:39] + "…"
    return '"' + "".join(c if c.isprintable() else f"\\u{ord(c):04x}" for c in text) + '"'


def read_bytes(path):
    """All bytes of a file; 0 is standard input."""
    with at_file("standard input" if path == 0 else path, "read"), open(path, "rb", closefd=path != 0) as file:
        data = file.read(MOST_BYTES + 1)
    if len(data) > MOST_BYTES:
        raise Refused("the file has more than 32 MiB. Take only what is wanted.")
    return data


def quote_fault(text, at, row, column):
    """What is wrong with a cell that opens with a quote."""
    if re.compile(r' *"[^"]*(?:""[^"]*)*"(?!")').match(text, at):
        words = 'text follows the closing quote. Write a quote inside a quoted cell twice: "".'
        return Refused(words, row, column)
    return Unclosed("a quote opens this cell, and none closes it. Put the closing quote.", row, column)


def records(text, delimiter):
    """The cells of each row. A row ends at LF, CRLF or CR outside quotes."""
    ends = f"{delimiter}\r\n"
    cell = re.compile(rf' *"([^"]*(?:""[^"]*)*)" *(?=[{ends}]|\Z)|([^{ends}]*)')
    at, row, cells = 0, 1, []
    while at < len(text) or cells:
        found = cell.match(text, at)
        quoted, plain = found.groups()
        if quoted is None and plain.lstrip(" ").startswith('"'):
            raise quote_fault(text, at, row, len(cells) + 1)
        cells.append(plain if quoted is None else quoted.replace('""', '"'))
        at = found.end() + 1
        if text[at - 1 : at] != delimiter:
            yield cells
            row, cells = row + 1, []
            at += text[at - 1 : at + 1] == "\r\n"


def filled(text, delimiter):
    """The rows that hold something, each with its number. Spreadsheets write a blank row as `;;;`."""
    return [(row, cells) for row, cells in enumerate(records(text, delimiter), 1) if "".join(cells).strip()]


def is_even(text, delimiter):
    """All rows have as many cells as the first, and more than one."""
    try:
        widths = {len(cells) for _, cells in filled(text, delimiter)}
    except Refused:
        return False
    return len(widths) == 1 and widths != {1}


def check_quotes(text, delimiters):
    """An open quote spoils the rows whatever parts the cells: better to tell of the quote."""
    for delimiter in delimiters:
        filled(text, delimiter)


def found_delimiter(text):
    """What parts the cells: the only one in the first row outside quotes, or else the only one that fits all rows."""
    bare = re.sub(r'"[^"]*(?:"|\Z)', "", text).lstrip("\r\n")
    first = re.split("[\r\n]", bare, maxsplit=1)[0]
    seen = [d for d in DELIMITERS.values() if d in first]
    if len(seen) == 1:
        return seen[0]
    if not any(d in bare for d in DELIMITERS.values()):
        raise Refused("there is only one column: no comma, semicolon or tab parts the cells. Save it as CSV again.")
    even = [d for d in seen or DELIMITERS.values() if is_even(text, d)]
    if len(even) != 1:
        check_quotes(text, seen)
        words = "it is not clear whether commas, semicolons or tabs part the cells."
        raise Refused(f"{words} Say --delimiter comma, --delimiter semicolon or --delimiter tab.")
    return even[0]


def likely_delimiter(text):
    """For messages alone: a delimiter even where it is not clear."""
    try:
        return found_delimiter(text)
    except Refused:
        return max(DELIMITERS.values(), key=text.count)


def check_text(text, delimiter):
    """Refuses what is no UTF-8, at the cell of its first wrong byte."""
    wrong = NO_TEXT.search(text)
    if not wrong:
        return
    try:
        before = list(records(text[: wrong.start()] + "x", delimiter or likely_delimiter(text)))
        row, column = len(before), len(before[-1])
    except Unclosed as inside:
        row, column = inside.row, inside.column
    byte = ord(wrong.group()) & 0xFF
    # UTF-16 begins with one of two marks; without a mark, every second byte of plain letters is NUL.
    looks = "UTF-16" if byte == 0 or (byte >= 0xFE and wrong.start() == 0) else "an encoding other than UTF-8"
    raise Refused(f"byte {byte:02X} is no text; this looks like {looks}. Save the file as 'CSV UTF-8'.", row, column)


def rows_of(data, delimiter=None):
    """The filled rows of a CSV file, each with its number."""
    if data.startswith(SPREADSHEETS):
        raise Refused("this is a spreadsheet or an archive, not CSV. Open it, and save it as 'CSV UTF-8'.")
    text = data.decode("utf-8-sig", "surrogateescape")
    check_text(text, delimiter)
    if re.match(r'\s*"?sep=.?"?\s*[\r\n]', text, re.I):
        raise Refused("this line is a note for Excel alone. Delete it, and say --delimiter if it is asked for.", 1, 1)
    rows = filled(text, delimiter or found_delimiter(text)) if re.search(r'[^\s,;"]', text) else []
    if not rows:
        raise Refused("there is nothing in the file.")
    return rows


def trimmed(cell):
    """A name without blanks at its ends, with one space for blanks inside, and with é in one way only."""
    return unicodedata.normalize("NFC", BLANKS.sub(" ", cell.strip()))


def name_in(cell, what, row, column):
    """The name in a cell: it must be there, and nothing in it may be hidden."""
    name = trimmed(cell)
    if not name:
        raise Refused(f"the name of a {what} is missing. Give it a name, or delete what is not wanted.", row, column)
    for at, letter in enumerate(name):
        joins = letter in JOINERS and 0 < at < len(name) - 1
        if unicodedata.category(letter) in ("Cc", "Cf", "Zl", "Zp") and not joins:
            words = f"the {what}'s name {shown(name)} holds a line break, a tab or another hidden character"
            raise Refused(f"{words} (U+{ord(letter):04X}). Delete it.", row, column)
    return name
