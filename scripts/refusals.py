"""Words for each refusal of a sheet: what is wrong, where, and what to do.

Number and place come from the program. What stands in the sheet is looked at only to find words for them; where no cause
is seen at the place, the words are those for the number in general.
"""
import os
import re
from collections import namedtuple

from shown_text import characters, characters_before, excerpt, line_at, named, shown

LIMIT = 24576  # bytes of a sheet
Sheet = namedtuple("Sheet", "name text size")

BROKEN = ": this cannot come from a sheet, so the program is broken."
REPORT = "Build it anew with `make program`; if that does not help, report the number together with the sheet."
# `counts` is what the program's place counts: bytes, codes (an index through all contexts), or nothing in the sheet.
Refusal = namedtuple("Refusal", "counts wrong advice")
REFUSALS = {
    1: Refusal("k", "k is 0 or above 64.", "Ask for 1 to 64 pairs."),
    2: Refusal("place", "The offsets or the codes table has a wrong length" + BROKEN, REPORT),
    3: Refusal("place", "The offsets do not rise from 0 to the number of codes" + BROKEN, REPORT),
    4: Refusal("index", "A code is above 4,095.", "Give the type a smaller number."),
    5: Refusal("index", "A code is not above the one before it in its context.",
               "Sort the context, and name each type once."),
    6: Refusal("place", "The list buffer is too short" + BROKEN, REPORT),
    7: Refusal("place", "The work area is too short" + BROKEN, REPORT),
    8: Refusal("", "More pairs meet than the trail has room for (2,048).",
               "Number rare types lower than common ones, so that contexts meet later (scripts/sheet-from-catalogue.py"
               " does that, if you have a catalogue as CSV); or ask for fewer pairs; or take fewer contexts, which"
               " always helps in the end: 64 contexts fit whatever they hold."),
    9: Refusal("byte", "The sheet is badly formed.",
               "Look there: a comma, two spaces, a space at a line's end, a leading zero, Windows line ends, a missing"
               " last line end, too few or too many `c=` lines."),
    10: Refusal("byte", "A number is above 65,535.", "Correct the number."),
    11: Refusal("byte", "There is no room for the sheet.",
                "Split the site: at most 256 contexts, 4,096 codes and 24,576 bytes."),
    12: Refusal("place", "The listing does not fit its buffer" + BROKEN, REPORT),
    13: Refusal("place", "A context number is not below the number of contexts" + BROKEN, REPORT),
    17: Refusal("place", "The list has fewer entries than it should, or one that no list has" + BROKEN, REPORT),
}
UNKNOWN = Refusal("place", "This number is not known here: the program is newer than this script, or broken.", REPORT)

# Words for refusal 9. How files begin that are no plain text, or not quite.
PLAIN = "Save the sheet as plain text (UTF-8, without a byte order mark)."
CATALOGUE = ("If it is a catalogue, save it as CSV, and make a sheet of it with scripts/sheet-from-catalogue.py: "
             "docs/CATALOGUES.md tells how.")
UTF_16 = ("The file is UTF-16 text, with two bytes for each letter.", PLAIN)
OFFICE = ("The file is a spreadsheet, an office document or an archive, not plain text.", CATALOGUE)
NO_SHEETS = {
    b"\xef\xbb\xbfk": ("A byte order mark stands in front of the text.", PLAIN),
    b"\xff\xfe": UTF_16, b"\xfe\xff": UTF_16, b"k\0": UTF_16, b"\0k": UTF_16,
    b"PK\3\4": OFFICE, b"\xd0\xcf\x11\xe0": OFFICE,
}
# A first line with what parts the cells of a table, and no `k=` in it.
TABLE = re.compile(rb"(?![^\n]*\bk *=)[^\n]*[,;\t|]", re.I)
# The lines of a sheet: what belongs there, the greatest number, and the form behind the key as far as it is kept.
Form = namedtuple("Form", "belongs most kept")
NUMBER = rb"(?:0|[1-9][0-9]*)"
FORMS = {
    "k=": Form("Here a line `k=` with the number of pairs wanted belongs.", "k is 1 to 64.",
               rb"(?:%b\n?)?" % NUMBER),
    "contexts=": Form("Here a line `contexts=` with the number of contexts belongs.", "At most 256 contexts fit.",
                      rb"(?:%b\n?)?" % NUMBER),
    "c=": Form("Here a line `c=` with the codes of a context belongs (`c=` alone if it has none).",
               "Codes are 0 to 4,095.", rb"(?:%b(?: %b)*[ \n]?|\n)?" % (NUMBER, NUMBER)),
}
# Habits that break a line, as patterns; the first that fits is told. ▲ stands in front of what breaks the form.
UNIX = "Save the sheet with Unix line ends (LF), or type: tr -d '\\r' < my.sheet > new.sheet"
SMALL = "Write `{key}`, in small letters and without spaces."
KEY_HABITS = (  # KEY is the line's key without its `=`
    (r".*▲\r$", "The line ends as on Windows, in a carriage return.", UNIX),
    (r"▲[ \t]*$", "The line is empty.", "Take it out. {belongs}"),
    (r"▲[ \t]+KEY[ \t]*=", "{Name} stands at the line's start.", "Take it out."),
    (r"KEY▲?=", "The key has capital letters.", SMALL),
    (r"KEY▲?[ \t]+=", "A space or tab stands in front of `=`.", SMALL),
    (r"[ -~]*▲[ -~]*\r?$", "The line begins with `{begins}`, not with `{key}`.", "{belongs}"),
    (r"", "{Name} stands where `{key}` belongs.", "{belongs}"),
)
NUMBER_HABITS = (  # PART is what parts numbers elsewhere
    (r".*▲\r$", "The line ends as on Windows, in a carriage return.", UNIX),
    (r".*▲\r", "A carriage return stands inside the line.", "Save the sheet with Unix line ends (LF)."),
    (r".*0▲[0-9]", "The number {number} has a leading zero.", "Write {plain}."),
    (r"(?!c=).*=▲[ \t]*$", "No number stands behind `{key}`.", "Write the number there."),
    (r".* ▲$|.*▲ [ \t]*$", "A space stands at the line's end.", "Take it out."),
    (r".*=▲ ", "A space stands behind `{key}`.", "Take it out."),
    (r"c=.* ▲ ", "Two spaces stand side by side.", "Leave one space between two codes."),
    (r".*▲ ", "Something stands behind the number.", "Leave one number in the `{key}` line."),
    (r"(?!c=).*▲PART", "{Name} stands in the `{key}` line.", "Take it out, and leave one number there."),
    (r".*[0-9]▲PART[0-9]", "{Name} stands between two codes.", "Put one space there."),
    (r".*▲PART[ \t,;]*$", "{Name} stands at the line's end.", "Take it out."),
    (r".*[0-9] ?▲PART[ \t,;]*[0-9]", "{Name} stands between two codes.", "Take it out: one space parts two codes."),
    (r".*▲PART", "{Name} stands where a code belongs.", "Take it out: one space parts two codes."),
    (r".*[0-9]▲[-–—−]", "{Name} stands in a number.", "Write digits alone; if it means a range, write each code."),
    (r".*[0-9]▲", "{Name} stands in a number.", "Write digits alone."),
    (r"", "{Name} stands where a number belongs.", "Write digits alone, without a sign."),
)
PART = r"(?:[,;|/]|(?! )\s)"


def value(digits):
    """A number's value, if it is below 100,000; six digits are enough to see that it is not."""
    return int(digits[:6])


def brief(digits):
    """A number as text; of many digits only the first."""
    return digits.decode() if len(digits) <= 20 else f"{digits[:12].decode()}… (of {len(digits):,} digits)"


def numbers_of(text):
    """The numbers of a sheet that keeps the form: k, contexts, and then each code."""
    return list(re.finditer(rb"[0-9]+", text))


def code_words(text, code):
    line = line_at(text, code.start()).number
    return f"In context {line - 3} (line {line}) code {brief(code.group())}"


# What is wrong, for each refusal that has details, and perhaps what to do. None: no cause is seen at the place.


def about_k(sheet, place):
    k = numbers_of(sheet.text)[:1]
    if not k or 1 <= value(k[0].group()) <= 64:
        return None
    return f"k is {brief(k[0].group())}, but 1 to 64 pairs can be listed.", None


def about_code(sheet, place):
    codes = numbers_of(sheet.text)[2:]
    if place >= len(codes) or value(codes[place].group()) <= 4095:
        return None
    return f"{code_words(sheet.text, codes[place])} is above 4,095.", None


def about_order(sheet, place):
    codes = numbers_of(sheet.text)[2:]
    if not 0 < place < len(codes):
        return None
    before, code = codes[place - 1], codes[place]
    between = sheet.text[before.end() : code.start()]
    if between != b" " or value(before.group()) < value(code.group()):
        return None
    return f"{code_words(sheet.text, code)} is not above {brief(before.group())}, the code before it.", None


def about_number(sheet, place):
    digits = re.compile(rb"[0-9]*").match(sheet.text, place).group()
    keys = [key for key in FORMS if line_at(sheet.text, place).text.startswith(key.encode())]
    if not keys or not digits or value(digits) <= 65535:
        return None
    return f"The number {brief(digits)} is above 65,535.", f"Correct it. {FORMS[keys[0]].most}"


def about_room(sheet, place):
    if len(sheet.text) > LIMIT and place == LIMIT and not sheet.text.startswith(b"k="):
        return f"This is no sheet: it does not begin with `k=`, and it has {sheet.size} bytes.", CATALOGUE
    if len(sheet.text) > LIMIT:
        return (f"The sheet has {sheet.size} bytes, but there is room for 24,576.", None) if place == LIMIT else None
    numbers = numbers_of(sheet.text)
    places = [number.start() for number in numbers]
    if places[1:2] == [place] and value(numbers[1].group()) > 256:
        return f"The sheet promises {brief(numbers[1].group())} contexts, but there is room for 256.", None
    if places[4098:4099] != [place]:
        return None
    return (f"{code_words(sheet.text, numbers[4098])} is number 4,097 of {len(numbers) - 2:,} codes, "
            "but there is room for 4,096.", None)


def about_form(sheet, place):
    text, line = sheet.text, line_at(sheet.text, place)
    promised = re.match(rb"[^\n]*\ncontexts=([0-9]+)|", text)[1] or b"0"
    for beginning, words in NO_SHEETS.items():
        if place < 2 and text.startswith(beginning):
            return words
    if place == 0 and TABLE.match(text):
        return "This looks like a table, not like a sheet.", CATALOGUE
    if line.number > value(promised) + 2:
        return goes_on(text, line, brief(promised)) if line.start == place < len(text) else None
    key = ("", "k=", "contexts=")[line.number] if line.number < 3 else "c="
    if kept(text, line.start, key) != place:
        return None
    return habit(key, line, place) if place < len(text) else stops_early(key, line, brief(promised))


def kept(text, start, key):
    """The end of what keeps the form in a line with this key."""
    same = len(os.path.commonprefix([key.encode(), text[start : start + len(key)]]))
    return start + same if same < len(key) else re.compile(FORMS[key].kept).match(text, start + same).end()


def goes_on(text, line, promised):
    """Something stands behind the last line that the sheet owes."""
    rest = text[line.start :]
    if not rest.strip():
        return "Empty lines or spaces stand behind the last line.", "Take them out."
    if not rest.startswith(b"c="):
        return (f"Something stands behind the last line: contexts={promised}, and all of them are there.",
                "Take out what follows; if contexts follow, correct the number.")
    found = line.number - 3 + len(re.findall(rb"^c=", rest, re.M))
    return (f"There are too many `c=` lines: contexts={promised}, but the sheet has {found}.",
            "Correct the number, or take out the lines that are too many.")


def stops_early(key, line, promised):
    if line.number == 1 and not line.text:
        return "The sheet is empty.", FORMS[key].belongs
    if key == "c=" and not line.text:
        return (f"There are too few `c=` lines: contexts={promised}, but the sheet has {line.number - 3}.",
                "Add the lines that are missing (`c=` alone for a context without finds), or correct the number.")
    if len(line.text) < len(key) or line.text in (b"k=", b"contexts="):
        return f"The sheet stops too early: its `{key}` line is missing or not complete.", FORMS[key].belongs
    if line.text.endswith(b" "):
        return "A space stands at the line's end, and the line end is missing.", "Press Enter in place of the space."
    more = "" if f"{line.number - 2}" == promised else " More lines are missing behind it."
    return "The last line has no line end.", f"Press Enter behind it, and save.{more}"


def habit(key, line, place):
    """The first habit that is seen at a place of a line that breaks the form there."""
    before, after = (characters(part) for part in (line.text[: place - line.start], line.text[place - line.start :]))
    name, digits = named(after[:1] or "\n"), re.match("[0-9]*", after).group().encode()
    words = {
        "key": key, "belongs": FORMS[key].belongs, "Name": name[0].upper() + name[1:], "number": brief(b"0" + digits),
        "plain": brief(digits.lstrip(b"0") or b"0"), "begins": re.match("[^=]{0,12}=?", shown(before + after)).group(),
    }
    letters = "(?ai:" + "".join(f"▲?{letter}" for letter in key[:-1]) + ")"
    for pattern, wrong, advice in KEY_HABITS if len(before) < len(key) else NUMBER_HABITS:
        if re.match(pattern.replace("KEY", letters).replace("PART", PART), f"{before}▲{after}"):
            return wrong.format(**words), advice.format(**words)
    return None


DETAILS = {1: about_k, 4: about_code, 5: about_order, 9: about_form, 10: about_number, 11: about_room}


def byte_of(counts, text, place):
    """The byte of a sheet that a place stands for, or None."""
    if counts == "byte":
        return place if place <= len(text) else None
    index = {"k": 0, "index": place + 2}.get(counts)
    numbers = numbers_of(text)
    return None if index is None or index >= len(numbers) else numbers[index].start()


def refusal_words(sheet, number, place):
    refusal = REFUSALS.get(number, UNKNOWN)
    found = DETAILS[number](sheet, place) if number in DETAILS else None
    wrong, advice = found or (refusal.wrong, None)
    words = f"{wrong} {advice or refusal.advice}"
    head = f"{sheet.name}: refused, number {number}" + (f" at {refusal.counts} {place}" if refusal.counts[1:] else "")
    at = byte_of(refusal.counts, sheet.text, place)
    if at is None:
        return f"{head}\n{words}"
    line, end = line_at(sheet.text, at), ", the sheet's end" if at == len(sheet.text) else ""
    column = characters_before(line, at) + 1
    return f"{head}{end}: line {line.number}, column {column}\n{excerpt(sheet.text, at)}{words}"
