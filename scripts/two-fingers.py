#!/usr/bin/env python3
"""Walks two rows of cards with two fingers, by the rule of the proved routine itself.

    scripts/two-fingers.py LEFT RIGHT     each row in quotes, as "101 104 107": its codes, rising, with spaces between
    scripts/two-fingers.py                prints the routine as it stands in the code

The routine is read from crates/walk/src/two_fingers.rt and carried out line by line. A row of the table is a turn: each
row of cards with its finger, as [104], or [] past the end; how many shared codes are counted so far; and the sentence
that the routine has for what it does next. The last line has the count, and what the two rows have in all.

Status: 0 fine; 1 a row is not as it must be; 2 wrong usage, or the routine cannot be read, or nothing can be written.
"""
import re
import sys
from pathlib import Path

from files import Fault, put, told

ROUTINE = Path(__file__).resolve().parent.parent / "crates" / "walk" / "src" / "two_fingers.rt"
FIRST = "pub fn shared_count("
HIGHEST_CODE = 4095

# What the routine may say: a name, a number, how many cards a row has, the card at a finger; and tests of two of these.
VALUE = r"(?:[a-z_]+(?:\.len\(\)|\[[a-z_]+\])?|[0-9]+)"
TEST = rf"{VALUE} (?:==|<|<=) {VALUE}"
TESTS = rf"{TEST}(?: && {TEST})*"
# Each form of a line, and the same in Python.
SIMPLE = (
    (rf"let (?:mut )?([a-z_]+)(?:: [a-z0-9]+)? = ({VALUE});", r"\1 = \2"),
    (r"([a-z_]+) \+= ([0-9]+);", r"\1 += \2"),
    (r"([a-z_]+)", r"return \1"),
)
OPENS = (
    (rf"while ({TESTS}) \{{", r"while \1:"),
    (rf"if ({TESTS}) \{{", r"if \1:"),
    (rf"\}} else if ({TESTS}) \{{", r"elif \1:"),
    (r"\} else \{", r"else:"),
)


def routine_in(text):
    """The lines of the routine, from its name to its last brace, with the number of the first."""
    lines = text.splitlines()
    starts = [n for n, line in enumerate(lines) if line.startswith(FIRST)]
    if len(starts) != 1 or "}" not in lines[starts[0] :]:
        raise Fault(2, f"{ROUTINE.name}: the routine is not there, as '{FIRST}..' up to a brace in the first column.")
    return starts[0] + 1, lines[starts[0] : lines.index("}", starts[0]) + 1]


def changed(line, forms):
    """The line in Python, if it has one of the forms; else None."""
    for form, python in forms:
        if re.fullmatch(form, line):
            words = re.sub(form, python, line)
            return re.sub(r"([a-z_]+)\.len\(\)", r"len(\1)", words).replace("&&", "and")
    return None


def in_python(first, lines):
    """The routine as a generator in Python. From the loop on it yields at each of its sentences: that, and where it is."""
    body = lines.index("{") + 1
    out, depth, looping, owed = ["def walk(xs, ys):"], 1, False, False
    for number, line in enumerate((line.strip() for line in lines[body:-1]), first + body):
        sentence = line.removeprefix("// ") if line.startswith("// ") else None
        if owed and sentence is None:
            raise Fault(2, f"{ROUTINE.name}, line {number}: a branch begins with its sentence.")
        owed = False
        if sentence is not None:
            if looping:
                out.append(f"{'    ' * depth}yield {sentence!r}, left_finger, right_finger, shared")
            continue
        opens, simple = changed(line, OPENS), changed(line, SIMPLE)
        depth -= line.startswith("}")
        if opens:
            looping, owed = True, not opens.startswith("while")
            out.append("    " * depth + opens)
            depth += 1
        elif simple:
            out.append("    " * depth + simple)
        elif line not in ("", "}"):
            raise Fault(2, f"{ROUTINE.name}, line {number}: what stands here is none of the forms that this script knows.")
    return "\n".join(out)


def walked(python, left, right):
    """Every turn of the walk, and what is counted in the end."""
    made = {}
    turns = []
    try:
        exec(python, {"__builtins__": {"len": len}}, made)
        walk = made["walk"](left, right)
        while len(turns) <= len(left) + len(right):
            turns.append(next(walk))
        next(walk)
    except StopIteration as end:
        return turns, end.value
    except (SyntaxError, NameError, IndexError) as fault:
        raise Fault(2, f"{ROUTINE.name}: the routine cannot be carried out: {fault}.") from None
    raise Fault(2, f"{ROUTINE.name}: there are more turns than cards, so the walk may not end.")


def row_of(words, name):
    """The codes of a row; they rise."""
    codes = []
    for word in words.split():
        if not re.fullmatch("[0-9]{1,4}", word) or int(word) > HIGHEST_CODE:
            raise Fault(1, f"The {name} row: '{word[:20]}' is no code. Codes are numbers from 0 to 4,095.")
        if codes and int(word) <= codes[-1]:
            raise Fault(1, f"The {name} row: code {int(word)} stands behind {codes[-1]}. Lay the smallest code first, and each once.")
        codes.append(int(word))
    return codes


def shown(codes, finger):
    """A row with its finger."""
    cards = [f"[{code}]" if place == finger else str(code) for place, code in enumerate(codes)]
    return " ".join(cards + ["[]"] * (finger == len(codes)))


def table(left, right, turns):
    """The heads, and a line a turn; columns are as wide as they must be."""
    rows = [("left finger", "right finger", "shared so far", "why it moves")]
    rows += [(shown(left, i), shown(right, j), str(shared), why) for why, i, j, shared in turns]
    wide = [max(len(row[column]) for row in rows) for column in range(3)]
    return "".join(f"{a:<{wide[0]}}  {b:<{wide[1]}}  {c:>{wide[2]}}  {why}\n" for a, b, c, why in rows)


def main(arguments):
    try:
        if len(arguments) not in (0, 2):
            raise Fault(2, __doc__.strip())
        try:
            first, lines = routine_in(ROUTINE.read_text(encoding="utf-8"))
        except OSError as error:
            raise Fault(2, f"{ROUTINE.name}: cannot be read: {error.strerror}") from None
        if not arguments:
            put("\n".join(lines) + "\n")
            return 0
        left, right = row_of(arguments[0], "left"), row_of(arguments[1], "right")
        turns, shared = walked(in_python(first, lines), left, right)
        union = len(left) + len(right) - shared
        put(table(left, right, turns))
        put(f"Shared: {shared}. In all: {len(left)} + {len(right)} - {shared} = {union}.\n")
    except Fault as fault:
        return told(fault)
    return 0


if __name__ == "__main__":
    sys.exit(main(sys.argv[1:]))
