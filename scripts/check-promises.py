#!/usr/bin/env python3
"""Checks that whatever docs/PROMISES.md names exists.

    scripts/check-promises.py [--finished] [ROOT]

Every row of its tables has three cells: what document 01 promises, what kind of thing keeps the
promise (definition, theorem, contract or run), and where that stands, in backquotes:

    crate/specs/File.antt: name        a definition
    crate/proofs/File.antt: name       a theorem
    crate/src/lib.rt: fn name          a contract (also `struct name` and `enum name`)
    tests: subcommand/case name        a run; both must stand in the tests' sources
    path/to/file: text                 a run; the text must stand in the file, if one is given

Several are parted by `;`. A row that is still open says `not yet`; with --finished that is a
problem too. Exits with 1 if there is a problem.
"""
import re
import sys
from pathlib import Path

from antt_text import plain

KINDS = ("definition", "theorem", "contract", "run")
ANTT_WORDS = r"(?:(?:pub|unfoldable|abbrev|record|data)\s+)*"


def antt_declares(text, name):
    """A line declares the name: `name :`, with words such as `pub` in front, or a record."""
    text = plain(text)
    escaped = re.escape(name)
    signature = rf"^[ \t]*{ANTT_WORDS}{escaped}(?:\s*\{{[^}}]*\}})*\s*:(?:\s|$)"
    record = rf"^[ \t]*(?:pub\s+)?(?:record|data)\s+{escaped}(?:\s|$)"
    return any(re.search(pattern, text, re.M) for pattern in (signature, record))


def rt_declares(text, name):
    """The name is `fn x`, `struct x` or `enum x`."""
    words = name.split()
    if len(words) != 2 or words[0] not in ("fn", "struct", "enum"):
        return False
    code = re.sub(r"//[^\n]*", "", text)
    return re.search(rf"\b{words[0]}\s+{re.escape(words[1])}\b", code) is not None


def test_problem(root, name):
    sources = [p.read_text(encoding="utf-8") for p in sorted((root / "tests").rglob("*.rs"))]
    if not sources:
        return "there are no tests"
    for part in name.split("/", 1):
        if not any(f'"{part}"' in s or f"fn {part}(" in s for s in sources):
            return f"no test source has '{part}'"
    return None


def look_up(root, where):
    """The kind that a reference stands for, and what is wrong with it or None."""
    path, _, name = (part.strip() for part in where.partition(":"))
    if path == "tests":
        return "run", test_problem(root, name)
    if path.endswith(".rt"):
        kind = "contract"
    elif "/specs/" in path:
        kind = "definition"
    elif path.endswith(".antt"):
        kind = "theorem"
    else:
        kind = "run"
    file = next((f for f in (root / "crates" / path, root / path) if f.is_file()), None)
    if file is None:
        return kind, f"no file {path}"
    text = file.read_text(encoding="utf-8")
    if path.endswith(".antt"):
        found = name and antt_declares(text, name)
    elif path.endswith(".rt"):
        found = rt_declares(text, name)
    else:
        found = name in text
    return kind, None if found else f"{path} does not declare '{name}'"


def rows(text):
    """The line number and the cells of each row of each table, without heads and exceptions."""
    text = text.split("\n## Exceptions", 1)[0]
    for number, line in enumerate(text.split("\n"), 1):
        if not line.startswith("|"):
            continue
        cells = [c.strip() for c in re.split(r"(?<!\\)\|", line.strip())[1:-1]]
        if all(re.fullmatch(r":?-+:?", c) for c in cells) or "Kept by" in cells:
            continue
        yield number, cells


def row_problems(root, cells):
    """The problems of a row, and whether it is still open."""
    if len(cells) != 3:
        return [f"{len(cells)} cells where 3 are wanted"], False
    said = [k.strip() for k in cells[1].split(",")]
    problems = [f"'{k}' is no kind" for k in said if k not in KINDS]
    if cells[2] == "not yet":
        return problems, True
    references = re.findall(r"`([^`]+)`", cells[2])
    if not references or re.sub(r"`[^`]+`|;|\s", "", cells[2]):
        problems.append("the last cell is neither `not yet` nor names in backquotes")
    kinds = []
    for reference in references:
        kind, problem = look_up(root, reference)
        kinds.append(kind)
        if problem:
            problems.append(problem)
    if references and set(kinds) != set(said):
        problems.append(f"said to be kept by {cells[1]}, but names {', '.join(sorted(set(kinds)))}")
    return problems, False


def main(arguments):
    finished = "--finished" in arguments
    places = [a for a in arguments if a != "--finished"]
    root = Path(places[0]) if places else Path(__file__).resolve().parent.parent
    page = root / "docs" / "PROMISES.md"
    if not page.is_file():
        print(f"{page}: no such file")
        return 1
    count = still_open = wrong = 0
    for number, cells in rows(page.read_text(encoding="utf-8")):
        count += 1
        problems, is_open = row_problems(root, cells)
        still_open += is_open
        if is_open and finished:
            problems.append("not yet kept")
        for problem in problems:
            print(f"docs/PROMISES.md:{number}: {problem}")
        wrong += len(problems)
    if count == 0:
        print("docs/PROMISES.md: no rows")
        wrong += 1
    print(f"promises: {count} rows, {still_open} not yet, {wrong} problems")
    return 1 if wrong else 0


if __name__ == "__main__":
    sys.exit(main(sys.argv[1:]))
