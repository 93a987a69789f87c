#!/usr/bin/env python3
"""Checks that README's reading list has every file that the demands rest on.

    scripts/check-reading.py [ROOT]

Starts from the files that state what is promised, and follows their `use` lines through specs/: each
definition file that is reached must be named in README's section 'What to read to believe it', by its
path or by its folder. Exits with 1 if one is missing, if README names a file that is not there, or if a
statement is seen to use no definition at all.
"""
import re
import sys
from pathlib import Path

# The statements: the package's demands and the join's, which parameter is which, and the contracts that are records of
# their own.
START = (
    "crates/demands/proofs/Demands.antt",
    "crates/join/proofs/Demands.antt",
    "crates/join/proofs/Only.antt",
    "crates/heat/proofs/Only.antt",
    "crates/listing/specs/Calls.antt",
    "crates/host/specs/Call.antt",
)
SECTION = "## What to read to believe it"


def used(text):
    """The definition files that a file uses: crate and name."""
    return {
        (m.group(1), m.group(2))
        for m in re.finditer(r"^(?:pub )?use Rattle\.(\w+)\.specs\.([A-Z]\w*)\b", text, re.M)
    }


def main(arguments):
    root = Path(arguments[0]) if arguments else Path(__file__).resolve().parent.parent
    reached, todo = set(), list(START)
    while todo:
        path = todo.pop()
        if path in reached:
            continue
        reached.add(path)
        text = (root / path).read_text(encoding="utf-8")
        for crate, name in used(text):
            file = f"crates/{crate}/specs/{name}.antt"
            if (root / file).is_file():
                todo.append(file)
    readme = (root / "README.md").read_text(encoding="utf-8")
    section = readme.split(SECTION, 1)[1].split("\n## ", 1)[0]
    named = set(re.findall(r"`(crates/[^`*]+)`", section))
    wrong = 0
    for path in START:
        if not used((root / path).read_text(encoding="utf-8")):
            print(f"{path} uses no definition")
            wrong += 1
    for path in sorted(reached):
        if path not in named and not any(n.endswith("/") and path.startswith(n) for n in named):
            print(f"README does not name {path}")
            wrong += 1
    for name in sorted(named):
        if not (root / name).exists():
            print(f"README names {name}, which is not there")
            wrong += 1
    print(f"reading list: {len(reached)} files that the demands rest on, {wrong} problems")
    return 1 if wrong else 0


if __name__ == "__main__":
    sys.exit(main(sys.argv[1:]))
