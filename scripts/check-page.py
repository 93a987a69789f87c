#!/usr/bin/env python3
"""Checks that what a reader must read fits the page, and that no proof file has grown too long.

    scripts/check-page.py [ROOT]

Definitions (specs/), code with its contracts (src/) and the demands have no line over 150
characters. A proof file has at most 200 lines: a longer one lacks a law. Exits with 1 otherwise.
"""
import sys
from pathlib import Path

# The folders of a crate that people write.
ROOMS = ("proofs", "specs", "src")
WIDTH = 150
LINES = 200
# Files of proofs/ that state the demands: these are read, too.
STATEMENTS = ("Demands.antt",)


def main(arguments):
    root = Path(arguments[0]) if arguments else Path(__file__).resolve().parent.parent
    wrong = files = 0
    for file in sorted(f for room in ROOMS for f in (root / "crates").glob(f"*/{room}/**/*")):
        if file.suffix not in (".antt", ".rt") or not file.is_file():
            continue
        files += 1
        room = file.relative_to(root).parts[2]
        lines = file.read_text(encoding="utf-8").splitlines()
        if room in ("specs", "src") or file.name in STATEMENTS:
            for number, line in enumerate(lines, 1):
                if len(line) > WIDTH:
                    print(f"{file.relative_to(root)}:{number}: {len(line)} characters")
                    wrong += 1
        if room == "proofs" and len(lines) > LINES:
            print(f"{file.relative_to(root)}: {len(lines)} lines")
            wrong += 1
    if files == 0:
        print("no files")
        wrong += 1
    print(f"page: {files} files, {wrong} problems")
    return 1 if wrong else 0


if __name__ == "__main__":
    sys.exit(main(sys.argv[1:]))
