#!/usr/bin/env python3
"""Runs the commands of a page from the project's root, and compares what they print.

    scripts/check-lesson.py [PAGE..]        no PAGE: docs/LESSON.md, docs/CATALOGUES.md and docs/TWO-FINGERS.md

Each block marked `sh` is followed by a block marked `text` with its standard output, byte for byte (nothing
for a block that prints nothing). A block stops at the first command that fails, also inside a pipe, and its
own status must be 0. What it says on standard error is shown only with a problem.

Status: 0 fine; 1 a block prints something else or fails, or a page has a block without its output, or no
block at all; 2 a page cannot be read.
"""
import os
import re
import subprocess
import sys
from pathlib import Path

ROOT = Path(__file__).resolve().parent.parent
PAGES = tuple(ROOT / "docs" / name for name in ("LESSON.md", "CATALOGUES.md", "TWO-FINGERS.md"))
COMMANDS = re.compile(rb"^```sh\n(.*?)^```$", re.M | re.S)
OUTPUT = re.compile(rb"\s*^```text\n(.*?)^```$", re.M | re.S)


def shown(data):
    return data.decode("utf-8", "backslashreplace")


def steps_of(text):
    """Each block of commands with its line and its output, or None where that is missing."""
    for block in COMMANDS.finditer(text):
        output = OUTPUT.match(text, block.end())
        yield text.count(b"\n", 0, block.start()) + 1, block.group(1), output.group(1) if output else None


def problem(commands, expected):
    """What is wrong with a step, or None."""
    if expected is None:
        return "no block marked `text` behind it\n"
    # A reader types the commands in a shell of their own, not below the `make` that runs this check.
    own = {name: value for name, value in os.environ.items() if not name.startswith(("MAKE", "MFLAGS"))}
    run = subprocess.run(
        ["bash", "-e", "-o", "pipefail", "-c", commands],
        cwd=ROOT, env=own, stdin=subprocess.DEVNULL, capture_output=True,
    )
    if run.returncode == 0 and run.stdout == expected:
        return None
    return (
        f"--- expected, with status 0\n{shown(expected)}"
        f"--- printed, with status {run.returncode}\n{shown(run.stdout)}--- said on standard error\n{shown(run.stderr)}"
    )


def check(page, text):
    """Runs a page's steps, tells of each problem, and gives the number of problems."""
    steps = wrong = 0
    for line, commands, expected in steps_of(text):
        steps += 1
        found = problem(commands, expected)
        if found:
            wrong += 1
            print(f"--- {page}, line {line}\n{shown(commands)}{found}", end="")
    # A block that the pattern does not see would not be run: it is indented, or never closed.
    unseen = len(re.findall(rb"^[ \t]*(?:```|~~~)[ \t]*(?:sh|bash|zsh|shell|console)\b", text, re.M)) - steps
    if unseen or not steps:
        wrong += 1
        print(f"--- {page}: blocks of commands that cannot be read: {unseen}" if unseen else f"--- {page}: no step")
    print(f"{Path(page).name}: {steps} steps, {wrong} problems")
    return wrong


def main(arguments):
    sys.stdout.reconfigure(errors="backslashreplace")  # names in any script, on any terminal
    wrong = 0
    for page in arguments or PAGES:
        try:
            text = Path(page).read_bytes()
        except OSError as error:
            print(f"{page}: cannot be read: {error.strerror}", file=sys.stderr)
            return 2
        wrong += check(page, text)
    return 1 if wrong else 0


if __name__ == "__main__":
    sys.exit(main(sys.argv[1:]))
