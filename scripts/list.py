#!/bin/sh
''':'
# Python does not even start if standard input is a folder, so a shell looks first.
[ ! -d /dev/stdin ] || { echo "standard input: cannot be read: it is a folder; name a sheet in it" >&2; exit 2; }
exec python3 "$0" "$@"

Lists a sheet, and says in words why a sheet is refused.

    scripts/list.py [--] [SHEET]

Without SHEET, or with `-`, the sheet comes from standard input; write `--` before a name that begins with a dash.
Standard output gets what the program prints, byte for byte. If the sheet is refused, standard error says what is
wrong, where (lines and columns count from 1) and what to do.

Exit status: 0 for a listing, 1 for a refused sheet, 2 if the sheet cannot be read, the listing cannot be written, or
the program is missing or broken. The program is target/bin/sazamkhri, or the file that the environment variable
SAZAMKHRI_PROGRAM names.
'''
import errno
import os
import re
import signal
import subprocess
import sys
from pathlib import Path

from listings import NoListing, read_in
from refusals import LIMIT, Sheet, refusal_words
from shown_text import shown

PROGRAM = Path(__file__).resolve().parent.parent / "target" / "bin" / "sazamkhri"
USAGE = """usage: scripts/list.py [--] [SHEET]

Lists the sheet, or the one on standard input; says in words why it is refused.
Exit status: 0 listed, 1 refused, 2 cannot read or write.
"""
PATIENCE = 60  # seconds; the program needs far less than one
AGAIN = "build it anew with `make program`"
FAULTS = {
    errno.ENOENT: "there is no such file; check the name and the folder",
    errno.EISDIR: "it is a folder; name a sheet in it",
    errno.EACCES: "you have no permission; ask the owner of the file",
    errno.EBADF: "it is closed",
    errno.ENOSPC: "the disk is full; make room and try again",
    errno.EPIPE: "the program that should read it has gone",
}
REFUSED = re.compile(rb"refused=(\d{1,9}) (\d{1,9})\n")


class Trouble(Exception):
    """What cannot be read, run or written, in words; the exit status is 2."""


def reason(error):
    return FAULTS.get(error.errno, os.strerror(error.errno or 0))


def write_all(stream, text):
    os.set_blocking(stream, True)
    while text:
        text = text[os.write(stream, text) :]


def tell(words):
    """Says it on standard error. If that cannot be written, the exit status still tells."""
    try:
        write_all(2, f"{words}\n".encode(sys.getfilesystemencoding(), "backslashreplace"))
    except OSError:
        pass


def sheet_named(arguments):
    """The file's name, or None for standard input."""
    names = arguments[1:] if arguments[:1] == ["--"] else arguments
    if len(names) > 1:
        raise Trouble(f"{shown(names[0])}: one sheet at a time, but {shown(names[1])} is named as well; "
                      "put a name with spaces in quotes")
    if names == arguments and re.match("-.", "".join(names), re.S):
        raise Trouble(f"{shown(names[0])}: no such option; if it is a sheet, write -- and a space before it")
    if names == [""]:
        raise Trouble("no sheet was named")
    return None if names in ([], ["-"]) else names[0]


def read_sheet(name):
    told = "standard input" if name is None else shown(name)
    try:
        with open(0 if name is None else name, "rb", closefd=name is not None) as source:
            os.set_blocking(source.fileno(), True)
            # Behind a sheet that is too long a whole character more, so that what is shown of it is text.
            text, size = source.read(LIMIT + 4), os.fstat(source.fileno()).st_size
    except OSError as error:
        raise Trouble(f"{told}: cannot be read: {reason(error)}") from error
    return Sheet(told, text, f"{size:,}" if name is not None and size > LIMIT else "more than 24,576")


def run_program(sheet):
    program = os.path.join(os.curdir, os.environ.get("SAZAMKHRI_PROGRAM") or PROGRAM)
    told = f"{sheet.name}: the program {shown(program)}"
    try:
        return subprocess.run([program], input=sheet.text, stdout=subprocess.PIPE, stderr=subprocess.DEVNULL,
                              timeout=PATIENCE)
    except FileNotFoundError as error:
        raise Trouble(f"{told} is missing; build it with `make program`") from error
    except OSError as error:
        raise Trouble(f"{told} cannot be run: {reason(error)}; {AGAIN}") from error
    except subprocess.TimeoutExpired as error:
        raise Trouble(f"{told} did not end within {PATIENCE} seconds; {AGAIN}") from error


def write_listing(sheet, printed):
    try:
        write_all(1, printed)
        os.close(1)  # some disks tell only now that they are full
    except OSError as error:
        raise Trouble(f"{sheet.name}: the listing cannot be written to standard output: {reason(error)}") from error


def is_listing(printed):
    """Whether it reads as a listing. How pairs are ranked is the program's to know."""
    try:
        read_in(printed.decode("latin-1"))
    except NoListing:
        return False
    return True


def status_of(sheet, run):
    """0 for a listing, 1 for a refusal, which is told in words."""
    if run.returncode:
        how = f"with status {run.returncode}" if run.returncode > 0 else f"by signal {-run.returncode}"
        raise Trouble(f"{sheet.name}: the program ended {how}, so do not use what it printed; {AGAIN}")
    refused = REFUSED.fullmatch(run.stdout)
    if refused:
        tell(refusal_words(sheet, int(refused[1]), int(refused[2])))
        return 1
    if is_listing(run.stdout):
        return 0
    raise Trouble(f"{sheet.name}: the program printed neither a listing nor a refusal; {AGAIN}")


def main(arguments):
    if signal.getsignal(signal.SIGINT) is signal.default_int_handler:
        signal.signal(signal.SIGINT, signal.SIG_DFL)  # an interrupt ends the script without a word
    try:
        if arguments in (["-h"], ["--help"]):
            write_all(1, USAGE.encode())
            return 0
        sheet = read_sheet(sheet_named(arguments))
        run = run_program(sheet)
        write_listing(sheet, run.stdout)
        return status_of(sheet, run)
    except Trouble as trouble:
        tell(trouble)
        return 2


if __name__ == "__main__":
    sys.exit(main(sys.argv[1:]))
