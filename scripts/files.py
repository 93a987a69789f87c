"""Files of the lesson's scripts: what is named, read and written, and what a user is told if that fails."""
import os
import signal

from listings import MOST_BYTES, NoListing, listing_in


class Fault(Exception):
    """What a user is told, with the exit status that goes with it."""

    def __init__(self, status, words):
        super().__init__(words)
        self.status = status


def files_named(arguments, most, usage):
    """The files of the command line: one at least, where `-` is standard input."""
    signal.signal(signal.SIGINT, signal.SIG_DFL)  # who waits for nothing may leave without a traceback
    if arguments[:1] == ["--"]:
        files, options = arguments[1:], []
    else:
        files, options = arguments, [a for a in arguments if a.startswith("-") and a != "-"]
    if options or len(files) > most or files.count("-") > 1:
        raise Fault(2, usage.strip())
    return files or ["-"]


def called(file):
    """A file as messages call it: awkward names are escaped."""
    if file == "-":
        return "standard input"
    return file if file and file.isprintable() else ascii(file)


def text_of(file, most):
    """The text of a file, a character for each byte; one byte more than `most` is the most that is read."""
    try:
        with open(0 if file == "-" else file, "rb", closefd=file != "-") as opened:
            return (opened.read(most + 1) or b"").decode("latin-1")
    except OSError as error:
        raise Fault(2, f"{called(file)}: cannot be read: {error.strerror}") from None


def put(text):
    """Writes a text to standard output, without a buffer that could fail after the last line of this script."""
    rest = text.encode("utf-8")
    try:
        while rest:
            rest = rest[os.write(1, rest) :]
    except OSError as error:
        raise Fault(2, f"standard output: cannot be written: {error.strerror}") from None


def told(fault):
    """Says on standard error what is wrong; the status holds even if nobody can be told."""
    try:
        os.write(2, f"{fault}\n".encode("utf-8", "backslashreplace"))
    except OSError:
        pass
    return fault.status


def listing_of(file):
    """The listing in a file. Endless input ends: little more than the longest listing is read."""
    try:
        return listing_in(text_of(file, MOST_BYTES))
    except NoListing as fault:
        raise Fault(1, f"{called(file)}, line {fault.line}: {fault}") from None
