#!/usr/bin/env python3
"""Proves and builds what users run, quietly.

    scripts/build.py PRODUCT..

    program   target/bin/sazamkhri
    host      target/staticlib/libhost.a, the library for C
    probe     target/staticlib/libprobe.a, for the trials and the benchmark

What is there, and was made from the sources as they stand, is left alone without a word. Otherwise one line on
standard error says what happens and how long it takes, and then how many crates are proved. All that the prover says
is kept in target/log/build.out, and shown if a proof fails. `rt` works in crates/*/out/, and what it has made there is
copied to its place.

Exits with the status of `rt` that failed; with 1 if what was made is not there, if the program prints something else
than is stored beside it, or if the sources changed meanwhile; with 2 if `rt` cannot be run or files cannot be read or
written.
"""
import hashlib
import os
import queue
import shutil
import subprocess
import sys
import tempfile
import threading
import time
from pathlib import Path

ROOT = Path(__file__).resolve().parent.parent
TARGET = ROOT / "target"
LOG = TARGET / "log" / "build.out"

# Each product: its crate, the command of rt that makes it, where it is put, and its name in words.
PRODUCTS = {
    "program": ("sazamkhri", "run", "bin/sazamkhri", "the program"),
    "host": ("host", "lib", "staticlib/libhost.a", "the library for C"),
    "probe": ("probe", "lib", "staticlib/libprobe.a", "the library for tests"),
}
# The products run on every x86-64 processor. Where rt is not told, they need a newer one.
PROCESSOR = ("--cpu", "x86-64")
PARTS = ("src", "specs", "proofs", "stdin", "stdout", "args", "status", "data")
# Seconds between two signs of life, where no terminal shows a line that changes.
PAUSE = 15


class Trouble(Exception):
    """Why nothing can be built, in words, and the exit status."""

    def __init__(self, words, status):
        super().__init__(words)
        self.status = status


def say(text):
    """Tells the user. If nobody can be told, the work goes on, and the exit status tells."""
    rest = text.encode("utf-8", "backslashreplace")
    try:
        while rest:
            rest = rest[os.write(2, rest) :]
    except OSError:
        pass


def crate_of(product):
    return PRODUCTS[product][0]


def words_for(product):
    """What rt is told, in the crate's folder, to make a product."""
    return (PRODUCTS[product][1], *PROCESSOR)


def place_of(product):
    """Where a product is used."""
    return TARGET / PRODUCTS[product][2]


def made_by(product):
    """What rt makes in the crate's folder."""
    return ROOT / "crates" / crate_of(product) / "out" / place_of(product).name


# ---- what has changed


def dependencies():
    """The crates of crates.txt, each with those of them that it uses."""
    lines = [line.split("#")[0] for line in (ROOT / "crates.txt").read_text(encoding="utf-8").splitlines()]
    parts = [line.partition(":") for line in lines if line.strip(": ")]
    listed = {head.split()[0]: uses.split() for head, _, uses in parts if head.strip()}
    lost = [crate_of(p) for p in PRODUCTS if crate_of(p) not in listed]
    if lost:
        raise Trouble(f"crates.txt does not list {' and '.join(lost)}.", 2)
    return {name: [d for d in uses if d in listed] for name, uses in listed.items()}


def needed(crates, uses):
    """These crates and all that they stand on."""
    found = set()
    left = list(crates)
    while left:
        crate = left.pop()
        if crate not in found:
            found.add(crate)
            left.extend(uses[crate])
    return found


def files_of(crate):
    """All files of a crate that rt looks at."""
    for part in PARTS:
        place = ROOT / "crates" / crate / part
        yield from [place] if place.is_file() else sorted(f for f in place.rglob("*") if f.is_file())


def sources(product, uses, kit):
    """A digest of all that a product is made from: the kit, what it is told, and every byte of every file."""
    sums = hashlib.sha256(kit + repr(words_for(product)).encode())
    crates = sorted(needed([crate_of(product)], uses))
    for file in [ROOT / "crates.txt", *(f for crate in crates for f in files_of(crate))]:
        body = file.read_bytes()
        sums.update(b"%s %d\n" % (os.fsencode(file.relative_to(ROOT)), len(body)) + body)
    return sums.hexdigest().encode()


def stamp(product):
    """Where it is noted what a product was made from."""
    return TARGET / "made" / product


def note(product, digest):
    """What is noted: the sources, and the product itself, so that another file in its place is seen."""
    return digest + b" " + hashlib.sha256(place_of(product).read_bytes()).hexdigest().encode()


def is_made(product, uses, kit):
    there = place_of(product).is_file() and stamp(product).is_file()
    return there and stamp(product).read_bytes() == note(product, sources(product, uses, kit))


# ---- building


class Meter:
    """How many crates are proved: one line that changes on a terminal, else a line now and then."""

    def __init__(self, total):
        self.total, self.proved, self.latest = total, set(), ""
        self.began = self.shown = time.monotonic()
        self.terminal = os.isatty(2)

    def add(self, crate):
        if crate not in self.proved:
            self.proved.add(crate)
            self.latest = crate
            self.show()

    def tick(self):
        if self.terminal or time.monotonic() - self.shown >= PAUSE:
            self.show()

    def show(self):
        self.shown = time.monotonic()
        latest = f", {self.latest} the last" if self.latest else ""
        line = f"  {len(self.proved)} of {self.total} crates proved, {self.shown - self.began:.0f} s so far{latest}"
        say(f"\r\033[K{line}" if self.terminal else f"{line}\n")

    def end(self):
        say("\n" if self.terminal else "")


def lines_of(stream):
    """The lines of a stream, and None about once a second while it is silent."""
    lines = queue.Queue()

    def read():
        for line in stream:
            lines.put(line)
        lines.put("")

    threading.Thread(target=read, daemon=True).start()
    while True:
        try:
            line = lines.get(timeout=1)
        except queue.Empty:
            yield None
            continue
        if not line:
            return
        yield line


def run(crate, words, meter, log):
    """Runs rt in a crate's folder, and gives its status. A program is run too, and must print what is stored beside it."""
    folder = ROOT / "crates" / crate
    given, stored = folder / "stdin", folder / "stdout"
    runs = words[0] == "run"
    # The settings of whoever calls play no part.
    own = {name: value for name, value in os.environ.items() if not name.startswith("RT_")}
    with open(given if runs and given.is_file() else os.devnull, "rb") as stdin, tempfile.TemporaryFile() as printed:
        process = subprocess.Popen(
            ["rt", *words], cwd=folder, env=own, stdin=stdin, stdout=printed if runs else subprocess.PIPE,
            stderr=subprocess.PIPE if runs else subprocess.STDOUT, encoding="utf-8", errors="replace",
        )
        for line in lines_of(process.stderr if runs else process.stdout):
            log.extend([line] if line else [])
            meter.tick()
        status = process.wait()
        printed.seek(0)
        if runs and status == 0 and printed.read() != stored.read_bytes():
            log.append(f"The program prints something else than {stored.relative_to(ROOT)} has.\n")
            status = 1
    return status


def commands(products, uses):
    """What is run for these products, each with its crate. A crate comes behind those that it stands on."""
    crates = [crate_of(p) for p in products]
    below = sorted(needed(crates, uses) - set(crates), key=lambda crate: (len(needed([crate], uses)), crate))
    return [(crate, ("lib",)) for crate in below] + [(crate_of(p), words_for(p)) for p in products]


def clear(product):
    """Removes what stands in the product's place, and what rt made before: what is there afterwards was made anew."""
    for file in (place_of(product), stamp(product), made_by(product)):
        file.unlink(missing_ok=True)


def put(product):
    """Puts what rt has made in its place, whole or not at all."""
    place = place_of(product)
    if not made_by(product).is_file():
        raise Trouble(f"rt has not made {made_by(product).relative_to(ROOT)}.", 1)
    place.parent.mkdir(parents=True, exist_ok=True)
    new = place.with_name(place.name + ".new")
    shutil.copy(made_by(product), new)
    new.replace(place)


def prove(products, uses):
    """Has rt prove and build these products; shows its words if it cannot."""
    names = " and ".join(PRODUCTS[p][3] for p in products)
    say(f"Proving and building {names}: about four minutes on two cores, and only this once.\n")
    meter, log = Meter(len(needed([crate_of(p) for p in products], uses))), []
    try:
        for crate, words in commands(products, uses):
            status = run(crate, words, meter, log)
            if status != 0:
                meter.end()
                say("".join(log))
                raise Trouble(f"Not proved and built: {crate}. These words are in {LOG.relative_to(ROOT)} too.", status)
            meter.add(crate)
        meter.end()
    finally:
        LOG.parent.mkdir(parents=True, exist_ok=True)
        LOG.write_text("".join(log), encoding="utf-8")


def build(products, uses, kit):
    """Makes these products, and notes what they were made from."""
    before = {product: sources(product, uses, kit) for product in products}
    for product in products:
        clear(product)
    prove(products, uses)
    for product, digest in before.items():
        put(product)
        if sources(product, uses, kit) != digest:
            raise Trouble("The sources changed while they were proved. Call this again.", 1)
        stamp(product).parent.mkdir(parents=True, exist_ok=True)
        stamp(product).write_bytes(note(product, digest))


def kit_name():
    try:
        return subprocess.run(["rt", "version"], check=True, capture_output=True).stdout
    except (OSError, subprocess.CalledProcessError) as fault:
        raise Trouble(f"The command rt of the Rattle kit cannot be run here: {fault}", 2) from fault


def main(words):
    if not words or not set(words) <= set(PRODUCTS):
        say(f"usage: scripts/build.py {' | '.join(PRODUCTS)} ..\n")
        return 2
    try:
        kit, uses = kit_name(), dependencies()
        stale = [p for p in dict.fromkeys(words) if not is_made(p, uses, kit)]
        if stale:
            build(stale, uses, kit)
        return 0
    except Trouble as trouble:
        say(f"{trouble}\n")
        return trouble.status
    except (OSError, UnicodeDecodeError) as fault:
        say(f"Cannot build here: {fault}\n")
        return 2
    except KeyboardInterrupt:
        say("\nStopped. The crates that are proved stay so.\n")
        return 130


if __name__ == "__main__":
    sys.exit(main(sys.argv[1:]))
