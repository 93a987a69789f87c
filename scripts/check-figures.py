#!/usr/bin/env python3
"""Checks that what is told in more than one place is told alike: version, refusals, limits, ratios, times, kinds of
trials, and the names of files and commands.

    scripts/check-figures.py [ROOT]

Exits with 1 if two places differ, or if one of them is not found.
"""
import re
import sys
from pathlib import Path

PAGES = ("README.md", "CONTRIBUTING.md", "CHANGELOG.md", "docs/LESSON.md", "docs/CATALOGUES.md", "docs/TWO-FINGERS.md",
         "docs/DECISIONS.md", "docs/PROMISES.md", "docs/BENCHMARKS.md", "docs/PORT.md", "docs/DESIGN-PASS.md", "docs/LOOK-BACK.md",
         "examples/refused/README.md", "tests/README.md", "scripts/README.md")
# What a page may name although it is made only later, or stands for any name.
MADE = ("target/", "crates/NAME", "crates/*", "docs/landings", "examples/refused/NAME")


class Text:
    """A file's text; what is looked for must be there."""

    def __init__(self, root, name):
        self.name = name
        self.text = (root / name).read_text(encoding="utf-8")

    def find(self, pattern):
        found = re.findall(pattern, self.text, re.M)
        if not found:
            raise ValueError(f"{self.name}: nothing matches {pattern}")
        return found


def number(text):
    return int(text.replace(",", "").replace("_", ""))


def differ(what, told):
    """What is wrong if not all places tell the same: the places, each with what it tells."""
    return [] if len(set(map(str, told.values()))) == 1 else [f"{what}: {told}"]


def version(root):
    header = Text(root, "host/sazamkhri.h")
    parts = [header.find(rf"#define SAZAMKHRI_VERSION_{part} (\d+)$")[0] for part in ("MAJOR", "MINOR", "PATCH")]
    return differ("version", {
        "SAZAMKHRI_VERSION": header.find(r'#define SAZAMKHRI_VERSION "([^"]+)"')[0],
        "its three parts": ".".join(parts),
        "CHANGELOG.md": Text(root, "CHANGELOG.md").find(r"^## (\S+)")[0],
    })


def refusals(root):
    """The numbers of the refusals, in every table of them."""
    return differ("refusals", {
        "README.md": [int(n) for n in Text(root, "README.md").find(r"^\| (\d+) \|")],
        "host/sazamkhri.h": [int(n) for n in Text(root, "host/sazamkhri.h").find(r"^ *SAZAMKHRI_[A-Z_]+ = (\d+)\b")],
        "scripts/refusals.py": [int(n) for n in Text(root, "scripts/refusals.py").find(r"^    (\d+): Refusal\(")],
    })


def limits(root):
    readme = Text(root, "README.md")
    header = Text(root, "host/sazamkhri.h")
    listing = Text(root, "crates/listing/src/lib.rt")
    front = Text(root, "scripts/refusals.py")
    wrong = differ("bytes of a sheet", {
        "README.md": number(readme.find(r"^\| a sheet for the program or the host \| ([\d,]+) bytes")[0]),
        "host/sazamkhri.h": number(header.find(r"#define SAZAMKHRI_SHEET_LIMIT (\d+)")[0]),
        "crates/sazamkhri": number(Text(root, "crates/sazamkhri/src/main.rt").find(r"INPUT: usize = (\d+)")[0]) - 1,
        "scripts/refusals.py": number(front.find(r"^LIMIT = (\d+)")[0]),
    })
    wrong += differ("pairs of a listing", {
        "README.md": number(readme.find(r"^\| pairs listed \(k\) \| 1 to (\d+) \|")[0]),
        "host/sazamkhri.h": number(header.find(r"#define SAZAMKHRI_PAIRS_LIMIT (\d+)$")[0]),
        "crates/tables": number(Text(root, "crates/tables/src/lib.rt").find(r"if k == 0 \|\| k > (\d+)")[0]),
    })
    wrong += differ("words of an entry", {
        "README.md, refusals": number(readme.find(r"^\| 6 \| the list buffer has under (\d+)k words")[0]),
        "README.md, limits": number(readme.find(r"^\| list of the join \| (\d+) words of 16 bits")[0]),
        "host/sazamkhri.h": number(header.find(r"#define SAZAMKHRI_ENTRY_WORDS (\d+)$")[0]),
        "crates/entries": number(Text(root, "crates/entries/src/lib.rt").find(r"const WIDTH: usize = (\d+)")[0]),
    })
    wrong += differ("pairs on the trail", {
        "README.md": number(readme.find(r"^\| trail of the program and the host \| ([\d,]+) pairs")[0]),
        "crates/listing": number(listing.find(r"const TRAIL: usize = 2 \* (\d+)")[0]),
    })
    wrong += differ("words of the work area", {
        "README.md": number(readme.find(r"^\| work area of the join \| ([\d,]+) words")[0]),
        "crates/join": number(Text(root, "crates/join/src/lib.rt").find(r"const WORK: usize = (\d+)")[0]),
        "docs/DECISIONS.md": number(Text(root, "docs/DECISIONS.md").find(r"of the ([\d,]+) words\. A context is told")[0]),
    })
    return wrong


def ratios(root):
    bench = Text(root, "docs/BENCHMARKS.md")
    readme = Text(root, "README.md")
    ranges = r"([\d.]+ to\s+[\d.]+)"
    plain = lambda found: re.sub(r"\s+", " ", found[0])
    wrong = differ("join / topk-join", {
        "docs/BENCHMARKS.md": plain(bench.find(rf"plain topk-join the proved join takes {ranges} of the time")),
        "README.md": plain(readme.find(rf"^About {ranges} times the time of a plain topk-join")),
    })
    wrong += differ("join / all-pairs", {
        "docs/BENCHMARKS.md": plain(bench.find(rf"plain all-pairs it takes {ranges} of the time")),
        "README.md": plain(readme.find(rf"and {ranges} times that of plain all-pairs")),
    })
    rows = bench.text.split("Host call:")[1].split("\n## ")[0]
    said = bench.find(r"\*\*(\d+) of the (\d+) rows end in refusal 8")[0]
    wrong += differ("host rows that end in 8", {
        "said": tuple(map(int, said)),
        "table": (rows.count("| refusal 8 |"), len(re.findall(r"^\| \d", rows, re.M))),
    })
    return wrong


def times(root):
    """How long the first run and the gate take."""
    readme, makefile = Text(root, "README.md"), Text(root, "Makefile")
    page, build = Text(root, "CONTRIBUTING.md"), Text(root, "scripts/build.py")
    wrong = differ("minutes of the first run", {
        "README.md": readme.find(r"builds the program, which takes (about \w+ minutes)")[0],
        "CONTRIBUTING.md": page.find(r"builds what they need first \| (about \w+ minutes), once")[0],
        "scripts/build.py": build.find(r"building \{names\}: (about \w+ minutes)")[0],
    })
    return wrong + differ("minutes of the gate", {
        "README.md": readme.find(r"It takes (\d+ to \d+ minutes) on two cores")[0],
        "CONTRIBUTING.md": page.find(r"\| the gate \| (\d+ to \d+ minutes) \|")[0],
        "Makefile": makefile.find(r"^#: make test .*; (\d+ to \d+ minutes)$")[0],
    })


def kinds(root):
    """The kinds of trials: those that there are, and wherever all of them are told."""
    choice, page = Text(root, "tests/src/choice.rs"), Text(root, "tests/README.md")
    runs = [file.read_text(encoding="utf-8") for file in root.glob("tests/src/runs/*.rs")]
    there = [name for text in runs for name in re.findall(r'^    name: "(\w+)",$', text, re.M)]
    quoted = lambda line: sorted(re.findall(r'["`](\w+)["`]', line))
    rows = page.find(r"^\| `trials (\w+)(?: PATH)?` \|")
    wrong = differ("kinds of trials", {
        "tests/src/runs": sorted(there),
        "all in tests/src/choice.rs": quoted(choice.find(r'^        "all" => (.*)$')[0]),
        "the use in tests/src/choice.rs": sorted(choice.find(r"^KIND     (.*)$")[0].split(" | ")),
        "all in tests/README.md": quoted(page.find(r"^\| `trials all PATH` \| (.*), one after the other \|")[0]),
        "the rows of tests/README.md": sorted(set(rows) - {"sheets", "all"}),
    })
    return wrong + differ("cases of a run with a million of each kind", {
        "the kinds": 1_000_000 * len(there),
        "tests/README.md": number(page.find(r"^    trials: (\d+) cases, no difference")[0]),
    })


def names(root):
    """Every file and every `make` target that a page names is there."""
    targets = set(Text(root, "Makefile").find(r"^([a-z]+):"))
    wrong = [f"{page.relative_to(root)}: not among the pages that are looked at" for page in root.glob("docs/*.md")
             if str(page.relative_to(root)) not in PAGES]
    for page in (root / name for name in PAGES):
        text = page.read_text(encoding="utf-8")
        told = page.relative_to(root)
        for name in re.findall(r"(?:^|`)make ([a-z]+)\b", text, re.M):
            if name not in targets:
                wrong.append(f"{told}: there is no `make {name}`")
        for path in re.findall(r"`((?:scripts|examples|docs|host|tests|bench|crates|\.ci)/[^\s`:]*)", text):
            if not path.startswith(MADE) and not any((root / "crates").glob(path)) and not any(root.glob(path)):
                wrong.append(f"{told}: there is no {path}")
        for link in re.findall(r"\]\(([^)#\s]+)\)", text):
            if "://" not in link and not (page.parent / link).exists():
                wrong.append(f"{told}: a link to {link}, which is not there")
    return wrong


def scripts(root):
    """The scripts that are there are those that scripts/README.md tells of."""
    there = {p.name for p in (root / "scripts").iterdir() if p.suffix in (".py", ".sh")}
    told = set(Text(root, "scripts/README.md").find(r"`([\w-]+\.(?:py|sh))`"))
    return [f"scripts/README.md: {name} is told of or there, not both" for name in sorted(there ^ told)]


def main(arguments):
    root = Path(arguments[0]) if arguments else Path(__file__).resolve().parent.parent
    wrong = []
    checks = (version, refusals, limits, ratios, times, kinds, names, scripts)
    for check in checks:
        try:
            wrong += check(root)
        except (OSError, ValueError) as fault:
            wrong.append(f"{check.__name__}: {fault}")
    for problem in wrong:
        print(problem)
    print(f"figures and names: {len(checks)} checks, {len(wrong)} problems")
    return 1 if wrong else 0


if __name__ == "__main__":
    sys.exit(main(sys.argv[1:]))
