#!/usr/bin/env python3
"""Tries the checks of documents and contracts on damaged copies: each must notice.

    scripts/try-checks.py [ROOT]

Damages one thing at a time in a copy of the sources and runs the check that has to refuse it. Exits with 1 if a check does not notice, or refuses the undamaged copy.
"""
import re
import shutil
import subprocess
import sys
import tempfile
from importlib.util import module_from_spec, spec_from_file_location
from pathlib import Path

HERE = Path(__file__).resolve().parent
CHECKS = ("public-functions.py", "check-page.py", "check-promises.py", "check-reading.py", "check-figures.py")


# Figures and names that are told twice: what is damaged, where, and how.
FIGURES = (
    ("another version in CHANGELOG", "CHANGELOG.md", "\n## ", "\n## 9.9.9\n\n## "),
    ("a version whose parts differ", "host/sazamkhri.h", "VERSION_MINOR ", "VERSION_MINOR 9"),
    ("a refusal that README does not tell", "README.md", "\n| 7 | ", "\n| seven | "),
    ("a refusal that the header does not tell", "host/sazamkhri.h", " = 10,", " = 100,"),
    ("a refusal that the front does not tell", "scripts/refusals.py", "\n    12: R", "\n    120: R"),
    ("a cell's refusal that README does not tell", "README.md", "\n| 13 | ", "\n| thirteen | "),
    ("a cell's refusal that the header does not tell", "host/sazamkhri.h", " = 17\n", " = 18\n"),
    ("a cell's refusal that the front does not tell", "scripts/refusals.py", "\n    17: R", "\n    170: R"),
    ("another length of a sheet in README", "README.md", "host | 24,576 bytes", "host | 24,577 bytes"),
    ("another length of a sheet in the front", "scripts/refusals.py", "LIMIT = 24", "LIMIT = 25"),
    ("another number of pairs in the header", "host/sazamkhri.h", "PAIRS_LIMIT 64", "PAIRS_LIMIT 65"),
    ("another list among the refusals", "README.md", "under 5k words", "under 4k words"),
    ("another list among the limits", "README.md", "join | 5 words", "join | 4 words"),
    ("a shorter entry in the header", "host/sazamkhri.h", "ENTRY_WORDS 5", "ENTRY_WORDS 4"),
    ("another trail in README", "README.md", "host | 2,048 pairs", "host | 4,096 pairs"),
    ("another work area in README", "README.md", "join | 10,240 words", "join | 10,241 words"),
    ("another ratio in README", "README.md", "About 0.2 to", "About 0.3 to"),
    ("another count of host rows that end in 8", "docs/BENCHMARKS.md", "**10 of the 18 rows", "**9 of the 18 rows"),
    ("another time of the first run", "README.md", "about four minutes", "about two minutes"),
    ("another time of the gate", "Makefile", "25 to 40 minutes", "10 to 15 minutes"),
    ("a kind of trials that nobody runs", "tests/src/choice.rs", '"doubled", "cell",', '"doubled",'),
    ("a kind of trials that the use does not tell", "tests/src/choice.rs", "doubled | cell |", "doubled |"),
    ("a kind of trials that has no row", "tests/README.md", "| `trials cell` |", "| `trials cells` |"),
    ("a kind of trials that has another name", "tests/src/runs/cell.rs", 'name: "cell"', 'name: "heat"'),
    ("another count of all kinds of trials", "tests/README.md", "trials: 7000000 cases", "trials: 6000000 cases"),
    ("a script that is not there", "README.md", "`scripts/list.py", "`scripts/lists.py"),
    ("a target that is not there", "CONTRIBUTING.md", "`make bench`", "`make benches`"),
    ("a link that leads nowhere", "README.md", "](docs/LESSON.md)", "](docs/LESSONS.md)"),
    ("a script that nobody is told of", "scripts/README.md", "`who-moves.py`", "who-moves"),
)


def public_functions():
    """The script that checks contracts, as a module: its name is none that `import` takes."""
    spec = spec_from_file_location("public_functions", HERE / "public-functions.py")
    module = module_from_spec(spec)
    spec.loader.exec_module(module)
    return module


PUBLIC_FUNCTIONS = public_functions()


def lent(source, name):
    """The buffers that are lent to the function by `&mut`, as its parameters in the source say."""
    text = PUBLIC_FUNCTIONS.blanked(source.read_text(encoding="utf-8"))
    named = next(found for found in PUBLIC_FUNCTIONS.PUBLIC.finditer(text) if found[1] == name)
    parameters, _, _ = PUBLIC_FUNCTIONS.header(text, named.end())
    return [buffer for buffer, is_mut in PUBLIC_FUNCTIONS.parameters_of(parameters) if is_mut]


def verdict(check, root):
    """What a check says: passed, refused, or neither if it breaks down."""
    run = subprocess.run([sys.executable, HERE / check, root], capture_output=True)
    if b"Traceback" in run.stderr:
        return "broke down"
    return {0: "passed", 1: "refused"}.get(run.returncode, "broke down")


def swapped(old, new):
    """A change of text, at the first place."""
    return lambda text: text.replace(old, new, 1)


def rewritten(pattern, new, flags=0):
    """A change by a pattern, at the first place."""
    return lambda text: re.sub(pattern, new, text, count=1, flags=flags)


def inside(pattern, inner, new, flags=0):
    """A change by a pattern inside the second group of another."""
    return rewritten(pattern, lambda m: m[1] + re.sub(inner, new, m[2], count=1, flags=flags))


def throughout(pattern, inner, new, flags=0):
    """A change of every place inside the second group of a pattern."""
    return rewritten(pattern, lambda m: m[1] + re.sub(inner, new, m[2]), flags)


def contract_damages(root, full):
    """What can be wrong with an entry point's contract and theorems: what it is, the file, and the change."""
    crate, name = full.split("::")
    source, proofs = f"crates/{crate}/src/lib.rt", f"crates/{crate}/proofs/Only.antt"
    only, says = f"{name}_only", f"{name}_says"
    ensures = rf"(\bfn {name}\b.*?\n)(    ensures )"
    promised = rf"(\bfn {name}\b)(.*?\n{{\n)"
    stated = rf"(pub {only} : )(OneAnswer[^\n]*(?:\n    [^\n]*)*)"
    whole = stated + rf"(\n{only}[^\n]*(?:\n    [^\n]*)*)"
    yield f"a `requires` on {full}", source, rewritten(ensures, r"\1    requires { 0 < 0 }\n\2", re.S)
    yield f"a contract of {full} that forgets the result", source, throughout(promised, r"\bresult\b", "0", re.S)
    for buffer in lent(root / source, name):
        change = throughout(promised, rf"\b{buffer}\.new\b", f"{buffer}.old", re.S)
        yield f"a contract of {full} that forgets what `{buffer}` holds in the end", source, change
    for what, change in (
        ("that does not name the contract", rewritten(rf"(pub {only} :[^\n]*?)\S+\.Post\b", r"\1Other")),
        ("over another function's contract", swapped(f"proofs.{name}.Reads", f"proofs.{name}_other.Reads")),
        ("over a function of the same name in another crate", swapped(f"Rattle.{crate}.proofs.{name}.", f"Rattle.other.proofs.{name}.")),
        ("in a comment", rewritten(whole, r"{- \1\2\3 -}")),
        ("with a premise", rewritten(stated, r"\1⊥ → \2")),
        ("over a richer contract", inside(stated, r"(\S+\.Post)", r"(λ κs a u x. \1 κs a u x × More)")),
        ("by another `OneAnswer`", rewritten(stated, r"\1fake.\2")),
        ("by an `OneAnswer` from elsewhere", swapped("Rattle.words.proofs.OneAnswer.{", "Rattle.words.proofs.Lists.{")),
        ("with a view that forgets", inside(stated, r"λ κs u x\. (.*)\)$", r"λ κs u x. let w = \1 in 0)", re.S)),
    ):
        yield f"a `{only}` {what}", proofs, change
    if lent(root / source, name):
        change = rewritten(rf"(pub {only} :.*?λ κs u x\.)[^\n]*\)\n", r"\1 u)\n", re.S)
        yield f"a `{only}` that sees no buffer", proofs, change
    if crate != "probe":
        yield f"no `{says}`", proofs, swapped(f"pub {says} :", f"pub not_{says} :")


def damages(root):
    """Each damage: what it is, the check that must notice, the file, and how its text changes."""
    for full in sorted(PUBLIC_FUNCTIONS.ENTRY_POINTS):
        for what, where, change in contract_damages(root, full):
            yield what, "public-functions.py", where, change
    for what, where, old, new in FIGURES:
        yield what, "check-figures.py", where, swapped(old, new)
    theorem = "pub trail_met :"
    yield from (
        ("a theorem over a function of the same name elsewhere in the crate", "public-functions.py",
         "crates/walk/proofs/Only.antt", swapped("proofs.two_fingers.shared_count.Reads", "proofs.shared_count.Reads")),
        ("a theorem over another method of the type", "public-functions.py",
         "crates/tables/proofs/Only.antt", swapped("proofs.accepted.Tables.context.Reads", "proofs.accepted.Tables.contexts.Reads")),
        ("a theorem of a generic function with a premise among its types", "public-functions.py",
         "crates/words/proofs/Only.antt", swapped("(C : IsCopy T)", "(C : T ≡ T)")),
        ("a theorem of a generic function at one type", "public-functions.py",
         "crates/words/proofs/Only.antt", swapped("(zero_from.Post T L C", "(zero_from.Post u16 L C")),
        ("a contract written out that is not tied to the code", "check-promises.py",
         "crates/pen/proofs/LineContract.antt", swapped("pub post_is :", "pub post_was :")),
        ("a contract written out that is not the one that is read from the code", "check-promises.py",
         "crates/pen/proofs/LineContract.antt", swapped("pub post_read :", "pub post_told :")),
        ("a theorem over a contract written out", "public-functions.py",
         "crates/pen/proofs/Only.antt", swapped("Rattle.pen.proofs.line.Reads as line", "Rattle.pen.proofs.LineContract as line")),
        ("a promise kept by a theorem in a comment", "check-promises.py",
         "crates/site/proofs/Trail.antt", lambda t: t.replace(theorem, "{- " + theorem, 1) + "-}\n"),
        ("a file that the demands rest on and the reading list has not", "check-reading.py",
         "README.md", swapped("`crates/host/specs/Call.antt`", "the host's")),
        ("a statement whose definitions are not seen", "check-reading.py",
         "crates/demands/proofs/Demands.antt", lambda t: t.replace("use Rattle.", "use rattle.")),
        ("a long line in a definition", "check-page.py",
         "crates/site/specs/Site.antt", lambda t: t + "-- " + "a" * 150 + "\n"),
        ("a long proof file", "check-page.py", "crates/join/proofs/Causes.antt", lambda t: t + "\n" * 200),
    )


def main(arguments):
    root = Path(arguments[0]) if arguments else HERE.parent
    wrong = tried = 0
    with tempfile.TemporaryDirectory() as place:
        copy = Path(place)
        for part in ("crates", "docs", "tests", "scripts", "tools", "examples", "host", "bench", ".ci"):
            shutil.copytree(root / part, copy / part, ignore=shutil.ignore_patterns("target", "out"))
        for page in ("README.md", "CONTRIBUTING.md", "CHANGELOG.md", "Makefile"):
            shutil.copy(root / page, copy / page)
        for check in CHECKS:
            said = verdict(check, copy)
            if said != "passed":
                print(f"the copy as it is: {check} {said}")
                wrong += 1
        for what, check, where, change in damages(root):
            tried += 1
            file = copy / where
            text = file.read_text(encoding="utf-8")
            damaged = change(text)
            if damaged == text:
                print(f"{what}: nothing was damaged")
                wrong += 1
                continue
            file.write_text(damaged, encoding="utf-8")
            said = verdict(check, copy)
            if said != "refused":
                print(f"{what}: {check} {said}")
                wrong += 1
            file.write_text(text, encoding="utf-8")
    print(f"damaged copies: {tried} tried, {wrong} problems")
    return 1 if wrong else 0


if __name__ == "__main__":
    sys.exit(main(sys.argv[1:]))
