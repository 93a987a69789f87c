#!/usr/bin/env python3
"""Tries the first command as users meet it: what `make` prints, when, and what it builds.

The quick cases run scripts/build.py in a copy with a stand-in for `rt`; the last ones run the real one, in a copy of
what is built here, and on this folder itself.
"""
import os
import re
import resource
import shutil
import subprocess
import tempfile
import unittest
from pathlib import Path

ROOT = Path(__file__).resolve().parent.parent.parent
PROGRESS = re.compile(r"  (\d+) of (\d+) crates proved, (\d+) s so far(, \w+ the last)?")

# Says what `rt` says, and makes what it makes, in the folder of the crate that it is called in. BREAK names a crate that is
# not proved, CALLS is where calls are noted, MEANWHILE is done while the program is proved.
STAND_IN = """#!/bin/bash
if [ "$1" = version ]; then echo "kit ${KIT:-1}"; exit; fi
[ -z "${RT_BACKEND:-}" ] || { echo "rt: by another compiler"; exit 2; }
crate=$(basename "$PWD")
echo "$crate $*" >> "$CALLS"
mkdir -p out
[ "$1" = lib ] || exec 3>&1 1>&2
echo "fn $crate::first: proved"
if [ "$crate" = "${BREAK:-}" ]; then
    echo "$crate: the prover's words" >&2
    echo "logic=not-proved"
    exit 1
fi
case $1-$crate in
run-sazamkhri)
    [ -n "${MAKES_NOTHING:-}" ] || echo made > out/sazamkhri
    eval "${MEANWHILE:-}"
    if [ -n "${PRINTS:-}" ]; then echo "$PRINTS" >&3; elif cmp -s stdin -; then cat stdout >&3; fi ;;
lib-host | lib-probe) echo made > "out/lib$crate.a" ;;
esac
"""


def copy_of(place, parts):
    for part in parts:
        source = ROOT / part
        if source.is_dir():
            left = shutil.ignore_patterns("must-fail", "out", "__pycache__")
            shutil.copytree(source, place / part, symlinks=True, ignore=left)
        else:
            (place / part).parent.mkdir(parents=True, exist_ok=True)
            shutil.copy2(source, place / part)


class WithStandIn(unittest.TestCase):
    def setUp(self):
        self.place = Path(tempfile.mkdtemp())
        self.addCleanup(shutil.rmtree, self.place)
        copy_of(self.place, ["crates", "crates.txt", "scripts/build.py", "Makefile"])
        (self.place / "tools").mkdir()
        (self.place / "tools" / "rt").write_text(STAND_IN)
        (self.place / "tools" / "rt").chmod(0o755)
        self.calls = self.place / "calls"

    def build(self, *products, **more):
        self.calls.write_text("")
        path = f"{self.place / 'tools'}:{os.environ['PATH']}"
        return subprocess.run(
            [self.place / "scripts" / "build.py", *products], capture_output=True, text=True,
            env={**os.environ, "PATH": path, "CALLS": str(self.calls), **more},
        )

    def called(self):
        return self.calls.read_text().splitlines()

    def test_first_time_one_line_and_progress(self):
        run = self.build("program")
        first, *rest = run.stderr.splitlines()
        self.assertEqual((run.returncode, run.stdout), (0, ""))
        self.assertRegex(first, r"^Proving and building the program: .*four minutes.*once")
        found = [PROGRESS.fullmatch(line) for line in rest]
        self.assertTrue(all(found), run.stderr)
        self.assertEqual([int(m[1]) for m in found], list(range(1, len(found) + 1)))
        self.assertEqual({int(m[2]) for m in found}, {len(found)})

    def test_second_time_not_a_word(self):
        self.build("program")
        run = self.build("program")
        self.assertEqual((run.returncode, run.stdout, run.stderr, self.called()), (0, "", "", []))

    def test_host_proves_neither_writer_nor_probe(self):
        run = self.build("host")
        self.assertEqual(run.returncode, 0)
        crates = [line.split()[0] for line in self.called()]
        self.assertIn("listing", crates)
        self.assertNotIn("writer", crates)
        self.assertNotIn("probe", crates)

    def test_a_proof_that_fails_shows_all_words(self):
        run = self.build("program", BREAK="search")
        self.assertEqual(run.returncode, 1)
        for words in ("fn order::first: proved", "search: the prover's words", "Not proved and built: search."):
            self.assertIn(words, run.stderr)
        self.assertNotIn("join lib", self.called())
        self.assertFalse((self.place / "target" / "made" / "program").exists())
        self.assertEqual(self.build("program").returncode, 0)

    def test_a_library_that_fails_shows_all_words(self):
        run = self.build("host", BREAK="host")
        self.assertEqual(run.returncode, 1)
        self.assertIn("host: the prover's words", run.stderr)

    def test_a_crate_comes_behind_those_that_it_stands_on(self):
        self.build("program", "host", "probe")
        crates = [line.split()[0] for line in self.called()]
        self.assertEqual(len(crates), len(set(crates)))
        listed = (self.place / "crates.txt").read_text(encoding="utf-8")
        for crate in crates:
            uses = re.search(rf"^{crate}(?: staticlib)?:(.*)$", listed, re.M)[1].split()
            self.assertLessEqual(set(uses), set(crates[: crates.index(crate)]), crate)

    def test_products_run_on_every_processor(self):
        self.build("program", "host", "probe")
        for words in ("sazamkhri run", "host lib", "probe lib"):
            self.assertIn(f"{words} --cpu x86-64", self.called())

    def test_settings_of_rt_play_no_part(self):
        self.assertEqual(self.build("program", RT_BACKEND="rattle").returncode, 0)

    def test_a_program_that_prints_something_else(self):
        run = self.build("program", PRINTS="k=1")
        self.assertEqual(run.returncode, 1)
        self.assertIn("prints something else than crates/sazamkhri/stdout has", run.stderr)
        self.assertFalse((self.place / "target" / "bin" / "sazamkhri").exists())
        self.assertEqual(self.build("program").returncode, 0)

    def test_whatever_changed_is_built_again(self):
        def another(path, text="changed\n"):
            path.parent.mkdir(parents=True, exist_ok=True)
            path.write_text(text)

        crates = self.place / "crates"
        changes = {
            "a source": lambda: another(crates / "order" / "src" / "lib.rt"),
            "a proof": lambda: another(crates / "search" / "proofs" / "Lib.antt"),
            "a new file": lambda: another(crates / "words" / "specs" / "New.antt"),
            "a lost file": lambda: (crates / "words" / "specs" / "New.antt").unlink(),
            "the stored output": lambda: another(crates / "sazamkhri" / "stdout"),
            "what the program is told": lambda: another(crates / "sazamkhri" / "args"),
            "the product": lambda: another(self.place / "target" / "bin" / "sazamkhri"),
            "no product": lambda: (self.place / "target" / "bin" / "sazamkhri").unlink(),
        }
        self.build("program")
        for what, change in changes.items():
            change()
            self.build("program")
            self.assertIn("sazamkhri run --cpu x86-64", self.called(), what)
            self.assertEqual((self.place / "target" / "bin" / "sazamkhri").read_text(), "made\n", what)
            self.build("program")
            self.assertEqual(self.called(), [], what)
        self.build("program", KIT="2")
        self.assertIn("sazamkhri run --cpu x86-64", self.called(), "another kit")

    def test_an_edit_while_it_is_proved(self):
        run = self.build("program", MEANWHILE="echo later >> ../order/src/lib.rt")
        self.assertEqual(run.returncode, 1)
        self.assertIn("changed while they were proved", run.stderr)
        self.assertEqual(self.build("program").returncode, 0)
        self.assertIn("sazamkhri run --cpu x86-64", self.called())

    def test_nothing_is_made(self):
        run = self.build("program", MAKES_NOTHING="1")
        self.assertEqual(run.returncode, 1)
        self.assertIn("rt has not made crates/sazamkhri/out/sazamkhri", run.stderr)

    def test_what_rt_made_before_is_not_taken(self):
        self.build("program")
        (self.place / "crates" / "sazamkhri" / "src" / "main.rt").write_text("changed\n")
        run = self.build("program", MAKES_NOTHING="1")
        self.assertEqual(run.returncode, 1)
        self.assertFalse((self.place / "target" / "bin" / "sazamkhri").exists())

    def test_nobody_can_be_told(self):
        for end in ("2>&-", "2>/dev/full"):
            path = f"{self.place / 'tools'}:{os.environ['PATH']}"
            run = subprocess.run(
                f"'{self.place}/scripts/build.py' program {end}", shell=True, stdout=subprocess.PIPE,
                env={**os.environ, "PATH": path, "CALLS": str(self.calls)},
            )
            self.assertEqual((run.returncode, run.stdout), (0, b""))
            self.assertTrue((self.place / "target" / "made" / "program").exists())
            shutil.rmtree(self.place / "target")

    def test_files_that_cannot_be_used(self):
        for change, words in (
            (lambda: (self.place / "target").write_text("a file"), "Cannot build here"),
            (lambda: (self.place / "crates.txt").write_text("order:\n"), "crates.txt does not list sazamkhri"),
            (lambda: (self.place / "crates.txt").write_bytes(b"\xff: a\n"), "Cannot build here"),
            (lambda: (self.place / "crates.txt").unlink(), "crates.txt"),
        ):
            change()
            run = self.build("program")
            self.assertEqual(run.returncode, 2, run.stderr)
            self.assertIn(words, run.stderr.splitlines()[-1])
            self.assertNotIn("Traceback", run.stderr)
            if (self.place / "target").is_file():
                (self.place / "target").unlink()

    def test_a_product_named_twice(self):
        run = self.build("program", "program")
        self.assertTrue(run.stderr.startswith("Proving and building the program: "), run.stderr)

    def test_a_crate_that_it_does_not_need_may_change(self):
        self.build("program")
        (self.place / "crates" / "writer" / "src" / "lib.rt").write_text("changed\n")
        self.build("program")
        self.assertEqual(self.called(), [])

    def test_clean_leaves_the_sources_alone(self):
        self.calls.write_text("")
        before = sorted(self.place.rglob("*"))
        self.build("program", "host")
        self.assertNotEqual(sorted(self.place.rglob("*")), before)
        self.assertEqual(make(self.place, "clean").returncode, 0)
        self.assertEqual(sorted(self.place.rglob("*")), before)

    def test_no_kit(self):
        (self.place / "tools" / "rt").unlink()
        run = subprocess.run(
            [shutil.which("python3"), self.place / "scripts" / "build.py", "program"], capture_output=True, text=True,
            env={**os.environ, "PATH": str(self.place / "tools")},
        )
        self.assertEqual(run.returncode, 2)
        self.assertEqual(len(run.stderr.splitlines()), 1, run.stderr)

    def test_wrong_usage(self):
        for words in ([], ["everything"]):
            self.assertEqual(self.build(*words).returncode, 2)


class WithTheKit(unittest.TestCase):
    @classmethod
    def setUpClass(cls):
        subprocess.run([ROOT / "scripts/build.py", "program", "host"], check=True, stderr=subprocess.DEVNULL)

    def test_another_program_in_its_place_is_not_run(self):
        with tempfile.TemporaryDirectory() as name:
            place = Path(name)
            copy_of(place, ["crates", "crates.txt", "scripts", "Makefile", "examples"])
            copy_of(place, ["target/bin", "target/made"])
            program = place / "target/bin/sazamkhri"
            program.write_text("#!/bin/sh\necho k=1\n")
            run = make(place, "list", "SHEET=examples/three.sheet")
            self.assertEqual((run.returncode, run.stdout), (0, (ROOT / "examples/three.listing").read_text()))
            self.assertEqual(program.read_bytes(), (ROOT / "target/bin/sazamkhri").read_bytes())

    def test_a_wrong_proof_is_shown_and_nothing_is_listed(self):
        edit = (ROOT / "crates/join/must-fail/work_area.edit").read_text(encoding="utf-8")
        old, new = (re.search(rf"^{word}: (.*)$", edit, re.M)[1] for word in ("old", "new"))
        with tempfile.TemporaryDirectory() as name:
            place = Path(name)
            copy_of(place, ["crates", "crates.txt", "scripts", "Makefile", "examples"])
            copy_of(place, ["target/bin"])
            source = place / "crates/join/src/lib.rt"
            text = source.read_text(encoding="utf-8")
            self.assertEqual(text.count(old), 1)
            source.write_text(text.replace(old, new), encoding="utf-8")
            run = make(place, "list", "SHEET=examples/three.sheet")
        self.assertNotEqual(run.returncode, 0)
        self.assertEqual(run.stdout, "")
        self.assertRegex(run.stderr, r"(?m)^fn join::\S+: (not proved|no proof)")
        self.assertRegex(run.stderr, r"(?m)^(?:note: )?\S*(?:src|proofs)/\S+\.(?:rt|antt):\d+:\d+: ")
        self.assertRegex(run.stderr, r"(?m)^Not proved and built: join\.")

    def test_later_calls_print_the_listing_alone_within_a_second(self):
        # Processor time: on a machine that does other work besides, the clock says little.
        times = []
        for _ in range(5):
            before = resource.getrusage(resource.RUSAGE_CHILDREN)
            run = make(ROOT, "list", "SHEET=examples/three.sheet")
            after = resource.getrusage(resource.RUSAGE_CHILDREN)
            times.append(after.ru_utime + after.ru_stime - before.ru_utime - before.ru_stime)
            self.assertEqual((run.returncode, run.stderr), (0, ""))
            self.assertEqual(run.stdout, (ROOT / "examples/three.listing").read_text())
        self.assertLess(min(times), 1.0)

    def test_no_sheet_is_said_before_anything_is_built(self):
        run = make(ROOT, "list")
        self.assertNotEqual(run.returncode, 0)
        self.assertEqual(run.stdout, "")
        self.assertIn("make list SHEET=", run.stderr.splitlines()[0])

    def test_names_that_shells_and_make_could_misread(self):
        with tempfile.TemporaryDirectory() as folder:
            for name in ("two words", "it's \"so\"", "$HOME", "$(shell echo no)", "a#b", "`id`", "a\\b", " edge ", "ქვევრი"):
                sheet = Path(folder) / name
                shutil.copy(ROOT / "examples/three.sheet", sheet)
                run = make(ROOT, "list", f"SHEET={sheet}")
                self.assertEqual((run.returncode, run.stderr), (0, ""), name)
                self.assertEqual(run.stdout, (ROOT / "examples/three.listing").read_text(), name)

    def test_install_takes_its_folders_as_they_are_typed(self):
        with tempfile.TemporaryDirectory() as folder:
            stage, prefix = Path(folder) / "a $stage", f"{folder}/it's $HOME"
            words = (f"PREFIX={prefix}", f"DESTDIR={stage}")
            run = make(ROOT, "install", *words)
            self.assertEqual((run.returncode, run.stderr), (0, ""))
            put = Path(f"{stage}{prefix}")
            files = sorted(str(f.relative_to(put)) for f in put.rglob("*") if f.is_file())
            self.assertEqual(files, ["include/sazamkhri.h", "lib/libsazamkhri.a", "lib/pkgconfig/sazamkhri.pc"])
            self.assertEqual(make(ROOT, "uninstall", *words).returncode, 0)
            self.assertEqual([f for f in put.rglob("*") if f.is_file()], [])

    def test_help_is_what_bare_make_prints(self):
        bare, asked = make(ROOT), make(ROOT, "help")
        self.assertEqual(bare.stdout, asked.stdout)
        targets = set(re.findall(r"^([a-z]+):", (ROOT / "Makefile").read_text(), re.M))
        for target in ("list", "program", "host", "install", "test", "trials", "bench", "clean", "help"):
            self.assertIn(target, targets)
            self.assertRegex(bare.stdout, rf"(?m)^make {target}\b")


def make(place, *words):
    clean = {k: v for k, v in os.environ.items() if not k.startswith("MAKE") and k != "SHEET"}
    return subprocess.run(["make", *words], cwd=place, capture_output=True, text=True, env=clean)


if __name__ == "__main__":
    unittest.main()
