#!/usr/bin/env python3
"""Tries the trials themselves: whether they notice a program or a call that is wrong, and say how to see it again.

    python3 tests/scripts/test_trials.py

Each wrong program is a small script that runs the real one and then does one thing that it should not. The calls for a
cell of the heat map are those of wrong_cell.c, the join and the host's listing those of wrong_join.c, with one mistake
at a time. The trials must fail on each, in words that say which. It needs target/bin/sazamkhri and the static
libraries, as `make test` builds them, cc and binutils.
"""
import functools
import os
import re
import shlex
import subprocess
import sys
import tempfile
import unittest
from pathlib import Path

ROOT = Path(__file__).resolve().parents[2]
PROGRAM = ROOT / "target" / "bin" / "sazamkhri"
TARGET = ROOT / "target" / "trials"
LIBRARIES = ROOT / "target" / "staticlib"
# The trials over libraries with a wrong cell, and with a wrong first shared code.
WRONG_CELL = Path(__file__).resolve().parent / "wrong_cell.c"
WRONG_JOIN = Path(__file__).resolve().parent / "wrong_join.c"
WRONG_CALLS = ("probe_cell", "sazamkhri_cell", "probe_join", "sazamkhri_listing")
WRONG_TARGET = ROOT / "target" / "trials-wrong"

# The last line of a run without a difference.
LAST = re.compile(r"trials: (\d+) cases?, no difference; accepted (\d+), refused (none|\d+: \d+(?:, \d+: \d+)*)"
                  r"(?:, nothing done (\d+))?")


def build(target=TARGET, libraries=LIBRARIES, **environment):
    """Builds the trials over these libraries; gives what is wrong, or None."""
    for needed in (PROGRAM, LIBRARIES / "libprobe.a", LIBRARIES / "libhost.a"):
        if not needed.is_file():
            return f"{needed} is not there. Build it first: scripts/build.py program host probe"
    places = {"CARGO_TARGET_DIR": str(target), "SAZAMKHRI_LIB": str(libraries)}
    command = ["cargo", "build", "--release", "--quiet", "--offline"]
    own = {**os.environ, **places, **environment}
    done = subprocess.run(command, cwd=ROOT / "tests", env=own, capture_output=True, text=True)
    return None if done.returncode == 0 else f"the trials do not build:\n{done.stderr}"


def wrong_libraries():
    """The proved libraries, with the calls of wrong_cell.c and wrong_join.c for their own; gives what is wrong, or
    None."""
    folder = WRONG_TARGET / "lib"
    folder.mkdir(parents=True, exist_ok=True)
    compile_it = ["cc", "-std=c99", "-O1", "-Wall", "-Wextra", "-Werror", "-c"]
    made = {source: folder / f"{source.stem}.o" for source in (WRONG_CELL, WRONG_JOIN)}
    commands = [[*compile_it, source, "-o", object_file] for source, object_file in made.items()]
    renamed = [f"--redefine-sym={call}=proved_{call}" for call in WRONG_CALLS]
    for library in ("libprobe.a", "libhost.a"):
        commands.append(["objcopy", *renamed, LIBRARIES / library, folder / library])
    commands.append(["ar", "r", folder / "libprobe.a", *made.values()])
    for command in commands:
        done = subprocess.run(command, capture_output=True, text=True)
        if done.returncode:
            return f"{command[0]} fails:\n{done.stderr}"
    return None


@functools.cache
def build_wrong():
    """Builds the trials over the wrong calls, once; gives what is wrong, or None."""
    # What ends at the first difference need not be fast: most of the time would go into building it.
    return wrong_libraries() or build(WRONG_TARGET, WRONG_TARGET / "lib", CARGO_PROFILE_RELEASE_OPT_LEVEL="0")


def trials(*words, target=TARGET, **environment):
    """Runs the trials as the Makefile does; gives exit status, standard output and standard error."""
    command = [str(target / "release" / "trials"), *map(str, words)]
    own = {**os.environ, **environment}
    done = subprocess.run(command, cwd=ROOT, env=own, capture_output=True, text=True, timeout=300)
    return done.returncode, done.stdout, done.stderr


def counts(output):
    """The number of cases that the last line tells, and the sum of its counts."""
    last = output.splitlines()[-1]
    told = LAST.fullmatch(last)
    if not told:
        raise AssertionError(f"the last line tells no counts: {last}")
    cases, accepted, refused, nothing = told.groups()
    each = [] if refused == "none" else [int(part.split(": ")[1]) for part in refused.split(", ")]
    return int(cases), int(accepted) + sum(each) + int(nothing or 0)


class Trials(unittest.TestCase):
    """What all tests need: the trials, and a folder whose name no script may trip over."""

    @classmethod
    def setUpClass(cls):
        wrong = build()
        if wrong:
            raise AssertionError(wrong)
        cls.folder = tempfile.TemporaryDirectory(prefix="it's $HOME \"საფლავი\" ")

    @classmethod
    def tearDownClass(cls):
        cls.folder.cleanup()

    def wrapper(self, name, *lines):
        """A program that is this shell script; `real` runs the real one on the sheet."""
        path = Path(self.folder.name) / name
        real = f"real() {{ {shlex.quote(str(PROGRAM))}; }}"
        path.write_text("\n".join(["#!/bin/bash", real, *lines, ""]), encoding="utf-8")
        path.chmod(0o755)
        return path

    def fails(self, path, words, *more):
        """The trials must fail on this program with these words; gives all that they print."""
        status, output, errors = trials("program", path, *more)
        self.assertEqual(status, 1, output + errors)
        self.assertIn("trials: FAILED", output)
        self.assertIn(words, output)
        self.assertNotIn("no difference", output)
        return output


class WrongPrograms(Trials):
    """A program that is wrong in one way is found, and the way is said."""

    def test_a_wrapper_that_does_no_harm_passes(self):
        status, output, errors = trials("program", self.wrapper("faithful", "real"), "n=40")
        self.assertEqual((status, errors), (0, ""), output)
        self.assertEqual(counts(output), (40, 40))

    def test_another_exit_status(self):
        output = self.fails(self.wrapper("status", "real", "exit 3"), "ended with exit status 3, and not with 0")
        self.assertNotIn("the program printed", output)

    def test_killed_behind_the_right_text(self):
        for number, name in ((9, "KILL"), (6, "ABRT"), (11, "SEGV")):
            path = self.wrapper("killed " + name, "ulimit -c 0", "real", f"kill -{name} $$")
            output = self.fails(path, f"ended by signal {number}, and not by itself")
            self.assertNotIn("the program printed", output)

    def test_words_on_standard_error(self):
        output = self.fails(self.wrapper("errors", "real", "echo warm >&2"), r'wrote to standard error: b"warm\n"')
        self.assertNotIn("exit status", output)

    def test_many_words_on_standard_error(self):
        lines = ("head -c 300000 /dev/zero >&2", "real")
        self.fails(self.wrapper("many errors", *lines), r"wrote to standard error: b")

    def test_a_byte_more(self):
        self.fails(self.wrapper("more", "real", "printf x"), "printed the right text and 1 more behind it")

    def test_a_byte_less(self):
        whole = (ROOT / "examples" / "three.listing").stat().st_size
        self.fails(self.wrapper("less", "real | head -c -1"), f"printed only {whole - 1} of {whole} bytes")

    def test_nothing_printed(self):
        self.fails(self.wrapper("nothing", "cat > /dev/null"), "the program printed nothing")
        self.fails(self.wrapper("nothing read", "exit 0"), "the program printed nothing")

    def test_another_text(self):
        self.fails(self.wrapper("other", "real | tr 1 2"), "the program printed another text")

    def test_lines_without_the_first_shared_code(self):
        four_numbers = r"real | sed -E 's/^(pair=[0-9]+ [0-9]+ [0-9]+ [0-9]+) [0-9]+$/\1/'"
        output = self.fails(self.wrapper("four numbers", four_numbers), "the program printed another text")
        self.assertIn("case 'Three'", output)
        self.assertIn(r"pair=0 1 4 5\n", output)

    def test_room_for_51_entries(self):
        lines = ("sheet=$(cat; echo .)", "k=${sheet%%$'\\n'*}", "k=${k#k=}",
                 '[[ "$k" =~ ^(5[2-9]|6[0-4])$ ]] && { echo "refused=6 0"; exit; }', 'printf %s "${sheet%.}" | real')
        output = self.fails(self.wrapper("51 entries", *lines), "the program printed another text")
        self.assertIn("case 'Three, k=52'", output)

    def test_all_faults_are_told(self):
        output = self.fails(self.wrapper("worst", "echo oh >&2", "exit 5"), "the program printed nothing")
        self.assertIn("wrote to standard error", output)
        self.assertIn("exit status 5", output)

    def test_a_program_that_does_not_start(self):
        missing = Path(self.folder.name) / "missing"
        self.fails(missing, "does not start")

    def test_a_case_by_name_is_repeated_by_the_command(self):
        path = self.wrapper("named", "real", "exit 3")
        output = self.fails(path, "To see it again: make trials KIND=program SEED=5 N=0", "seed=5")
        self.assertIn("case 'Three'", output)


class WrongCalls(unittest.TestCase):
    """What the tests of wrong calls need: the trials over them."""

    @classmethod
    def setUpClass(cls):
        wrong = build_wrong()
        if wrong:
            raise AssertionError(wrong)

    def notices(self, kind, call, mistake, words):
        """The trials of this kind must fail in a case by name if this call makes this mistake, with these words."""
        status, output, errors = trials(kind, "n=0", target=WRONG_TARGET, MISTAKE=mistake, WRONG_CALL=call)
        self.assertEqual(status, 1, output + errors)
        self.assertRegex(output, r"\Atrials: FAILED\n(?:\w+, )?case '")
        self.assertIn(words, output)
        self.assertTrue(output.endswith(f"To see it again: make trials KIND={kind} SEED=1 N=0\n"), output)

    def passes(self, kind, cases):
        """Calls without a mistake pass."""
        status, output, errors = trials(kind, f"n={cases}", target=WRONG_TARGET)
        self.assertEqual((status, errors), (0, ""), output)
        self.assertEqual(counts(output), (cases, cases))

    def all_are_tried(self, source, first, *mistakes):
        """The mistakes that the source makes, from this line of it on, are those that are tried."""
        text = source.read_text(encoding="utf-8")
        there = re.findall(r'"([^"]+)"', text[text.index(first):])
        self.assertEqual(sorted(set(there)), sorted({name for some in mistakes for name in some}))


class WrongCells(WrongCalls):
    """A call for a cell that is wrong in one way is found, and it is said what is wrong: each of the two calls."""

    # Each mistake of wrong_cell.c that both calls can make, and where the call for tests is seen to differ. Where its
    # answer differs, the host call gives another number.
    IN_BOTH = {
        "a number that equals the contexts passes": "answer[0]",
        "the length is rounded up to whole entries": "answer[0]",
        "the words of the entries are counted in 64 bits": "answer[0]",
        "the count has 32 bits": "answer[0]",
        "the count has 16 bits": "answer[0]",
        "an entry of one context passes": "answer[0]",
        "falling contexts pass": "answer[0]",
        "a higher context that equals the contexts passes": "answer[0]",
        "nothing shared passes": "answer[0]",
        "shared that equals the union is refused": "answer[0]",
        "shared one above the union passes": "answer[0]",
        "one order alone is found": "answer[1]",
        "entries behind the counted ones are judged": "answer[0]",
        "the last entry is not judged": "answer[0]",
        "entries behind the one found are not judged": "answer[0]",
        "entries are not judged for a context against itself": "answer[0]",
        "the count is judged before the numbers": "answer[0]",
        "a context is like itself": "answer[1]",
        "a blank is told as a value": "answer[1]",
        "the later of two entries counts": "value[0]",
        "the quotient is upside down": "value[0]",
        "the quotient is rounded twice": "value[0]",
        "the quotient is worked out in single precision": "value[0]",
        "the quotient is rounded to four decimals": "value[0]",
        "the value is left as it was when blank": "value[0]",
        "the value is left as it was when refused": "value[0]",
        "the value is -0 when blank": "value[0]",
        "an entry has four words": "answer[0]",
        "the length is counted in entries of four words": "answer[0]",
        "a fifth word of 0 is refused": "answer[0]",
        "a fifth word that is no code is refused": "answer[0]",
        "the union is read from the fifth word": "value[0]",
        "the list is changed": "list[4]",
        "a word in front of the list is changed": "list: a word outside of the lent table",
        "a word behind the value is changed": "value: a word outside of the lent table",
    }
    IN_PROBE = {
        "the second number is told at place 0": "answer[1]",
        "the second number is judged first": "answer[1]",
        "the count is told at the place that it has": "answer[1]",
        "places have 16 bits": "answer[1]",
        "the third word of the answer is left": "answer[2]",
        "the fourth word of the answer is left": "answer[3]",
        "a word behind the answer is changed": "answer: a word outside of the lent table",
        "something is done with a short answer": "value[0]",
        "something is done with no value": "answer[0]",
        "it returns the number": "it always returns 0, and now 17",
    }
    IN_HOST = {"the number is told alone": "expected 1000017, got 17"}

    def test_calls_without_a_mistake_pass(self):
        self.passes("cell", 2000)

    def test_mistakes_of_the_call_for_tests(self):
        for mistake, where in {**self.IN_BOTH, **self.IN_PROBE}.items():
            with self.subTest(mistake):
                self.notices("cell", "probe", mistake, f"\ncell: {where}")

    def test_mistakes_of_the_host_call(self):
        for mistake, where in {**self.IN_BOTH, **self.IN_HOST}.items():
            with self.subTest(mistake):
                where = "expected " if where.startswith("answer") else where
                self.notices("cell", "host", mistake, f"\nhost cell: {where}")

    def test_every_mistake_is_tried(self):
        self.all_are_tried(WRONG_CELL, "static int makes", self.IN_BOTH, self.IN_PROBE, self.IN_HOST)


class WrongJoins(WrongCalls):
    """A join whose fifth words are wrong in one way, or a listing of it, is found, and it is said what is wrong."""

    # Each mistake of wrong_join.c, the case by name that notices it, and what is seen to differ.
    IN_JOIN = {
        "the last shared code": ("P1", "list[4] of 320: expected 2, got 4"),
        "the first code of the lower context": ("P1", "list[4] of 320: expected 2, got 1"),
        "the first code of the higher context": ("P5", "list[4] of 320: expected 2, got 1"),
        "the smallest code of the two": ("P1", "list[4] of 320: expected 2, got 1"),
        "the code counts from 1": ("P1", "list[4] of 320: expected 2, got 3"),
        "the code has 8 bits": ("code 4095", "list[4] of 320: expected 4095, got 255"),
        "the fifth word is 0": ("P1", "list[4] of 320: expected 2, got 0"),
        "the fifth word is left as it was": ("P1", "list[4] of 320: expected 2, got "),
        "shared stands twice": ("P1", "list[4] of 320: expected 2, got 3"),
        "the fifth word does not move with its entry": ("P6", "list[9] of 320: expected 1, got 0"),
        "the ranking looks at the code": ("P6", "list[0] of 320: expected 0, got 1"),
        "words behind the last whole entry are left as they were": ("k 1 with a list of 5k + 1 words", "list[5] of 6"),
        "a list of 4k words is enough": ("P5 with a list one word short", "answer[0] of 4: expected 6, got 0"),
        "a list that lacks a word is enough": ("P5 with a list one word short", "answer[0] of 4: expected 6, got 0"),
        "a list that just fits is refused": ("k 64", "answer[0] of 4: expected 0, got 6"),
    }
    IN_LISTING = {
        "the code is not printed": ("Three", "host: expected the value 42, got 40"),
        "256 words are lent for the list": ("Three, k=52", "host: expected the value 74, got 1000006"),
    }

    def test_calls_without_a_mistake_pass(self):
        for kind in ("join", "host"):
            with self.subTest(kind):
                self.passes(kind, 200)

    def test_mistakes_of_the_join(self):
        for mistake, (case, words) in self.IN_JOIN.items():
            with self.subTest(mistake):
                self.notices("join", "join", mistake, f"\njoin, case '{case}'\n{words}")

    def test_mistakes_of_the_listing(self):
        for mistake, (case, words) in self.IN_LISTING.items():
            with self.subTest(mistake):
                self.notices("host", "listing", mistake, f"\ncase '{case}'\n{words}")

    def test_every_mistake_is_tried(self):
        self.all_are_tried(WRONG_JOIN, "static int lists", self.IN_JOIN, self.IN_LISTING)


class Again(Trials):
    """The printed command repeats the difference, and the difference does not depend on the number of threads."""

    # A fault that no case by name has: k=3 is asked for, in a sheet of five contexts.
    RARE = (
        "sheet=$(cat; echo .)",
        'printf %s "${sheet%.}" | real',
        '[[ "$sheet" == k=3*contexts=5* ]] && exit 4',
        "exit 0",
    )

    def told(self, path, *more):
        """The number of the trial that the command repeats, and what is said of it."""
        output = self.fails(path, "ended with exit status 4", "seed=7", *more)
        command = re.search(r"^To see it again: make trials KIND=program SEED=7 TRIAL=(\d+)$", output, re.MULTILINE)
        self.assertIsNotNone(command, output)
        return int(command.group(1)), output[output.index("program: trial "):]

    def test_the_command_repeats_the_difference(self):
        path = self.wrapper("rare", *self.RARE)
        number, what = self.told(path, "n=100000")
        self.assertEqual(self.told(path, f"trial={number}"), (number, what))
        # The first difference is told, whatever the number of threads: the same run up to it finds none.
        self.assertEqual(self.told(path, "n=100000", "jobs=1"), (number, what))
        status, output, _ = trials("program", path, "seed=7", f"n={number}")
        self.assertEqual((status, counts(output)), (0, (number, number)), output)

    def test_the_command_for_another_program_can_be_typed(self):
        path = self.wrapper("rare too", *self.RARE)
        _, what = self.told(path, "n=100000")
        command = re.search(r"^or, with this other program: (.*)$", what, re.MULTILINE).group(1)
        done = subprocess.run(["bash", "-c", command], cwd=ROOT, capture_output=True, text=True, timeout=60)
        self.assertEqual(done.returncode, 1)
        self.assertTrue(done.stdout.endswith(what), done.stdout)


class Counts(Trials):
    """The last line counts everything, and the same with any number of threads."""

    def test_all_kinds_are_counted_in_the_last_line(self):
        status, output, errors = trials("all", f"path={PROGRAM}", "n=30", "seed=3")
        self.assertEqual((status, errors), (0, ""), output)
        self.assertEqual(counts(output), (210, 210))
        for kind in ("join", "read", "write", "doubled", "cell", "host", "program"):
            self.assertRegex(output, rf"(?m)^{kind}, random: 30 cases ")
            self.assertRegex(output, rf"(?m)^{kind}: [1-9]\d* \w+ by name ")

    def test_threads_do_not_matter(self):
        last = {trials("host", "n=5000", "seed=3", f"jobs={jobs}")[1].splitlines()[-1] for jobs in (1, 2, 7)}
        self.assertEqual(len(last), 1)
        self.assertEqual(counts(last.pop()), (5000, 5000))

    def test_a_trial_is_what_the_run_has_under_its_number(self):
        """The counts of a run are those of its trials, run one by one."""
        each = [trials("host", "seed=3", f"trial={number}")[1].splitlines()[0] for number in range(40)]
        accepted = sum(line.endswith("agrees; accepted") for line in each)
        refused = sum(re.search(r"agrees; refused \d+$", line) is not None for line in each)
        self.assertEqual(accepted + refused, 40)
        run = trials("host", "seed=3", "n=40")[1].splitlines()[-1]
        self.assertIn(f"accepted {accepted},", run)

    def test_another_seed_has_other_trials(self):
        self.assertNotEqual(trials("host", "n=2000", "seed=3")[1].splitlines()[-1],
                            trials("host", "n=2000", "seed=4")[1].splitlines()[-1])


class Words(Trials):
    """Words that cannot be meant are refused with exit status 2, with nothing run and the use shown."""

    def test_words_that_cannot_be_meant(self):
        for words, told in (
            ((), "which kind"),
            (("joins",), "joins: there is no such kind"),
            (("join", "n=1,000"), "n=1,000: write a whole number"),
            (("join", "n=-1"), "n=-1: write a whole number"),
            (("join", "n=+1"), "n=+1: write a whole number"),
            (("join", "n=99999999999999999999"), "write a whole number"),
            (("join", "seed=x"), "seed=x: write a whole number"),
            (("join", "jobs=0"), "jobs=0: write a whole number"),
            (("join", "a", "b"), "b: one word too many"),
            (("program",), "which program?"),
            (("all", "n=1"), "which program?"),
            (("sheets", "trial=4"), "say one of read, write"),
        ):
            status, output, errors = trials(*words)
            self.assertEqual((status, output), (2, ""), words)
            self.assertIn(told, errors)
            self.assertIn("use: trials KIND", errors)

    def test_every_kind_takes_a_path_and_empty_words(self):
        status, output, errors = trials("host", f"path={PROGRAM}", "n=5", "seed=", "trial=")
        self.assertEqual((status, errors, counts(output)), (0, "", (5, 5)), output)


class Make(unittest.TestCase):
    """`make trials`, as a user types it."""

    @classmethod
    def setUpClass(cls):
        command = [ROOT / "scripts" / "build.py", "program", "host", "probe"]
        subprocess.run(command, check=True, stderr=subprocess.DEVNULL)

    def make(self, *words):
        own = {name: value for name, value in os.environ.items() if not name.startswith(("MAKE", "MFLAGS"))}
        return subprocess.run(["make", "trials", *words], cwd=ROOT, env=own, capture_output=True, text=True, timeout=300)

    def test_one_kind(self):
        done = self.make("KIND=host", "N=7", "SEED=5", "JOBS=1")
        self.assertEqual((done.returncode, counts(done.stdout)), (0, (7, 7)), done.stderr)

    def test_all_kinds(self):
        done = self.make("N=3")
        self.assertEqual((done.returncode, counts(done.stdout)), (0, (21, 21)), done.stderr)

    def test_one_trial_again(self):
        done = self.make("KIND=join", "SEED=7", "TRIAL=123")
        self.assertEqual((done.returncode, counts(done.stdout)), (0, (1, 1)), done.stderr)
        self.assertIn("trial 123 of seed 7 agrees", done.stdout)

    def test_words_that_a_shell_could_take_for_its_own(self):
        with tempfile.TemporaryDirectory() as folder:
            for word in ("SEED=; touch '{}/a'", "N=$(touch '{}/a')", "KIND=host'; touch '{}/a", "JOBS=`touch '{}/a'`"):
                done = self.make("KIND=host", word.format(folder), "TRIAL=1")
                self.assertNotEqual(done.returncode, 0, word)
                self.assertEqual(os.listdir(folder), [], word)


def main(words):
    return not unittest.main(argv=[sys.argv[0], *words], exit=False).result.wasSuccessful()


if __name__ == "__main__":
    sys.exit(main(sys.argv[1:]))
