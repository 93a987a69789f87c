#!/usr/bin/env python3
"""Lists the public functions of all crates, and checks what each of them owes its reader.

    scripts/public-functions.py [ROOT]

A public function owes an `ensures` that speaks of its `result` and, for each buffer that is lent to
it by `&mut`, of what the buffer holds in the end (`.new`). It also owes a theorem that no second
answer meets its contract: by convention `FN_only` in crates/NAME/proofs/Only.antt. The theorem is an
`OneAnswer` over the function's own contract, its `Post`, and nothing else; its view sees the result
and every lent buffer. A function without such a theorem is named as `crate::fn`, with a reason, in
the section '## Exceptions' of docs/PROMISES.md.

The entry points below are what users call. They take any input, so they have no `requires`. Each but
those of the probe, which are for tests, has a theorem `FN_says` over its `Post` for others to use.

Exits with 1 if a function owes something, and if an exception names no public function.
"""
import re
import sys
from pathlib import Path

from antt_text import plain

# Where users come in. docs/DECISIONS.md (S13) tells of the list.
ENTRY_POINTS = {
    "join::join",
    "reader::read",
    "writer::write",
    "listing::list_sheet",
    "listing::print_sheet",
    "heat::cell_of",
    "host::sazamkhri_listing",
    "host::sazamkhri_cell",
    "probe::probe_join",
    "probe::probe_read",
    "probe::probe_write",
    "probe::probe_cell",
}

PUBLIC = re.compile(r'\bpub\s+(?:extern\s+"C"\s+)?fn\s+(\w+)')
CLAUSE = re.compile(r"\b(requires|ensures|decreases)\b[\s\w-]*$")


def blanked(text):
    """The text without comments and byte literals; places and lines stay."""
    blank = lambda m: re.sub(r"[^\n]", " ", m.group())
    return re.sub(r"//[^\n]*|b'(?:\\.|[^'])'", blank, text)


def closing(text, at, pair):
    """The place of the bracket that closes the one at `at`."""
    depth = 0
    for i in range(at, len(text)):
        depth += (text[i] == pair[0]) - (text[i] == pair[1])
        if depth == 0:
            return i
    raise SystemExit(f"unbalanced {pair}")


def header(text, at):
    """The parameters, whether there is a result, and the clauses of the function named at `at`."""
    start = text.index("(", at)
    end = closing(text, start, "()")
    parameters = text[start + 1 : end]
    clauses = {"requires": [], "ensures": [], "decreases": []}
    before = end + 1
    has_result = None
    while True:
        brace = text.index("{", before)
        between = text[before:brace]
        if has_result is None:
            has_result = "->" in between
        clause = CLAUSE.search(between)
        if clause is None:
            return parameters, has_result, clauses
        close = closing(text, brace, "{}")
        clauses[clause.group(1)].append(text[brace + 1 : close])
        before = close + 1


def parameters_of(text):
    """The parameters one by one: name, and whether it is lent by `&mut`."""
    parts, depth, last = [], 0, 0
    for i, c in enumerate(text + ","):
        depth += (c in "([<") - (c in ")]>")
        if c == "," and depth == 0:
            parts.append((text + ",")[last:i].strip())
            last = i + 1
    named = [p.partition(":") for p in parts if p]
    return [(n.strip(), re.match(r"\s*&\s*(?:'\w+\s+)?mut\b", kind) is not None) for n, _, kind in named]


def speaks_of_result(promise):
    """The clause names `result`: by itself, or a field of it."""
    return re.search(r"(?<![\w.'-])result(?![\w'-])", promise) is not None


def speaks_of_end(promise, name):
    """The clause names what the lent buffer holds in the end."""
    return re.search(rf"(?<![\w.'-]){name}\.new(?![\w'-])", promise) is not None


def contract_problems(parameters, has_result, promises):
    if not promises:
        return ["no `ensures`"]
    problems = []
    if has_result and not any(speaks_of_result(p) for p in promises):
        problems.append("no `ensures` speaks of the result")
    lent = [name for name, is_mut in parameters_of(parameters) if is_mut]
    for name in lent:
        if not any(speaks_of_end(p, name) for p in promises):
            problems.append(f"no `ensures` speaks of `{name}` in the end")
    if not has_result and not lent:
        problems.append("neither a result nor a buffer to speak of")
    return problems


def exceptions(root):
    """The functions named under '## Exceptions', each with its reason."""
    page = root / "docs" / "PROMISES.md"
    if not page.is_file():
        return {}
    parts = page.read_text(encoding="utf-8").split("\n## Exceptions", 1)
    if len(parts) < 2:
        return {}
    section = parts[1].split("\n## ", 1)[0]
    # a line names one or several functions; what else stands on it, and behind it, is the reason
    found = {}
    for item in re.split(r"\n(?=[-|*] ?)", section):
        names = re.findall(r"`(\w+::\w+)`", item)
        reason = re.sub(r"`\w+::\w+`|[^\w]", "", item)
        for name in names:
            found[name] = len(reason) >= 12
    return found


def theorems(crate):
    """What proofs/Only.antt states, by name; the modules that it names; and where its other names come from."""
    file = crate / "proofs" / "Only.antt"
    if not file.is_file():
        return {}, {}, {}
    text = plain(file.read_text(encoding="utf-8"))
    stated = re.compile(r"^(?:pub\s+)?([^\s:]+_(?:only|says))\s*:(?=\s)(.*?)^\1\s", re.M | re.S)
    modules = re.findall(rf"^use Rattle\.{crate.name}\.proofs\.(\S+) as (\S+)", text, re.M)
    names = {}
    for module, used in re.findall(r"^use (Rattle\.\S+?)\.\{([^}]*)\}", text, re.M):
        names.update({name.strip(): module for name in used.split(",")})
    return {m.group(1): " ".join(m.group(2).split()) for m in stated.finditer(text)}, {a: m for m, a in modules}, names


def meant(names, word):
    """The word is the one that words/proofs/OneAnswer.antt defines."""
    return names.get(word) == "Rattle.words.proofs.OneAnswer"


def owner(text, at):
    """The type whose `impl` has the function at `at`; None for a function that stands alone."""
    if text[text.rfind("\n", 0, at) + 1 : at].strip(" ") or text[at - 1] != " ":
        return None
    return re.findall(r"^impl(?:<[^\n{]*>)? (\w+)", text[:at], re.M)[-1]


def path_of(source, fn):
    """Where the kit puts what it makes for fn: below the modules of its source file, whose path is taken from src/ on."""
    modules = source.with_suffix("").parts
    return ".".join((*modules, fn) if modules not in (("lib",), ("main",)) else (fn,))


def own(modules, path, kinds, post):
    """The two names are those of the modules that the kit makes for the function at that path."""
    return modules.get(kinds) == f"{path}.Kinds" and modules.get(post) == f"{path}.Reads"


def view_problems(seen, names, parameters, has_result):
    """What a view of result u and exit x leaves out; it is built of these and of what makes a record of them."""
    problems = []
    words = set(re.findall(r"[^\s(),.]+", re.sub(r"\bx(?:\.\w+)+|\bu(?:\.now)?\b", " ", seen)))
    if not all(".specs." in names.get(word, "") for word in words):
        problems.append(f"the view of its `_only` theorem is more than result and buffers: {' '.join(sorted(words))}")
    if has_result and not re.search(r"(?<![\w.])u(?![\w])", seen):
        problems.append("the view of its `_only` theorem does not see the result")
    for i, (name, is_mut) in enumerate(parameters_of(parameters)):
        path = r"(?<![\w.])x" + r"\.1" * i + r"\.0\.now(?![\w.'])"
        if is_mut and not re.search(path, seen):
            problems.append(f"the view of its `_only` theorem does not see `{name}`")
    return problems


def at_any_type(statement):
    """The statement of a generic function without its type and what bounds that: `(T : RattleType) .. → OneAnswer n (k.ps T ..) ..`."""
    bound = r"\(\w+ : (?:RattleType|Laws \w+|IsCopy \w+|\w+\.Ghosts \w+\.Denot|Dict)\)"
    whole = re.fullmatch(rf"((?:{bound} )+)→ (OneAnswer .*)", statement)
    if not whole:
        return statement
    bound = re.findall(r"\((\w+) :", whole.group(1))
    return re.sub(rf"\((\S+\.(?:ps|r|Post))(?: (?:{'|'.join(bound)}))+\)", r"\1", whole.group(2))


def only_problems(path, statement, modules, names, parameters, has_result):
    """What is wrong with a statement that no second answer meets the contract of the function at that path."""
    form = r"OneAnswer \d+ (\S+)\.ps \1\.r (\S+)\.Post (?:\{B = [^{}]*\} )?\(λ κs u x\. (.*)\)"
    said = re.fullmatch(form, at_any_type(statement))
    if said and meant(names, "OneAnswer") and own(modules, path, said.group(1), said.group(2)):
        return view_problems(said.group(3), names, parameters, has_result)
    fn = path.split(".")[-1]
    return [f"`{fn}_only` is no `OneAnswer` over the `Post` of {path}"]


def says_problems(path, stated, modules, names):
    """An entry point whose contract other theorems use has a theorem of what it says."""
    name = path.split(".")[-1] + "_says"
    said = re.fullmatch(r"Says \d+ (\S+)\.ps \1\.r (\S+)\.Post \(λ κs a u x\. .*\)", stated.get(name, ""))
    if said and meant(names, "Says") and own(modules, path, said.group(1), said.group(2)):
        return []
    return [f"there is no `{name}`, a `Says` over the `Post` of {path}"]


def main(arguments):
    root = Path(arguments[0]) if arguments else Path(__file__).resolve().parent.parent
    excused = exceptions(root)
    unused = set(excused)
    missing = set(ENTRY_POINTS)
    count = wrong = 0
    for crate in sorted(p for p in (root / "crates").glob("*") if p.is_dir()):
        proved, modules, names = theorems(crate)
        for file in sorted((crate / "src").rglob("*.rt")):
            text = blanked(file.read_text(encoding="utf-8"))
            for found in PUBLIC.finditer(text):
                count += 1
                name = found.group(1)
                full = f"{crate.name}::{name}"
                of = owner(text, found.start())
                path = path_of(file.relative_to(crate / "src"), f"{of}.{name}" if of else name)
                line = text.count("\n", 0, found.start()) + 1
                parameters, has_result, clauses = header(text, found.end())
                problems = contract_problems(parameters, has_result, clauses["ensures"])
                if full in ENTRY_POINTS:
                    missing.discard(full)
                    if clauses["requires"]:
                        problems.append("an entry point has a `requires`")
                    if crate.name != "probe":
                        problems += says_problems(path, proved, modules, names)
                only = name + "_only"
                unused.discard(full)
                if only in proved:
                    note = only
                    problems += only_problems(path, proved[only], modules, names, parameters, has_result)
                elif full in excused:
                    note = "excepted"
                    if not excused[full]:
                        problems.append("an exception without a reason")
                else:
                    note = "-"
                    problems.append(f"no `{only}` in {crate.name}/proofs/Only.antt, and no exception")
                print(f"{file.relative_to(root)}:{line}: {full} ({note})")
                for problem in problems:
                    print(f"    {problem}")
                wrong += len(problems)
    for full in sorted(unused):
        print(f"docs/PROMISES.md: the exception {full} is no public function")
        wrong += 1
    for full in sorted(missing):
        print(f"the entry point {full} is no public function")
        wrong += 1
    if count == 0:
        print("no public functions")
        wrong += 1
    print(f"public functions: {count}, {wrong} problems")
    return 1 if wrong else 0


if __name__ == "__main__":
    sys.exit(main(sys.argv[1:]))
