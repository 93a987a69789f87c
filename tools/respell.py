#!/usr/bin/env python3
"""Brings the repository's own definitions and lemmas to today's spelling, once, after port.py.

usage: tools/respell.py [--check] [FOLDER]        FOLDER: a repository (default: the folder above this file's)

A definition in camel case (firstPlace) and a law with dashes (rank-lower) become snake case (first_place, rank_lower); a type or a fact
stays in camel case, and loses its dashes (Demand-1 becomes Demand1). A prime is an apostrophe. Functions of src/, exported C names and
strings keep their names, and so does every name that a file brings in from the kit. --check writes nothing and lists names that fall
together. A second run changes nothing.
"""

import collections
import os
import re
import sys

# What a name of antt is made of.
NAME = re.compile(r"[^\s(){}.;,@\"«»|]+")
DECLARED = re.compile(r"(?m)^ *(?:(?:abbrev|unfoldable|pub|record|data|ruleset|opaque|mod|ghost|constructor) )*([^\s(){}.;,@\"«»:]+)(?: \{[^{}\n]*\})*(?: \([^()\n]*\))* :(?!:)")
RULES = re.compile(r"(?m)^ *pub ruleset (\S+)")
TYPES = re.compile(r"(?m)^ *(?:pub )?(?:record|data) (\S+)")
USE = re.compile(r"(?m)^( *(?:pub )?use )([^\s{]+?)(?:\.\{([^{}]*)\})?(?: as (\S+))?$")
# Names that the scripts before this one took for labels: as they were written.
MENDED = {"Marked-from": "marked_from", "Room-after": "room_after"}
# Laws that would have their definition's name.
LAWS = {"all_codes", "codes-read", "ended_by", "entries_from", "entry-words", "events-in", "join-left", "leaf-word", "mark-word", "met-with", "next-is", "number-line", "pair-of", "posted-is", "rank-by", "read-sheet"}
# Where a definition would have another thing's name.
OTHER = {"listRoom": "room_for_list", "getD-in": "get_or_in", "getD-zeros": "get_or_zeros"}
# And where, in one file, a function's contract is called as a definition is.
IN_FILE = {
    "demands/proofs/Demands.antt": {"cell-of": "cell_of_call"},
    "demands/proofs/Counts.antt": {"Marked-from": "marked_from_call"},
    "host/proofs/Same.antt": {"cell-of": "cell_of_call"},
    "heat/proofs/Only.antt": {"cell-of": "cell_of_call"},
}
# Words of the text that are no names.
ENGLISH = {"all-pairs", "must-fail", "k-th", "so-far", "first-in", "as-is"}


def own_crates(root):
    return sorted(c for c in os.listdir(os.path.join(root, "crates")) if os.path.isdir(os.path.join(root, "crates", c)))


def files_below(root, ending):
    for folder, dirs, files in os.walk(os.path.join(root, "crates")):
        dirs[:] = sorted(d for d in dirs if d != "out")
        yield from (os.path.join(folder, f) for f in sorted(files) if f.endswith(ending))


def read(path):
    with open(path, encoding="utf-8") as f:
        return f.read()


def snake(name):
    if name in MENDED:
        return MENDED[name]
    if name in LAWS:
        return name.replace("-", "_") + "_lem"
    if name in OTHER:
        return OTHER[name]
    core = name.replace("′", "'")
    left, right = core.startswith("◌"), core.endswith("◌") and len(core) > 1
    core = core.strip("◌")
    if core[:1].isupper():
        core = "".join(p[:1].upper() + p[1:] for p in core.split("-"))
    else:
        core = re.sub(r"(?<=[a-z0-9])([A-Z])", lambda m: "_" + m[1].lower(), core).replace("-", "_")
    return ("◌" if left else "") + core + ("◌" if right else "")


def is_spelled(name):
    """Whether the name is a word with letters whose spelling changes."""
    return bool(re.search(r"[A-Za-z]", name)) and snake(name) != name and not re.search(r"[→≡≢]|^-+$", name)


def walks(path):
    """A function's own proof: what it declares are the names of its goals."""
    return re.search(r"/proofs/.*/(Proof|Answers|Invariants)\.antt$", path) is not None


def declared_in(text):
    plain = re.sub(r"(?m)(^|\s)-- [^\n]*$", r"\1", text)
    names = set(DECLARED.findall(plain)) | set(RULES.findall(plain)) | set(TYPES.findall(plain))
    for _, path, items, alias in USE.findall(plain):
        names |= {m[1] for m in re.finditer(r"\bas ([^\s,}]+)", items or "")}
        if alias:
            names.add(alias)
    return names


def foreign_in(text, crates):
    """The names that a file brings in from the kit, as they stand there."""
    names = set()
    for _, path, items, _ in USE.findall(text):
        parts = path.split(".")
        if parts[0] == "Rattle" and len(parts) > 1 and parts[1] in crates:
            continue
        names |= set(parts)
        for it in (items or "").split(","):
            names.add(it.split(" as ")[0].strip())
    return names


def turn_antt(text, names, kept, own):
    for name, new in own.items():
        text = re.sub(rf"(?<![^\s(){{}}.;,@]){re.escape(name)}(?![^\s(){{}}.;,@])", new, text)
    out = []
    at = 0
    for m in re.finditer(r"(?m)(?:^|(?<=\s))--(?: [^\n]*)?$", text):
        out.append(NAME.sub(lambda w: word_at(w, at, text, names, kept), text[at : m.start()]))
        out.append(comment(m[0], names))
        at = m.end()
    out.append(NAME.sub(lambda w: word_at(w, at, text, names, kept), text[at:]))
    return "".join(out)


def word_at(w, at, text, names, kept):
    name = w[0]
    if name in kept or name not in names:
        return name
    start = at + w.start()
    if text[max(0, start - 4) : start] == "tie." or text[max(0, start - 5) : start] == "goal.":
        return name
    return snake(name)


def comment(text, names):
    return re.sub(r"[A-Za-z][\w'′-]*[\w'′]", lambda w: snake(w[0]) if w[0] in names and w[0] not in ENGLISH else w[0], text)


def turn_rt(text, names):
    """In the code the definitions in camel case, which stand in clauses, ghost imports and comments alone; strings stay."""
    parts = re.split(r'("(?:\\.|[^"\\\n])*")', text)
    camel = {n for n in names if "-" not in n}

    def word(m):
        return snake(m[0]) if m[0] in camel or (m[0].strip("◌") != m[0] and m[0] in names) else m[0]

    for i in range(0, len(parts), 2):
        parts[i] = re.sub(r"◌?[A-Za-z_][\w'′]*◌?", word, parts[i])
        parts[i] = re.sub(r"`([a-z][\w'′]*(?:-[\w'′]+)+)`", lambda m: "`" + (snake(m[1]) if m[1] in names else m[1]) + "`", parts[i])
    return "".join(parts)


def main(argv):
    check = "--check" in argv
    argv = [a for a in argv if a != "--check"]
    root = os.path.abspath(argv[0]) if argv else os.path.dirname(os.path.dirname(os.path.abspath(__file__)))
    crates = set(own_crates(root))
    texts = {p: read(p) for p in files_below(root, ".antt")}
    names = set()
    for p, t in texts.items():
        if not walks(p):
            names |= declared_in(t)
    if not any(re.match(r"[a-z]+[A-Z]", n) for n in names):
        print("respell: no definition is in camel case: nothing to do")
        return 0
    names |= set(MENDED)
    # an operator's word stands without its holes where it is used
    names |= {n.strip("◌") for n in names if n.startswith("◌") and re.search(r"[A-Za-z]", n)}
    names = {n for n in names if is_spelled(n) and n not in {"the-values"}}
    used = collections.defaultdict(set)
    turned = {}
    for p, t in texts.items():
        kept = foreign_in(t, crates)
        if walks(p):
            kept |= set(re.findall(r"(?m)^(?:abbrev )?([a-z][\w-]*) :", t))
        own = next((o for end, o in IN_FILE.items() if p.endswith("crates/" + end)), {})
        turned[p] = turn_antt(t, names, kept, own)
        for w in set(NAME.findall(re.sub(r"(?m)(^|\s)-- [^\n]*$", r"\1", t))):
            new = snake(w) if w in names and w not in kept else w
            used[p, new].add(w)
    rts = {p: read(p) for p in files_below(root, ".rt")}
    for p, t in rts.items():
        turned[p] = turn_rt(t, names)
    together = collections.defaultdict(set)
    for (p, new), olds in sorted(used.items()):
        if len(olds) > 1:
            together[new, tuple(sorted(olds))].add(os.path.relpath(p, root))
    for (new, olds), where in sorted(together.items()):
        print(f"together: {new}: {', '.join(olds)}: {', '.join(sorted(where))}")
    everywhere = collections.defaultdict(set)
    for n in names:
        everywhere[snake(n)].add(n)
    for new, olds in sorted(everywhere.items()):
        if len(olds) > 1 and not any(new == k[0] for k in together):
            print(f"alike: {new}: {', '.join(sorted(olds))}")
    changed = [p for p in turned if turned[p] != (texts.get(p) or rts.get(p))]
    print(f"respell: {len(names)} names, {len(changed)} files")
    if not check:
        for p in changed:
            with open(p, "w", encoding="utf-8") as f:
                f.write(turned[p])
    return 0


if __name__ == "__main__":
    raise SystemExit(main(sys.argv[1:]))
