#!/usr/bin/env python3
"""Compares what specs/ and proofs/ of every crate declare with a commit: python3 tools/statements.py COMMIT.

Prints the names that are gone, those that are new, and those whose words changed: of a law its statement, of a
definition its equations too. A name is looked for in its own file, and then in the others of its crate's specs/ or
proofs/. Names of the proofs of single functions (proofs/F/..) are left out, as they follow the code; so is what the
laws of a module have for premises together.
"""
import re
import subprocess
import sys
from pathlib import Path

ROOT = Path(__file__).resolve().parent.parent
HEAD = re.compile(r'^( *)((?:pub |abbrev |unfoldable )*)((?:data|record) )?([^\s:(){}]+)(?: [({][^\n=]*)? : ', re.M)
WORDS = {'→', '×', 'use', 'module', 'let', 'in', 'where', 'unfolding', 'infixr', 'infixl', 'infix', 'ruleset', 'axiom', 'record', 'data'}


def declared(text):
    """Each name with what it says; a field of a record stands under the record."""
    text = '\n'.join(l for l in text.split('\n') if not l.lstrip().startswith('--'))
    found = {}
    kind = None
    matches = [m for m in HEAD.finditer(text) if m.group(4) not in WORDS and len(m.group(1)) in (0, 2, 4, 6)]
    last = 0
    for m, n in zip(matches, matches[1:] + [None]):
        name = m.group(4)
        # what stands in a module, and not in a record, has no record's name
        if re.search(r'^ *module ', text[last:m.start()], re.M):
            kind = None
        last = m.start()
        body = text[m.start():n.start() if n else len(text)]
        if m.group(3):
            kind = name
        elif len(m.group(1)) == 0:
            kind = None
        # a law says what stands before its first equation; a definition all of it
        if not m.group(3) and not re.search(r'abbrev|unfoldable', m.group(2)):
            cut = re.search(r'^ *(?:unfolding .*\n *)?' + re.escape(name) + r'(?: .*)? =', body, re.M)
            body = body[:cut.start()] if cut else body
            body = re.sub(r'\n *unfolding .*', '', body)
        body = re.split(r'\n(?=module _|use |-- ----)', body)[0]
        full = f'{kind}.{name}' if kind and kind != name and len(m.group(1)) else name
        found[full] = ' '.join(body.split())
    return found


def old(commit, path):
    return subprocess.run(['git', 'show', f'{commit}:{path}'], cwd=ROOT, capture_output=True, text=True, check=True).stdout


def main():
    commit = sys.argv[1]
    names = subprocess.run(['git', 'ls-tree', '-r', '--name-only', commit, 'crates'], cwd=ROOT, capture_output=True, text=True, check=True).stdout.split()
    keep = re.compile(r'crates/[^/]+/(specs|proofs)/[^/]+\.antt$')
    before, after = {}, {}
    for path in filter(keep.match, names):
        for name, says in declared(old(commit, path)).items():
            before[(*path.split('/')[1:4], name)] = says
    for file in sorted(ROOT.glob('crates/*/*/*.antt')):
        path = str(file.relative_to(ROOT))
        if keep.match(path):
            for name, says in declared(file.read_text(encoding='utf-8')).items():
                after[(*path.split('/')[1:4], name)] = says
    now = {key: key for key in before if key in after}
    fresh = [key for key in sorted(after) if key not in before]
    for key in sorted(before):
        moved = [k for k in fresh if k[:2] == key[:2] and k[3] == key[3]]
        if key not in now and moved:
            now[key] = moved[0]
            fresh.remove(moved[0])
    same = 0
    for key in sorted(before):
        crate, part, file, name = key
        if key not in now:
            print(f'GONE    {crate}/{part}/{file}: {name}\n          {before[key]}')
        elif before[key] != after[now[key]]:
            print(f'CHANGED {crate}/{part}/{now[key][2]}: {name}\n        - {before[key]}\n        + {after[now[key]]}')
        else:
            same += 1
    for crate, part, file, name in fresh:
        print(f'NEW     {crate}/{part}/{file}: {name}\n          {after[crate, part, file, name]}')
    print(f'{len(before)} before, {len(after)} now, {same} the same')


main()
