#!/usr/bin/env python3
"""Counts the places that docs/DESIGN-PASS.md speaks of, in the source of every crate: python3 tools/forms.py [-v] [FOLDER].

Each line is a point and a pattern with its number; -v prints the places too. FOLDER is another checkout, and else this one.
"""
import collections
import pathlib
import re
import sys

PATTERNS = [
    ('1a', 'enums of the repository\'s own', r'^\s*(pub(\(crate\))? )?enum \w+'),
    ('1b', 'a refusal\'s number as a literal', r'number: \d+|^\s*(return )?\{? ?(3|4|5|17);?( \})?$|\{ (0|3|5) \} else \{ (3|5) \}'),
    ('1c', 'a number tested for no refusal', r'broken != 0'),
    ('1d', 'no room told by a pen that has not moved', r'\.place == |next == place|between == 0'),
    ('3a', 'loops written with while or loop', r'^\s*(\'\w+: )?(while|loop)\b|= \'\w+: loop'),
    ('3b', 'an index stepped by hand', r'^\s*(i|n|j|x|e|u|events) [+-]= 1;'),
    ('4a', 'order or equality of contexts by their numbers', r'\b(a|b|el|fl|eh|fh|l|h|lower|higher|p\.0|a\.0) (<|>|==|!=|>=) (a|b|el|fl|eh|fh|l|h|higher|q\.0|b\.0)\b'),
    ('4b', 'a bool as a number by hand', r'if b \{ 1 \} else \{ 0 \}'),
    ('5a', 'offsets and codes as two parameters', r'offsets: &(\'a )?\[u16\], codes: &|^\s+offsets: &\[u16\],$'),
    ('5b', 'a clause that tables are sound', r'Sound offsets\.now codes\.now'),
    ('5c', 'a context and its place as two parameters', r'c: Context, p: Place|^\s+c: Context,\n\s+p: Place,'),
    ('6', 'a buffer with a count of what is in it', r'\b(found|entries|used|from): (usize|u16)'),
    ('7', 'a parameter that chooses the step', r'margin: u32|: fn\(|\bdyn\b'),
]


def text_of(file):
    return re.sub(r'//[^\n]*', '', file.read_text())


def functions(text):
    for m in re.finditer(r'^( *)(?:pub(?:\([a-z]+\))? )?(?:extern "C" )?fn (\w+)', text, re.M):
        end = text.find('\n' + m.group(1) + '}\n', m.start())
        if end >= 0:
            yield m.group(2), text[m.start():end], m.group(1)


KEEP = set('if else while loop for in let mut return break match true false as'.split())


def shape(body):
    """A body without its names, numbers, types' marks and references."""
    tokens = re.findall(r"[A-Za-z_']\w*|\d[\w_]*|\"[^\"]*\"|[^\s\w]", body)
    plain = []
    for t in tokens:
        if t in '&,':
            continue
        plain.append('0' if t[0].isdigit() else t if t in KEEP or not re.match(r"[A-Za-z_']", t) else 'x')
    return ' '.join(plain) if len(plain) > 12 else None


def main():
    words = [a for a in sys.argv[1:] if a != '-v']
    root = pathlib.Path(words[0]) if words else pathlib.Path(__file__).parent.parent
    files = sorted(root.glob('crates/*/src/**/*.rt'))
    for point, what, pattern in PATTERNS:
        places = []
        for f in files:
            text = text_of(f)
            for m in re.finditer(pattern, text, re.M):
                places.append(f'{f.relative_to(root)}:{text.count(chr(10), 0, m.start()) + 1}: {m.group(0).strip()}')
        print(f'{point:4}{len(places):4}  {what}')
        if '-v' in sys.argv:
            print(''.join(f'            {p}\n' for p in places), end='')
    shapes = collections.defaultdict(list)
    clauses = collections.defaultdict(set)
    for f in files:
        for name, body, indent in functions(text_of(f)):
            at = body.find('\n' + indent + '{\n')
            key = shape(body[at:] if at >= 0 else body[body.find('{'):])
            if key:
                shapes[key].append(f'{f.parts[-3] if f.parent.name == "src" else f.parts[-4]}::{name}')
            for clause in re.findall(r'requires \w* ?\{ (.*?) \}\n', body + '\n', re.S):
                clauses[re.sub(r'\s+', ' ', clause)].add(name)
    twins = [v for v in shapes.values() if len(v) > 1]
    print(f'2   {sum(map(len, twins)):4}  functions whose bodies differ only in names, types and numbers')
    facts = {c: n for c, n in clauses.items() if len(n) > 2}
    print(f'5d  {len(facts):4}  premises that stand in three or more functions, in {sum(map(len, facts.values()))} places')
    if '-v' in sys.argv:
        for v in twins:
            print('            ' + ', '.join(v))
        for c, n in sorted(facts.items(), key=lambda x: -len(x[1])):
            print(f'            {len(n)}: {c}')


main()
