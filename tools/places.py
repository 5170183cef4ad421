#!/usr/bin/env python3
"""Counts the places in src/ that older forms leave, point by point (docs/DESIGN-PASS.md says what the points are).

    tools/places.py [-v] [FOLDER]     FOLDER is a checkout, '.' if none is named; -v prints each place

A place is a line of src/ that a point's pattern finds, or for twins a pair of functions whose bodies are alike.
What a pattern finds is a candidate: docs/DESIGN-PASS.md says of each what became of it."""
import difflib
import glob
import os
import re
import sys

args = [a for a in sys.argv[1:] if a != '-v']
verbose = '-v' in sys.argv
root = args[0] if args else '.'
files = sorted(glob.glob(os.path.join(root, 'crates/*/src/*.rt')))
text = {os.path.relpath(f, root): open(f).read() for f in files}


def lines(pattern, skip=None):
    """The lines of code that the pattern finds, without comments and clauses of contracts."""
    for name, whole in text.items():
        for number, line in enumerate(whole.split('\n'), 1):
            code = line.split('//')[0]
            if re.match(r'\s*(ghost|requires|ensures)\b', code):
                continue
            if re.search(pattern, code) and not (skip and re.search(skip, code)):
                yield f'{name}:{number}: {line.strip()}'


def functions():
    """Each function with a body: its file, its name, its signature and its body."""
    for name, whole in text.items():
        for found in re.finditer(r'^( *)(?:pub(?:\([a-z]+\))? )?(?:extern "C" )?fn (\w+)', whole, re.M):
            indent = found.group(1)
            start = re.compile(r'(^' + indent + r'\{$)|( \{$)', re.M).search(whole, found.end())
            end = re.compile(r'^' + indent + r'\}$', re.M).search(whole, found.end())
            if start and end and start.end() < end.start():
                yield name, found.group(2), whole[found.start():start.start()], whole[start.end():end.start()]


def shape(body):
    """The tokens of a body, with numbers and names of types and variants as one kind."""
    body = re.sub(r'//.*', '', body)
    tokens = re.findall(r'[A-Za-z_]\w*|\d\w*|"[^"]*"|[^\s\w]', body)
    return ['N' if t[0].isdigit() else 'S' if t[0] == '"' else 'T' if t[0].isupper() else t for t in tokens]


def twins():
    """Pairs of functions whose bodies are alike but for types, sizes and constants, or nearly so."""
    shapes = [(f, n, shape(b)) for f, n, _, b in functions()]
    shapes = [s for s in shapes if len(s[2]) >= 14]
    for i, (f, n, a) in enumerate(shapes):
        for g, m, b in shapes[i + 1:]:
            if min(len(a), len(b)) / max(len(a), len(b)) < 0.7:
                continue
            ratio = difflib.SequenceMatcher(None, a, b, autojunk=False).ratio()
            if ratio >= 0.8:
                yield f'{f} {n} ~ {g} {m} ({ratio:.2f})'


def clauses():
    """Facts that stand in the contracts of three functions or more, with the names of parameters left out."""
    seen = {}
    for f, n, signature, _ in functions():
        for clause in set(re.findall(r'^\s*(?:requires|ensures)[^{]*\{ (.*) \}$', signature, re.M)):
            plain = re.sub(r'\b(self|given|execution|desk|order|opening|local)\.(now|old|new)\b', 'X', clause)
            seen.setdefault(plain, set()).add(f'{f} {n}')
    for clause, places in sorted(seen.items(), key=lambda kv: -len(kv[1])):
        if len(places) >= 3:
            yield f'{len(places)} times: {clause}'


def pairs():
    """Parameters that two by two stand in the signatures of three functions or more."""
    seen = {}
    for f, n, signature, _ in functions():
        head = signature.split('requires')[0].split('ensures')[0]
        names = sorted(set(re.findall(r'(\w+): &(?:mut )?(?:Execution|Order|Given|Desk|Case|HostRuntime)\b', head)))
        for i, a in enumerate(names):
            for b in names[i + 1:]:
                seen.setdefault((a, b), []).append(f'{f} {n}')
    for (a, b), places in sorted(seen.items(), key=lambda kv: -len(kv[1])):
        if len(places) >= 3:
            yield f'{len(places)} times: {a}, {b}'


def answers():
    for f in sorted(glob.glob(os.path.join(root, 'crates/*/proofs/**/*.antt'), recursive=True)):
        for number, line in enumerate(open(f), 1):
            if re.match(r'(abbrev )?pub [^:]* : goal\.', line):
                yield f'{os.path.relpath(f, root)}:{number}: {line.strip()}'


points = [
    ('1 a result in disguise, a number for a kind or a refusal', lambda: lines(
        r'\(Refusal\),$|-> Option<Refusal>|^\s+\d+( \| \d+)* (if .*)?=> |=> \d+,$|\bNONE\b|u32::MAX|code in |code: u8|kind: u8')),
    ('2 twins', twins),
    ('3 loops that count an index, a search or a sum by hand', lambda: lines(r'^\s*(\'\w+: )?(while (?!let )|for \w+ in .*\.\.)|\btimes \+= |\bpassed = passed')),
    ('4 equality, conversion and printing by hand', lambda: lines(
        r'=> (true|false),$|_ => None,$|None => \d,$|None => (false|true|None|NONE),|fn (by_code|number|reason|finder|named|yes|sentence|told|made|supposed|known)\b|fn \w+_(byte|number|of)\(|fn of\(|\} else \{ Some\(|Err\(refusal\) => return')),
    ('5 facts in three contracts', clauses),
    ('5 parameters that travel together', pairs),
    ('6 buffers with a length beside them', lambda: lines(r'^\s+(pub(\([a-z]+\))? )?(count|depth): usize,$|^\s+(pub(\([a-z]+\))? )?\w+: \[\w+; \w+\],$')),
    ('7 switches on which step to run', lambda: lines(r'=> \w+\.kept\(|=> \w+\(self\.\w+\(')),
    ('8 answers written by hand', answers),
]
for title, find in points:
    found = list(find())
    print(f'{title}: {len(found)}')
    if verbose:
        for place in found:
            print('   ', place)
