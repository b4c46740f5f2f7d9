#!/usr/bin/env python3
"""Finds the places of docs/DESIGN-PASS.md in the sources: what reads like a language without Option, iterators, derives and structs with methods.

    tools/places.py            the working tree: how many of each sort
    tools/places.py COMMIT     the same of a commit
    tools/places.py -v [..]    each place with its file and line

A sort is a pattern over the code without its comments and clauses, or a count over the signatures. It finds candidates: whether one stays, and why, stands on
the page.
"""
import os
import re
import subprocess
import sys

ROOT = os.path.dirname(os.path.dirname(os.path.abspath(__file__)))
TYPES = r'(?:u8|u16|u32|u64|usize)'


def sources(commit):
    """The .rt files under crates/*/src/ of a commit or of the working tree, with their text."""
    if commit:
        names = subprocess.run(['git', 'ls-tree', '-r', '--name-only', commit, 'crates'], cwd=ROOT, capture_output=True, text=True, check=True).stdout.split()
    else:
        names = subprocess.run(['git', 'ls-files', '-co', '--exclude-standard', 'crates'], cwd=ROOT, capture_output=True, text=True, check=True).stdout.split()
    for name in sorted(names):
        if not re.match(r'crates/\w+/src/.*\.rt$', name):
            continue
        if commit:
            text = subprocess.run(['git', 'show', f'{commit}:{name}'], cwd=ROOT, capture_output=True, text=True, check=True).stdout
        else:
            path = os.path.join(ROOT, name)
            if not os.path.exists(path):
                continue
            with open(path, encoding='utf8') as f:
                text = f.read()
        yield name, text


def bare(text):
    """The text with comments blanked and clauses out: lines keep their numbers."""
    lines = []
    for line in text.split('\n'):
        line = re.sub(r'//.*', '', line)
        if re.match(r'\s*(requires|ensures|ghost)\b', line):
            line = ''
        lines.append(line)
    return '\n'.join(lines)


def found(pattern, text):
    return [text.count('\n', 0, m.start()) + 1 for m in re.finditer(pattern, text, re.M)]


def signatures(text):
    """(line, name, parameters, result) of each function."""
    for m in re.finditer(r'\bfn (\w+)(?:<[^>(]*>)?\(([^)]*)\)(?:\s*->\s*([^\n{]+))?', text):
        parameters = [p.strip() for p in m.group(2).split(',') if ':' in p]
        yield text.count('\n', 0, m.start()) + 1, m.group(1), parameters, (m.group(3) or '').strip()


def many_parameters(text):
    return [line for line, _, parameters, _ in signatures(text) if len(parameters) >= 5]


def number_results(text):
    return [line for line, name, _, result in signatures(text)
            if re.fullmatch(r'u8', result) and re.search(r'rule|answer|fault|refusal|first$|^room$|take|table|start|unless|test|form|^act$', name)]


def lent_with_length(text):
    out = []
    for line, _, parameters, _ in signatures(text):
        lent = [p for p in parameters if re.search(r': &(mut )?\[', p) or '&mut [' in p]
        if lent and any(re.match(r'(size|count|used|links|nodes|length|have)\b.*: usize', p) for p in parameters):
            out.append(line)
    return out


KEYWORDS = {'let', 'mut', 'if', 'else', 'match', 'while', 'for', 'in', 'return', 'loop', 'break', 'true', 'false', 'as', 'self', 'Some', 'None', 'Ok', 'Err'}


def bodies(code):
    """(line, tokens of one shape) of each function: names, numbers and types are one token each, so that twins read the same."""
    for m in re.finditer(r'\bfn (\w+)', code):
        start = code.find('{', m.end())
        depth, end = 0, start
        while start >= 0 and end < len(code):
            depth += {'{': 1, '}': -1}.get(code[end], 0)
            end += 1
            if depth == 0:
                break
        tokens = re.findall(r"\w+|[^\s\w]", code[start:end])
        yield code.count('\n', 0, m.start()) + 1, tuple(t if t in KEYWORDS else '0' if t[0].isdigit() else 'x' if re.match(r'\w', t) else t for t in tokens)


def twins(texts):
    """The functions of 20 tokens or more that have a twin: another function whose body differs in names and numbers alone."""
    shapes = {}
    for name, _, code in texts:
        for line, shape in bodies(code):
            if len(shape) >= 20:
                shapes.setdefault(shape, []).append(f'{name}:{line}')
    return sorted(place for places in shapes.values() if len(places) > 1 for place in places)


SORTS = [
    # 1
    ('1 enum of the shape of Option or Result', lambda raw, code: found(r'enum (Climb|Read|Number|Word|Record)\b(?=[^}]*\b(None|Nothing|Unknown)\b)', code)),
    ('1 number, answer or failure with a value beside it', lambda raw, code: found(r'^\s+(?:pub )?(?:number|answer|failed): ', code)),
    ('1 constant that numbers a kind, a row, a way or a refusal', lambda raw, code: found(
        r'^\s*(?:pub(?:\(crate\))? )?const (?!MOST_|ROOM|PAGE|LINE\b|LONGEST|SEED|TRIALS|PLANS|PLAN\b|WORLD|SHEETS?\b|ROWS|NUMBERS|CODES|LETTERS|DIGITS|PAIRS|ZERO|NINE|BLANK|LIST|ORDER\b|STEPS|\w+_(?:SIZE|WIDTH|AT|WAYS)\b|DEEPEST)[A-Z_0-9]+: (?:u8|u16|usize) =', code)),
    ('1 function that answers a number for a refusal', lambda raw, code: number_results(code)),
    ('2 function with a twin that differs in names and numbers alone', None),
    # 3
    ('3 loop by `while` with an index or a set', lambda raw, code: found(r'\bwhile ', code)),
    ('3 `for` over an index range', lambda raw, code: found(r'\bfor \w+ in [\w:.()*+ -]+\.\.', code)),
    ('3 value taken into a name and put back (`let x = ..; y = x;`)', lambda raw, code: found(r'let (\w+) = [^;]+;\s*\w+ = \1;', code)),
    # 4
    ('4 cast by `as`', lambda raw, code: found(r'\bas ' + TYPES + r'\b', code)),
    ('4 function that only converts, compares or takes a minimum', lambda raw, code: found(
        r'\bfn (?:wide|narrow|byte|word|of_byte|of_word|plus|minus|word_at|at_most|smaller|smallest|one_if|held|in_row|excess|pair|two_bytes|first_difference|first_byte|same_words|same_bytes|number|index)\b', code)),
    # 5
    ('5 function of five parameters or more', lambda raw, code: many_parameters(code)),
    ('5 field taken into a local only to lend it (`let x = net.x;`)', lambda raw, code: found(r'let (\w+) = (\w+)\.\1;', code)),
    ('5 the fact `nodes ≤ 64` or `links ≤ 128` as a `requires`', lambda raw, code: found(r'^\s*requires .*(?:nodes ≤ 64|links ≤ 128|net\.links ≤ 128|nodes < 64)', raw)),
    # 6
    ('6 lent buffer with its length or count beside it', lambda raw, code: lent_with_length(code)),
    # 7
    ('7 `match` on a number', lambda raw, code: found(r'match (?:below\(|kind\b|k\b|row\b|sheet\b|way\b|check\b|i\b|t %|byte\(|code\b)', code)),
    # the ladder
    ('  ladder: a test whose other side only answers false or true', lambda raw, code: found(r'return (?:true|false);', code)),
]


def main(args):
    verbose = '-v' in args
    commits = [a for a in args if a != '-v']
    texts = [(name, raw, bare(raw)) for name, raw in sources(commits[0] if commits else None)]
    for sort, places in SORTS:
        lines = [f'{name}:{line}' for name, raw, code in texts for line in places(raw, code)] if places else twins(texts)
        print(f'{len(lines):5}  {sort}')
        if verbose:
            for line in lines:
                print(f'       {line}')


if __name__ == '__main__':
    main(sys.argv[1:])
