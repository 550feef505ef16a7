#!/usr/bin/env python3
"""Candidates for the points of docs/DESIGN-PASS.md in src/, counted: tools/places.py [POINT] [--list]. Which of them are places is read."""
import collections
import pathlib
import re
import sys

ROOT = pathlib.Path(__file__).resolve().parent.parent
KEEP = set('if else match return for while loop in let mut Some None Ok Err true false self break continue unreachable ref move'.split())
MATCH = re.compile(r'^\s*(Err|None)(\([^)]*\))? => ')
CODE = re.compile(r'(kind|class|question|is_maker|settled|inside|found|known)\)?: (u32|bool)|-> Option<bool>')
LOOP = re.compile(r'^\s*(for|while|loop)\b')
CONVERSION = re.compile(r'fn (\w*number|\w+_from_number|is|line|side|side_of|applied|curve_word|order_word|side_word|sign_word|sign_of|is_same_\w+|'
                        r'first_difference|is_due|hex_digit|hex_value|push_word|layer|award_line|round_line)\b')
BUFFER = re.compile(r'\b(len|count|given): usize|\[NO_\w+|; MOST_\w+\]|; 512\]|rows: &mut \[|exits: &mut \[')
FUNCTION = re.compile(r'^( *)(pub(?:\([a-z]+\))? )?fn (\w+)(.*?)^\1\}$', re.S | re.M)


def sources():
    for path in sorted(ROOT.glob('crates/*/src/**/*.rt')):
        yield path.relative_to(ROOT).as_posix(), path.read_text()


def lines(pattern, skip=()):
    for name, text in sources():
        for number, line in enumerate(text.splitlines(), 1):
            if pattern.search(line) and not any(word in line for word in skip):
                yield f'{name}:{number}: {line.strip()}'


def functions():
    for name, text in sources():
        for found in FUNCTION.finditer(text):
            yield name, found.group(3), found.group(4)


def plain(body):
    body = re.sub(r'//.*', '', body)
    return re.sub(r'^\s*(requires|ensures)\*?( \w+)? \{.*\}\s*$', '', body, flags=re.M)


def skeleton(body):
    tokens = re.findall(r'[A-Za-z_]\w*|\d[\w.]*|"[^"]*"|\S', body)
    def kind(token):
        if token in KEEP or not (token[0].isalnum() or token[0] in '_"'):
            return token
        return 'n' if token[0].isdigit() else 's' if token[0] == '"' else 'i'
    return ' '.join(kind(token) for token in tokens)


def twins():
    groups = collections.defaultdict(list)
    for name, function, rest in functions():
        body = plain(rest)
        body = body[body.find('\n'):] if '{' in body else body
        shape = skeleton(body)
        if shape.count(' ') >= 14:
            groups[shape].append(f'{name}: {function}')
    for members in groups.values():
        if len(members) > 1:
            yield '; '.join(members)


def facts():
    counts = collections.Counter()
    for name, function, rest in functions():
        for fact in re.findall(r'requires(?: \w+)? \{ (.*) \}', rest):
            counts.update(re.sub(r'\b\w+\.(now|old)\b|\b(low|high|last|next|side|self|area)\b', '_', part.strip('() ')) for part in re.split(r' × ', fact))
    for fact, count in counts.most_common():
        if count >= 3:
            yield f'{count} times: {fact}'


def together():
    counts = collections.Counter()
    for name, function, rest in functions():
        head = rest[:rest.find('{')]
        names = sorted(set(re.findall(r'(\w+): ', re.sub(r'<.*?>', '', head.split(' requires')[0].split(' ensures')[0]))))
        counts.update((a, b) for i, a in enumerate(names) for b in names[i + 1:])
    for pair, count in counts.most_common():
        if count >= 3:
            yield f'{count} times: {pair[0]} and {pair[1]}'


def proofs():
    for path in sorted(ROOT.glob('crates/*/proofs/**/*.antt')):
        if path.name != 'Lib.antt':
            yield f'{path.relative_to(ROOT).as_posix()}: {len(path.read_text().splitlines())} lines'


POINTS = [
    ('1', 'matches on an Option or a Result written out', lambda: lines(MATCH)),
    ('1', 'flags, and numbers for kinds', lambda: lines(CODE, ('//',))),
    ('2', 'groups of functions with one shape', twins),
    ('3', 'loops', lambda: lines(LOOP)),
    ('4', 'conversions, comparisons and words by hand', lambda: lines(CONVERSION)),
    ('5', 'facts that three or more contracts require', facts),
    ('5', 'parameters that travel together three times or more', together),
    ('6', 'buffers and lengths beside them', lambda: lines(BUFFER)),
    ('8', 'proof files', proofs),
]


def main():
    wanted = [word for word in sys.argv[1:] if not word.startswith('-')]
    for point, what, find in POINTS:
        if wanted and point not in wanted:
            continue
        found = list(find())
        print(f'{point}: {what}: {len(found)}')
        if '--list' in sys.argv:
            print('\n'.join('  ' + line for line in found))


main()
