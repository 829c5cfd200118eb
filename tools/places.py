#!/usr/bin/env python3
"""Counts, over crates/*/src, the places of the design pass (docs/DESIGN-PASS.md), point by point; with -v it names each. Tests of text alone: what a place is, is said
at each point. Run at the top of the repository."""
import collections, glob, re, sys

NAMED = '-v' in sys.argv
files = sorted(glob.glob('crates/*/src/*.rt'))
places = collections.defaultdict(list)


def add(point, file, line, what):
    places[point].append('%s:%d: %s' % (file, line, what.strip()))


# functions: file, first line, name, head (to the body's brace), body
functions = []
for file in files:
    lines = open(file).read().split('\n')
    i = 0
    while i < len(lines):
        m = re.match(r'( *)(?:pub )?(?:extern "C" )?fn (\w+)', lines[i])
        if not m:
            i += 1
            continue
        begin, close = i, m.group(1) + '}'
        while i < len(lines) and lines[i] != close:
            i += 1
        text = lines[begin:i + 1]
        cut = next((k for k, l in enumerate(text) if l in (m.group(1) + '{',) or (k == 0 and l.endswith('{'))), 0)
        functions.append((file, begin + 1, m.group(2), '\n'.join(text[:cut + 1]), '\n'.join(text[cut + 1:])))
        i += 1

# 1: enums with a variant that says there is no answer; structs with a flag; errors and kinds as numbers
EMPTY = r'^    (No|None|Never|Nothing|Unknown|Refused|Refuses|Flawed|Bad|Lost|Failed|Wrong|Off|More)\b'
for file in files:
    for m in re.finditer(r'^(?:pub )?(enum|struct) (\w+)[^{;]*\{\n(.*?)^\}', open(file).read(), re.M | re.S):
        at = open(file).read()[:m.start()].count('\n') + 1
        if m.group(1) == 'enum' and re.search(EMPTY, m.group(3), re.M):
            add('1 enums with an empty or refused case', file, at, m.group(2))
        if m.group(1) == 'struct' and re.search(r': bool,', m.group(3)):
            add('1 structs with a flag', file, at, m.group(2))
for file, at, name, head, body in functions:
    if re.search(r'Result<[^>]*, u8>|\bwhy: &mut', head):
        add('1 errors as numbers or through a parameter', file, at, name)

# 2: functions whose bodies differ in names, numbers and bytes alone, of 5 lines and more
shapes = collections.defaultdict(list)
for file, at, name, head, body in functions:
    if body.count('\n') < 5:
        continue
    shape = re.sub(r'"[^"]*"|b?\'.[^\']*\'|\b\w+\b', lambda m: m.group(0) if m.group(0) in 'if else while loop for in return let mut match true false as'.split() else '_', body)
    shapes[re.sub(r'\s+', ' ', re.sub(r'_(::_)+', '_', shape))].append((file, at, name))
for group in shapes.values():
    if len(group) > 1:
        for file, at, name in group:
            add('2 functions of one shape', file, at, name + ' (as ' + ', '.join(n for f, a, n in group if (f, a) != (file, at)) + ')')

# 3: loops that are no `for`
for file in files:
    for n, l in enumerate(open(file), 1):
        if re.match(r'\s*(while|loop)\b', l):
            add('3 while and loop', file, n, l)

# 4: tests as ladders of `return true` and `return false`; matches that answer true and false alone; conversions of one type to another by a function
for file, at, name, head, body in functions:
    if re.search(r'-> bool', head):
        if len(re.findall(r'return (?:true|false);', body)) > 0 and not re.search(r'\b(while|loop|for)\b', body):
            add('4 tests as ladders', file, at, name)
        elif re.search(r'\bmatch\b', body) and set(re.findall(r'=> (\w+),', body)) <= {'true', 'false'}:
            add('4 tests as matches', file, at, name)
    if re.search(r'\(\w+: [A-Z]\w+\) -> [A-Z]\w+\n', head) and re.search(r'\bmatch\b', body):
        add('4 conversions by a function', file, at, name)

# 5: a clause that stands in the contracts of three functions and more; parameters that travel together in three and more
clauses = collections.defaultdict(list)
pairs = collections.defaultdict(list)
for file, at, name, head, body in functions:
    for m in re.finditer(r'requires(?: \w+)? \{ (.*) \}$', head, re.M):
        for part in re.split(r' × ', m.group(1)):
            part = part.strip()
            while part.startswith('(') and part.endswith(')'):
                part = part[1:-1].strip()
            clauses[(file, part)].append((at, name))
    m = re.search(r'fn \w+(?:<[^>]*>)?\((.*?)\)\s*(?:->|\n|\{)', head, re.S)
    ps = re.findall(r'(?:mut )?(\w+): ([^,()]+)', m.group(1)) if m else []
    for a, b in zip(ps, ps[1:]):
        pairs[(file, a[0] + ': ' + a[1].strip() + ', ' + b[0] + ': ' + b[1].strip())].append((at, name))
for (file, part), found in clauses.items():
    if len(found) >= 3:
        add('5 clauses of three functions and more', file, found[0][0], '%d functions: %s' % (len(found), part))
for (file, pair), found in pairs.items():
    if len(found) >= 3:
        add('5 parameters that travel together', file, found[0][0], '%d functions: %s' % (len(found), pair))

# 6: tables with lengths, numbers for kinds or padding inside; buffers of fixed size
for file in files:
    for n, l in enumerate(open(file), 1):
        if re.match(r'const \w+: \[', l):
            add('6 tables', file, n, l)
        if re.search(r'let mut \w+ = \[.*; \d+\];', l):
            add('6 buffers of fixed size', file, n, l)

# 7: a match on numbers
for file, at, name, head, body in functions:
    if len(re.findall(r'^\s+\d+ => ', body, re.M)) > 2:
        add('7 matches on numbers', file, at, name)

# 8: answers in proofs of functions, and their lines
for file in sorted(glob.glob('crates/*/proofs/**/Answers.antt', recursive=True)):
    text = open(file).read()
    for m in re.finditer(r'^pub (\S+) : goal\.', text, re.M):
        add('8 answers', file, text[:m.start()].count('\n') + 1, m.group(1))

for point in sorted(places):
    print('%5d  %s' % (len(places[point]), point))
    if NAMED:
        for place in places[point]:
            print('         ' + place)
print('%5d  lines of src' % sum(len(open(f).read().split('\n')) - 1 for f in files))
print('%5d  lines of proofs of functions' % sum(len(open(f).read().split('\n')) - 1 for f in glob.glob('crates/*/proofs/**/*.antt', recursive=True) if f.count('/') > 3))
