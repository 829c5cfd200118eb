#!/usr/bin/env python3
"""changes.py COMMIT: what changed since a commit of public functions and types in crates/*/src, and of definitions (specs/) and theorems (proofs/, but for the folders of a
function's own proof), old beside new, as Markdown (docs/DESIGN-PASS.md). Spaces and ends of lines don't count. Run at the top of the repository."""
import collections, re, subprocess, sys

COMMIT = sys.argv[1]


def listed(commit):
    names = subprocess.run(['git', 'ls-tree', '-r', '--name-only', commit, 'crates'], capture_output=True, text=True, check=True).stdout.split('\n')
    keep = [n for n in names if re.fullmatch(r'crates/\w+/(src/\w+\.rt|specs/\w+\.antt|proofs/\w+\.antt)', n)]
    return {n: subprocess.run(['git', 'show', commit + ':' + n], capture_output=True, text=True, check=True).stdout for n in keep}


def plain(text):
    return re.sub(r'\s+', ' ', re.sub(r',\s*\)', ')', text)).replace('( ', '(').strip()


def functions(text):
    """public functions with their clauses, methods under their type, and public types"""
    out, owner = {}, ''
    lines = text.split('\n')
    i = 0
    while i < len(lines):
        m = re.match(r'impl(?:<[^>]*>)? (?:(\w+)(?:<.*>)? for )?(\w+)', lines[i])
        if m:
            owner = m.group(2) + '::'
        if lines[i] == '}':
            owner = ''
        m = re.match(r'( *)pub (?:extern "C" )?fn (\w+)', lines[i])
        if m:
            head = []
            while i < len(lines):
                l = lines[i]
                if l.strip() == '{':
                    break
                head.append(l[:-1] if l.endswith('{') and not re.search(r'(ensures|requires).*\{$', l) else l)
                if l.endswith('{') and not re.search(r'(ensures|requires)', l):
                    break
                i += 1
            out[(owner if m.group(1) else '') + m.group(2)] = plain(' '.join(head))
        m = re.match(r'pub (struct|enum|trait) (\w+)', lines[i])
        if m:
            body = []
            while i < len(lines):
                if not lines[i].strip().startswith('//'):
                    body.append(lines[i])
                if lines[i].endswith('}') or lines[i].endswith(';'):
                    if lines[i] == '}' or lines[i].startswith('pub'):
                        break
                i += 1
            out[m.group(1) + ' ' + m.group(2)] = plain(' '.join(body))
        i += 1
    return out


def headed(lines):
    """the lines with each module's head, which may go over several, on one"""
    out, open_head = [], False
    for l in lines:
        if open_head:
            out[-1] += ' ' + l.strip()
        else:
            out.append(l)
        open_head = re.match(r' *module _ ', out[-1]) is not None and not re.search(r'\bwhere$', out[-1])
    return out


def declared(text, spec):
    """declarations of an antt file: name -> its statement, and in specs/ its body as well"""
    out = {}
    # the modules that a line stands in, one within another, two columns each
    modules = []
    lines = headed(text.split('\n'))
    i = 0
    while i < len(lines):
        if lines[i].strip() and not lines[i].lstrip().startswith('--'):
            del modules[(len(lines[i]) - len(lines[i].lstrip())) // 2:]
        m = re.match(r'( *)(module _ .*) where$', lines[i])
        if m and len(m.group(1)) == 2 * len(modules):
            modules.append(m.group(2))
            i += 1
            continue
        m = re.match(r'( *)((?:abbrev |unfoldable )?(?:pub )?(?:record |data )?)([^\s:(]+)(?: .*)? :(?: |$)', lines[i])
        if m and not lines[i].lstrip().startswith(('use ', 'let ', '--')) and len(m.group(1)) == 2 * len(modules):
            begin, indent = i, len(m.group(1))
            name = m.group(3)
            i += 1
            taken = [lines[begin]]
            kind = 'record' in m.group(2) or 'data' in m.group(2)
            while i < len(lines) and lines[i].strip() and not lines[i].lstrip().startswith('--'):
                l = lines[i]
                deep = len(l) - len(l.lstrip())
                own = deep == indent and re.match(r' *(%s|unfolding)\b' % re.escape(name), l)
                if deep <= indent and not own:
                    break
                if own and not spec:
                    break
                if not re.match(r' *unfolding\b', l):
                    taken.append(l)
                i += 1
            public = 'pub ' in m.group(2) or spec
            if public:
                out[name] = plain(' '.join(([] if spec else modules) + taken))
            while i < len(lines) and lines[i].strip() and (len(lines[i]) - len(lines[i].lstrip()) > indent or re.match(r' *(%s|unfolding)\b' % re.escape(name), lines[i])):
                i += 1
            continue
        i += 1
    return out


def gather(files):
    src, specs, proofs = {}, {}, {}
    for n, t in files.items():
        crate, kind, file = n.split('/')[1:]
        if kind == 'src':
            src.update({(crate, k): v for k, v in functions(t).items()})
        elif kind == 'specs':
            specs.update({(crate, file[:-5] + '.' + k): v for k, v in declared(t, True).items()})
        else:
            proofs.update({(crate, file[:-5] + '.' + k): v for k, v in declared(t, False).items()})
    return src, specs, proofs


def moved(gone, new):
    """declarations of the same name in another file; whether they say the same is for the reader"""
    back = collections.defaultdict(list)
    for k, v in new.items():
        back[(k[1].split('.')[-1])].append(k)
    return {k: back[k[1].split('.')[-1]] for k in gone if back.get(k[1].split('.')[-1])}


def cell(text):
    return '`' + text.replace('|', '\\|').replace('`', "'") + '`'


old, new = gather(listed(COMMIT)), gather(listed('HEAD'))
for title, a, b in (('Public functions and types', old[0], new[0]), ('Definitions', old[1], new[1]), ('Theorems and lemmas', old[2], new[2])):
    changed = sorted(k for k in a if k in b and a[k] != b[k])
    gone = sorted(k for k in a if k not in b)
    fresh = {k: v for k, v in b.items() if k not in a}
    print('### %s\n' % title)
    print('%d at the start, %d now; %d changed, %d not there under their name, %d new.\n' % (len(a), len(b), len(changed), len(gone), len(fresh)))
    print('| Crate | Name | Old | New |\n|---|---|---|---|')
    for k in changed:
        print('| %s | `%s` | %s | %s |' % (k[0], k[1], cell(a[k]), cell(b[k])))
    where = moved(gone, fresh)
    print('\nNot there under their name: ' + '; '.join('%s `%s`%s' % (k[0], k[1], ' (of this name now: %s)' % ', '.join('%s `%s`' % w for w in where[k]) if k in where else '') for k in gone) + '.\n')
    print('New: ' + '; '.join('%s `%s`' % k for k in sorted(fresh)) + '.\n')
