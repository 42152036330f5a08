#!/usr/bin/env python3
# Counts the places that the design pass looks at, in the src/ of every crate below crates/.
# Usage: python3 tools/places.py [FOLDER]     (FOLDER: the top of a checkout; default: here)
import collections, pathlib, re, sys, difflib

top = pathlib.Path(sys.argv[1] if len(sys.argv) > 1 else '.')
files = sorted(p for p in (top / 'crates').glob('*/src/**/*.rt'))
text = {p: p.read_text() for p in files}
short = lambda p: str(p.relative_to(top / 'crates'))


def lines(pattern, skip=None):
    for p in files:
        for n, line in enumerate(text[p].split('\n'), 1):
            code = line.split('//')[0]
            if re.search(pattern, code) and not (skip and re.search(skip, code)):
                yield f'{short(p)}:{n}: {code.strip()[:110]}'


def show(title, found):
    found = list(found)
    print(f'== {title}: {len(found)}')
    for f in found:
        print('   ' + f)


def functions():
    for p in files:
        t = text[p]
        for m in re.finditer(r'^[ \t]*(?:pub(?:\(crate\))? )?(?:final )?fn (\w+)', t, re.M):
            at = m.start()
            i = t.find('(', m.end() - 1)
            depth = 0
            for j in range(i, len(t)):
                depth += {'(': 1, ')': -1}.get(t[j], 0)
                if depth == 0:
                    break
            params = t[i + 1:j]
            k = j
            # the clauses, then the body: the first brace block that no clause word precedes
            clauses, body = [], ''
            rest = t[j + 1:]
            pos = 0
            while True:
                c = re.match(r'\s*(?:->[^{;]*?)?\s*(requires|ensures)\s*\w*\s*\{', rest[pos:]) or \
                    re.match(r'[^{};]*?\b(requires|ensures)\s*\w*\s*\{', rest[pos:])
                b = re.match(r'[^{};]*\{', rest[pos:])
                e = re.match(r'[^{};]*;', rest[pos:])
                if e and not c:
                    break
                start = c.end() if c else (b.end() if b else None)
                if start is None:
                    break
                d, q = 1, pos + start
                while d and q < len(rest):
                    d += {'{': 1, '}': -1}.get(rest[q], 0)
                    q += 1
                if c:
                    clauses.append(' '.join(rest[pos + start:q - 1].split()))
                    pos = q
                else:
                    body = rest[pos + start:q - 1]
                    break
            yield p, m.group(1), params, clauses, body


fns = list(functions())

show('1a enums', lines(r'^\s*(pub(\(crate\))? )?enum '))
show('1b a refusal as an Option', lines(r'Option<Refusal>'))
show('1c an Err or None passed on by hand', lines(r'Err\((e|cause|_|_refusal)\) => (return )?(Err|None)|None => (return )?(None|false)'))
show('1d a case passed on by hand', lines(r'=> return [A-Z]\w+::'))
show('1e numbers for kinds and causes', lines(r'\bkind: u8|fn \w+\(r: Result<.*-> u8|^\s*\w+\((usize, )?(usize|bool)?,? ?u8\),'))

keywords = {'if', 'else', 'for', 'in', 'while', 'loop', 'match', 'let', 'mut', 'return', 'true', 'false', 'self', 'Some', 'None', 'Ok', 'Err', 'as', 'fn', 'break'}


def shape(body):
    toks = re.findall(r'[A-Za-z_]\w*|\d+|[^\s\w]', re.sub(r'//.*', '', body))
    return ['#' if t.isdigit() else (t if t in keywords or not re.match(r'[A-Za-z_]', t) else 'x') for t in toks]


shapes = [(p, n, shape(b)) for p, n, _, _, b in fns if '_tests/' not in short(p) and n != 'tests']
shapes = [(p, n, s) for p, n, s in shapes if len(s) >= 24]
pairs = []
for a in range(len(shapes)):
    for b in range(a + 1, len(shapes)):
        sa, sb = shapes[a][2], shapes[b][2]
        if min(len(sa), len(sb)) / max(len(sa), len(sb)) < 0.85:
            continue
        m = difflib.SequenceMatcher(None, sa, sb, autojunk=False)
        if m.real_quick_ratio() < 0.92 or m.quick_ratio() < 0.92:
            continue
        if m.ratio() >= 0.92:
            pairs.append(f'{short(shapes[a][0])} {shapes[a][1]} ~ {short(shapes[b][0])} {shapes[b][1]}')
show('2a pairs of functions whose bodies have one shape (0.92 alike, 24 tokens and more)', pairs)

byname = collections.defaultdict(set)
for p, n, _, _, _ in fns:
    if '_tests/' not in short(p):
        byname[n].add(short(p))
items = collections.defaultdict(set)
for p in files:
    for m in re.finditer(r'^\s*(?:pub(?:\(crate\))? )?(?:struct|enum) (\w+)', text[p], re.M):
        items[m.group(1)].add(short(p))
show('2b private names that stand in two crates or more', sorted(
    f'{n}: ' + ', '.join(sorted(fs)) for n, fs in list(byname.items()) + list(items.items())
    if len({f.split('/')[0] for f in fs}) > 1 and n not in ('new', 'counts', 'len', 'literals', 'literal', 'main', 'names', 'size', 'clear', 'fmt', 'from', 'next', 'default', 'not', 'try_from')))

show('3 loops that count by hand', lines(r'\bwhile |\bloop \{|for \w+ in [^{]*\.\.'))
show('4 conversions by hand', lines(r'if [\w.]+ \{ [\w:]+ \} else \{ [\w:]+ \}'))

clause = collections.defaultdict(list)
for p, n, _, cs, _ in fns:
    for c in set(cs):
        clause[(short(p).split('/')[0], c)].append(f'{n}')
show('5a clauses that stand in three functions or more of a crate', sorted(
    f'{k[0]}: {len(v)} x {{ {k[1][:120]} }}' for k, v in clause.items() if len(v) >= 3))
groups = collections.defaultdict(list)
for p, n, ps, _, _ in fns:
    names = re.findall(r'(\w+)\s*:', ps)
    names = [x for x in names if x != 'self']
    for g in [('counts', 'bytes'), ('counts', 'table', 'classes'), ('counts', 'classes'), ('book', 'table', 'trail', 'choices'), ('table', 'trail', 'choices'), ('table', 'trail', 'choices', 'model')]:
        if all(x in names for x in g):
            groups[(short(p).split('/')[0], g)].append(n)
show('5b parameters that travel together', sorted(f'{k[0]}: {", ".join(k[1])}: {len(v)} functions' for k, v in groups.items() if len(v) >= 3))
show('6 a buffer with its length beside it', lines(r'^\s*(pub )?(len|held|count|n): (u8|usize),|let mut n = 0'))
show('7 a switch on which step to run', lines(r'^\s*(pub(\(crate\))? )?enum (Call|Step)\b'))
print('== 8 lines of proof:', sum(len(p.read_text().split('\n')) - 1 for p in (top / 'crates').glob('*/proofs/**/*.antt')))
