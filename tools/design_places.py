#!/usr/bin/env python3
"""Counts, crate by crate, the places in src/ that docs/DESIGN-PASS.md speaks of: design_places.py [COMMIT] [--list]. Run at the top of a checkout; with a commit it
reads that commit's files. --list prints each place. A place is something to look at; the page says what became of it."""
import collections, re, subprocess, sys

args = [a for a in sys.argv[1:] if a != '--list']
listing = '--list' in sys.argv
commit = args[0] if args else None


def run(*words):
    return subprocess.run(words, capture_output=True, text=True, check=True).stdout


names = run('git', 'ls-tree', '-r', '--name-only', commit, 'crates').split() if commit else run('git', 'ls-files', 'crates').split()


def read(name):
    return run('git', 'show', commit + ':' + name) if commit else open(name, encoding='utf-8').read()


files = {n: read(n) for n in names if re.search(r'/src/.*\.rt$', n)}
found = collections.defaultdict(list)  # point -> [(crate, file:line, what)]


def add(point, name, at, what):
    line = files[name].count('\n', 0, at) + 1
    found[point].append((name.split('/')[1], '%s:%d' % (name, line), ' '.join(what.split())[:110]))


FN = re.compile(r'(?m)^[ \t]*(?:pub(?:\([a-z]+\))? )?(?:extern "C" )?fn (\w+)(?:<[^(]*?>)?\(([^{]*?)\)(?: -> ([^\n{]+))?(?=\s*(?:\n[ \t]*(?:requires|ensures|where)|\{))')
groups = collections.defaultdict(set)
for name, text in files.items():
    # 1 enums of the shape of Option or Result
    for m in re.finditer(r'(?ms)^(?:pub )?enum (\w+)[^{\n]*\{\n(.*?)^\}', text):
        body = re.sub(r'//[^\n]*', '', m.group(2))
        flat = re.sub(r'\{[^}]*\}|\([^)]*\)', lambda x: '#', body)
        variants = [v.strip() for v in flat.split(',') if v.strip()]
        if len(variants) == 2 and any('#' in v for v in variants):
            add('1 an enum of two answers, one or both with values', name, m.start(), m.group(1))
    # 1 flags with a value beside
    for m in re.finditer(r'(?ms)^(?:pub )?struct (\w+)[^{\n]*\{\n(.*?)^\}', text):
        if re.search(r'(?m)^\s+(?:pub )?\w+: bool,', m.group(2)) and m.group(2).count(':') > 1:
            add('1 a struct with a flag', name, m.start(), m.group(1))
    # 1 numbers for kinds or refusals
    for m in re.finditer(r'(?:Refused|RefusedBy)\(\d+\)', text):
        add('1 a refusal by a number', name, m.start(), m.group(0))
    for m in re.finditer(r'(?m)^(?:pub )?const ([A-Z_0-9]+): (?:usize|u8|u16|u32|u64) = (\d+);', text):
        if int(m.group(2)) < 20:
            add('1 a small number with a name', name, m.start(), m.group(0))
    for m in re.finditer(r'(?m)^\s*(?:\} else )?if (?:!?\()?(\w+) == (?:\d+|b\'.\') \{', text):
        add('1 a test of a variable against one number', name, m.start(), m.group(0))
    # 3 loops
    for m in re.finditer(r'(?m)^\s*while [^\n]*\{', text):
        add('3 a while loop', name, m.start(), m.group(0))
    for m in re.finditer(r'(?m)^([ \t]*)for (\w+) in ([^\n]*\.\.[^\n]*) \{\n(.*?)^\1\}', text, re.S):
        v, body = m.group(2), m.group(4)
        uses = len(re.findall(r'\b%s\b' % v, body))
        inside = len(re.findall(r'\[[^\[\]]*\b%s\b[^\[\]]*\]' % v, body))
        if v != '_' and uses and uses == inside:
            add('3 a for over a range that only indexes', name, m.start(), m.group(0).split('\n')[0])
    # 4 by hand
    for m in re.finditer(r'\bif (\w[\w.]*) <=? (\w[\w.]*) \{ (\w[\w.]*) \} else \{ (\w[\w.]*) \}', text):
        if {m.group(1), m.group(2)} == {m.group(3), m.group(4)}:
            add('4 the smaller or greater of two by hand', name, m.start(), m.group(0))
    for m in re.finditer(r'if (\w[\w.]*) < (\w[\w.]*) \{ 0 \} else \{ \2 - \1 \}|if (\w[\w.]*) < (\w[\w.]*) \{ \4 - \3 \} else \{ 0 \}|if (\w[\w.]*) < (\w[\w.]*) \{ 0 \} else \{ \5 - \6 \}', text):
        add('4 a difference that stops at 0 by hand', name, m.start(), m.group(0))
    for m in re.finditer(r'(?m)^\s*(?:pub )?fn (same|equal|is_same|are_same|equals|decimal|digit|digits|copy|clear|wide|wider|letter|turn)\b', text):
        add('4 equality, copying, printing or widening by hand (by name)', name, m.start(), m.group(1))
    # signatures: 5, 6, 7
    for m in FN.finditer(text):
        params = []
        depth = 0
        part = ''
        for ch in m.group(2) + ',':
            if ch in '([<{':
                depth += 1
            if ch in ')]>}':
                depth -= 1
            if ch == ',' and depth == 0:
                if ':' in part:
                    n, t = part.split(':', 1)
                    params.append((n.strip().replace('mut ', ''), ' '.join(t.split())))
                part = ''
            else:
                part += ch
        where = (name, m.start(), m.group(1))
        if len(params) >= 6:
            add('5 a function of six or more parameters', name, m.start(), '%s: %d' % (m.group(1), len(params)))
        for i in range(len(params)):
            for j in range(i + 1, len(params)):
                for k in range(j + 1, len(params)):
                    groups[(name.split('/')[1], params[i], params[j], params[k])].add(where)
        kinds = dict(params)
        if kinds.get('at') == 'usize' and (m.group(3) or '').strip() == 'usize' and any(t.startswith('&mut') for _, t in params):
            add('6 a buffer and a place in it, the next place handed back', name, m.start(), m.group(1))
        for n, t in params:
            if t == 'bool':
                add('7 a flag that picks what a function does', name, m.start(), '%s: %s' % (m.group(1), n))
    for m in re.finditer(r'(?m)^(?:pub )?const ([A-Z_0-9]+): usize = (\d+);', text):
        if int(m.group(2)) >= 1000:
            add('6 an offset or an end with a name', name, m.start(), m.group(0))
    for m in re.finditer(r'requires[^\n]*32768 ≤ length (\w+)\.(?:now|old)', text):
        add('5 a length asked of a record', name, m.start(), m.group(1))

together = {}
for (crate, *triple), where in groups.items():
    if len(where) >= 3:
        together.setdefault((crate, frozenset(where)), set()).update(triple)
for (crate, where), params in sorted(together.items(), key=lambda x: (x[0][0], -len(x[0][1]))):
    first = min(where)
    add('5 three or more parameters together in three or more functions', first[0], first[1], '%d functions: %s' % (len(where), ', '.join(sorted(n for n, _ in params))))

for point in sorted(found):
    rows = found[point]
    per = collections.Counter(r[0] for r in rows)
    print('%-70s %5d' % (point, len(rows)) + ('' if listing else '  ' + ' '.join('%s %d' % x for x in sorted(per.items()))))
    if listing:
        for _, at, what in rows:
            print('    %s  %s' % (at, what))
