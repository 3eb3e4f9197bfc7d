#!/usr/bin/env python3
"""Counts, over the src/ folders of a checkout, the places where code is written in an older manner.

    python3 tools/places.py [-v] [FOLDER]

A line for each point with its number of places; with -v each place too. What is counted:

1  a `match` on an Option or a Result with an arm that only hands on or drops (a library method or `?` says it), an enum of
   two cases of which one has a value and the other none, a function that answers a bare u8
2  functions (of three lines or more in the body) of the same shape: alike but for names, types and numbers; each group
   counts its members less one. Modules of src/ beside one another of the same shape count the same way, not their functions
3  loops that count an index (`for i in a..b` whose body uses i as an index) and loops that move a bound or a cursor by hand
4  a `match` all of whose arms are `true` or `false`, a function that copies, compares, converts or shows by hand
   (`same_..`, `.._word`, `as_..`, an own trait for text)
5  facts (requires clauses and ghost fields, names of values taken out) that stand three times or more, and sets of three
   parameters or more that travel together through three functions or more, one for those that share two
6  vectors of positions, lengths and bounds beside a buffer, halving by hand
7  an enum whose cases hold nothing and that is matched to pick what is called
8  lines and files of proofs/
"""
import re, sys, os, itertools
from collections import defaultdict

def rt_files(root):
    for base, dirs, files in os.walk(os.path.join(root, 'crates')):
        dirs[:] = sorted(d for d in dirs if d != 'out')
        if os.sep + 'src' in base:
            for f in sorted(files):
                if f.endswith('.rt'):
                    yield os.path.join(base, f)

def strip(text):
    return re.sub(r'//[^\n]*', '', text)

def functions(text):
    """(line, name, signature, clauses, body) of each function with a body."""
    for m in re.finditer(r'^( *)((?:pub(?:\(crate\))? )?fn (\w+))', text, re.M):
        i, depth, sig_end = m.end(), 0, None
        while i < len(text):
            c = text[i]
            if c in '([': depth += 1
            elif c in ')]': depth -= 1
            elif depth == 0 and c in '{;': break
            elif depth == 0 and re.match(r'\b(requires|ensures)\b', text[i:i+9]) and text[i-1] in ' \n': break
            i += 1
        sig = text[m.start():i]
        j, clauses = i, []
        while True:
            k = re.match(r'\s*(requires|ensures)( \w+)? \{', text[j:])
            if not k: break
            e = j + k.end(); d = 1
            while d and e < len(text):
                d += {'{': 1, '}': -1}.get(text[e], 0); e += 1
            clauses.append((k.group(1), text[j + k.end():e - 1].strip()))
            j = e
        rest = re.match(r'\s*\{', text[j:])
        if not rest: continue
        e = j + rest.end(); d = 1
        while d and e < len(text):
            d += {'{': 1, '}': -1}.get(text[e], 0); e += 1
        yield text.count('\n', 0, m.start()) + 1, m.group(3), sig, clauses, text[j + rest.end():e - 1]

KEY = set('fn pub crate let mut if else match for in while loop return break continue self Self impl where as ref move struct enum trait type use mod const true false Some None Ok Err usize u8 u16 u32 u64 i32 i64 bool str'.split())

def shape(s):
    names, out = {}, []
    for t in re.findall(r"'?\w+|[^\w\s]", s):
        if re.match(r"\d", t): out.append('0')
        elif t in KEY and t not in ('usize', 'u8', 'u16', 'u32', 'u64', 'i32', 'i64'): out.append(t)
        elif re.match(r"'?\w", t): out.append('n%d' % names.setdefault(t, len(names)))
        else: out.append(t)
    return ' '.join(out)

def matches(body):
    """(offset, head, arms) of each match in the text."""
    for m in re.finditer(r'\bmatch ([^{}]+?) \{', body):
        e, d = m.end(), 1
        while d and e < len(body):
            d += {'{': 1, '}': -1}.get(body[e], 0); e += 1
        inner, arms, d, start = body[m.end():e - 1], [], 0, 0
        k = 0
        while k < len(inner):
            c = inner[k]
            if c in '({[': d += 1
            elif c in ')}]':
                d -= 1
                if d == 0 and c == '}' and re.search(r'=>\s*\{', inner[start:k]):
                    arms.append(inner[start:k + 1].strip()); start = k + 1
                    if inner[start:start + 1] == ',': start += 1; k += 1
            elif c == ',' and d == 0:
                arms.append(inner[start:k].strip()); start = k + 1
            k += 1
        if inner[start:].strip(): arms.append(inner[start:].strip())
        yield m.start(), m.group(1), [a for a in arms if '=>' in a]

def main():
    args = [a for a in sys.argv[1:] if a != '-v']
    verbose = '-v' in sys.argv
    root = args[0] if args else '.'
    found = defaultdict(list)
    bodies, params, facts, files = defaultdict(list), defaultdict(set), defaultdict(set), {}
    for path in rt_files(root):
        text = strip(open(path).read())
        files[path] = text
        where = os.path.relpath(path, os.path.join(root, 'crates'))
        for m in re.finditer(r'enum (\w+)(<[^>]*>)? \{([^}]*)\}', text):
            cases = [c.strip() for c in re.sub(r'\([^)]*\)', '(..)', m.group(3)).split(',') if c.strip()]
            if len(cases) == 2 and sum('(' in c for c in cases) == 1:
                found[1].append(f'{where}: enum {m.group(1)}')
            if cases and not any('(' in c or '{' in c for c in cases):
                name = m.group(1)
                for p in rt_files(root):
                    t = strip(open(p).read())
                    for off, head, arms in matches(t):
                        calls = [a for a in arms if re.match(name + r'::\w+\s*=>\s*\{?\s*!?[\w.]+\(', a)]
                        if len(calls) >= 2:
                            found[7].append(f'{os.path.relpath(p, os.path.join(root, "crates"))}: match on {name} calls {len(calls)} functions')
        for m in re.finditer(r'ghost \w+: \{ ([^}]*) \}', text):
            fact = re.sub(r'\b[a-z_]\w*(\.\w+)*\b', 'x', m.group(1))
            facts[fact].add(f'{where}: ghost field')
        for m in re.finditer(r'(\w+): (Vec<usize>|Vec<u32>)', text):
            found[6].append(f'{where}: {m.group(1)}: {m.group(2)}')
        for m in re.finditer(r'while low < high', text):
            found[6].append(f'{where}: halving by hand')
        for m in re.finditer(r'trait (Text)\b', text):
            found[4].append(f'{where}: own trait {m.group(1)}')
        for line, name, sig, clauses, body in functions(text):
            here = f'{where}:{line} {name}'
            flat = [l for l in body.split('\n') if l.strip()]
            if len(flat) >= 3:
                bodies[shape(re.sub(r'fn \w+', 'fn', sig) + body)].append(here)
            if re.search(r'-> u8\b', sig) and not re.search(r'fn number', sig):
                found[1].append(f'{here}: answers a bare u8')
            for off, head, arms in matches(body):
                pats = [a.split('=>')[0].strip() for a in arms]
                rhs = [a.split('=>', 1)[1].strip().strip('{}').strip() for a in arms]
                opt = [bool(re.match(r'(None|Some|Ok|Err)\b', p)) for p in pats]
                if arms and all(opt) and len(arms) == 2:
                    plain = [r for p, r in zip(pats, rhs)
                             if re.fullmatch(r'(None|Some\(\w+\)|Ok\([\w:]*\)|Err\([^()]*(\([^()]*\))?[^()]*\)|true|false|\w+|0|[\w:]+|Answer::\w+)', r)]
                    if plain:
                        found[1].append(f'{here}: match {head.strip()}')
                elif arms and all(r in ('true', 'false') for r in rhs):
                    found[4].append(f'{here}: match to true or false')
            for m in re.finditer(r'for (\w+) in [^{;]*?\.\.[^{]*\{', body):
                v = m.group(1)
                e, d = m.end(), 1
                while d and e < len(body):
                    d += {'{': 1, '}': -1}.get(body[e], 0); e += 1
                inner = body[m.end():e]
                if re.search(r'\[[^\]]*\b%s\b[^\]]*\]' % v, inner) or re.search(r'\(([^()]*, )?%s(, [^()]*)?\)' % v, inner) and not v.startswith('_'):
                    found[3].append(f'{here}: for {v}')
                elif v.startswith('_') and v != '_':
                    found[3].append(f'{here}: for {v}')
            for m in re.finditer(r'\b(while|loop)\b', body):
                found[3].append(f'{here}: {m.group(1)}')
            if re.match(r'(same|is_same)\w*$|\w*_word$|word_of$|kind_word$|level_word$|as_\w+$', name):
                found[4].append(f'{here}: by hand')
            for kind, c in clauses:
                if kind == 'requires':
                    facts[re.sub(r'\b[a-z_]\w*(\.\w+)*\b', 'x', c)].add(here)
            inside = sig[sig.find('('):]
            names = frozenset(n for n in re.findall(r'[(,]\s*(?:mut )?([a-z]\w*):', inside))
            for three in itertools.combinations(sorted(names), 3):
                params[three].add(here)
    groups, done = [], set()
    shapes = defaultdict(list)
    for path, text in files.items():
        if text.count("\n") > 12:
            shapes[(os.path.dirname(path), shape(re.sub(r'ghost use [^\n]*|^use [^\n]*', '', text, flags=re.M)))].append(os.path.relpath(path, os.path.join(root, 'crates')))
    for (d, s), ps in shapes.items():
        if len(ps) > 1:
            found[2].append('modules ' + ', '.join(ps)); done.update(ps)
            for _ in ps[2:]: found[2].append('.. and one more of them')
    for s, here in sorted(bodies.items(), key=lambda x: x[1]):
        here = [h for h in here if h.split(':')[0] not in done]
        if len(here) > 1:
            for h in here[1:]:
                found[2].append(f'{h} is shaped as {here[0]}')
    for fact, here in sorted(facts.items()):
        if len(here) >= 3:
            found[5].append(f'fact {fact[:70]}: {len(here)} times')
    sets = defaultdict(set)
    for three, here in params.items():
        if len(here) >= 3: sets[frozenset(here)].update(three)
    taken = []
    for here, names in sorted(sets.items(), key=lambda x: (-len(x[0]) * len(x[1]), sorted(x[1]))):
        if not any(len(names & other) >= 2 for other in taken):
            taken.append(names)
            found[5].append(f'parameters {", ".join(sorted(names))}: {len(here)} functions')
    n = l = 0
    for base, dirs, fs in os.walk(os.path.join(root, 'crates')):
        dirs[:] = [d for d in dirs if d != 'out']
        if os.sep + 'proofs' in base:
            for f in fs:
                if f.endswith('.antt'):
                    n += 1; l += open(os.path.join(base, f)).read().count('\n')
    for point in range(1, 8):
        print(f'point {point}: {len(found[point])}')
        if verbose:
            for p in found[point]: print('    ' + p)
    print(f'point 8: {l} lines in {n} files of proofs/')

main()
