#!/usr/bin/env python3
"""forms.py [--list] [POINT ..]: counts in crates/*/src the places of the older forms that docs/DESIGN-PASS.md names, point by point.
Run at the top of a checkout. --list prints each place. Code that `#[cfg(test)]` guards is left out."""
import glob, os, re, sys
from collections import Counter, defaultdict

LIST = '--list' in sys.argv
WANT = [a for a in sys.argv[1:] if a.isdigit()]
files = {}
for p in sorted(glob.glob('crates/*/src/**/*.rt', recursive=True)):
    t = open(p, encoding='utf-8').read()
    files[p] = t.split('#[cfg(test)]')[0]

def line(p, at):
    return '%s:%d' % (p, files[p].count('\n', 0, at) + 1)

def block(t, at):
    """The text from the brace at `at` to its partner."""
    n = 0
    for i in range(at, len(t)):
        if t[i] == '{': n += 1
        if t[i] == '}':
            n -= 1
            if n == 0: return t[at:i + 1]
    return t[at:]

class Fn:
    pass

def functions():
    out = []
    for p, t in files.items():
        for m in re.finditer(r'^[ \t]*(pub(?:\([\w:]+\))? )?(extern "C" )?fn (\w+)(<[^(]*>)?\(', t, re.M):
            f = Fn(); f.p = p; f.at = m.start(); f.name = m[3]; f.pub = bool(m[1]); f.c = bool(m[2]); f.crate = p.split('/')[1]
            i = m.end(); n = 1
            while n and i < len(t):
                n += {'(': 1, ')': -1}.get(t[i], 0); i += 1
            f.params = t[m.end():i - 1]
            # clauses: up to the body's brace, which stands alone or ends a line with no clause
            j = i; f.clauses = []
            while True:
                c = re.compile(r'\s*(requires|ensures\*?)(?: (\w+))? (?=\{)').match(t, j)
                r = re.compile(r'\s*->\s*[^\n{]*?(?=\s*\{|\n)').match(t, j)
                if c:
                    b = block(t, c.end()); f.clauses.append((c[1], b)); j = c.end() + len(b)
                elif r and not f.clauses:
                    f.ret = r[0]; j = r.end()
                else:
                    break
            k = t.find('{', j)
            f.body = block(t, k) if k >= 0 else ''
            f.names = [x.strip().split(':')[0].replace('mut ', '').strip() for x in re.split(r',(?![^<\[(]*[>\])])', f.params) if ':' in x]
            f.types = {x.strip().split(':')[0].replace('mut ', '').strip(): x.split(':', 1)[1].strip() for x in re.split(r',(?![^<\[(]*[>\])])', f.params) if ':' in x}
            out.append(f)
    return out

FNS = functions()

def report(title, places):
    print('%5d  %s' % (len(places), title))
    if LIST:
        for x in sorted(places): print('         ' + x)

def point1():
    shaped = []
    for p, t in files.items():
        for m in re.finditer(r'^[ \t]*(?:pub )?enum (\w+)(?:<[^{]*>)? (?=\{)', t, re.M):
            body = block(t, m.end())[1:-1]
            vs = [v.strip() for v in re.split(r',\s*\n', re.sub(r'//.*', '', body)) if v.strip()]
            if len(vs) <= 4 and any('(' in v for v in vs):
                shaped.append('%s %s' % (line(p, m.start()), m[1]))
    report('enums of at most four variants, one of which carries a value', shaped)
    flags = []
    for p, t in files.items():
        for m in re.finditer(r'^[ \t]*(?:pub )?struct (\w+)(?:<[^{]*>)? (?=\{)', t, re.M):
            for q in re.finditer(r'^\s*(?:pub )?(\w+): bool,', block(t, m.end()), re.M):
                flags.append('%s %s.%s' % (line(p, m.start()), m[1], q[1]))
            for q in re.finditer(r'^\s*(?:pub )?(hashed|known|ended|keyed|stepped|finalized): u64,', block(t, m.end()), re.M):
                flags.append('%s %s.%s' % (line(p, m.start()), m[1], q[1]))
    report('flags among the fields of structs', flags)
    codes = []
    for p, t in files.items():
        for m in re.finditer(r'\bmatch ([^{\n]+) (?=\{)', t):
            b = block(t, m.end())
            if len(re.findall(r'^\s*(?:0x[0-9A-F]+|\d+|kinds::\w+)(?: \|[^=]*)? =>', b, re.M)) >= 2:
                codes.append('%s match %s' % (line(p, m.start()), m[1].strip()))
        for m in re.finditer(r'\bif (\w+(?:\.\w+)?) (?:==|!=|<=|<) (\d+|0x[0-9A-F]+) \{', t):
            if m[1] in ('command', 'code', 'kind', 'group', 'form', 'memory', 'refusal', 't', 'keys', 'values', 'h.kind', 'wanted', 'k.state', 's', 'h.mode'):
                codes.append('%s if %s' % (line(p, m.start()), m[1]))
    report('tests of a number that stands for a kind, a command, a form or a refusal', codes)

def shape(f):
    t = re.sub(r'//[^\n]*', '', f.body)
    t = re.sub(r'"[^"]*"', 'S', t)
    t = re.sub(r"b?'[^']*'", 'C', t)
    t = re.sub(r'\b(?:0x[0-9A-Fa-f_]+|\d[\d_]*)(?:[ui]\d+|usize)?\b', '0', t)
    t = re.sub(r'\b(?!(?:if|else|match|while|loop|for|return|let|mut|break|as|in|self|true|false)\b)[A-Za-z_]\w*', 'n', t)
    return re.sub(r'\s+', '', t)

def point2():
    groups = defaultdict(list)
    for f in FNS:
        s = shape(f)
        if len(s) >= 12:
            groups[(f.crate, s)].append(f)
    same = [g for g in groups.values() if len(g) > 1]
    report('functions whose body is another\'s of its crate but for names and constants', ['%s %s (%d)' % (line(f.p, f.at), f.name, len(g)) for g in same for f in g])
    report('of these, exported to C', ['%s %s' % (line(f.p, f.at), f.name) for g in same for f in g if f.c])

def point3():
    report('while and loop, without `while let`', [line(p, m.start()) for p, t in files.items() for m in re.finditer(r'^\s*(?:\w+: )?(?:while\b(?! let)|loop\b)', t, re.M)])

def point4():
    bits = [line(p, m.start()) for p, t in files.items() for m in re.finditer(r'\{ (?:1|0) \} else \{ (?:0|1) \}', t)]
    report('0 or 1 of a truth value', bits)
    fields = []
    for p, t in files.items():
        for m in re.finditer(r'\b[A-Z]\w* (?=\{\n)', t):
            b = block(t, m.end())
            same = [q for q in re.findall(r'^\s*(\w+): (?:\w+\.)*(\w+),$', b, re.M) if q[0] == q[1]]
            if len(same) >= 3:
                fields.append(line(p, m.start()))
    report('structs copied field by field', fields)
    conv = []
    for f in FNS:
        if re.match(r'\{\s*match \w+ \{', f.body) and not re.search(r'\w\(.*\w\(', f.body.replace('Some(', '').replace('Ok(', '')) and f.body.count('=>') >= 2:
            conv.append('%s %s' % (line(f.p, f.at), f.name))
        elif re.match(r'(?:from|to|of|as)_\w+|\w+_(?:of|number|word|bits|bytes)$|number_of|signed|same\w*|digit\w*|put_\w+|print_\w+|spelled|load\w*|save\w*|flag|bit|truth|one_if', f.name) and not f.c and len(f.names) <= 6:
            conv.append('%s %s' % (line(f.p, f.at), f.name))
    report('functions that convert, compare or print by hand, by their form or name', conv)

def point5():
    heads = defaultdict(set)
    for f in FNS:
        for k, b in f.clauses:
            if k != 'requires': continue
            for m in re.finditer(r'(?<![\w.])([A-Z]\w+)(?= )', b):
                heads[(f.crate, m[1])].add(f)
    many = {k: v for k, v in heads.items() if len(v) >= 3}
    facts = sorted('%s %s in %d functions' % (k[0], k[1], len(v)) for k, v in many.items())
    report('facts that three or more functions of a crate require', facts)
    fs = set().union(*many.values()) if many else set()
    report('functions that require such a fact', ['%s %s' % (line(f.p, f.at), f.name) for f in fs])
    triples = defaultdict(set)
    for f in FNS:
        for i in range(len(f.names) - 2):
            triples[tuple(f.names[i:i + 3])].add(f)
    trav = set().union(*[v for v in triples.values() if len(v) >= 3])
    report('functions with three parameters in a row that stand so in three or more', ['%s %s' % (line(f.p, f.at), f.name) for f in trav])
    report('of these, exported to C', ['%s %s' % (line(f.p, f.at), f.name) for f in trav if f.c])

def point6():
    pairs = []
    for f in FNS:
        slices = [n for n, t in f.types.items() if t.startswith('&[') or t.startswith('&mut [')]
        nums = [n for n in f.names if n in ('at', 'end', 'count', 'marked', 'visited', 'n', 'm', 'len', 'from', 'to', 'filled', 'fresh', 'free', 'ib', 'base', 'size', 'last')]
        if slices and nums:
            pairs.append('%s %s (%s)' % (line(f.p, f.at), f.name, ', '.join(nums)))
    report('functions that take a slice and a place or a length in it', pairs)
    par = ['%s %s' % (line(f.p, f.at), f.name) for f in FNS if any(re.search(r'length (\w+)\.\w+ ≡ length (\w+)\.\w+', b) for k, b in f.clauses if k == 'requires')]
    report('functions that require two lists of one length', par)

def point7():
    sw = []
    for f in FNS:
        for m in re.finditer(r'\bmatch (\w+(?:\.\w+)?) (?=\{)', f.body):
            b = block(f.body, m.end())
            arms = re.findall(r'^\s*(?:0x[0-9A-F]+|\d+|kinds::\w+|b\'.\')[^=\n]* => (.*)$', b, re.M)
            if len(arms) >= 3 and sum('(' in a or a.strip() == '{' for a in arms) >= 2:
                sw.append('%s %s: %d arms' % (line(f.p, f.at), f.name, len(arms)))
    report('switches on a number whose arms run different calls', sw)

def point8():
    proofs = glob.glob('crates/*/proofs/**/Proof.antt', recursive=True)
    report('proofs in the older whole form (Proof.antt)', proofs)
    n = sum(len(re.findall(r'= search rules$', open(p, encoding='utf-8').read(), re.M)) for p in proofs + glob.glob('crates/*/proofs/**/Answers.antt', recursive=True))
    print('%5d  answers that say only `search rules`' % n)
    lines = sum(open(p, encoding='utf-8').read().count('\n') for p in glob.glob('crates/*/proofs/**/*.antt', recursive=True))
    print('%5d  lines in proofs/' % lines)

for i, f in enumerate((point1, point2, point3, point4, point5, point6, point7, point8), 1):
    if not WANT or str(i) in WANT:
        print('Point %d' % i); f()
