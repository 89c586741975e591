#!/usr/bin/env python3
# Counts, in ROOT/crates/*/src (default: this checkout), the places that the points of docs/DESIGN-PASS.md speak of, by regular expressions, so roughly.
# Usage: tools/count_places.py [ROOT [twins]]; with `twins`, the largest groups of functions that are alike.
import re, sys, glob, os, collections, hashlib
root = sys.argv[1] if len(sys.argv) > 1 else '.'
files = sorted(glob.glob(root + '/crates/*/src/**/*.rt', recursive=True))
src = {f: open(f).read() for f in files}
def short(f): return f[len(root) + 8:].replace('/src/', '/').replace('/lib.rt', '')
def show(name, per):
    total = sum(per.values())
    worst = ', '.join(f'{short(f)} {n}' for f, n in sorted(per.items(), key=lambda x: -x[1])[:5] if n)
    print(f'{name}: {total} in {sum(1 for n in per.values() if n)} files; worst: {worst}')
def code(s): return re.sub(r'//[^\n]*', '', re.sub(r'^ghost use[^\n]*\n', '', s, flags=re.M))
clean = {f: code(s) for f, s in src.items()}
def each(rx, flags=0): return {f: len(re.findall(rx, s, flags)) for f, s in clean.items()}
fn_rx = re.compile(r'^( *)(pub )?(?:extern "C" )?fn (\w+)(<[^>]*>)?\((.*?)\)( -> [^\n{]*)?\n?(.*?)^\1}', re.M | re.S)
fns = []
for f, s in clean.items():
    for m in fn_rx.finditer(s):
        whole = m.group(0)
        b = re.search(r'^' + m.group(1) + r'\{|\) (?:-> [^\n]*)?\{|\{\n', whole, re.M)
        clauses = re.findall(r'^\s+(requires|ensures)(?: \w+)? \{ (.*) \}$', whole, re.M)
        body = re.sub(r'^\s+(requires|ensures)[^\n]*\n', '', whole, flags=re.M)
        fns.append((f, m.group(3), m.group(5), body, clauses, whole.count('\n') + 1))
print('functions', len(fns), 'lines of src', sum(s.count('\n') for s in src.values()))
# 1
enums = {f: re.findall(r'enum (\w+) \{(.*?)\n\}', s, re.S) for f, s in clean.items()}
def variants(b): return [v.strip().rstrip(',') for v in re.findall(r'^    (\w+[^\n]*)', b, re.M)]
res = {f: sum(1 for n, b in e if any(v.startswith('Refused(') for v in variants(b))) for f, e in enums.items()}
opt = {f: sum(1 for n, b in e if len(variants(b)) == 2 and not any('Refused(' in v for v in variants(b)) and sum('(' in v for v in variants(b)) == 1) for f, e in enums.items()}
print('enums', sum(len(e) for e in enums.values()))
show('1a enums of the shape of Result (a case Refused(..))', res)
show('1b enums of the shape of Option (two cases, one empty)', opt)
show('1c arms that only pass a refusal on (what ? does)', each(r'::Refused\((\w+)\) => (?:return )?\w+::Refused\(\1\)'))
show('1d refusals made or read by a number code', each(r'\.number\b|number: \d+|refusals::[A-Z_]+|refusals::[a-z_]+\('))
show('1e structs with a bool beside values', {f: sum(1 for n, b in re.findall(r'struct (\w+) \{(.*?)\n\}', s, re.S) if ': bool' in b) for f, s in clean.items()})
show('1f constants that stand for kinds (u8/usize/u64 codes)', each(r'^(?:pub )?const [A-Z_]+: (?:u8|u32|u64|usize) = \d+;', re.M))
# 2
kw = set('if else while let mut fn return match for in as true false self Self pub loop break continue bool'.split())
def norm(body):
    b = re.sub(r"'(?:\w|\\.)'|b'[^']*'|\"[^\"]*\"", 'L', body[body.find('{', body.find(')')):])
    b = re.sub(r'\b\d[\d_]*\w*\b', 'N', b)
    b = re.sub(r'\b[ui](?:8|16|32|64|size)\b', 'T', b)
    seen = {}
    def name(m):
        w = m.group(0)
        if w in kw or w in 'NTL': return w
        return seen.setdefault(w, f'v{len(seen)}')
    return re.sub(r'\s+', '', re.sub(r'\b[A-Za-z_]\w*\b', name, b))
groups = collections.defaultdict(list)
for f, n, p, body, c, l in fns:
    if l >= 6: groups[norm(body)].append((f, n, l))
per = collections.Counter(); lines = 0; k = 0
for g in groups.values():
    if len(g) > 1:
        k += 1
        for f, n, l in g: per[f] += 1; lines += l
show(f'2a functions whose bodies differ only in names, types, constants ({k} groups, {lines} lines)', per)
names = collections.defaultdict(set)
for f, n, p, body, c, l in fns:
    if n != 'main' and '/bench' not in f: names[n].add(f)
per = collections.Counter()
for n, fs in names.items():
    if len(fs) > 1:
        for f in fs: per[f] += 1
show('2b functions of one name in several files', per)
# 3
show('3a while loops', each(r'\bwhile\b'))
show('3b indices counted by hand (x += 1; x = x + 1)', each(r'\b(\w+) \+= 1;|\b(\w+) = \2 \+ 1;'))
# 4
show('4a types that derive nothing but Clone, Copy, Drop', each(r'#\[derive\((?:(?:Clone|Copy|Drop)(?:, )?)+\)\]'))
show('4b functions that compare, copy or convert by hand', collections.Counter(f for f, n, *_ in fns if re.match(r'(same|equal|is_same|eq|agree|copy|clone|from_|to_|as_|into_|code_|smaller|larger|least|earliest|shortest|either|both|not|joined|signed|unsigned|low_byte)', n)))
show('4c functions that print by hand (put_*, write_*)', collections.Counter(f for f, n, *_ in fns if re.match(r'(put|write|print)', n)))
# 5
trav = 'layout starts ends counts times rates basis unit total older newer'.split()
show('5a functions with three or more of layout, starts, ends, counts, times, rates, basis, unit, total', collections.Counter(f for f, n, p, *_ in fns if sum(1 for t in trav if re.search(r'\b\w*' + t + r'\w*:', p)) >= 3))
show('5b functions with seven or more parameters', collections.Counter(f for f, n, p, *_ in fns if len(re.findall(r'\w+: ', p)) >= 7))
req = collections.defaultdict(list)
for f, n, p, b, clauses, l in fns:
    for kind, t in clauses:
        if kind == 'requires':
            for part in re.split(r' × ', t):
                w = re.match(r'\(?([A-Z]\w+)', part)
                if w: req[w.group(1)].append(f)
per = collections.Counter(f for w, fs in req.items() if len(fs) >= 3 for f in fs)
show('5c requires that cite a named fact which three or more functions require', per)
print('   facts:', ', '.join(f'{w} {len(fs)}' for w, fs in sorted(req.items(), key=lambda x: -len(x[1]))[:12]))
# 6
show('6a functions with a buffer or list and a length or place beside it', collections.Counter(f for f, n, p, *_ in fns if re.search(r'&(?:\'a )?(?:mut )?\[', p) and re.search(r'\b(at|n|len|length|kept|used|from|to|count|end|tail_length|row): usize', p)))
show('6b structs with an array and a length', {f: sum(1 for n, b in re.findall(r'struct (\w+) \{(.*?)\n\}', s, re.S) if re.search(r': \[', b) and re.search(r': usize', b)) for f, s in clean.items()})
show('6c sorted lists searched by hand', each(r'while low < high'))
show('6d fixed arrays made ([0; N])', each(r'= \[0\w*; ?\w+'))
# 7
show('7a functions with a parameter that says which step to run', collections.Counter(f for f, n, p, b, *_ in fns if re.search(r'\b(query|question|command|asked|what|which|column|line|seconds|hex|ask|later|stage): (?:Query|Question|Command|TableLine|RawLine|Line|Asking|Asked|PacketQuestion|TablesQuestion|bool|usize|Stage|Later)\b', p)))
# 8
pf = glob.glob(root + '/crates/*/proofs/**/*.antt', recursive=True)
pl = {p: open(p).read() for p in pf}
bycrate = collections.Counter(); hand = collections.Counter()
for p, s in pl.items():
    c = p[len(root) + 8:].split('/')[0]
    bycrate[c] += s.count('\n')
    if p.endswith('/Proof.antt'): hand[c] += s.count('\n')
print('8a lines of proofs', sum(bycrate.values()), 'in', len(pl), 'files; of them by hand over the code (Proof.antt):', sum(hand.values()), 'in', sum(p.endswith('/Proof.antt') for p in pl), 'files')
print('   most:', ', '.join(f'{c} {n}' for c, n in bycrate.most_common(12)))
print('   most by hand:', ', '.join(f'{c} {n}' for c, n in hand.most_common(8)))
if len(sys.argv) > 2:
    for g in sorted(groups.values(), key=lambda g: -sum(x[2] for x in g))[:12]:
        if len(g) > 1: print('   twin', [(short(f), n, l) for f, n, l in g])
