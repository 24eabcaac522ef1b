# Point 5: parameters that travel together through three functions or more, and clauses of requires that stand in three or more. CHECKOUT [list]
from functions import *
top = sys.argv[1]
fs = [(f, frozenset(params(f))) for f in fns(top)]
sets = set()
for (a, x), (b, y) in itertools.combinations(fs, 2):
    s = x & y
    if len(s) >= 3: sets.add(s)
sup = {s: [f for f, p in fs if s <= p] for s in sets}
sup = {s: v for s, v in sup.items() if len(v) >= 3}
mx = [s for s in sup if not any(s < t and len(sup[t]) == len(sup[s]) for t in sup)]
top_ = [s for s in mx if not any(s < t for t in mx)]
inall = set(id(f) for v in sup.values() for f in v)
print('groups (closed)', len(mx), 'largest', len(top_), 'functions', len(inall))
if len(sys.argv) > 2:
    for s in sorted(top_, key=lambda s: -len(s) * len(sup[s])):
        print(len(s), len(sup[s]), ', '.join(sorted(s)), '::', ' | '.join('%s %s' % (f['file'].replace('crates/', '').replace('/src', ''), f['name']) for f in sup[s]))
cl = collections.defaultdict(set)
for f, _ in fs:
    for c in f['clauses']:
        m = re.match(r'requires (?:\w+ )?\{ (.*) \}$', c)
        if m:
            d = 0; cur = ''; parts = []
            for ch in m.group(1):
                d += (ch in '([{') - (ch in ')]}')
                if ch == '×' and d == 0: parts.append(cur); cur = ''
                else: cur += ch
            for p in parts + [cur]:
                p = re.sub(r'\s+', ' ', p).strip()
                while p.startswith('(') and p.endswith(')'): p = p[1:-1].strip()
                cl[p].add((f['file'], f['name']))
r = {p: v for p, v in cl.items() if len(v) >= 3}
print('clauses', len(r), 'standing', sum(map(len, r.values())))
if len(sys.argv) > 2:
    for p, v in sorted(r.items(), key=lambda x: -len(x[1])): print(len(v), p, '::', ' | '.join('%s %s' % (a.replace('crates/', '').replace('/src', ''), b) for a, b in sorted(v)))
