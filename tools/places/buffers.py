# Point 6: buffers with a place or a length beside them, parallel arrays, trees by index. CHECKOUT [list]
from functions import *
top, out = sys.argv[1], collections.defaultdict(list)
for f in fns(top):
    at = '%s %s' % (f['file'], f['name']); ps = [p.split(': ', 1) for p in params(f) if ': ' in p]; ns = [n for n, _ in ps]
    for a, b in (('vx', 'vy'), ('vx0', 'vy0'), ('lows', 'highs'), ('backx', 'backy'), ('backx0', 'backy0')):
        if a in ns and b in ns: out['two slices side by side'].append(at + ' ' + a + ', ' + b); break
    if any('63]' in t for _, t in ps) or '; 63]' in f['sig'].split('->')[-1]: out['a tree as 63 records'].append(at)
    if {'at'} & set(ns) and any(t == '&mut [u8]' for _, t in ps) and f['sig'].endswith('-> usize'): out['a buffer and a place in it, the new place answered'].append(at)
    if any(re.search(r'length \w+\.\w+ ≡ n\b', c) for c in f['clauses']) and 'n' in ns: out['a slice and its length beside it'].append(at)
    if any('[u8; 6]' in t for _, t in ps) and {'count', 'code'} & set(ns): out['stage indices and their count beside them'].append(at)
for g in sorted(glob.glob(top + '/crates/*/src/**/*.rt', recursive=True)):
    t = re.sub(r'//.*', '', open(g).read())
    for m in re.finditer(r'struct (\w+) \{(.*?)\n\}', t, re.S):
        if re.search(r'\[\w+; 6\]', m[2]): out['a record with stage indices and their count or code'].append(g[len(top) + 1:] + ' ' + m[1])
    cs = re.findall(r'const (\w+): \[(\w+; \w+)\]', t)
    for ty in {c[1] for c in cs if sum(d[1] == c[1] for d in cs) > 1}: out['parallel constant arrays'].append(g[len(top) + 1:] + ' ' + ', '.join(c[0] for c in cs if c[1] == ty))
for k in sorted(out):
    print(len(out[k]), k)
    if len(sys.argv) > 2: print('   ' + '\n   '.join(out[k]))
print(sum(map(len, out.values())), 'together')
