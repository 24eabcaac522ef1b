# Point 2, another way: functions whose bodies share most of their tokens, seven in a row. CHECKOUT SHARE, of 1.
from functions import *
top = sys.argv[1]; bar = float(sys.argv[2])
fs = []
for f in fns(top):
    t = blank(tokens(f))
    if len(f['body']) > 4 and len(t) >= 25:
        fs.append((f, collections.Counter(zip(*[t[i:] for i in range(7)]))))
par = list(range(len(fs)))
def root(a):
    while par[a] != a: a = par[a]
    return a
n = 0
for a, b in itertools.combinations(range(len(fs)), 2):
    x, y = fs[a][1], fs[b][1]
    i = sum((x & y).values()); u = sum((x | y).values())
    if i >= bar * u: par[root(b)] = root(a); n += 1
g = collections.defaultdict(list)
for i, (f, _) in enumerate(fs): g[root(i)].append(f)
g = [v for v in g.values() if len(v) > 1]
for v in g: print(len(v), ' | '.join('%s:%d %s(%d)' % (x['file'], x['line'], x['name'], len(x['body'])) for x in v))
print('groups', len(g), 'functions', sum(map(len, g)), 'pairs', n)
