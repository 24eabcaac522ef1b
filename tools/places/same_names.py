# Point 2, names: functions of one name in two crates. CHECKOUT
from functions import *
top = sys.argv[1]; g = collections.defaultdict(list)
for f in fns(top): g[f['name']].append(f)
n = 0
for k, v in sorted(g.items()):
    if len({f['file'].split('/')[1] for f in v}) > 1 and k != 'main' and not any(f['c'] for f in v):
        n += 1; print(k, len(v), ' | '.join(f['file'] + ' (' + ', '.join(p.split(': ')[-1] for p in params(f)) + ')' for f in v))
print('names', n)
