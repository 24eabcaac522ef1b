# Point 2, types: structs whose fields have the same types. CHECKOUT
from functions import *
top = sys.argv[1]; g = collections.defaultdict(list)
for p in sorted(glob.glob(top + '/crates/*/src/**/*.rt', recursive=True)):
    t = re.sub(r'//.*', '', open(p).read())
    for m in re.finditer(r'struct (\w+) \{(.*?)\n\}', t, re.S): g[tuple(sorted(re.findall(r': (.*?),\n', m[2] + '\n')))].append(p[len(top) + 1:] + ' ' + m[1])
tw = [v for k, v in g.items() if len(v) > 1 and len(k) > 1]
for v in tw: print(len(v), ' | '.join(v))
print('groups', len(tw), 'types', sum(map(len, tw)))
