# Point 3: loops of each kind. CHECKOUT [list]
from functions import *
top, out = sys.argv[1], collections.defaultdict(list)
for f in fns(top):
    b = f['body']
    for i, l in enumerate(b):
        at = '%s %s' % (f['file'], f['name'])
        if re.match(r'\s*(while|loop)\b', l): out['while'].append(at + '  ' + l.strip())
        m = re.match(r'(\s*)for (\w+) in (.*\.\..*) \{$', l)
        if m:
            j = next(k for k in range(i + 1, len(b)) if b[k] == m[1] + '}'); t = '\n'.join(b[i + 1:j]); v = m[2]
            rest = re.sub(r'\w+(\.\w+)*\[%s\]' % v, '', t)
            kind = 'for over a range, the index only picks an element' if v[0] != '_' and not re.search(r'\b%s\b' % v, rest) else 'for over a range, the index is used as a number too'
            out[kind].append(at + '  ' + l.strip())
        elif re.match(r'\s*for ', l): out['for over elements'].append(at + '  ' + l.strip())
        if re.search(r'\.(iter\(\)|(any|all|position|zip|map|fold|sum)\([^)])', l): out['iterator chain'].append(at + '  ' + l.strip())
for k in sorted(out):
    print(len(out[k]), k)
    if len(sys.argv) > 2: print('   ' + '\n   '.join(out[k]))
