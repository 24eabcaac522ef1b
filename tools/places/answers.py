# Point 8: per crate the answers and the lines of proofs/, before and now, and right sides that stand in three answers or more. BEFORE NOW [list]
import glob, re, sys, os, collections
def crate(top, c):
    fs = glob.glob(top + '/crates/' + c + '/proofs/**/*.antt', recursive=True); t = [open(f).read() for f in fs]
    return sum(len(re.findall(r'^(?:abbrev )?pub \S+ : goal\.', x, re.M)) for x in t), sum(x.count('\n') for x in t), t
rep = collections.defaultdict(list); s = [0] * 4
for c in sorted(os.listdir(sys.argv[2] + '/crates')):
    a, b = crate(sys.argv[1], c), crate(sys.argv[2], c)
    s = [x + y for x, y in zip(s, (a[0], b[0], a[1], b[1]))]
    print('| %s | %d | %d | %d | %d |' % (c, a[0], b[0], a[1], b[1]))
    for x in b[2]:
        for m in re.finditer(r'^(\S+) c = (.*(?:\n  .*)*)', x, re.M):
            r = re.sub(r'\s+', ' ', m[2]).replace(m[1], 'NAME'); rep[r].append(c + ' ' + m[1])
print('| all | %d | %d | %d | %d |' % tuple(s))
r = [(len(v), k, v) for k, v in rep.items() if len(v) > 2]
print('repeated', len(r), 'in', sum(x[0] for x in r))
if len(sys.argv) > 3:
    for n, k, v in sorted(r, reverse=True)[:40]: print(n, k[:150], '::', collections.Counter(x.split()[0] for x in v).most_common(5))
