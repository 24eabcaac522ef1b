# Point 2: functions whose bodies are the same but for names and numbers. CHECKOUT LINES: bodies of more than so many lines.
from functions import *
top = sys.argv[1]
g = collections.defaultdict(list)
for f in fns(top):
    if len(f['body']) > int(sys.argv[2]): g[blank(tokens(f))].append(f)
tw = [v for v in g.values() if len(v) > 1]
for v in tw: print(len(v), ' | '.join('%s:%d %s(%d)' % (x['file'], x['line'], x['name'], len(x['body'])) for x in v))
print('groups', len(tw), 'functions', sum(map(len, tw)))
