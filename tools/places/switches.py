# Point 7: a parameter that picks which step to run; closures and tables of functions. CHECKOUT [list]
from functions import *
top, out = sys.argv[1], collections.defaultdict(list)
for f in fns(top):
    at = '%s %s' % (f['file'], f['name']); t = ' '.join(f['body'])
    for p in params(f):
        n, _, ty = p.partition(': '); n = n.replace('mut ', '')
        if ty == 'bool' and re.search(r'\bif !?%s\b' % n, t): out['a bool that picks the step'].append(at + ' ' + p)
        if n in ('ox', 'oy', 'e', 'n', 'q', 'k', 'kind', 'mode', 'half', 'side') and ty in ('usize', 'u8', 'u32', 'u64') and re.search(r'(if|match) (\(.*?)?\b%s\b( \+ oy)? ?(==|<|\)|, |\{)' % n, t) or n in ('ox', 'oy') and re.search(r'(if|match)[^{]*\b%s\b' % n, t): out['a number that picks the step'].append(at + ' ' + p)
        if re.search(r'\b(Fn|FnMut|FnOnce|dyn)\b|\bfn\(', ty): out['a closure or a function as a parameter'].append(at + ' ' + p)
    if re.search(r'\[fn\(|: fn\(', t): out['a table of functions'].append(at)
for k in sorted(out):
    print(len(out[k]), k)
    if len(sys.argv) > 2: print('   ' + '\n   '.join(out[k]))
