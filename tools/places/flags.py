# Point 1 of docs/DESIGN-PASS.md: enums of the shape of Option or Result, flags beside values, numbers for kinds and refusals. CHECKOUT [list]
from functions import *
top, out = sys.argv[1], collections.defaultdict(list)
for f in fns(top):
    at = '%s %s' % (f['file'], f['name']); text = ' '.join(f['clauses'] + f['body'])
    if f['sig'].endswith('-> u8') and re.search('refus|answer', text + f['name']): out['a function that answers a refusal as u8'].append(at)
    for p in params(f):
        if re.match(r'(mut )?(refused|refusal|short|told): u(8|32)$', p): out['a parameter that is a refusal as a number'].append(at + ' ' + p)
        if re.match(r'(level|half|mode|kind): (u8|u32|usize)$|(d|own): usize$', p): out['a parameter that is a level, half, mode or kind as a number'].append(at + ' ' + p)
for g in sorted(glob.glob(top + '/crates/*/src/**/*.rt', recursive=True)):
    t = re.sub(r'//.*', '', open(g).read())
    for m in re.finditer(r'(enum|struct) (\w+)(?:<[^>]*>)? \{(.*?)\n\}', t, re.S):
        at = g[len(top) + 1:] + ' ' + m[2]; parts = [l.strip() for l in m[3].split('\n') if l.startswith('    ') and not l.startswith('     ') and l.strip() not in '}']
        if m[1] == 'enum' and (sum(bool(re.search(r'[({]', v)) for v in parts) == 1 or 'Refused' in m[3]): out['an enum of the shape of Option or Result'].append(at)
        if m[1] == 'struct':
            for v in parts:
                if re.search(r'\b(refused|refusal): u(8|32)', v): out['a field that is a refusal as a number'].append(at)
                if re.search(r'\b(found|whole|ok|present|given): bool', v): out['a flag beside values'].append(at)
                if re.search(r'\b(level|half|mode|kind): (u8|u32|usize)', v): out['a field that is a kind as a number'].append(at)
for k in sorted(out):
    print(len(out[k]), k)
    if len(sys.argv) > 2: print('   ' + '\n   '.join(out[k]))
print(sum(map(len, out.values())), 'together')
