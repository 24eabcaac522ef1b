# What the counts beside this file share: each function of src/ with its parameters, clauses and body, comments taken out, in the layout of rt fmt.
import glob, re, sys, collections, itertools
def fns(top='.'):
    for f in sorted(glob.glob(top + '/crates/*/src/**/*.rt', recursive=True)):
        ls = [re.sub(r'\s*//.*', '', l.rstrip()) for l in open(f)]
        i = 0
        while i < len(ls):
            m = re.match(r'(\s*)(pub(\(\w+\))? )?(const )?(unsafe )?(extern "C" )?fn (\w+)', ls[i])
            if not m: i += 1; continue
            j = i
            while not ls[j].endswith('{') or re.match(r'\s*(requires|ensures|ghost)', ls[j]): j += 1
            k = j + 1
            while ls[k] != m.group(1) + '}': k += 1
            head = ls[i:j + 1]
            n = next((a for a, l in enumerate(head) if a and re.match(r'\s*(requires|ensures|ghost)', l)), len(head))
            sig = ' '.join(l.strip() for l in head[:n]).rstrip('{ ')
            yield dict(file=f[len(top) + 1:], line=i + 1, name=m.group(7), pub=bool(m.group(2)), c='extern' in ls[i], sig=sig,
                       clauses=[l.strip() for l in head[n:] if l.strip() != '{'], body=ls[j + 1:k])
            i += 1
def params(fn):
    s = re.sub(r'^.*?fn \w+(<.*?>)?\(', '', fn['sig']); d = 1; out = []; cur = ''
    for c in s:
        d += (c in '([<') - (c in ')]>' and not cur.endswith('-'))
        if d == 0: break
        if c == ',' and d == 1: out.append(cur.strip()); cur = ''
        else: cur += c
    return [p for p in out + [cur.strip()] if p]
TOK = re.compile(r"[A-Za-z_]\w*|\d\w*|b?'(?:\\.|[^'])'|b?\"[^\"]*\"|[<>=!+\-*/%&|]{1,2}|\S")
KEY = set('if else match for in while return let mut as Some None Ok Err true false loop break continue'.split())
def tokens(fn): return TOK.findall('\n'.join(fn['body']))
def blank(ts): return tuple('I' if re.match(r'[A-Za-z_]', t) and t not in KEY else 'N' if re.match(r"\d|b'", t) else t for t in ts)
