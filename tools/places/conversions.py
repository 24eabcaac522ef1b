# Point 4: equality, order, conversion by hand. CHECKOUT [list]
from functions import *
top, out = sys.argv[1], collections.defaultdict(list)
for f in fns(top):
    t = re.sub(r'\s+', ' ', ' '.join(f['body'])).strip(); at = '%s %s' % (f['file'], f['name']); s = f['sig']
    if re.fullmatch(r'\*?[\w.]+ as \w+|\w+::from\([\w.]+\)', t): out['a cast alone'].append(at)
    elif re.search(r'^if (\w+) <=? (\w+) \{ (return )?(\1|\2);? \}', t): out['min or max'].append(at)
    elif re.search(r'if \w+ == \w+ \{ (return )?1;? \}( else \{ 0 \}| 0)', t): out['0 or 1 of a test'].append(at)
    elif re.search(r'-> bool', s) and re.match(r'matches!|match \w+ \{', t): out['a test of one variant'].append(at)
    elif re.search(r'-> bool', s) and re.match(r'^(same|is_same|eq|equal)', f['name']): out['equality'].append(at)
    elif (m := re.search(r'-> (Svq1\w+)$', s)) and len(re.findall(r'(=>|\{ return) %s::\w+' % m[1], t)) >= 2: out['a number or enum to an enum'].append(at)
    elif len(re.findall(r'\w+::\w+ => \d+', t)) >= 2 or len(re.findall(r'\b\d+ => \d+', t)) >= 2: out['an enum to a number, or number to number'].append(at)
    elif len(re.findall(r'if \w+ == \d+ \{ return', t)) >= 2: out['a chain of ifs over a number'].append(at)
    elif re.search(r'b < a \{ a - b|< c \{ c - x|\w+ < 0 \{ return -', t): out['distance or absolute value'].append(at)
for k in sorted(out):
    print(len(out[k]), k)
    if len(sys.argv) > 2: print('   ' + '\n   '.join(out[k]))
print(sum(map(len, out.values())), 'together')
