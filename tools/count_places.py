# Candidates of the eight points of the design pass, in crates/*/src and proofs: python3 count_places.py [POINT]. A reader sorts them.
import collections, glob, re, sys

Fn = collections.namedtuple('Fn', 'name params result contract body')
fns, types, proofs = [], [], []
for path in sorted(glob.glob('crates/*/src/*.rt')):
    text = re.sub(r'//.*', '', open(path).read())
    where = path.split('/')[1] + '::' + ('' if path.endswith(('lib.rt', 'main.rt')) else path.split('/')[-1][:-3] + '::')
    for m in re.finditer(r'fn (\w+)(?:<[^(]*>)?\((.*?)\)(?: -> ([^\n{]+?))?((?:\n\s+ensures .*?)*)\s*\n?\s*\{\n(.*?)\n\s*\}\n(?=\n|\}|$)', text + '\n', re.S):
        name, params, result, contract, body = m.groups(default='')
        fns.append(Fn(where + name, [p.strip() for p in re.split(r',(?![^\[(]*[\])])', params) if p.strip()], result, contract, body))
    types += [(where + n, kind, re.sub(r'\s+', ' ', b)) for kind, n, b in re.findall(r'(struct|enum) (\w+) \{(.*?)\n\}', text, re.S)]
for path in sorted(glob.glob('crates/*/proofs/**/*.antt', recursive=True)):
    for block in re.split(r'\n\n+', open(path).read()):
        m = re.match(r'(?:\s*--.*\n)*\s*(?:pub )?([^\s:]+) : (goal\.)?(.*?)\n(.*)', block, re.S)
        if m: proofs.append((path[7:-5], m[1], m[2] is not None, m[3], re.sub(r'\s+', ' ', m[4].replace(m[1], 'F'))))

def show(point, title, rows):
    if sys.argv[1:] in ([], [point]):
        print(f'== {point}. {title}: {len(rows)}', *sorted(set(rows)), sep='\n')

kinds = r'\b(kind|mode|model|code|detector|owners|number|used|stepped|held|powered|more|whole|refused|negative|isvirtual|firstvirtual|outcome|len|length)\b'
show('1', 'types of two to four cases, or with a flag or a number for a kind', [f'{n}: {b}' for n, k, b in types if k == 'enum' and b.count(',') < 5 or k == 'struct' and re.search(kinds, b)])
show('1', 'functions that read a kind or "none" from a number, or answer so', [f.name for f in fns if re.search(r'% 4 [!=]= [0-3]|\bkind [!=]= |== 0 \{\s*return|if \w+ == b\'|\bmatch (n|kind|left|opcode|name) ', f.body) or f.result == 'u16' and re.search(r'\n\s+0$|\bfound$', f.body)])
shape = lambda f: re.sub(r'\b(?!let|mut|if|else|while|return|match|true|false)\w+\b', 'x', re.sub(r'\s+', ' ', f.body))
same = collections.defaultdict(list)
for f in fns: same[shape(f)].append(f.name)
show('2', 'functions of one shape', [' / '.join(v) + ': ' + k[:70] for k, v in same.items() if len(v) > 1])
show('3', 'loops', [f'{f.name}: while {c}' for f in fns for c in re.findall(r'\bwhile (.*?) \{', f.body)])
show('4', 'conversions, equality, printing', [f.name for f in fns if re.search(r'_of$|_number$|^is_|same|differ|known|digit|hex|decimal|line$|put|byte|flag|word$|wide|named', f.name.split('::')[-1]) or re.search(r'\b(256|48 \+|87 \+)', f.body)])
facts = collections.Counter(w for f in fns for w in set(re.findall(r'top \+ 1|Written|IsPrefixLen|outcome_number|file_left|length result|c_value|\.now n\b', f.contract)))
pairs = collections.defaultdict(set)
for f in fns:
    ps = [p for p in f.params if ':' in p]
    for i, p in enumerate(ps):
        for q in ps[i + 1:]: pairs[p, q].add(f.name)
show('5', 'facts in contracts', [f'{w}: {n} functions' for w, n in facts.items() if n > 2])
show('5', 'parameters together in three functions or more', [f'({p}, {q}): {len(v)}: ' + ', '.join(sorted(v)) for (p, q), v in pairs.items() if len(v) > 2])
show('6', 'arrays in types and in functions', [f'{n}: {b}' for n, k, b in types if '; ' in b] + [f'{f.name}: {a}' for f in fns for a in re.findall(r'\[[\w: ]+; [\w:+ ]+\]|\w+\[\.\.\w*\]', ' '.join(f.params) + f.result + f.body)])
show('7', 'match or test on a kind, an opcode, a flag', [f'{f.name}: {m}' for f in fns for m in re.findall(r'match (?:kind|opcode|name|mode|left|k)\b|if (?:writes|group|c\.full|full|two)\b', f.body)])
show('8', 'answers of one step', [f'{p}: {n}' for p, n, g, s, b in proofs if g and re.search(r'F c = (refl|tt|rw \(?c\.[\w.-]+\)?)$', b.strip())])
again = collections.defaultdict(list)
for p, n, g, s, b in proofs: again[b if g else s].append(f'{p}:{n}')
show('8', 'answers, or statements of lemmas, that are written twice', [f'{len(v)}: {k[:90]} {v}' for k, v in again.items() if len(v) > 1 and len(k) > 45])
