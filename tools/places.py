#!/usr/bin/env python3
"""Counts, in crates/*/src, the places that a design pass looks at, by a plain search each:  tools/places.py [-v] [CRATE..]

  enums       enums, with those of the shape of Option or Result (a variant with a value beside one that says that there is none, or two that say yes and no)
  numbers     parameters and fields of type u32 that say a kind (field, edition, number of a refusal)
  twins       functions whose name is another's of the crates with _one, _four, _2, _all, _many, _few or the like behind it
  loops       while loops that step an index by hand (a line of the body is `i += 1;` or `i -= 1;` of a name that the test has)
  other       all other while loops
  clauses     clauses that stand word for word at three or more functions (names of parameters as written)
  together    groups of three parameters that stand together at five or more functions
  pairs       functions that are lent two slices of which a clause says that they are as long as one another
"""
import glob, itertools, os, re, sys, collections
verbose = '-v' in sys.argv
names = [a for a in sys.argv[1:] if a != '-v']
top = os.path.join(os.path.dirname(os.path.abspath(__file__)), '..', 'crates')
files = sorted(f for f in glob.glob(top + '/*/src/**/*.rt', recursive=True) if not names or f[len(top) + 1:].split('/')[0] in names)

def functions(text):
    """Each function: its name, parameters, clauses, body."""
    for m in re.finditer(r'(?m)^( *)(?:pub )?(?:extern "C" )?fn (\w+)(?:<[^>]*>)?\(', text):
        i = m.end(); depth = 1
        while depth:
            depth += {'(': 1, ')': -1}.get(text[i], 0); i += 1
        parameters = re.sub(r'\s+', ' ', text[m.end():i - 1]).strip().rstrip(',')
        end = re.compile(r'(?m)\{$|;$').search(text, i)
        head = text[i:end.end()] if end else ''
        has_body = end and end.group() == '{'  # a method that a trait declares has none
        stop = re.compile(r'(?m)^%s\}' % m.group(1)).search(text, end.end()) if has_body else None
        body = text[end.end():stop.start()] if stop else ''
        yield m.group(2), parameters, re.findall(r'(?m)^ *(?:requires|ensures)(?: \w+)? \{ (.*) \}', head), body

counts = collections.Counter(); shown = collections.defaultdict(list)
def count(kind, where):
    counts[kind] += 1; shown[kind].append(where)

clauses = collections.defaultdict(set); groups = collections.defaultdict(set); every = {}
for f in files:
    text = open(f).read(); crate = f[len(top) + 1:].split('/')[0]
    for m in re.finditer(r'(?m)^(?:pub )?enum (\w+) \{\n((?:.*\n)*?)\}', text):
        count('enums', '%s::%s' % (crate, m.group(1)))
        variants = [v for v in re.findall(r'(?m)^    (\w+(?:\(.*\))?),', m.group(2))]
        if len(variants) in (2, 3) and (sum('(' in v for v in variants) <= 2) and re.search(r'Nothing|End|NoField|Clash|Failed|Refus|Accepted', m.group(2)):
            count('enums of the shape of Option or Result', '%s::%s' % (crate, m.group(1)))
    for name, parameters, said, body in functions(text):
        where = '%s::%s' % (crate, name)
        every.setdefault(name, []).append(where)
        if re.search(r'\b(field|number): u32', parameters): count('functions with a number for a kind', where)
        for m in re.finditer(r'(?m)^( *)(?:\'\w+: )?while (.*) \{$', body):
            stop = re.compile(r'(?m)^%s\}' % m.group(1)).search(body, m.end())
            inside = body[m.end():stop.start()] if stop else ''
            stepped = set(re.findall(r'(?m)^ *(\w+) [+-]= 1;', inside)) & set(re.findall(r'\w+', m.group(2)))
            count('loops by an index' if stepped else 'other while loops', where)
        types = [p.strip() for p in re.split(r',(?![^<(\[]*[>)\]])', parameters) if p.strip()]
        for g in itertools.combinations(sorted(types), 3): groups[g].add(where)
        for c in said: clauses[c].add(where)
        slices = re.findall(r'(\w+): &(?:mut )?\[u32\]', parameters)
        if any(re.search(r'length (?:\(elements_at \w+ |\(quads )?%s\.\w+\)? ≡ length (?:\(elements_at \w+ |\(quads )?%s\.' % (a, b), c) for a, b in itertools.permutations(slices, 2) for c in said):
            count('pairs of slices of one length', where)
for name, where in every.items():
    base = re.sub(r'_(one|four|2|1|all|any|many|few|small|middle|block|within|batch)$', '', name)
    if base != name:
        for w in where: count('names of twins', w)
for c, where in clauses.items():
    if len(where) >= 3 and not c.startswith('result') and 'result' not in c: count('requires clauses at three functions or more', '%d: %s' % (len(where), c))
for g, where in groups.items():
    if len(where) >= 5: count('groups of three parameters at five functions or more', '%d: %s' % (len(where), ', '.join(g)))
for kind in sorted(counts):
    print('%5d  %s' % (counts[kind], kind))
    if verbose:
        for w in sorted(shown[kind]): print('         ' + w)
