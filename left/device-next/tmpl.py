#!/usr/bin/env python3
# tmpl.py CRATE FUNC...: writes crates/CRATE/proofs/FUNC/Proof.antt from target/gen
import sys,re,os
C=sys.argv[1]
for f in sys.argv[2:]:
    d=f'target/gen/Rattle·{C}·proofs/proofs/{f}/'
    t=open(d+'Tie.antt').read()
    out=[]; names=[]
    out.append('use borrow.Author.Needs.{needs}')
    out.append(f'use Rattle·{C}·proofs.proofs.{f}.Statement.{{statement}}')
    out.append(f'use Rattle·{C}·proofs.proofs.{f}.Tie as tie')
    out.append('')
    args=''
    for m in re.finditer(r'(?m)^\s*abbrev pub (Need-\S+|InvT-\S+|MeasureT-\S+) : (.*)$',t):
        n=m.group(1)
        if n.startswith('Need-'):
            nm=n[5:]
            k=' κs' if re.search(r'requires(-\d+)?$',nm) else ''
            inv=[x for x in re.findall(r'\((Inv[^ ]*|μ[^ ]*) :',m.group(2))]
            a=''
            if 'InvT' in m.group(2):
                a=' '+' '.join(invs)
            out+= [f'{nm} : tie.Need-{nm}{a}', f'{nm} c{k} = ?','']
            names.append(nm)
    # invariants
    invs_t=re.findall(r'(?m)^\s*abbrev pub (InvT-\S+|MeasureT-\S+) : (.*)$',t)
    print(f,len(names),[x[0] for x in invs_t])
    s=f.replace('_','-').lstrip('+')
    out.append(f'pub {s}-spec : {{M : Type 1}} → statement M')
    out.append(f'{s}-spec =\n    tie.close\n    (tie.spec\n    '+'\n    '.join(names)+')')
    p=f'crates/{C}/proofs/{f}/Proof.antt'
    os.makedirs(os.path.dirname(p),exist_ok=True)
    open(p,'w').write('\n'.join(out)+'\n')
