#!/usr/bin/env python3
# rx.py CRATE FUNC < blocks: writes crates/CRATE/proofs/+FUNC/Proof.antt. blocks "name\nbody" separated by ===. HEAD block: use lines and definitions before; MEASURE block: body; CALLS block: lines "fn crate.path" in order; N block: number of lifetimes.
import sys,re,os
C,f=sys.argv[1:3]
d=f'target/gen/Rattle·{C}·proofs/proofs/+{f}/'
g=open(d+f'Lts-{f}.antt').read()
recs={}
for m in re.finditer(r'(?m)^( *)(?:pub )?record (\S+)[^\n]*\n((?:\1  +[^\n]*\n|\n)*)',g):
    recs[m.group(2)]=re.findall(r'(?m)^ *pub (\S+) : (\S+)',m.group(3))
order=[n for n,r in re.findall(r'Need-(\S+) =\s+\(c : ([^\s)]+)',g)]
needs=dict(re.findall(r'Need-(\S+) =\s+\(c : ([^\s)]+)',g))
def path(need,x):
    r=needs[need]; i=0
    while r in recs:
        fs=recs[r]
        if x in [a for a,b in fs]: return 'c'+' .before'*i+' .'+x
        if r==x: return 'c'+' .before'*i
        b=[y for a,y in fs if a=='before']
        if not b: break
        r=b[0].split('.')[-1].strip('()'); i+=1
    sys.exit(f'no fact {x} in {need}')
blocks={}
for blk in sys.stdin.read().split('\n===\n'):
    blk=blk.strip('\n')
    if not blk: continue
    name,_,body=blk.partition('\n'); blocks[name.strip()]=body
out=[blocks['HEAD']]
sh=blocks.get('SHORT',f).strip(); n=blocks['N'].strip()
calls=[l.split() for l in blocks['CALLS'].split('\n') if l.strip()]
out.append(f'''use borrow.Fn.Kinds.{{In}}
use borrow.Fn.PlainCycle.{{Measures, is, falls, and}}
use Rattle·{C}·proofs.proofs.{f}.Reads as {sh}
use Rattle·{C}·proofs.proofs.{f}.Kinds as {sh}-kinds
use Rattle·{C}·proofs.proofs.+{f}.Lts-{f} as {sh}-lts''')
for fn,cr in calls:
    own='·proofs' if cr==C else ''
    out.append(f'use Rattle·{cr}{own}.proofs.{fn}.Reads as {fn.replace("_","-")}-reads')
out.append(f'''use Rattle·{C}·proofs.proofs.+{f}.{{statement}}
use Rattle·{C}·proofs.proofs.+{f}.Tie.{{close}}

abbrev μ-{sh} : Measures {n} {sh}-kinds.ps ℕ
μ-{sh} κs a = {blocks['MEASURE'].strip()}

abbrev {sh}-at : ℕ → In {n} {sh}-kinds.ps
{sh}-at t = and {n} {sh}-kinds.ps (is {n} {sh}-kinds.ps μ-{sh} t) {sh}.Pre

abbrev {sh}-below : ℕ → In {n} {sh}-kinds.ps
{sh}-below t = and {n} {sh}-kinds.ps (falls {n} {sh}-kinds.ps _<_ μ-{sh} t) {sh}.Pre

abbrev calls : ℕ → {sh}-lts.Claims
calls t = (''')
for fn,cr in calls:
    x=fn.replace('_','-')
    out.append(f'  {x}-reads.Asked,\n  {x}-reads.Learnt,')
out.append(f'  {sh}-below t,\n  {sh}.Post,\n)\n')
if 'MORE' in blocks: out.append(blocks['MORE']+'\n')
names=[]
for nm in order:
    k=' κs' if re.search(r'requires(-\d+)?$',nm) else ''
    body=blocks.get(nm,blocks.get('DEFAULT','search needs'))
    unf=''
    if body.startswith('unfolding'):
        unf,body=body.split('\n',1); unf+='\n'
    body=re.sub(r'@([\w-]+)( \.)?',lambda q:(path(nm,q.group(1))+' .') if q.group(2) else '('+path(nm,q.group(1))+')',body)
    if '\n' in body: body='\n'+'\n'.join('    '+l for l in body.split('\n'))
    else: body=' '+body
    out.append(f'{sh}-{nm} : (t : ℕ) → {sh}-lts.Need-{nm} (calls t) ({sh}-at t) {sh}.Post\n{unf}{sh}-{nm} t c{k} ={body}\n')
    names.append(f'    ({sh}-{nm} t)')
s=f.replace('_','-')
out.append(f'pub +{s}-spec : {{M : Type 1}} → statement M\n+{s}-spec = close μ-{sh} λ t. {sh}-lts.spec (calls t)\n    ({sh}-at t)\n    {sh}.Post\n'+'\n'.join(names))
p=f'crates/{C}/proofs/+{f}/Proof.antt'
open(p,'w').write('\n'.join(out)+'\n')
print('wrote',p)
for b in blocks:
    if b not in order and b not in ('HEAD','SHORT','N','CALLS','MEASURE','MORE','DEFAULT'): print('UNUSED',b)
