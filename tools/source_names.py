#!/usr/bin/env python3
# proofs of functions: a name of src/ keeps its underscore within a name that the prover makes
import glob,re,sys
ids=set()
for f in glob.glob('crates/*/src/**/*.rt',recursive=True):
    t=open(f).read()
    ids.update(re.findall(r'\b_?[A-Za-z0-9]+(?:_[A-Za-z0-9]+)+\b',t))
ids|={'in_ok','in_err','invariant_of','from_residual','in_default','slice_bounds','overflow_add','overflow_sub','overflow_mul','overflow_shl','overflow_shr','overflow_cast','nonzero_div','nonzero_rem','offset_bounds','range_from','overflow_step'}
table={i.replace('_','-').strip('-'):i for i in ids}
pat=re.compile(r"[A-Za-z0-9_][A-Za-z0-9_'-]*-[A-Za-z0-9_'-]*")
skip={'split-front'}
def fix(tok):
    parts=tok.split('-')
    out=[];i=0
    while i<len(parts):
        for j in range(len(parts),i+1,-1):
            k='-'.join(parts[i:j])
            if k in table:
                out.append(table[k]); i=j; break
        else:
            out.append(parts[i]); i+=1
    return '-'.join(out)
n=0
# names declared by std stay: those imported from std in the file
for f in sys.argv[1:]:
    t=open(f).read()
    std=set()
    for path,items in re.findall(r"use ([^\s;{]+)\.\{([^}]*)\}",t):
        if not re.search(r'\.(Goals|Given|Lts)$',path) : std.update(re.findall(r"[^\s,]+",items))
    lines=t.split('\n')
    for k,l in enumerate(lines):
        c=l.find('-- '); code,rest=(l[:c],l[c:]) if c>=0 else (l,'')
        code=pat.sub(lambda m: m[0] if m[0] in std else fix(m[0]),code)
        lines[k]=code+rest
    new='\n'.join(lines)
    if new!=t:
        open(f,'w').write(new); n+=1
print(n,'files')
