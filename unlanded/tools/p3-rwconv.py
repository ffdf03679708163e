import re,sys,subprocess,os,json
base='/tmp/w/p3/crates/'
OPEN='([{⟦'; CLOSE=')]}⟧'
exec(open('/tmp/w/p3-inline.py').read().split('def inline')[0])
_atom=atom
def atom(s,i):
    try: return _atom(s,i)
    except IndexError: return None

def conv(line, skip):
    """yield conversions of innermost-first subst occurrences; returns new line and list of (orig,new)"""
    n=0
    out=line; done=[]
    pos=0
    while True:
        m=re.search(r"(?<![\w\.\-'])subst ",out[pos:])
        if not m: break
        i=pos+m.start(); j=pos+m.end()
        a=atom(out,j)
        if a is None: pos=j; continue
        fam,j1=a
        b=atom(out,j1)
        if b is None: pos=j; continue
        e,j2=b
        c=atom(out,j2)
        if c is None: pos=j; continue
        t,j3=c
        if '\n' in out[i:j3]: pos=j; continue
        mm=re.match(r"^\(sym (.*)\)$",e)
        if mm:
            x=mm[1]
            xa=atom(x,0)
            if xa and xa[1]==len(x): new=f"rw {x} {t}"
            else: new=f"rw ({x}) {t}"
        else:
            new=f"rw {e} at {t}"
        orig=out[i:j3]
        if (orig) in skip: pos=j; continue
        out=out[:i]+new+out[j3:]
        done.append((orig,new))
        pos=i+len('rw ')
    return out,done
def check(crate):
    r=subprocess.run(['/tmp/w/rd.sh','/tmp/w/p3',crate],capture_output=True,text=True,env=dict(os.environ,RL='/tmp/w/rlp3'))
    return r.stdout+r.stderr
crate=sys.argv[1]; files=sys.argv[2:]
skip={f:set() for f in files}
orig={f:open(base+crate+'/proofs/'+f).read() for f in files}
for it in range(6):
    edits={}
    for f in files:
        L=orig[f].split('\n'); N=[]
        for k,l in enumerate(L):
            if 'subst ' in l and not l.lstrip().startswith('--') and not l.startswith('use '):
                # skip entries are (lineno,orig)
                sk={o for (ln,o) in skip[f] if ln==k}
                nl,d=conv(l,sk)
                if d: edits[(f,k)]=d
                N.append(nl)
            else: N.append(l)
        open(base+crate+'/proofs/'+f,'w').write('\n'.join(N))
    out=check(crate)
    if 'logic=proved' in out: print('proved, conversions',sum(len(d) for d in edits.values())); break
    bad=set()
    for m in re.finditer(r"^\./proofs/(\S+?):(\d+):(\d+): error: (.*)$",out,re.M):
        f,ln,msg=m[1],int(m[2])-1,m[4]
        if f not in files:
            if 'depend' not in msg: print('other',m[0][:200])
            continue
        if 'depend' in msg and ('not checked' in msg or 'were not checked' in msg): continue
        bad.add((f,ln))
        print(' err',f,ln+1,msg[:110])
    progress=False
    for f,ln in bad:
        # revert conversions at this line, or in the whole declaration
        L=orig[f].split('\n')
        if (f,ln) in edits: rng=[ln]
        else:
            a=ln
            while a>0 and L[a-1].strip()!='' : a-=1
            b=ln
            while b<len(L)-1 and L[b+1].strip()!='' : b+=1
            rng=range(a,b+1)
        for k in rng:
            if (f,k) in edits:
                for o,n in edits[(f,k)]:
                    if (k,o) not in skip[f]: skip[f].add((k,o)); progress=True
    if not progress:
        print('no progress; restoring'); 
        for f in files: open(base+crate+'/proofs/'+f,'w').write(orig[f])
        print(out[:3000]); break
