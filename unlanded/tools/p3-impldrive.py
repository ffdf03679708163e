import re,sys,subprocess,glob,os,shutil,time
sys.argv_saved=sys.argv[:]
crate=sys.argv[1]; limit=float(sys.argv[2])
sys.argv=['x']
src=open('/tmp/w/p3-impl.py').read().split('for a in sys.argv[1:]:')[0]
exec(src)
import io,contextlib
P=base+crate+'/proofs/'
files=[g for g in glob.glob(P+'**/*.antt',recursive=True)]
orig={g:open(g).read() for g in files}
# names imported outside this crate
ext=set()
for g in glob.glob(base+'*/proofs/**/*.antt',recursive=True)+glob.glob(base+'*/specs/**/*.antt',recursive=True)+glob.glob(base+'*/src/**/*.rt',recursive=True):
    if g.startswith(base+crate+'/'): continue
    for m in re.finditer(r"use Rattle\."+crate+r"\.proofs\.[\w\.]+\.\{([^}]*)\}",open(g).read()):
        for n in m[1].split(','): ext.add(n.strip().split(' as ')[0])
print('external',len(ext))
def lemmas(g):
    s=orig[g]; out=[]
    for m in re.finditer(r"^( *)(?:unfoldable )?(?:pub )?([a-z][\w\-']*) : \(",s,re.M):
        n=m[2]
        if n in ext: continue
        if s[:m.start()].endswith('abbrev ') : continue
        line=s[m.start():s.find('\n',m.start())]
        out.append(n)
    return out
def patterned(g,n,names):
    """names whose clause patterns are not plain variables"""
    s=orig[g]; bad=set()
    m=re.search(r"^( *)(?:unfoldable )?(?:pub )?"+re.escape(n)+r" : ",s,re.M)
    ind=m[1]; blk=s[m.end():].split('\n\n')[0]
    heads=[l for l in blk.split('\n') if l.startswith(ind+n+' ')]
    if not heads: return None
    for l in heads:
        i=len(ind+n)
        for x in names:
            a=atom(l,i)
            if a is None: return None
            if not re.match(r"^[a-z_][\w']*$",a[0]) or a[0] in('zero','refl','tt','true','false'): bad.add(x)
            i=a[1]
    # names in heads must be equal to the sig names, and distinct
    return bad
excl=set(); exclall=set()
todo=[]
for g in files:
    if '/proofs/' not in g: continue
    for n in lemmas(g): todo.append((g,n))
# skip names that occur twice in the crate (ambiguous)
from collections import Counter
cnt=Counter(n for _,n in todo)
def apply():
    done={}
    for g,n in todo:
        if n in exclall: continue
        s=open(g).read()
        m=re.search(r"^( *)(?:unfoldable )?(?:pub )?"+re.escape(n)+r" : ((?:[^\n]*\n(?:\1    [^\n]*\n)*))",s,re.M)
        if not m: continue
        binders,tail=parse_sig(m[2])
        exp=[(x,t) for ns,t,k in binders if k=='(' for x in ns]
        names=[x for x,_ in exp]
        if not names: continue
        if 'module _' in orig[g] and m[1]=='' and False: continue
        bad=patterned(g,n,names)
        if bad is None: continue
        def shown(x,idx):
            later=' '.join(t for _,t in exp[idx+1:])+' '+tail
            for mm in re.finditer(r"(?<![\w\.\-'])"+re.escape(x)+r"(?![\w\-'\.])",later):
                seg=re.split(r"→|\(|,",later[:mm.start()])[-1]
                if re.match(r"\s*[A-Z]\w*",seg): return True
            return False
        def argshown(x,idx):
            # shown in an explicit argument, not only in the result
            later=' '.join(t for _,t in exp[idx+1:])+' '+' → '.join(re.split(r" → ",tail)[:-1])
            for mm in re.finditer(r"(?<![\w\.\-'])"+re.escape(x)+r"(?![\w\-'\.])",later):
                seg=re.split(r"→|\(|,",later[:mm.start()])[-1]
                if re.match(r"\s*[A-Z]\w*",seg): return True
            return False
        imp=[x for k,x in enumerate(names) if argshown(x,k) and x not in bad and (n,x) not in excl]
        if not imp: continue
        buf=io.StringIO()
        with contextlib.redirect_stdout(buf): run(g.split('crates/')[1],n,imp)
        o=buf.getvalue()
        if 'partial' in o: print(o.strip()[:150]); exclall.add(n); return None
        if 'head short' in o: exclall.add(n); return None
        done[n]=imp
    return done
t0=time.time()
def restore():
    for g in files: open(g,'w').write(orig[g])
for it in range(14):
    while True:
        restore()
        d=apply()
        if d is not None: break
    r=subprocess.run(['/tmp/w/rd.sh','/tmp/w/p3',crate],capture_output=True,text=True,env=dict(os.environ,RL='/tmp/w/rlp3'))
    out=r.stdout+r.stderr
    if 'logic=proved' in out: print('proved',len(d),'lemmas',sum(len(v) for v in d.values())); break
    if time.time()-t0>limit: print('time; restored'); restore(); break
    errs=[m for m in re.finditer(r"^\./proofs/(\S+?):(\d+):(\d+): error: (.*)$",out,re.M) if 'depend' not in m[4]]
    new=0
    for m in errs:
        f,ln,msg=m[1],int(m[2])-1,m[4]
        hit=False
        for mm in re.finditer(r"implicit argument `?\{?(\w+)\}?`? of `?([\w\-']+)`?",msg):
            if mm[2] in d and (mm[2],mm[1]) not in excl: excl.add((mm[2],mm[1])); new+=1; hit=True
        if hit: continue
        L=open(P+f).read().split('\n')
        cand=[n for n in d if re.search(r"(?<![\w\.\-'])"+re.escape(n)+r"(?![\w\-'])",L[ln] if ln<len(L) else '')]
        # prefer the innermost? exclude those whose name is at/just before the column
        col=int(m[3])-1
        pre=[n for n in cand if n in L[ln][max(0,col-45):col+60]]
        for n in (pre or cand):
            if n not in exclall: exclall.add(n); new+=1
        if not cand:
            a=ln
            while a>0 and L[a-1].strip()!='' : a-=1
            b=ln
            while b<len(L)-1 and L[b+1].strip()!='' : b+=1
            cand=[n for n in d if any(re.search(r"(?<![\w\.\-'])"+re.escape(n)+r"(?![\w\-'])",L[k]) for k in range(a,b+1))]
            for n in cand:
                if n not in exclall: exclall.add(n); new+=1
    print('iteration',it,'errors',len(errs),'new excl',new,len(excl),len(exclall), [m[4][:90] for m in errs[:3]])
    if not errs or not new: print('stuck'); print(out[:1500]); restore(); break
