# wrap.py WIDTH FILE..: breaks lines of .antt files that are wider than 200 columns, at the outermost places first
import sys,re,subprocess
LIMIT=200
OPEN='([{⟦'; CLOSE=')]}⟧'
def depths(s):
    d=0; out=[]; q=False
    for i,c in enumerate(s):
        if c=='"': q=not q
        if not q:
            if c in CLOSE: d-=1
        out.append(d if not q else 99)
        if not q:
            if c in OPEN: d+=1
    return out
def candidates(s,ind):
    ds=depths(s); c=[]
    n=len(s)
    def add(i,kind):
        # break before index i (s[i-1] is the space)
        if i-ind>20 and n-i>8: c.append((ds[i],kind,i))
    for m in re.finditer(r' (→|∙|×|⊎|\+\+|∷|↔) ',s):
        if ds[m.start(1)]<99: add(m.start(1),0 if m[1]!='×' else 1)
    for m in re.finditer(r'(, )|(; )',s):
        if ds[m.start()]<99: add(m.end(),1)
    for m in re.finditer(r' = ',s):
        if ds[m.start()]==0: add(m.end(),0)
    for m in re.finditer(r' ≡ ',s):
        if ds[m.start()]<99: add(m.start()+1,1)
    for m in re.finditer(r' \(',s):
        if ds[m.start()]<99: add(m.start()+1,2)
    for m in re.finditer(r'\. ',s):
        if ds[m.start()]<99 and re.search(r'λ[^.]*$',s[:m.start()]): add(m.end(),1)
    return c
def split(line,width,ind):
    if len(line)<=LIMIT: return [line]
    best=None
    for d,kind,i in candidates(line,ind):
        if i>width: continue
        key=(d,kind,-i)
        if i<ind+60 and kind!=0: continue
        if best is None or key<best[0]: best=(key,i)
    if best is None: return [line]
    i=best[1]
    head=line[:i].rstrip(); rest=' '*(ind)+line[i:]
    return head,rest
def wrap(line,width):
    ind=len(line)-len(line.lstrip(' '))
    out=[]; cur=line; first=True
    while len(cur)>LIMIT:
        base=ind if re.match(r'\s*(→|∙|≡|×|⊎) ',line) else ind+4
        r=split(cur,width,base)
        if len(r)==1: break
        out.append(r[0]); cur=' '*base+r[1].lstrip(' ')
    out.append(cur)
    return out
width=int(sys.argv[1])
tot=0;left=0
for f in sys.argv[2:]:
    s=open(f).read().split('\n'); o=[]; ch=False
    for l in s:
        if len(l)>LIMIT and not l.lstrip().startswith('--') and not l.lstrip().startswith('use ') and not l.lstrip().startswith('pub use '):
            w=wrap(l,width); o+=w; ch=ch or len(w)>1; tot+=len(w)-1
            left+=sum(len(x)>LIMIT for x in w)
        else: o.append(l)
    if ch: open(f,'w').write('\n'.join(o))
print('lines added',tot,'still wide',left)
