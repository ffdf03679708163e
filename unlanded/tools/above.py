import sys,re
deps={}
order=[]
for l in open(sys.argv[1]+'/crates.txt'):
    l=l.split('#')[0].strip()
    m=re.match(r'(\w+)( staticlib)?:(.*)',l)
    if m: deps[m[1]]=m[3].split(); order.append(m[1])
def above(k):
    s={k}; ch=True
    while ch:
        ch=False
        for c,d in deps.items():
            if c not in s and s&set(d): s.add(c); ch=True
    return s
roots=sys.argv[2].split(',')
s=set()
for r in roots: s|=above(r)
if len(sys.argv)>3:
    top=set(sys.argv[3].split(','))
    # those below top
    need=set(); st=list(top)
    while st:
        c=st.pop()
        if c in need: continue
        need.add(c); st+= [d for d in deps.get(c,[]) if d in deps]
    s&=need
# topological
done=[]; 
def go(c):
    if c in done: return
    for d in deps[c]:
        if d in s: go(d)
    done.append(c)
for c in order:
    if c in s: go(c)
print(' '.join(done))
