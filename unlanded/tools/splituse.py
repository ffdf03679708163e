# splituse.py CLONE: `use` lines of over 200 columns in two or more
import sys,os,re
n=0
for d,_,fs in os.walk(sys.argv[1]+'/crates'):
    if '/out' in d or not('/specs' in d or '/proofs' in d): continue
    for f in fs:
        if not f.endswith('.antt'): continue
        p=os.path.join(d,f); out=[]; ch=False
        for l in open(p).read().split('\n'):
            m=re.match(r'^((?:unfoldable |pub )*use [\w.]+\.)\{(.*)\}$',l)
            if m and len(l)>200:
                items=[x.strip() for x in m[2].split(',')]; cur=[]
                for it in items:
                    if cur and len(m[1])+2+len(', '.join(cur+[it]))>200: out.append(m[1]+'{'+', '.join(cur)+'}'); cur=[]
                    cur.append(it)
                out.append(m[1]+'{'+', '.join(cur)+'}'); ch=True; n+=1
            else: out.append(l)
        if ch: open(p,'w').write('\n'.join(out))
print(n)
