# funtimes.py DIR MIN: seconds of an incremental folder by function or lemma file (by the times at which its modules were written)
import os,sys,glob,re
d=sys.argv[1]; mn=float(sys.argv[2])
sub=[x for x in glob.glob(d+'/*') if os.path.isdir(x)][0]
fs=sorted((os.stat(f).st_mtime_ns/1e9,os.path.basename(f),os.stat(f).st_size) for f in glob.glob(sub+'/*') if os.path.isfile(f))
from collections import defaultdict
g=defaultdict(lambda:[0,{},0]); p=None
kinds=['Lts','Proof','Kinds','Tie','Goals','Answers','Invariants','Links','Contract','Frame']
kt=defaultdict(float)
for t,n,s in fs:
    if p is not None:
        x=t-p
        m=re.sub(r'\.oantt$','',n)
        parts=m.split('.')
        k=parts[-1]
        f='.'.join(parts[:-1]) if '-proofs.' in m and len(parts)>2 and k[0].isupper() else m
        f=re.sub(r'^Rattle-','',f)
        g[f][0]+=x; g[f][1][k]=g[f][1].get(k,0)+x; g[f][2]+=s
        kt[k if k in kinds or len(k)<9 else 'other']+=x
    p=t
tot=sum(v[0] for v in g.values())
print('all %.1f, modules %d'%(tot,len(fs)))
for f,v in sorted(g.items(),key=lambda i:-i[1][0]):
    if v[0]<mn: break
    print('%6.1f %5.1fMB %s  %s'%(v[0],v[2]/1e6,f,' '.join('%s %.1f'%(k,x) for k,x in sorted(v[1].items(),key=lambda i:-i[1]) if x>0.2)))
print({k:round(x,1) for k,x in sorted(kt.items(),key=lambda i:-i[1])[:14]})
