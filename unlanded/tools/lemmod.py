import os,sys,glob,re
rows=[]
for d in glob.glob('/tmp/w/inc/'+sys.argv[1]+'/*'):
    c=os.path.basename(d)
    sub=[x for x in glob.glob(d+'/*') if os.path.isdir(x)]
    if not sub: continue
    fs=sorted((os.stat(f).st_mtime,os.path.basename(f),os.stat(f).st_size) for f in glob.glob(sub[0]+'/*'))
    p=None
    for t,n,s in fs:
        m=n[:-6]
        if p is not None and '-proofs.' in m and len(m.split('-proofs.')[1].split('.'))==1 or (p is not None and m.split('.')[-1] in('Answers','Invariants')):
            if t-p>float(sys.argv[2]): rows.append((t-p,c,m))
        p=t
for r in sorted(rows,reverse=True): print('%.1f %s %s'%r)
