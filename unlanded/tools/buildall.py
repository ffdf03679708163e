#!/usr/bin/env python3
# buildall.py CLONE WORKERS TARGET.. : rt check --jobs 1 of each crate below the targets, in order of crates.txt, WORKERS at once
import sys,subprocess,os,re,time,threading
clone,workers=sys.argv[1],int(sys.argv[2]); targets=sys.argv[3:]
deps={}; order=[]
for l in open(clone+'/crates.txt'):
    l=l.split('#')[0].strip()
    if ':' in l:
        n,d=l.split(':'); deps[n.strip()]=[x for x in d.split()]; order.append(n.strip())
need=set()
def add(n):
    if n in need or n not in deps: return
    need.add(n)
    for d in deps[n]: add(d)
for t in targets: add(t)
todo=[n for n in order if n in need]; done=set(); failed=set(); running={}
lock=threading.Lock()
# priority: number of dependents chain length
rank={}
def r(n):
    if n in rank: return rank[n]
    rank[n]=1+max([r(m) for m in need if n in deps[m]],default=0); return rank[n]
for n in need: r(n)
t0=time.time()
while todo or running:
    for n,(p,s) in list(running.items()):
        if p.poll() is not None:
            out=open(f'/tmp/w/ba-{os.path.basename(clone)}-{n}.log').read()
            ok=p.returncode==0
            (done if ok else failed).add(n)
            print(f'{time.time()-t0:6.0f} {n} {"ok" if ok else "FAILED"} {time.time()-s:.0f}s',flush=True)
            del running[n]
    ready=[n for n in todo if all(d in done or d not in deps for d in deps[n])]
    ready.sort(key=lambda n:-rank[n])
    while ready and len(running)<workers:
        n=ready.pop(0); todo.remove(n)
        f=open(f'/tmp/w/ba-{os.path.basename(clone)}-{n}.log','w')
        running[n]=(subprocess.Popen(['rt','check','--jobs','1'],cwd=f'{clone}/crates/{n}',stdout=f,stderr=subprocess.STDOUT),time.time())
    if not running and not ready: break
    time.sleep(0.5)
print('left',todo,'failed',failed)
