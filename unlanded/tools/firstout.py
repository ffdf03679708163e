# firstout.py CLONE RL JOBS : builds the libraries below tkernel of CLONE from nothing into RL (a new folder), with so many at work,
# as rattle build does, and prints the wall time and the processor minutes of each and of all
import sys,os,re,subprocess,time,threading,resource,json
clone,rl,jobs=sys.argv[1],sys.argv[2],int(sys.argv[3])
os.makedirs(rl,exist_ok=True)
deps={}
for l in open(clone+'/crates.txt'):
    m=re.match(r'(\w+)(?: staticlib)?:(.*)',l.split('#')[0].strip())
    if m: deps[m[1]]=m[2].split()
need=set(); st=deps['tkernel'][:]
while st:
    c=st.pop()
    if c in need or c not in deps: continue
    need.add(c); st+=deps[c]
height={}
def h(c):
    if c not in height: height[c]=1+max([h(d) for d in deps if c in deps[d] and d in need] or [0])
    return height[c]
done=set(); running={}; cpu={}; start=time.time()
def cmd(c):
    a=['/opt/rattle/bin/rattle','build','--crate-name',c,'src/lib.rt','--extern','std=/opt/rattle/rlibs/std.rlib']
    for d in deps[c]: a+=['--extern','%s=%s'%(d,(rl if d in deps else '/opt/rattle/rlibs')+'/'+d+'.rlib')]
    return a+['-L','dependency=/opt/rattle/rlibs','-L','dependency='+rl,'--antt-project','/opt/rattle/rattle/logic/antt-project.json','--logic-built','/opt/rattle/logic_built','--links',c+'=','--jobs','1','--statements','-o',rl+'/'+c+'.rlib']
while len(done)<len(need):
    ready=sorted([c for c in need if c not in done and c not in running and all(d in done or d not in need for d in deps[c])],key=lambda c:-h(c))
    while ready and len(running)<jobs:
        c=ready.pop(0); p=subprocess.Popen(cmd(c),cwd=clone+'/crates/'+c,stdout=open(rl+'/'+c+'.log','w'),stderr=subprocess.STDOUT); running[c]=p
    pid,status,ru=os.wait4(-1,0)
    for c,p in list(running.items()):
        if p.pid==pid:
            cpu[c]=ru.ru_utime+ru.ru_stime; del running[c]; done.add(c)
            if status: print('FAILED',c); sys.exit(1)
print(clone,'crates',len(done),'wall %.0f s'%(time.time()-start),'processor minutes %.1f'%(sum(cpu.values())/60))
json.dump(cpu,open(rl+'/cpu.json','w'))
