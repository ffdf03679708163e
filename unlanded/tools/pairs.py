# pairs.py OLD RLOLD NEW RLNEW PAIRS [CRATE..]: processor seconds of each crate below tkernel in two clones, as rattle build --statements
# takes them: a crate's old and new build run at the same time, so many pairs at once, over libraries that are built already
# (firstout.py fills RLOLD and RLNEW). What is faster or slower about the machine meets both alike. Writes /tmp/w/pairs.json as it goes.
import sys,os,re,subprocess,threading,json,shutil,queue
old,rlold,new,rlnew,n=sys.argv[1:6]; only=sys.argv[6:]
def deps_of(clone):
    d={}
    for l in open(clone+'/crates.txt'):
        m=re.match(r'(\w+)(?: staticlib)?:(.*)',l.split('#')[0].strip())
        if m: d[m[1]]=m[2].split()
    need=set(); st=d['tkernel'][:]
    while st:
        c=st.pop()
        if c in need or c not in d: continue
        need.add(c); st+=d[c]
    return d,need
do,no=deps_of(old); dn,nn=deps_of(new)
def cmd(clone,rl,deps,c,out):
    a=['/opt/rattle/bin/rattle','build','--crate-name',c,'src/lib.rt','--extern','std=/opt/rattle/rlibs/std.rlib']
    for d in deps[c]: a+=['--extern','%s=%s'%(d,(rl if d in deps else '/opt/rattle/rlibs')+'/'+d+'.rlib')]
    return a+['-L','dependency=/opt/rattle/rlibs','-L','dependency='+rl,'--antt-project','/opt/rattle/rattle/logic/antt-project.json','--logic-built','/opt/rattle/logic_built','--links',c+'=','--jobs','1','--statements','-o',out]
both=[(c,c) for c in sorted(no&nn)]
extra_old=sorted(no-nn); extra_new=sorted(nn-no)
while extra_old or extra_new: both.append((extra_old.pop() if extra_old else None, extra_new.pop() if extra_new else None))
size=json.load(open(rlold+'/cpu.json')) if os.path.exists(rlold+'/cpu.json') else {}
both.sort(key=lambda p:-size.get(p[0] or p[1],30))
if only: both=[p for p in both if p[0] in only or p[1] in only]
q=queue.Queue()
for p in both: q.put(p)
res={'old':{},'new':{}}; lock=threading.Lock()
def run(which,c):
    clone,rl,deps=(old,rlold,do) if which=='old' else (new,rlnew,dn)
    out='/tmp/w/pair.%s.%s.rlib'%(which,c); log=open('/tmp/w/pair.%s.%s.log'%(which,c),'w')
    p=subprocess.Popen(cmd(clone,rl,deps,c,out),cwd=clone+'/crates/'+c,stdout=log,stderr=subprocess.STDOUT)
    _,status,ru=os.wait4(p.pid,0); shutil.rmtree(out,ignore_errors=True)
    with lock:
        res[which][c]=ru.ru_utime+ru.ru_stime
        if status: print('FAILED',which,c,flush=True)
        json.dump(res,open('/tmp/w/pairs.json','w'))
def worker():
    while True:
        try: a,b=q.get_nowait()
        except queue.Empty: return
        t=[threading.Thread(target=run,args=x) for x in (('old',a),('new',b)) if x[1]]
        [x.start() for x in t]; [x.join() for x in t]
        if a and b: print('%-18s %6.1f %6.1f %+5.1f'%(b,res['old'][a],res['new'][b],res['new'][b]-res['old'][a]),flush=True)
w=[threading.Thread(target=worker) for _ in range(int(n))]
[x.start() for x in w]; [x.join() for x in w]
so,sn=sum(res['old'].values()),sum(res['new'].values())
print('old %.1f new %.1f ratio %.4f'%(so,sn,sn/so))
