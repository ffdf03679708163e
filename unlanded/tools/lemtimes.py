# lemtimes.py CLONE RL CRATE FILE(proofs/X.antt) CUTS: seconds of the parts of a lemma file, by checking it cut off behind some of its blocks (CUTS: number of pieces)
import sys,os,re,subprocess,shutil,time,glob
clone,rl,crate,file,cuts=sys.argv[1:6]; cuts=int(cuts)
src=open(f'{clone}/crates/{crate}/{file}').read().split('\n')
# boundaries: a blank line followed by something at column 0
b=[i for i in range(1,len(src)) if src[i-1]=='' and src[i] and not src[i].startswith(' ') and not src[i].startswith('use')]
b=b+[len(src)]
n=len(b)
sel=sorted(set([b[0]]+[b[round(j*(n-1)/cuts)] for j in range(1,cuts+1)]))
base='/tmp/w/lt'; os.makedirs(base,exist_ok=True)
mod='Rattle-'+crate+'-'+file.replace('/','.').replace('.antt','')+'.oantt'
def start(cut):
    d=f'{base}/{crate}.{cut}'; shutil.rmtree(d,ignore_errors=True); os.makedirs(d+'/crates')
    shutil.copytree(f'{clone}/crates/{crate}',f'{d}/crates/{crate}',ignore=shutil.ignore_patterns('out')); shutil.copy(f'{clone}/crates.txt',d)
    open(f'{d}/crates/{crate}/{file}','w').write('\n'.join(src[:cut])+'\n')
    shutil.rmtree(f'/tmp/w/inc/{crate}.{cut}',ignore_errors=True)
    env=dict(os.environ,RL=rl)
    return subprocess.Popen(['/tmp/w/rd.sh',d,crate],env=env,stdout=subprocess.DEVNULL,stderr=subprocess.DEVNULL)
def done(cut):
    g=glob.glob(f'/tmp/w/inc/{crate}.{cut}/{crate}/*/{mod}')
    if not g: return None
    t=os.stat(g[0]).st_mtime
    prev=max([os.stat(f).st_mtime for f in glob.glob(os.path.dirname(g[0])+'/*') if os.stat(f).st_mtime<t and f.endswith('.oantt')] or [t])
    return t-prev
res={};run={};todo=list(sel);t0={}
while todo or run:
    while todo and len(run)<3:
        c=todo.pop(0); run[c]=start(c); t0[c]=time.time()
    time.sleep(0.3)
    for c,p in list(run.items()):
        x=done(c)
        if x is not None or p.poll() is not None:
            if p.poll() is None: p.kill()
            p.wait(); res[c]=x; del run[c]; shutil.rmtree(f'/tmp/w/inc/{crate}.{c}',ignore_errors=True); shutil.rmtree(f'{base}/{crate}.{c}',ignore_errors=True)
prev=None
for c in sel:
    print(c, res[c] and round(res[c],1), src[c-1][:10] if c<len(src) else '', '| next:', (src[c][:60] if c<len(src) else 'END'))
