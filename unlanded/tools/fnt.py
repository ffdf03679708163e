# fnt.py CLONE RL CRATE PART.. : checks CRATE anew as far as modules go whose names have one of these parts (file.function, or Lemmas),
# and prints the seconds that each module of them took, and the check's errors
import sys,os,glob,subprocess
clone,rl,crate=sys.argv[1:4]; parts=sys.argv[4:]
inc='/tmp/w/inc/'+os.path.basename(clone)+'/'+crate
old=[d for d in glob.glob(inc+'/*') if os.path.isdir(d)]
gone=0
for d in old:
    for f in glob.glob(d+'/*')+glob.glob(d+'/records/*'):
        n=os.path.basename(f)
        if any('.'+p+'.' in n for p in parts): os.remove(f); gone+=1
p=subprocess.run(['/tmp/w/rd.sh',clone,crate],env=dict(os.environ,RL=rl),capture_output=True,text=True)
out=(p.stdout+p.stderr).split('\n')
print('removed',gone,'status',p.returncode)
for l in out:
    if l.startswith('statements') : continue
    if l.strip(): print(l[:400])
d=[d for d in glob.glob(inc+'/*') if os.path.isdir(d)][0]
fs=sorted((os.stat(f).st_mtime,os.path.basename(f),os.stat(f).st_size) for f in glob.glob(d+'/*'))
prev=None;tot={}
for t,n,s in fs:
    x=t-prev if prev else 0
    for q in parts:
        if '.'+q+'.' in n and x<200:
            tot[q]=tot.get(q,0)+x
            if x>0.25: print('%6.2f s %7.2f MB %s'%(x,s/1e6,n))
    prev=t
print({q:round(v,1) for q,v in tot.items()})
