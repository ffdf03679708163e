import subprocess,os,sys,shutil,time
SRC='/tmp/w/r'; C='/tmp/w/pl'
P=[
('sp','specs/Steps.antt','pub stack : m.cpu.sp ≡ 0x011F','pub stack : m.cpu.sp ≡ 0x011D'),
('taken','specs/Steps.antt','  There : is_taken s ≡ false','  There : is_taken s ≡ true'),
('arriving','specs/Steps.antt','Arriving : is_with_kernel before ≡ true → is_taken s ≡ false','Arriving : is_with_kernel before ≡ true → is_taken s ≡ true'),
('nothing','specs/Steps.antt','(is_with_kernel before ≡ true) ⊎ IsPlaceOf image before.flash.words s.now.cpu.pc before.cpu.pc → AreUnmade','IsPlaceOf image before.flash.words s.now.cpu.pc before.cpu.pc → AreUnmade'),
('over','specs/Runs.antt','end_of end ≡ (original_of asked asked.steps).end','end_of end ≡ (original_of asked m.steps).end'),
('layout','specs/Runs.antt','pub layout : m.kernel.layout ≡ layout_of (length asked.image)','pub layout : m.kernel.layout ≡ layout_of (length asked.image + 1)'),
('waiting','specs/Waiting.antt','(crossings_of (turns_after asked from) other / asked.quantum + 1) * asked.quantum','(crossings_of (turns_after asked from) other / asked.quantum) * asked.quantum'),
]
exec(open('/tmp/w/plants_more.py').read()) if os.path.exists('/tmp/w/plants_more.py') else None
want=sys.argv[1:]
for name,f,a,b in P:
    if want and name not in want: continue
    shutil.rmtree(C,ignore_errors=True); subprocess.run(['git','clone','-q',SRC,C])
    p=f'{C}/crates/theorem_reader/{f}'; s=open(p).read(); 
    if s.count(a)!=1: print(name,'NOT THERE',s.count(a)); continue
    open(p,'w').write(s.replace(a,b))
    shutil.rmtree('/tmp/w/inc/pl',ignore_errors=True); shutil.copytree('/tmp/w/inc/r','/tmp/w/inc/pl',symlinks=True)
    t=time.time(); r=subprocess.run(['/tmp/w/rd.sh',C,'theorem_reader'],capture_output=True,text=True)
    o=r.stdout+r.stderr
    errs=[l for l in o.split('\n') if 'error' in l][:2]
    print(name,'rc',r.returncode,'%.0fs'%(time.time()-t),'proved' if 'logic=proved' in o else 'refused',' | '.join(errs)[:300],flush=True)
