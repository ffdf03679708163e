# gatecpu.py CLONE OUT: processor seconds of each top rattle process of a running rt ci, by what it does: a crate's proof, its tests' proof,
# the seed or the last check of its edits, and each edit by name. Counts forked copies through the parent. Polls each 0.3 s.
import os,time,json,sys,glob
clone,out=sys.argv[1:3]; hz=os.sysconf('SC_CLK_TCK')
edits={}
for f in glob.glob(clone+'/crates/*/must-fail/*.edit'):
    c=f.split('/')[-3]; n=os.path.basename(f)[:-5]; t=open(f).read()
    file=None; ops=[]; old=None
    for l in t.split('\n'):
        if l.startswith('file: '): file=l[6:].strip()
        elif l.startswith('old: '): old=l[5:]
        elif l.startswith('new:'): ops.append((file,old,l[5:])); old=None
    texts={}
    for file,o,nw in ops:
        if file not in texts: texts[file]=open(f'{clone}/crates/{c}/{file}').read()
        texts[file]=texts[file].replace(o,nw,1)
    edits.setdefault(c,[]).append((n,texts))
def what(cwd,crate,words):
    if '/rt-edit-' in cwd:
        for n,texts in edits.get(crate,[]):
            if all(open(f'{cwd}/{p}').read()==t for p,t in texts.items() if os.path.exists(f'{cwd}/{p}')): return 'edit '+n
        inc=words[words.index('--incremental')+1] if '--incremental' in words else ''
        return 'seed-or-sound '+inc.split('/')[-1]
    if '--test' in words: return 'tests'
    return words[1]
seen={}; info={}
last=time.time()
while True:
    for d in os.listdir('/proc'):
        if not d.isdigit(): continue
        try:
            s=open(f'/proc/{d}/stat').read()
            comm=s[s.index('(')+1:s.rindex(')')]
            if comm not in ('rattle','clang','rattle-link','ld.lld','lld','rattle-backend','rattle-test') and not comm.startswith('rattle'): continue
            f=s[s.rindex(')')+2:].split()
            ppid=f[1]; start=f[19]
            key=(d,start)
            if key not in info:
                try: pc=open(f'/proc/{ppid}/comm').read().strip()
                except OSError: pc=''
                if pc.startswith('rattle') : info[key]=None; continue
                words=open(f'/proc/{d}/cmdline','rb').read().decode(errors='replace').split('\0')
                cwd=os.readlink(f'/proc/{d}/cwd')
                crate=words[words.index('--crate-name')+1] if '--crate-name' in words else comm
                info[key]=(crate,what(cwd,crate,words) if crate!=comm else comm)
            if info[key] is None: continue
            seen[key]=sum(map(int,f[11:15]))/hz
        except (OSError,ValueError,IndexError): continue
    if time.time()-last>20:
        last=time.time(); agg={}
        for k,v in seen.items():
            n='|'.join(info[k]); a=agg.setdefault(n,[0,0]); a[0]=round(a[0]+v,1); a[1]+=1
        json.dump(agg,open(out+'.new','w'),indent=0,sort_keys=True); os.replace(out+'.new',out)
    time.sleep(0.3)
