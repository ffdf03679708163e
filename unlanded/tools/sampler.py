import os,time,re,json,sys,shutil
# samples processes of rattle: cpu by (crate, cwd kind); keeps the largest seen cpu of each pid
out=sys.argv[1]; hz=os.sysconf('SC_CLK_TCK')
seen={}; clangs=set()
t0=time.time(); last=0
while True:
    for d in os.listdir('/proc'):
        if not d.isdigit(): continue
        try:
            a=open(f'/proc/{d}/cmdline','rb').read().split(b'\0')
            if not a or not a[0]: continue
            exe=a[0].decode(errors='replace')
            if not ('/opt/rattle/' in exe or 'out/' in exe): continue
            s=open(f'/proc/{d}/stat').read().rsplit(')',1)[1].split()
            cpu=(int(s[11])+int(s[12])+int(s[13])+int(s[14]))/hz
            start=s[19]
            cwd=os.readlink(f'/proc/{d}/cwd')
        except OSError: continue
        args=[x.decode(errors='replace') for x in a]
        name=''
        if '--crate-name' in args: name=args[args.index('--crate-name')+1]
        sub=args[1] if len(args)>1 else ''
        key=(d,start)
        seen[key]=(cpu,os.path.basename(exe),sub,name,cwd)
        if os.path.basename(exe)=='clang':
            c=' '.join(args)
            if c not in clangs and len(clangs)<60:
                clangs.add(c); open(out+'.clang','a').write(cwd+' '+c+'\n')
                for x in args:
                    if x.endswith('.bc') and os.path.getsize(x)>3000000:
                        try: shutil.copy(x,out+'.%d.bc'%len(clangs))
                        except OSError: pass
    if time.time()-last>20:
        last=time.time()
        agg={}
        for v in seen.values():
            k='|'.join(map(str,v[1:])); agg[k]=agg.get(k,0)+v[0]
        json.dump(agg,open(out,'w'))
    time.sleep(0.25)
