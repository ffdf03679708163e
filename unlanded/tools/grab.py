import os,sys,shutil,time
# polls a directory tree for module files, copies each as it grows
root,dst=sys.argv[1],sys.argv[2]
seen={}
while True:
    for d,_,fs in os.walk(root):
        for f in fs:
            if f.endswith(('.ll','.bc','.c','.o')) or 'module' in f or 'program' in f:
                p=os.path.join(d,f)
                try:
                    s=os.stat(p).st_size
                    if seen.get(p)!=s and s>0:
                        shutil.copyfile(p,os.path.join(dst,os.path.basename(d)+'-'+f)); seen[p]=s
                except OSError: pass
    time.sleep(0.2)
