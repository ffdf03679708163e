# partial.py RL : wall seconds of each crate that is built in a folder of firstout.py, by the times of its log and its library
import os,sys,glob
def t(rl):
    out={}
    for l in glob.glob(rl+'/*.rlib'):
        c=os.path.basename(l)[:-5]
        log=rl+'/'+c+'.log'
        # birth of log
        b=float(os.popen('stat -c %%.W %s'%log).read())
        e=max(os.stat(l).st_ctime,os.stat(l).st_mtime)
        out[c]=e-b
    return out
a,b=t(sys.argv[1]),t(sys.argv[2])
both=sorted(set(a)&set(b),key=lambda c:-b[c])
for c in both: print('%-18s %6.1f %6.1f  %.3f'%(c,a[c],b[c],b[c]/a[c]))
print('both',sum(a[c] for c in both),sum(b[c] for c in both))
print('old only',{c:round(a[c]) for c in a if c not in b}); print('new only',{c:round(b[c]) for c in b if c not in a})
