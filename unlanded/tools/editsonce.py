import sys,glob,os
bad=0
for c in sys.argv[1:]:
    for e in sorted(glob.glob(c+'/must-fail/*.edit')):
        f=None; text=None
        for l in open(e):
            l=l.rstrip('\n')
            if l.startswith('file: '): f=c+'/'+l[6:]; text=open(f).read()
            elif l.startswith('old: '):
                old=l[5:]
                if text.count(old)!=1: print('BAD',os.path.basename(e),text.count(old),old[:90]); bad+=1
            elif l.startswith('new: '): text=text.replace(old,l[5:])
print('edits bad:',bad)
