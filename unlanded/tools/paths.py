# paths.py CLONE : each `use Rattle.CRATE.(specs|proofs).PATH.{names}` of the clone's own crates: that the file stands, and has the names
import sys,os,re
C=sys.argv[1]; os.chdir(C+'/crates')
own=set(os.listdir('.')); bad=0
for d,_,fs in os.walk('.'):
    if '/out' in d: continue
    for f in fs:
        if not f.endswith(('.rt','.antt')): continue
        p=os.path.join(d,f)
        for l in open(p):
            m=re.match(r'\s*(?:ghost |pub )*use (?:Rattle\.)([\w.]+?)\.\{(.*)\};?$',l.rstrip()) or re.match(r'\s*(?:ghost |pub )*use Rattle\.([\w.]+?)(?: as \w+)?;?()$',l.rstrip())
            if not m: continue
            parts=m[1].split('.')
            if parts[0] not in own: 
                if parts[0] in ('no_memory','base_laws','line_reader','line_writer','line_gathering','avr_ops'): print('OLD',p,l.strip())
                continue
            if 'declared' in parts or 'Goals' in parts: continue
            q='/'.join(parts)+'.antt'
            if not os.path.exists(q): print('NOFILE',p,l.strip()); bad+=1; continue
            s=open(q).read()
            for n in m[2].split(','):
                n=n.strip().split(' as ')[0]
                if n and not n.startswith('◌') and not re.search(r'(?<![\w])'+re.escape(n)+r'(?![\w])',s): print('NONAME',p,n,q); bad+=1
print('bad',bad)
