# theorem_numbers.py CLONE : puts the tables and lines that .ci/believed prints into docs/THEOREM.md
import subprocess,sys,re
sys.path.insert(0,'/tmp/w')
c=sys.argv[1]
out=subprocess.run(['.ci/believed'],cwd=c,capture_output=True,text=True).stdout
renew=subprocess.run(['.ci/believed','--renew'],cwd=c,capture_output=True,text=True).stdout
tables=[t for t in out.split('\n\n') if t.startswith('| Crate')]
p=c+'/docs/THEOREM.md'; s=open(p).read()
old=[m for m in re.finditer(r'\| Crate \| Files \| Lines \|\n\|---\|---\|---\|\n(?:\|.*\|\n)+',s)]
assert len(old)==2==len(tables),(len(old),len(tables))
for m,t in reversed(list(zip(old,tables))): s=s[:m.start()]+t.strip()+'\n'+s[m.end():]
open(p,'w').write(s)
from sub import sub
import importlib
para=[l for l in renew.strip().split('\n')]
s=open(p).read(); flat=re.sub(r'\s+',' ',s)
pairs=[]
m=re.search(r'The original program is `flat_machine` with [^.]*\.',flat); pairs.append((m[0],para[0]))
m=re.search(r"The reader's clause on `run` rests on [^.]*\.",flat); pairs.append((m[0],para[1]))
m=re.search(r'The checksum of these definitions and clauses is `[0-9a-f]*`\.',flat); pairs.append((m[0],para[2]))
sub(p,pairs)
