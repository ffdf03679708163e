import sys,subprocess,re,bisect
prog,cg,func,steps,thr=sys.argv[1],sys.argv[2],sys.argv[3],int(sys.argv[4]),float(sys.argv[5])
# parse callgrind with --dump-instr=yes --compress-pos=no --compress-strings=no
cnt={}
skip=0
for l in open(cg):
    if l.startswith('calls='):
        skip=1; continue
    m=re.match(r'0x([0-9a-f]+)\s+(\S+)\s+(\d+)',l)
    if m:
        if skip: skip=0; continue
        a=int(m.group(1),16); cnt[a]=cnt.get(a,0)+int(m.group(3))
base=None
dis=subprocess.run(['objdump','-d','--no-show-raw-insn',prog],capture_output=True,text=True).stdout.split('\n')
infn=False
start=None
# find load base by min
lines=[]
for l in dis:
    m=re.match(r'([0-9a-f]+) <(.*)>:$',l)
    if m:
        infn=(func in m.group(2)); continue
    m=re.match(r'\s*([0-9a-f]+):\s+(.*)',l)
    if m and infn: lines.append((int(m.group(1),16),m.group(2)))
import collections
offs=collections.Counter()
for b in (0,0x108000,0x400000,0x4000000,0x555555554000):
    offs[b]=sum(1 for a,_ in lines if a+b in cnt)
b=offs.most_common(1)[0][0]
tot=0;last=None
for a,t in lines:
    c=cnt.get(a+b,0)/steps
    tot+=c
    if c>=thr: 
        if last is not None and last!=a: print('   ---')
        print(f'{c:8.3f} {a:x} {t}')
        last=None
    else: last=0
print('total',tot)
