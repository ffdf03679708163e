import re,glob
s=open('/tmp/w/gate2.log').read()
done=re.findall(r'rt: (\w+): trying its must-fail edits \((\d+)\)',s); kept=set(re.findall(r'rt: (\w+) is kept',s))
have={}
for p in glob.glob('/tmp/w/gate2/crates/*/must-fail/*.edit'): have[p.split('/')[5]]=have.get(p.split('/')[5],0)+1
d={k for k,_ in done}
left={k:v for k,v in have.items() if k not in d and k not in kept}
print('begun',sum(int(n) for _,n in done),'left',sum(left.values()),left)
