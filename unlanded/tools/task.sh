#!/bin/bash
# task.sh PROGRAM : machine instructions of a change of the task, by function
P=$1; W=/tmp/w/task; mkdir -p $W
export GLIBC_TUNABLES=glibc.cpu.x86_rep_stosb_threshold=1000000:glibc.cpu.x86_rep_movsb_threshold=1000000
for n in 2000 4000; do
valgrind --tool=cachegrind --cache-sim=no --cachegrind-out-file=$W/$n.out $P tasks --tasks 4 --quantum 1 --steps $n < /tmp/w/four.hex > $W/$n.txt 2>/dev/null
tail -1 $W/$n.txt
cg_annotate --threshold=0.01 $W/$n.out 2>/dev/null | awk '/file:function|fn_name|^-- Function/{f=1} f && $1 ~ /^[0-9,]+$/ {gsub(",","",$1); n=$1; $1=""; print n "\t" $0}' > $W/$n.fn
done
python3 - <<'Q'
def rd(p):
    d={}
    for l in open(p):
        n,f=l.rstrip('\n').split('\t',1)
        d[f]=d.get(f,0)+int(n)
    return d
import re
W='/tmp/w/task/'
s=[int(re.findall(r'(\d+)',open(W+f'{n}.txt').read().strip().split('\n')[-1])[-1]) for n in (2000,4000)]
k=2*(s[1]-s[0])
a,b=rd(W+'2000.fn'),rd(W+'4000.fn')
rows=sorted(((b.get(f,0)-a.get(f,0))/k,f) for f in set(a)|set(b))
for v,f in rows[::-1][:9]: print(f"{v:9.1f} {f[:110]}")
Q
