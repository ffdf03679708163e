#!/bin/bash
# st.sh CRATE JOBS: stage times of a check from nothing of the clone x over rlibs of m
crate=$1; jobs=$2; shift 2
cd /tmp/w/x/crates/$crate || exit 2
args=()
python3 - $crate > /tmp/w/st.$crate.words <<'P'
import sys
deps={}
for l in open('/tmp/w/x/crates.txt'):
    l=l.split('#')[0].strip()
    if ':' in l:
        h,d=l.split(':',1); deps[h.split()[0]]=d.split()
c=sys.argv[1]; below=[]
def add(n):
    for d in deps.get(n,[]):
        if d in deps and d not in below: add(d); below.append(d)
add(c)
for d in deps[c]:
    print('--extern'); print(f'{d}={RL(d)}' if d in deps else f'{d}=/opt/rattle/rlibs/{d}.rlib')
for d in below: print('-L'); print(f'dependency=/tmp/w/m/crates/{d}/out/rlib')
P
mapfile -t W < /tmp/w/st.$crate.words
src=src/lib.rt; [ -f src/main.rt ] && src=src/main.rt
TIMEFORMAT="$crate real %R user %U sys %S"
time /opt/rattle/bin/rattle check --crate-name $crate $src --extern std=/opt/rattle/rlibs/std.rlib -L dependency=/opt/rattle/rlibs "${W[@]}" --antt-project /opt/rattle/rattle/logic/antt-project.json --logic-built /opt/rattle/logic_built --links $crate= --jobs $jobs --stage-times /tmp/w/st.$crate.times "$@" > /tmp/w/st.$crate.log 2>&1
tail -1 /tmp/w/st.$crate.log; grep -E "^stage" /tmp/w/st.$crate.times | awk '$3>0.3'
