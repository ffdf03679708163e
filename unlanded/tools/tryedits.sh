#!/bin/bash
# tryedits.sh CLONE RL CRATE EDIT.. : tries edits one at a time in a copy of CLONE, incrementally
C=$1; R=$2; K=$3; shift 3
P=/tmp/w/$(basename $C)-plant; rm -rf $P; mkdir -p $P/crates; cp $C/crates.txt $P/; cp -r $C/crates/$K $P/crates/; rm -rf $P/crates/$K/out
mkdir -p /tmp/w/inc/$(basename $P); cp -r /tmp/w/inc/$(basename $C)/$K /tmp/w/inc/$(basename $P)/ 2>/dev/null
for e in "$@"; do
  f=$P/crates/$K/$(sed -n 's/^file: //p' $e); cp $f $P.keep
  python3 - "$e" "$f" <<'Y'
import sys
e=open(sys.argv[1]).read().split('\n'); old='\n'.join(l[5:] for l in e if l.startswith('old: ')); new='\n'.join(l[5:] for l in e if l.startswith('new: '))
s=open(sys.argv[2]).read(); assert s.count(old)==1,(sys.argv[1],s.count(old)); open(sys.argv[2],'w').write(s.replace(old,new))
Y
  RL=$R /tmp/w/rd.sh $P $K > $P.out 2>&1
  echo "$(basename $e): $(tail -1 $P.out | cut -c1-30) $(grep -o 'not proved.*\|error.*' $P.out | head -2 | cut -c1-200 | tr '\n' ';')"
  cp $P.keep $f
done
