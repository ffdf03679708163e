#!/bin/bash
# a-tryedits.sh CLONE RL CRATE EDIT.. : as tryedits.sh, also for edits of several replacements
C=$1; R=$2; K=$3; shift 3
P=/tmp/w/a-plants; rm -rf $P; mkdir -p $P/crates; cp $C/crates.txt $P/
mkdir -p /tmp/w/inc/a-plants
for e in "$@"; do
  rm -rf $P/crates/$K /tmp/w/inc/a-plants/$K; cp -r $C/crates/$K $P/crates/; rm -rf $P/crates/$K/out; cp -r /tmp/w/inc/$(basename $C)/$K /tmp/w/inc/a-plants/
  python3 - "$e" "$P/crates/$K" <<'Y'
import sys
f=None; t=None
def end():
    if f: open(f,'w').write(t)
for l in open(sys.argv[1]):
    l=l.rstrip('\n')
    if l.startswith('file: '): end(); f=sys.argv[2]+'/'+l[6:]; t=open(f).read()
    elif l.startswith('old: '): old=l[5:]
    elif l.startswith('new: '): assert t.count(old)==1,(sys.argv[1],t.count(old)); t=t.replace(old,l[5:])
end()
Y
  RL=$R /tmp/w/rd.sh $P $K > $P.out 2>&1
  echo "$(basename $e): $(tail -1 $P.out | cut -c1-30) $(grep -v by-macro $P.out | grep -o 'not proved that.*\|error: .*' | head -2 | cut -c1-160 | tr '\n' ';')"
done
