#!/bin/bash
# ab.sh A B CRATE : builds CRATE of clones A and B at once with --statements, over RL; prints processor seconds of each
k=$3
one() { cd $1/crates/$k; args=(); for d in $(grep -E "^$k( |:)" ../../crates.txt | sed 's/#.*//; s/^[^:]*://'); do if [ -d $RL/$d.rlib ]; then args+=(--extern $d=$RL/$d.rlib); else args+=(--extern $d=/opt/rattle/rlibs/$d.rlib); fi; done
  /usr/bin/time -f "$2 $k %U %S" -o /tmp/w/ab.$k.$2 /opt/rattle/bin/rattle build --crate-name $k src/lib.rt --extern std=/opt/rattle/rlibs/std.rlib "${args[@]}" -L dependency=/opt/rattle/rlibs -L dependency=$RL --antt-project /opt/rattle/rattle/logic/antt-project.json --logic-built /opt/rattle/logic_built --links $k= --jobs 1 --statements -o /tmp/w/ab.$2.$k.rlib > /tmp/w/ab.log.$2.$k 2>&1; cat /tmp/w/ab.$k.$2; rm -rf /tmp/w/ab.$2.$k.rlib; }
one $1 a & one $2 b & wait
