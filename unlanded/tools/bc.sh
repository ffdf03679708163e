#!/bin/bash
# bc.sh CLONE RL CRATE: processor seconds of a check, and of a build with --statements, at the same time
RL=$2; k=$3; cd $1/crates/$k; args=(); for d in $(grep -E "^$k( |:)" ../../crates.txt | sed 's/#.*//; s/^[^:]*://'); do if [ -d $RL/$d.rlib ]; then args+=(--extern $d=$RL/$d.rlib); else args+=(--extern $d=/opt/rattle/rlibs/$d.rlib); fi; done
common=(--crate-name $k src/lib.rt --extern std=/opt/rattle/rlibs/std.rlib "${args[@]}" -L dependency=/opt/rattle/rlibs -L dependency=$RL --antt-project /opt/rattle/rattle/logic/antt-project.json --logic-built /opt/rattle/logic_built --links $k= --jobs 1)
/usr/bin/time -f "check $k %U %S" /opt/rattle/bin/rattle check "${common[@]}" --stage-times /tmp/w/bc.stages > /tmp/w/bc.c 2>&1 &
/usr/bin/time -f "build $k %U %S" /opt/rattle/bin/rattle build "${common[@]}" --statements -o /tmp/w/bc.$k.rlib > /tmp/w/bc.b 2>&1 &
wait; tail -1 /tmp/w/bc.c; tail -1 /tmp/w/bc.b; cat /tmp/w/bc.stages; du -sh /tmp/w/bc.$k.rlib; rm -rf /tmp/w/bc.$k.rlib
