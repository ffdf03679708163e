#!/bin/bash
# stage.sh CLONE RL CRATE : builds CRATE with --statements and into a throw-away folder
RL=$2; k=$3; cd $1/crates/$k; args=(); for d in $(grep -E "^$k( |:)" ../../crates.txt | sed 's/#.*//; s/^[^:]*://'); do if [ -d $RL/$d.rlib ]; then args+=(--extern $d=$RL/$d.rlib); else args+=(--extern $d=/opt/rattle/rlibs/$d.rlib); fi; done
/usr/bin/time -f "$k %U %S" /opt/rattle/bin/rattle build --crate-name $k src/lib.rt --extern std=/opt/rattle/rlibs/std.rlib "${args[@]}" -L dependency=/opt/rattle/rlibs -L dependency=$RL --antt-project /opt/rattle/rattle/logic/antt-project.json --logic-built /opt/rattle/logic_built --links $k= --jobs 1 --statements -o /tmp/w/st.$k.rlib; rm -rf /tmp/w/st.$k.rlib
