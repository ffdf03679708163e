#!/bin/bash
# only.sh CRATE ARGS..: rattle check --test of clone x over rl2
crate=$1; shift
cd /tmp/w/x/crates/$crate || exit 2
rl=/tmp/w/rl2; args=()
deps=$(grep -E "^$crate( |:)" ../../crates.txt | sed 's/#.*//; s/^[^:]*://')
for d in $deps; do if [ -d $rl/$d.rlib ]; then args+=(--extern $d=$rl/$d.rlib); else args+=(--extern $d=/opt/rattle/rlibs/$d.rlib); fi; done
TIMEFORMAT="real %R user %U sys %S"
time /opt/rattle/bin/rattle check --crate-name $crate src/lib.rt --extern std=/opt/rattle/rlibs/std.rlib "${args[@]}" -L dependency=/opt/rattle/rlibs -L dependency=$rl --antt-project /opt/rattle/rattle/logic/antt-project.json --logic-built /opt/rattle/logic_built --links $crate= --test "$@"
