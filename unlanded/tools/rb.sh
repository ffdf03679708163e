#!/bin/bash
# rb.sh CLONE CRATE: builds CRATE's rlib of CLONE into /tmp/w/rl2
clone=$1; crate=$2; shift 2
cd $clone/crates/$crate || exit 2
rl=${RL:-/tmp/w/rl2}
args=()
deps=$(grep -E "^$crate( |:)" ../../crates.txt | sed 's/#.*//; s/^[^:]*://')
for d in $deps; do
  if [ -d $rl/$d.rlib ]; then args+=(--extern $d=$rl/$d.rlib); else args+=(--extern $d=/opt/rattle/rlibs/$d.rlib); fi
done
[ -L $rl/$crate.rlib ] && rm $rl/$crate.rlib
exec /opt/rattle/bin/rattle build --crate-name $crate src/lib.rt --extern std=/opt/rattle/rlibs/std.rlib "${args[@]}" -L dependency=/opt/rattle/rlibs -L dependency=$rl --antt-project /opt/rattle/rattle/logic/antt-project.json --logic-built /opt/rattle/logic_built --links $crate= --jobs 1 --statements -o $rl/$crate.rlib "$@"
