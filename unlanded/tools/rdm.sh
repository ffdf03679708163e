#!/bin/bash
# rdm.sh CLONE CRATE [flags]: as rd.sh, for a program (src/main.rt)
clone=$1; crate=$2; shift 2
cd $clone/crates/$crate || exit 2
rl=${RL:-/tmp/w/rl2}
args=()
deps=$(grep -E "^$crate( |:)" ../../crates.txt | sed 's/#.*//; s/^[^:]*://')
for d in $deps; do
  if [ -d $rl/$d.rlib ]; then args+=(--extern $d=$rl/$d.rlib); else args+=(--extern $d=/opt/rattle/rlibs/$d.rlib); fi
done
mkdir -p /tmp/w/inc/$(basename $clone)
exec /opt/rattle/bin/rattle check --crate-name $crate src/main.rt --extern std=/opt/rattle/rlibs/std.rlib "${args[@]}" -L dependency=/opt/rattle/rlibs -L dependency=$rl --antt-project /opt/rattle/rattle/logic/antt-project.json --logic-built /opt/rattle/logic_built --links $crate= --jobs 1 --incremental /tmp/w/inc/$(basename $clone)/$crate "$@"
