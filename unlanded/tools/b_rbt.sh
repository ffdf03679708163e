#!/bin/bash
# b_rbt.sh CLONE CRATE : builds the tests of a crate over the incremental directory, links and runs them
clone=$1; crate=$2; shift 2
cd $clone/crates/$crate || exit 2
rl=$RL
args=()
deps=$(grep -E "^$crate( |:)" ../../crates.txt | sed 's/#.*//; s/^[^:]*://')
for d in $deps; do
  if [ -d $rl/$d.rlib ]; then args+=(--extern $d=$rl/$d.rlib); else args+=(--extern $d=/opt/rattle/rlibs/$d.rlib); fi
done
mkdir -p /tmp/w/inc/$(basename $clone)
K=/opt/rattle
$K/bin/rattle build --test --crate-name $crate src/lib.rt --extern std=$K/rlibs/std.rlib "${args[@]}" -L dependency=$K/rlibs -L dependency=$rl --antt-project $K/rattle/logic/antt-project.json --logic-built $K/logic_built --links $crate= --jobs 1 --incremental /tmp/w/inc/$(basename $clone)/$crate --toolchain $K/toolchain --backend llvm -o /tmp/w/b_$crate.o || exit 1
$K/bin/rattle-link --target x86_64-unknown-linux-gnu --toolchain $K/toolchain -o /tmp/w/b_$crate.exe /tmp/w/b_$crate.o $K/c/libos_c.a $K/c/liblibc_c.a
