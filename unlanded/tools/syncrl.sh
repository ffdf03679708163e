#!/bin/bash
# syncrl.sh DIR : links the gate's built libraries that DIR lacks
mkdir -p $1
for f in /tmp/w/gate/crates/*/out/rlib/*.rlib; do n=$(basename $f); [ -e $1/$n ] || ln -s $f $1/$n; done
ls $1 | wc -l
