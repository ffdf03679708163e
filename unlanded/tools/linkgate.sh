#!/bin/bash
# links the gate's built libraries into DIR, but for those that DIR has as folders of its own
mkdir -p $1
for f in /tmp/w/gate2/crates/*/out/rlib/*.rlib; do n=$(basename $f); [ -d $1/$n ] && [ ! -L $1/$n ] && continue; ln -sfn $f $1/$n; done
ls $1 | wc -l
