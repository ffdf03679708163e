#!/bin/bash
# putbuilt.sh GATE CHK : puts the programs that rt ci proved and built in GATE into the clone CHK where the launcher looks for them
G=$1; C=$2
for p in tkernel tkwatch; do
  sum=$(top=$C program_name=$p bash -c '
    eval "$(sed -n "/^crates_below()/,/^}/p; /^sum_of_sources()/,/^}/p" $top/tkernel)"
    crates=$(crates_below); sum_of_sources')
  mkdir -p $C/crates/$p/out/built/$sum; cp $G/crates/$p/out/$p $C/crates/$p/out/built/$sum/$p; cp $G/crates/$p/out/$p $C/crates/$p/out/$p; echo "$p $sum"
done
