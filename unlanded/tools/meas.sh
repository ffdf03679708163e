#!/bin/bash
# meas.sh PROGRAM
P=$1
B=/work/main/bench
N1=20000 N2=60000
for b in crc calls heap lpm sites globals one_call locals; do /work/shared/tools/count-steps $P $B/$b.hex $N1 $N2 & if (( $(jobs -r | wc -l) >= 2 )); then wait -n; fi; done; wait
/work/shared/tools/count-steps $P $B/sha.hex 100000 140000
