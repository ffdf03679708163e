#!/bin/bash
# table.sh PROGRAM : machine instructions a step as docs/PERFORMANCE.md's table has them
P=$1; B=/work/main/bench
for b in crc calls lpm sites sha256 aes sha; do echo "$b $(/work/shared/tools/count-steps $P $B/$b.hex 1000000 1100000 2>&1 | tail -1)"; done
echo "heap $(/work/shared/tools/count-steps $P $B/heap.hex 5000000 5100000 2>&1 | tail -1)"
for b in globals one_call locals; do echo "$b $(/work/shared/tools/count-steps $P $B/$b.hex 100000 200000 2>&1 | tail -1)"; done
