#!/bin/bash
# speeds.sh PROGRAM ROUNDS : medians of user seconds of both, in alternation, as bench/run does
P=$1; R=$2; cd /work/main/bench; W=/tmp/w/speeds; rm -rf $W; mkdir -p $W
TIMEFORMAT=%U
for r in $(seq $R); do for n in crc calls heap lpm sites sha256 aes sha; do
  read -r -a words < $n.words
  { time $P "${words[@]}" < $n.hex > $W/out; } 2>> $W/$n.t; cmp -s $W/out $n.stdout || echo "$n differs"
  { time simavr -m atmega128 -f 16000000 $n.hex > $W/sim 2>&1; } 2>> $W/$n.s
done; done
for n in crc calls heap lpm sites sha256 aes sha; do
  steps=$(grep -o 'steps [0-9]*' $n.stdout | awk '{print $2}')
  t=$(sort -n $W/$n.t | sed -n "$(( (R+1)/2 ))p"); s=$(sort -n $W/$n.s | sed -n "$(( (R+1)/2 ))p")
  awk -v n=$n -v k=$steps -v t=$t -v s=$s 'BEGIN { printf "%s steps %d tkernel %.1f simavr %.1f ratio %.2f (t %.2f s %.2f)\n", n, k, k/t/1e6, k/s/1e6, s/t, t, s }'
done
