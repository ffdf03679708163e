#!/bin/bash
# fdiff.sh PROGRAM HEX FROM TO UNITS : machine instructions by function of the steps between, by UNITS
for n in $3 $4; do GLIBC_TUNABLES=glibc.cpu.x86_rep_stosb_threshold=1000000:glibc.cpu.x86_rep_movsb_threshold=1000000 valgrind --tool=callgrind --callgrind-out-file=/tmp/w/cg.$n $1 run --steps $n < $2 > /dev/null 2>&1; callgrind_annotate --threshold=100 /tmp/w/cg.$n 2>/dev/null | sed 's/(.*%)//' | awk '/^ *[0-9,]+ / {gsub(",","",$1); k=$2; for(i=3;i<=NF;i++) k=k" "$i; print $1 "\t" k}' | sed 's/\[.*//' > /tmp/w/cgf.$n; done
awk -F'\t' -v u=$5 'NR==FNR {a[$2]+=$1; next} {b[$2]+=$1} END {for (k in b) { d=(b[k]-a[k])/u; if (d>20) printf "%8.0f %s\n", d, k}}' /tmp/w/cgf.$3 /tmp/w/cgf.$4 | sort -rn | head -${6:-30}
