#!/bin/bash
# modtimes.sh DIR MIN: modules of an incremental folder that took over MIN seconds, by the times at which they were written
cd $1/*/ && ls -tr --time-style=full-iso -l | awk 'NF>8 {print $6"T"$7, $5, $9}' | awk -v m=$2 '{split($1,d,"T"); split(d[2],a,":"); t=a[1]*3600+a[2]*60+a[3]; if (p) {x=t-p; if (x>m) printf "%.1f %s %s %s\n", x, substr($1,12,8),$2,$3} p=t}' | sort -rn
