#!/bin/bash
# runchk.sh CHK LOG CHECK.. : runs the checks of .ci in turn
cd $1; L=$2; shift 2; : > $L
for s in "$@"; do nice -n 4 .ci/$s > $L.$s 2>&1; echo "$s status $? $(tail -1 $L.$s | cut -c1-80) $(date +%T)" >> $L; done; echo END >> $L
