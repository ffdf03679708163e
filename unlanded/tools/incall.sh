#!/bin/bash
# incall.sh CLONE RL JOBS CRATE..: checks crates incrementally, some at a time
clone=$1; export RL=$2; jobs=$3; shift 3
log=/tmp/w/inclog_$(basename $clone); mkdir -p $log
printf '%s\n' "$@" | xargs -P $jobs -I{} sh -c "/usr/bin/time -f '{} %U' -o $log/{}.time /tmp/w/rd.sh $clone {} > $log/{}.log 2>&1"
