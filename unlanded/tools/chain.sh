#!/bin/bash
# chain.sh CLONE RL CRATE.. : builds crates in order; stops at the first that fails
C=$1; export RL=$2; shift 2
for k in "$@"; do /tmp/w/rb.sh $C $k > /tmp/w/ch.$(basename $C).$k 2>&1; echo "$k $(tail -1 /tmp/w/ch.$(basename $C).$k | cut -c1-40) $(date +%T)"; grep -q '^logic=proved' /tmp/w/ch.$(basename $C).$k || exit 1; done
