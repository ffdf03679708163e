#!/bin/bash
# list.sh CLONE run|all : definitions with their lines
cd $1
bash -c "cd() { builtin cd $1; }; source <(sed -e 's/printf \"%d definitions with %d lines\", count, sum/for (k = 1; k <= count; k++) { split(todo[k], p, SUBSEP); print p[1], p[2], lines[todo[k]] }/' .ci/believed | sed '/^case /,\$d'); if [ $2 = run ]; then definitions_below \"\${run[@]}\"; else definitions_below \$(reader_roots); fi"
