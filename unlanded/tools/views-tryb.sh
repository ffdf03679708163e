#!/bin/bash
# views-tryb.sh CLONE PROGRAM OUT : builds the unproved PROGRAM of CLONE as OUT
C=$1; R=$2; O=$3
G=/tmp/w/grab-$O; M=/tmp/w/mod-$O; rm -rf $G $M; mkdir -p $G $M
python3 /tmp/w/grab.py $G $M & P=$!
(cd $C/crates/$R && TMPDIR=$G rt try -- help > $M/log 2>&1)
sleep 0.5; kill $P
tail -1 $M/log
cd $M; CL="/opt/rattle/toolchain/bin/clang --no-default-config"
b=$(ls -S *.bc | head -1)
$CL -x ir $b -S -emit-llvm -Xclang -disable-llvm-passes -o m.ll || exit 1
python3 /tmp/w/strip.py m.ll u.ll $C
$CL -march=x86-64 -mllvm -no-trap-after-noreturn -ffunction-sections -fdata-sections -mllvm -trap-unreachable -mllvm -no-x86-call-frame-opt -mllvm -disable-machine-licm -mllvm -disable-postra-machine-licm -mllvm -sink-common-insts=false -fPIE -O3 -Xclang -fmerge-functions -mllvm -mergefunc-use-aliases -x ir -c u.ll -o u.o && gcc u.o /opt/rattle/c/libos_c.a /opt/rattle/c/liblibc_c.a -o /tmp/w/$O && rm -f *.o *.tmp *.bc u.ll
