#!/bin/bash
# build.sh TREE NAME: the tree's C calls compiled without proofs, to /work/bench38/arch/NAME/libsignalfern_c.a
set -e
tree=$1 n=$2
room=/work/bench38/arch/$n; mkdir -p $room; rm -f /work/bench38/bc/*
prog=$room/tryperf; rm -rf $prog; mkdir -p $prog/src; cp $tree/crates/signalfern_c/src/*.rt $prog/src/; mv $prog/src/lib.rt $prog/src/main.rt
printf '\nfn main() {\n}\n' >> $prog/src/main.rt
reach=$(python3 - $tree <<'F'
import sys
deps={}
for l in open(sys.argv[1]+'/crates.txt'):
    if ':' in l and not l.startswith('#'):
        a,b=l.split(':',1); deps[a.strip()]=b.split()
seen=set()
def go(c):
    for d in deps.get(c,[]):
        if d not in seen: seen.add(d); go(d)
go('signalfern_c'); print(' '.join(sorted(seen)))
F
)
args=""; for d in $reach; do args="$args --lib $d=$tree/crates/$d/src/lib.rt"; done
timeout 200 /opt/rattle/on/x86_64/bin/rattle-cases --toolchain /work/bench38/kit/on/x86_64/toolchain $prog/src/main.rt --crate-name tryperf --lib std=/opt/rattle/libs/std/src/lib.rt $args >$room/say 2>&1 || { tail -30 $room/say; exit 1; }
cp bc/1.bc $room/module.bc
T=/opt/rattle/on/x86_64/toolchain
cd $room
flags="--target=x86_64-unknown-linux-gnu -ffunction-sections -fdata-sections -mllvm -trap-unreachable -mllvm -no-trap-after-noreturn --no-default-config -no-canonical-prefixes -fintegrated-cc1 -fno-crash-diagnostics -fPIC -O3 -Xclang -fmerge-functions -mllvm -mergefunc-use-aliases --sysroot=$T"
$T/bin/clang --target=x86_64-unknown-linux-gnu --no-default-config -Xclang -disable-llvm-passes -S -emit-llvm -x ir module.bc -o module.ll
python3 /work/bench38/wrap.py $room
$T/bin/clang $flags -march=${MARCH:-x86-64} -c -x ir module.ll -o module.o
rm -f libsignalfern_c.a; ar rcs libsignalfern_c.a module.o
objdump -d --no-show-raw-insn module.o > dis
rm -rf include; cp -r $tree/include include
echo built $n $(nm module.o | grep -c ' T signalfern') calls
