n=$1; mkdir -p /tmp/arch/$n; bc=$(ls /tmp/bc/*.bc | sed -n 2p); flags=$(sed -n 2p /tmp/bc/args | sed 's/-c -x ir module.bc -o module.o//; s#-fPIE##')
cd /tmp/arch/$n; cp $bc module.bc; C=/opt/rattle/on/x86_64/toolchain/bin/clang
$C --target=x86_64-unknown-linux-gnu -S -emit-llvm -x ir module.bc -O0 -Xclang -disable-llvm-passes -o module.ll
python3 - <<'F'
import re
t=open('module.ll').read()
t=re.sub(r'"tryperf::(?:\w+::)?(signalfern_\w+)"',r'impl_\1',t)
t,k=re.subn(r'define internal ([^\n@]*)@(impl_signalfern_\w+)\(',r'define \1@\2(',t)
t=t.replace('@main(','@rattle_main(')
print('exported',k)
open('module.ll','w').write(t)
F
$C $flags -c -x ir module.ll -o module.o -fPIE -Rpass-missed=inline -Rpass=inline 2> remarks
objdump -d --no-show-raw-insn module.o > dis
grep '>:$' dis | awk '{print $2}' | grep -v impl_ | tr '\n' ' '
gcc -O2 -I/work/h/eleven/main/include /tmp/m/drive.c /tmp/m/shim.c module.o -o /tmp/m/drive-$n && echo linked
