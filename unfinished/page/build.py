#!/usr/bin/env python3
"""build.py NAME ROOT: the library at ROOT compiled without proofs to arch/NAME/libsignalfern_c.a"""
import re,glob,sys,os,subprocess,shutil
name,root=sys.argv[1:3]
T='/work/h/page/try'
out=f'{T}/arch/{name}'; os.makedirs(out,exist_ok=True)
prog=f'{out}/tryperf'; shutil.rmtree(prog,ignore_errors=True)
shutil.copytree(f'{root}/crates/signalfern_c/src',prog)
calls=[]
for f in sorted(glob.glob(prog+'/*.rt')):
    mod=os.path.basename(f)[:-3]
    t=open(f).read()
    for m in re.finditer(r'pub extern "C" fn (\w+)\((.*?)\)\s*(->[^\n]*)?\n',t,re.S):
        ps=[p.strip().split(':',1) for p in m.group(2).split(',') if p.strip()]
        ps=[(a.strip(),b.strip()) for a,b in ps]
        calls.append((mod,m.group(1),ps,m.group(3)))
os.rename(prog+'/lib.rt',prog+'/main.rt')
body=[]; shim=['#include <stdint.h>','#include <stddef.h>','typedef struct { const void *p; size_t n; } sl;']
k=0
for mod,fn,ps,ret in calls:
    if ret: continue
    args=[]; cp=[]; ca=[]; pre=[]; ip=[]
    for a,b in ps:
        k+=1
        m=re.match(r'&(mut )?\[(\w+); (\d+)\]$',b)
        s=re.match(r'&(mut )?\[(\w+)\]$',b)
        if m:
            body.append(f'let {"mut " if m.group(1) else ""}x{k} = [0{m.group(2)}; {m.group(3)}];'); args.append(f'&{m.group(1) or ""}x{k}')
            cp.append(f'void *{a}'); ca.append(a); ip.append('void *')
        elif s:
            body.append(f'let {"mut " if s.group(1) else ""}x{k} = [0{s.group(2)}; 64];'); args.append(f'&{s.group(1) or ""}x{k}')
            cp.append(f'void *{a}, size_t {a}_n'); pre.append(f'sl s_{a} = {{{a}, {a}_n}};'); ca.append(f'&s_{a}'); ip.append('sl *')
        else:
            args.append('5' ); ct={'u32':'uint32_t','u64':'uint64_t','i64':'int64_t'}[b]
            cp.append(f'{ct} {a}'); ca.append(a); ip.append(ct)
    path=fn if mod=='lib' else f'{mod}::{fn}'
    body.append(f'{path}({", ".join(args)});')
    shim.append(f'extern void impl_{fn}({", ".join(ip)});')
    shim.append(f'void {fn}({", ".join(cp)}) {{ {" ".join(pre)} impl_{fn}({", ".join(ca)}); }}')
open(prog+'/main.rt','a').write('\nfn main() {\n    '+'\n    '.join(body)+'\n}\n')
open(out+'/shim.c','w').write('\n'.join(shim)+'\nuint64_t signalfern_abi_0_2(void) { return 2; }\n')
deps={}
for l in open(f'{root}/crates.txt'):
    if ':' in l and not l.startswith('#'):
        a,b=l.split(':',1); deps[a.strip()]=b.split()
seen=[]
def go(c):
    for d in deps.get(c,[]):
        if d not in seen: seen.append(d); go(d)
go('signalfern_c')
bc=f'{T}/kit/bc'; shutil.rmtree(bc,ignore_errors=True); os.makedirs(bc)
cmd=['timeout','200','/opt/rattle/on/x86_64/bin/rattle-cases','--toolchain',f'{T}/kit/on/x86_64/toolchain',prog+'/main.rt','--crate-name','tryperf','--lib','std=/opt/rattle/libs/std/src/lib.rt']
for d in sorted(seen): cmd+=['--lib',f'{d}={root}/crates/{d}/src/lib.rt']
r=subprocess.run(cmd,capture_output=True,text=True)
print((r.stdout+r.stderr)[-1500:])
print(open(bc+'/args').read()[:3000])
files=sorted(f for f in os.listdir(bc) if f.endswith('.bc'))
print(files)
args=open(bc+'/args').read().splitlines()
# the one at -O3
pick=[i for i,a in enumerate(args) if '-O3' in a and '.bc' in a][0]
bcs=[i for i,a in enumerate(args) if '.bc' in a]
shutil.copy(bc+'/'+files[bcs.index(pick)],out+'/module.bc')
flags=[w for w in args[pick].split()]
kept=[];i=0
while i<len(flags):
    w=flags[i]
    if w in('-c','-fPIE') or w.endswith('.bc'): pass
    elif w in('-o',): i+=1
    elif w=='-x': i+=1
    else: kept.append(w)
    i+=1
C='/opt/rattle/on/x86_64/toolchain/bin/clang'
subprocess.run([C,'--target=x86_64-unknown-linux-gnu','--no-default-config','-S','-emit-llvm','-x','ir',out+'/module.bc','-O0','-Xclang','-disable-llvm-passes','-o',out+'/module.ll'],check=True)
t=open(out+'/module.ll').read()
t=re.sub(r'"tryperf::(?:\w+::)?(signalfern_\w+)"',r'impl_\1',t)
t,k=re.subn(r'define internal ([^\n@]*)@(impl_signalfern_\w+)\(',r'define \1@\2(',t)
t=t.replace('@main(','@rattle_main(')
print('exported',k)
open(out+'/module.ll','w').write(t)
subprocess.run(f'{C} {" ".join(kept)} -fPIC -c -x ir {out}/module.ll -o {out}/module.o -Rpass-missed=inline -Rpass=inline 2> {out}/remarks',shell=True,check=True)
subprocess.run(f'objdump -d --no-show-raw-insn {out}/module.o > {out}/dis',shell=True)
subprocess.run(['gcc','-O2','-fPIC','-c',out+'/shim.c','-o',out+'/shim.o'],check=True)
a=out+'/libsignalfern_c.a'
if os.path.exists(a): os.remove(a)
subprocess.run(['ar','rcs',a,out+'/module.o',out+'/shim.o'],check=True)
shutil.rmtree(out+'/include',ignore_errors=True); shutil.copytree(root+'/include',out+'/include')
print('kept',' '.join(kept))
