#!/usr/bin/env python3
"""bench.py [--log2 22,24] [--kinds ..] [--rounds N] [--budget MS] NAME..: pages of arch/NAME beside plain C; least of rounds, ns an id, and ratio to plain"""
import argparse,subprocess,os,math,collections
a=argparse.ArgumentParser(); a.add_argument('--log2',default='24'); a.add_argument('--kinds',default='sparse,dense,all,mixed'); a.add_argument('--rounds',type=int,default=2); a.add_argument('--budget',default='150'); a.add_argument('--single',action='store_true'); a.add_argument('names',nargs='+'); g=a.parse_args()
T='/work/h/page/try'
CALLS=["write_to","check_to","read_to","open_to","look_up_page_to","look_up_to","look_up_in_to"]
libs=[]
def sh(*c): subprocess.run(c,check=True)
os.makedirs(T+'/so',exist_ok=True)
so=T+'/so/plain.so'
if not os.path.exists(so): sh('gcc','-std=gnu11','-O2','-fPIC','-shared','-DHALVE','-o',so,T+'/ys/column.c')
drv=T+'/so/pages'
if not os.path.exists(drv): sh('gcc','-std=gnu11','-O2','-I',T+'/ys','-o',drv,T+'/ys/pages.c','-ldl','-lroaring')
libs.append('plain='+so)
for n in g.names:
    A=f'{T}/arch/{n}'
    sh('objcopy',*(f'--redefine-sym=signalfern_{c}=lib_signalfern_{c}' for c in CALLS),A+'/libsignalfern_c.a',f'{T}/so/{n}.a')
    for suf,more in ([('',[]),('-opened',['-DOPENED'])] if g.single else [])+[('-page',['-DPAGE'])]:
        s=f'{T}/so/{n}{suf}.so'
        sh('gcc','-O2','-fno-tree-slp-vectorize','-fPIC','-shared','-I',A+'/include','-DWITH_EDITION','-DBYREF','-DWORDS','-DWITH_PAGE',*more,'-o',s,T+'/ys/shim.c','-Wl,--whole-archive',f'{T}/so/{n}.a','-Wl,--no-whole-archive')
        libs.append(f'{n}{suf}={s}')
best=collections.defaultdict(lambda:1e9)
names=[l.split('=')[0] for l in libs]+['bare']
for k in g.log2.split(','):
    for r in range(g.rounds):
        for kind in g.kinds.split(','):
            order=libs if r%2==0 else [libs[0]]+libs[:0:-1]
            t=subprocess.run([drv,kind,k,'1',g.budget,*order],stdout=subprocess.PIPE,text=True,check=True).stdout
            for line in t.splitlines():
                f=line.split()
                if f[0]!='#':
                    key=(k,kind,f[1],f[0]); best[key]=min(best[key],min(map(float,f[4:])))
for k in g.log2.split(','):
    print(f'2^{k:22s}'+''.join(f'{n:>20s}' for n in names))
    gm=collections.defaultdict(list)
    for op in ['hit','miss','asc','next']:
        for kind in g.kinds.split(','):
            p=best[k,kind,op,'plain']
            print(f'{op:6s}{kind:8s}'+' '*10+''.join(f'{best[k,kind,op,n]:13.2f} {best[k,kind,op,n]/p:6.2f}' for n in names))
            for n in names: gm[op,n].append(best[k,kind,op,n]/p)
    for op in ['hit','miss','asc','next']:
        print(f'{op:6s}geo     '+' '*10+''.join(f'{math.exp(sum(map(math.log,gm[op,n]))/len(gm[op,n])):20.3f}' for n in names))
