import subprocess,sys,collections
rounds=int(sys.argv[1]); runs=sys.argv[2]; flt=sys.argv[3]; bins=sys.argv[4:]
best={k:collections.OrderedDict() for k in bins}
for _ in range(rounds):
    for b in bins:
        out=subprocess.run([b,runs]+([flt] if flt!='-' else []),capture_output=True,text=True).stdout
        for l in out.splitlines():
            *name,x,y,z=l.split(); name=' '.join(name)
            v=[float(x),float(y),float(z)]
            o=best[b].get(name)
            best[b][name]=v if o is None else [min(p,q) for p,q in zip(o,v)]
for n in best[bins[0]]:
    rows=[best[b][n] for b in bins]
    for i,what in enumerate(['iter','one','ten']):
        print(f"{n if i==0 else '':24} {what}", *(f"{r[i]:8.2f}" for r in rows), *( f"{r[i]/rows[0][i]:5.2f}" for r in rows[1:]))
