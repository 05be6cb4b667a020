# turns.py ROUNDS label=cmd label=cmd ... : interleave, minima, ratios to the first
import subprocess,sys
rounds=int(sys.argv[1]); runs=[a.split('=',1) for a in sys.argv[2:]]
best={l:{} for l,_ in runs}
for r in range(rounds):
    for l,c in (runs if r%2==0 else runs[::-1]):
        for line in subprocess.run(c.split(),capture_output=True,text=True).stdout.splitlines():
            k,v=line.split(); v=float(v); d=best[l]; d[k]=min(d.get(k,1e18),v)
base=runs[0][0]
for k in best[base]:
    print(f"{k:28s} {best[base][k]:9.3f} "+" ".join(f"{best[l].get(k,0):9.3f} {best[l].get(k,0)/max(best[base][k],1e-9):5.2f}" for l,_ in runs[1:]))
import collections
for l,_ in runs[1:]:
    per=collections.defaultdict(list)
    for k in best[base]: per[k.split('/')[-1]].append(best[l].get(k,0)/max(best[base][k],1e-9))
    print(l,{k:(round(min(v),2),round(max(v),2)) for k,v in per.items()})
