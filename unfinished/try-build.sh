cd /work/h/form3/main
rm -rf crates/tryperf; mkdir -p crates/tryperf; cp -r crates/signalfern_c/src crates/tryperf/src; mv crates/tryperf/src/lib.rt crates/tryperf/src/main.rt
cat >> crates/tryperf/src/main.rt <<'F'

fn main() {
    let mut out8 = [0u8; 64];
    let mut ids = [0u32; 4];
    let mut vals = [0i64; 4];
    let mut ords = [0u64; 4];
    let mut kinds = [0u8; 4];
    let w = signalfern_write(&ids, &vals, 1, 9, &mut out8);
    let k = signalfern_check(&out8);
    let r = signalfern_read(&out8, &mut ids, &mut vals);
    let a = signalfern_look_up(&out8, 5);
    let c = signalfern_open(&out8);
    let d = signalfern_look_up_in(c, &out8, 5);
    let cu = CCursor { last: 0 };
    let e = signalfern_next(cu, &out8, 5);
    let f = signalfern_next_in(c, cu, &out8, 5);
    let g = layers::signalfern_look_up_layered_in(c, &out8, c, &out8, 5);
    let g2 = layers::signalfern_look_up_layered(&out8, &out8, 5);
    let h = pages::signalfern_look_up_page(&out8, &ids, &mut ords, &mut vals, &mut kinds);
    let i = ranges::signalfern_first_between(&out8, 5, 6);
    let j = ranges::signalfern_first_between_in(c, &out8, 5, 6);
}
F
reach=$(python3 - <<'F'
deps={}
for l in open('/work/h/form3/main/crates.txt'):
    if ':' in l and not l.startswith('#'):
        a,b=l.split(':',1); deps[a.strip()]=b.split()
seen=set()
def go(c):
    for d in deps.get(c,[]):
        if d not in seen: seen.add(d); go(d)
go('signalfern_c'); print(' '.join(sorted(seen)))
F
); args=""; for d in $reach; do args="$args --lib $d=/work/h/form3/main/crates/$d/src/lib.rt"; done; rm -f /tmp/bc/*; timeout 100 /opt/rattle/on/x86_64/bin/rattle-cases --toolchain /tmp/kit/on/x86_64/toolchain crates/tryperf/src/main.rt --crate-name tryperf --lib std=/opt/rattle/libs/std/src/lib.rt $args 2>&1 | tail -12; ls -la /tmp/bc; cut -c1-300 /tmp/bc/args
