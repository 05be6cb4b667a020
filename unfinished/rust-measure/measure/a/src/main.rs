// measure RUNS [MEASURE..]: least time a pair of Checked::iter on every kind of column
use signalfern::{Checked, Edition};
use std::hint::black_box;
use std::time::Instant;

struct R(u64);
impl R {
    fn next(&mut self) -> u64 {
        self.0 ^= self.0 >> 12;
        self.0 ^= self.0 << 25;
        self.0 ^= self.0 >> 27;
        self.0.wrapping_mul(0x2545_F491_4F6C_DD1D) >> 8
    }
}

fn ids(r: &mut R, shape: &str, n: usize) -> Vec<u32> {
    let per: u32 = match shape {
        "one" => 1,
        "few" => 20,
        "sparse" => 2000,
        "sparse4095" => 4095,
        "dense4096" => 4096,
        "dense" => 20000,
        "densefull" => 60000,
        "full" => 65536,
        "mixed" => 0,
        _ => panic!(),
    };
    let mut out = Vec::new();
    let mut b = 0u32;
    while out.len() < n && b < 32766 {
        let per = if per == 0 { [7, 3000, 9000, 65536][b as usize % 4] } else { per };
        let mut wanted = per as u64;
        if per <= 20 {
            let mut places: Vec<u32> = (0..per).map(|_| (r.next() % 65536) as u32).collect();
            places.sort();
            places.dedup();
            out.extend(places.iter().map(|p| b << 16 | p));
        } else {
            for p in 0..65536u32 {
                if r.next() % (65536 - p) as u64 >= wanted { continue; }
                wanted -= 1;
                out.push(b << 16 | p);
            }
        }
        b += 1;
    }
    out.truncate(n);
    out
}

fn values(r: &mut R, width: u32, n: usize) -> Vec<i64> {
    let most = u64::MAX.checked_shr(64 - width).unwrap_or(0);
    (0..n).map(|i| if i == 0 { 0 } else if i == 1 { most as i64 } else { ((r.next() ^ r.next() << 32) & most) as i64 }).collect()
}

fn main() {
    let runs: usize = std::env::args().nth(1).unwrap().parse().unwrap();
    let only: Option<String> = std::env::args().nth(2);
    let mut r = R(88172645463325252);
    let mut cases: Vec<(String, Vec<u8>, usize)> = Vec::new();
    let n = 100_000;
    for shape in ["one", "few", "sparse", "sparse4095", "dense4096", "dense", "densefull", "full", "mixed"] {
        let ids = ids(&mut r, shape, n);
        for (e, edition, widths) in [
            (1, Edition::Plain, &[0u32, 1, 12, 33, 57, 64][..]),
            (2, Edition::Lucene, &[0, 1, 12, 28, 64]),
            (3, Edition::Runs, &[0, 12, 64]),
            (4, Edition::Table, &[1, 8]),
        ] {
            for &w in widths {
                let powers: &[u32] = if shape.starts_with("dense") && w == 12 || w == 8 { &[9, 0, 7, 15] } else { &[9] };
                let mut v = values(&mut r, w, ids.len());
                if e == 4 { for x in &mut v { *x = *x * 1_000_003 * 1_000_003; } }
                for &p in powers {
                    let bytes = signalfern::write_to_vec(&ids, &v, edition, p).unwrap();
                    cases.push((format!("{shape} e{e} w{w} p{p}"), bytes, ids.len()));
                }
            }
        }
    }
    for (name, bytes, n) in &cases {
        if only.as_ref().is_some_and(|o| !name.contains(o.as_str())) { continue; }
        let column = Checked::new(bytes).unwrap();
        let mut least = f64::MAX;
        for _ in 0..runs {
            let t = Instant::now();
            let mut sum = 0u64;
            for (id, value) in column.iter() {
                sum = sum.wrapping_add(id as u64 ^ value as u64);
            }
            black_box(sum);
            least = least.min(t.elapsed().as_nanos() as f64 / *n as f64);
        }
        // from an id: one pair, ten pairs
        let mut one = f64::MAX; let mut ten = f64::MAX;
        let mut q = R(77);
        let last = column.iter().last().unwrap().0;
        let starts: Vec<u32> = (0..1000).map(|_| (q.next() % (last as u64 + 1)) as u32).collect();
        for _ in 0..runs {
            let t = Instant::now();
            let mut sum = 0u64;
            for &s in &starts { if let Some((id, v)) = column.iter_from(s).next() { sum ^= id as u64 ^ v as u64; } }
            black_box(sum);
            one = one.min(t.elapsed().as_nanos() as f64 / 1000.0);
            let t = Instant::now();
            let mut sum = 0u64;
            for &s in &starts { for (id, v) in column.iter_from(s).take(10) { sum ^= id as u64 ^ v as u64; } }
            black_box(sum);
            ten = ten.min(t.elapsed().as_nanos() as f64 / 1000.0);
        }
        println!("{name} {least:.2} {one:.1} {ten:.1}");
    }
}
