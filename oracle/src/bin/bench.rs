//! Times FIRST_k and FOLLOW_k of the given Rust.
//!
//!   bench [--ms N] [--ks 2,3,4] TABLE_FILE..
//!
//! For each table and k: fresh caches each time, `first_k` through level k and `follow_k` at k, as the Rust does them. It also works out
//! FOLLOW at every lower k, which it then leaves unused; "FOLLOW at k only" fills the cache of k - 1 with a dummy, so that only k itself is timed.
use parol::analysis::k_decision::CacheEntry;
use parol::analysis::{FirstCache, FollowCache, follow_with_positions};
use parol::table::*;
use std::hint::black_box;
use std::time::{Duration, Instant};

/// (least, middle) time of one call in microseconds, calls made.
fn time(budget: Duration, mut call: impl FnMut()) -> (f64, f64, usize) {
    let mut all = Vec::new();
    let begun = Instant::now();
    while begun.elapsed() < budget || all.len() < 5 {
        let t = Instant::now();
        call();
        all.push(t.elapsed().as_secs_f64() * 1e6);
        if all.len() >= 5 && begun.elapsed() > budget * 4 {
            break;
        }
    }
    all.sort_by(|a, b| a.total_cmp(b));
    (all[0], all[all.len() / 2], all.len())
}

fn main() {
    let mut budget = Duration::from_millis(500);
    let mut ks = vec![2usize, 3, 4];
    let mut files = Vec::new();
    let mut args = std::env::args().skip(1);
    while let Some(a) = args.next() {
        match &a[..] {
            "--ms" => budget = Duration::from_millis(args.next().unwrap().parse().unwrap()),
            "--ks" => ks = args.next().unwrap().split(',').map(|x| x.parse().unwrap()).collect(),
            _ => files.push(a),
        }
    }
    println!("microseconds, least / middle of many calls");
    for file in &files {
        let bytes = std::fs::read(file).unwrap();
        let table = Table::read(&bytes).expect("table");
        assert_eq!(table.accept(), 0, "{file} is not accepted");
        let g = table.config();
        let name = file.rsplit('/').next().unwrap();
        for &k in &ks {
            let (least, middle, calls) = time(budget, || {
                let fi = FirstCache::new();
                let fo = FollowCache::new();
                black_box(fi.get(k, &g));
                black_box(fo.get(k, &g, &fi));
            });
            let (f_least, f_middle, _) = time(budget, || {
                let fi = FirstCache::new();
                black_box(fi.get(k, &g));
            });
            // FOLLOW at k alone: FIRST given, the entry for k - 1 filled by a dummy.
            let fi = FirstCache::new();
            fi.get(k, &g);
            let (w_least, w_middle, _) = time(budget, || {
                let fo = FollowCache::new();
                *fo.0[k - 1].borrow_mut() = CacheEntry::dummy();
                black_box(follow_with_positions(&g, k, &fi, &fo));
            });
            let s = analyse(&g, k);
            let greatest = s.first_nt.iter().chain(&s.first_pr).chain(&s.follow_nt).map(|x| x.len())
                .chain(s.follow_pos.iter().map(|(_, x)| x.len())).max().unwrap();
            println!(
                "{name:16} k {k} p {:3} greatest set {greatest:5} | Rust all {least:9.1} / {middle:9.1} ({calls} calls) | FIRST {f_least:9.1} / {f_middle:9.1} | FOLLOW at k only {w_least:9.1} / {w_middle:9.1}",
                table.prods.len()
            );
        }
    }
}
