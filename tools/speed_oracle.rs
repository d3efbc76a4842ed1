//! The verified writer's time against that of parquet-variant's own `VariantBuilder`. `speed_oracle.sh` builds and runs it, beside
//! the modules of `variant-bench`.
#![allow(dead_code)]
mod cases;
mod plain;
mod writers;

use cases::{Order, Scan, names, scans, write_fields, write_list, write_scan};
use chrono::{DateTime, Utc};
use parquet_variant::{Variant, VariantBuilder, VariantDecimal4, VariantDecimal8};
use std::hint::black_box;
use std::process::exit;
use std::time::Instant;
use writers::{Sizes, Verified};

const BLOCK: usize = 100;

enum Case {
    Scans(Vec<(Scan, DateTime<Utc>)>),
    Fields(Vec<String>),
    List(usize),
}

struct Row {
    title: String,
    case: Case,
    records: usize,
    sizes: Sizes,
}

/// Dictionary and value.
fn rust(case: &Case, i: usize) -> (Vec<u8>, Vec<u8>) {
    let mut b = VariantBuilder::new().with_validate_unique_fields(true);
    match case {
        Case::Scans(s) => rust_scan(&mut b, &s[i]),
        Case::Fields(names) => {
            let mut o = b.try_new_object().unwrap();
            for (i, name) in names.iter().enumerate() {
                o.try_insert(name, i as i32).unwrap();
            }
            o.finish();
        }
        Case::List(n) => {
            let mut l = b.try_new_list().unwrap();
            for i in 0..*n {
                l.try_append_value(Variant::Int64(i as i64 * 1_000_003)).unwrap();
            }
            l.finish();
        }
    }
    b.try_finish().unwrap()
}

fn rust_scan(b: &mut VariantBuilder, (s, seen): &(Scan, DateTime<Utc>)) {
    let mut o = b.try_new_object().unwrap();
    o.try_insert("tag", s.tag.as_str()).unwrap();
    o.try_insert("zone", s.zone).unwrap();
    o.try_insert("antenna", Variant::Int8(s.antenna)).unwrap();
    o.try_insert("reads", Variant::Int32(s.reads)).unwrap();
    o.try_insert("strength", VariantDecimal4::try_new(s.strength, 2).unwrap()).unwrap();
    o.try_insert("price", VariantDecimal8::try_new(s.price, 4).unwrap()).unwrap();
    o.try_insert("seen", Variant::TimestampMicros(*seen)).unwrap();
    o.try_insert("moving", s.moving).unwrap();
    o.finish();
}

fn verified(case: &Case, v: &mut Verified, i: usize) {
    match case {
        Case::Scans(s) => write_scan(v, &s[i].0),
        Case::Fields(names) => write_fields(v, names, false),
        Case::List(n) => write_list(v, *n),
    }
}

fn row(title: String, case: Case, records: usize, items: usize) -> Row {
    let sizes = Sizes { value: 256 + 32 * items, text: 64 + items * 8, names: 8 + items, entries: 8 + 2 * items, out: 128 + 16 * items };
    Row { title, case, records, sizes }
}

fn rows() -> Vec<Row> {
    let seen = |s: Scan| {
        let at = DateTime::from_timestamp_micros(s.seen).unwrap();
        (s, at)
    };
    let mut all = vec![row("8 mixed fields".into(), Case::Scans(scans(10_000).into_iter().map(seen).collect()), 10_000, 8)];
    let fields = |n| Case::Fields(names(n, 8, Order::Mixed));
    all.extend([8, 64, 512].map(|n| row(format!("{n} fields, names of 8 bytes, mixed"), fields(n), (6_400 / (n * n)).max(1), n)));
    all.extend([8, 64, 512].map(|n| row(format!("list of {n}"), Case::List(n), 6_400 / n, n)));
    all
}

fn compare(row: &Row) {
    for i in 0..row.records {
        let mut v = Verified::new(&row.sizes);
        verified(&row.case, &mut v, i);
        let (dictionary, value) = rust(&row.case, i);
        if value != v.value() || dictionary != v.dictionary() {
            eprintln!("{}, record {i}: the bytes differ", row.title);
            exit(1);
        }
    }
}

fn timed(mut f: impl FnMut(usize), from: usize, to: usize) -> f64 {
    let start = Instant::now();
    (from..to).for_each(&mut f);
    start.elapsed().as_nanos() as f64
}

/// The best times of a block: parquet-variant, verified with fresh buffers, verified with reused ones.
fn best_of(row: &Row, from: usize, rounds: usize) -> [f64; 3] {
    let to = row.records.min(from + BLOCK);
    let mut best = [f64::INFINITY; 3];
    let mut reused = Verified::new(&row.sizes);
    for _ in 0..rounds {
        best[0] = best[0].min(timed(|i| drop(black_box(rust(&row.case, i))), from, to));
        let fresh = |i| {
            let mut v = Verified::new(&row.sizes);
            verified(&row.case, &mut v, i);
            black_box((v.value(), v.dictionary()));
        };
        best[1] = best[1].min(timed(fresh, from, to));
        let again = |i| {
            reused.clear();
            verified(&row.case, &mut reused, i);
            black_box((reused.value(), reused.dictionary()));
        };
        best[2] = best[2].min(timed(again, from, to));
    }
    best
}

fn main() {
    let rounds = std::env::args().nth(1).map_or(25, |n| n.parse().expect("a number of rounds"));
    let rows = rows();
    rows.iter().for_each(compare);
    println!("| Record | parquet-variant | verified, fresh | ratio | verified, reused | ratio |");
    println!("|---|---|---|---|---|---|");
    for row in &rows {
        let mut t = [0.0; 3];
        for from in (0..row.records).step_by(BLOCK) {
            let best = best_of(row, from, rounds);
            (0..3).for_each(|k| t[k] += best[k] / row.records as f64);
        }
        println!("| {} | {:.0} | {:.0} | {:.1} | {:.0} | {:.1} |", row.title, t[0], t[1], t[1] / t[0], t[2], t[2] / t[0]);
    }
}
