//! The verified writer's time against that of a plain Rust writer, both in one run, as ratios. The bytes are compared first.
//!
//!     variant-bench [ROUNDS]            the table, in Markdown; status 1 where the writers' bytes differ
//!     variant-bench rows                the kinds of record, and how many are written
//!     variant-bench count WAY RECORD    one kind's records written one way ("verified-reused" ..), for instruction counts
//!     variant-bench reading [ROUNDS]    the times of reading, in nanoseconds, in Markdown
mod cases;
mod plain;
mod reading;
mod writers;

use cases::{names, scans, write_depth, write_fields, write_list, write_scan, write_wide, Order, Scan, Writer};
use plain::PlainBuilder;
use std::hint::black_box;
use std::ops::Range;
use std::process::exit;
use std::time::Instant;
use writers::{Sizes, Verified};

const RECORDS: usize = 10_000;

/// How many records are timed at once, at most: short times are less often broken into by other programs.
const BLOCK: usize = 100;

enum Case {
    Scans(Vec<Scan>),
    /// Fields of these names, registered beforehand or not.
    Fields(Vec<String>, bool),
    Depth(usize),
    /// So many objects in each other, each with fields of these names and a child.
    Wide(usize, Vec<String>),
    List(usize),
}

/// A kind of record, and how many are written in a round.
struct Row {
    title: String,
    case: Case,
    records: usize,
    sizes: Sizes,
}

impl Case {
    fn write<W: Writer>(&self, w: &mut W, i: usize) {
        match self {
            Case::Scans(s) => write_scan(w, &s[i]),
            Case::Fields(names, registered) => write_fields(w, names, *registered),
            Case::Depth(n) => write_depth(w, *n),
            Case::Wide(n, names) => write_wide(w, *n, names),
            Case::List(n) => write_list(w, *n),
        }
    }
}

/// A row of records that hold about `items` fields or elements, with names of `name` bytes.
fn row(title: String, case: Case, records: usize, items: usize, name: usize) -> Row {
    let sizes =
        Sizes { value: 256 + 32 * items, text: 64 + items * name, names: 8 + items, entries: 8 + 2 * items, out: 128 + items * (name + 8) };
    Row { title, case, records, sizes }
}

fn field_row(n: usize, size: usize, order: Order, registered: bool) -> Row {
    let how = match order {
        Order::Rising => "rising",
        Order::Falling => "falling",
        Order::Mixed => "mixed",
    };
    let known = if registered { ", registered" } else { "" };
    let title = format!("{n} fields, names of {size} bytes, {how}{known}");
    let case = Case::Fields(names(n, size, order), registered);
    row(title, case, (6_400 / (n * n)).max(1), n, size)
}

fn rows() -> Vec<Row> {
    let mut all = vec![row("8 mixed fields".into(), Case::Scans(scans(RECORDS)), RECORDS, 8, 8)];
    for order in [Order::Mixed, Order::Rising, Order::Falling] {
        all.extend([8, 64, 512].map(|n| field_row(n, 8, order, false)));
    }
    all.extend([8, 64, 512].map(|n| field_row(n, 64, Order::Mixed, false)));
    all.extend([8, 64, 512].map(|n| field_row(n, 8, Order::Mixed, true)));
    all.extend([1, 8, 64].map(|n| row(format!("depth {n}"), Case::Depth(n), 800 / n, 2 * n, 8)));
    all.extend([8, 64, 512].map(|n| row(format!("list of {n}"), Case::List(n), 6_400 / n, n, 0)));
    all
}

/// The writers whose buffers are used again: each has written a record already.
struct Reused {
    plain: PlainBuilder,
    verified: Verified,
}

impl Reused {
    fn new(row: &Row) -> Self {
        let mut plain = PlainBuilder::new(true);
        let mut verified = Verified::new(&row.sizes);
        row.case.write(&mut plain, 0);
        row.case.write(&mut verified, 0);
        Reused { plain, verified }
    }
}

/// Ends the program where the writers' bytes differ.
fn compare(row: &Row) {
    let mut r = Reused::new(row);
    for i in 0..row.records {
        plain_reused(row, &mut r, i..i + 1);
        verified_reused(row, &mut r, i..i + 1);
        let (p, v) = (&r.plain, &r.verified);
        if p.value() != v.value() || p.dictionary() != v.dictionary() {
            eprintln!("{}, record {i}: the bytes differ", row.title);
            exit(1);
        }
    }
}

fn plain_fresh(row: &Row, _: &mut Reused, records: Range<usize>) {
    for i in records {
        let mut p = PlainBuilder::new(true);
        row.case.write(&mut p, i);
        black_box((p.value(), p.dictionary()));
    }
}

fn plain_reused(row: &Row, r: &mut Reused, records: Range<usize>) {
    let p = &mut r.plain;
    for i in records {
        p.clear();
        row.case.write(p, i);
        black_box((p.value(), p.dictionary()));
    }
}

fn verified_fresh(row: &Row, _: &mut Reused, records: Range<usize>) {
    for i in records {
        let mut v = Verified::new(&row.sizes);
        row.case.write(&mut v, i);
        black_box((v.value(), v.dictionary()));
    }
}

fn verified_reused(row: &Row, r: &mut Reused, records: Range<usize>) {
    let v = &mut r.verified;
    for i in records {
        v.clear();
        row.case.write(v, i);
        black_box((v.value(), v.dictionary()));
    }
}

type Way = (&'static str, fn(&Row, &mut Reused, Range<usize>));

const WAYS: [Way; 4] = [
    ("plain-fresh", plain_fresh),
    ("verified-fresh", verified_fresh),
    ("plain-reused", plain_reused),
    ("verified-reused", verified_reused),
];

/// The four ways' times for a record, in nanoseconds: of each block the best of all rounds, the ways taken in turn.
fn measure(row: &Row, rounds: usize) -> [f64; 4] {
    let mut times = [0.0; 4];
    for from in (0..row.records).step_by(BLOCK) {
        let block = from..row.records.min(from + BLOCK);
        let best = best_of(row, &block, rounds);
        for (time, best) in times.iter_mut().zip(best) {
            *time += best / row.records as f64;
        }
    }
    times
}

fn best_of(row: &Row, block: &Range<usize>, rounds: usize) -> [f64; 4] {
    let mut best = [f64::INFINITY; 4];
    let mut r = Reused::new(row);
    for _ in 0..rounds {
        for (best, (_, write)) in best.iter_mut().zip(WAYS) {
            let start = Instant::now();
            write(black_box(row), &mut r, block.clone());
            *best = best.min(start.elapsed().as_nanos() as f64);
        }
    }
    best
}

fn table(rounds: usize) {
    let rows = rows();
    rows.iter().for_each(compare);
    println!("| Record | plain, fresh | verified, fresh | ratio | plain, reused | verified, reused | ratio |");
    println!("|---|---|---|---|---|---|---|");
    for row in &rows {
        let [pf, vf, pr, vr] = measure(row, rounds);
        let title = &row.title;
        println!("| {title} | {pf:.0} | {vf:.0} | {:.1} | {pr:.0} | {vr:.0} | {:.1} |", vf / pf, vr / pr);
    }
}

fn count(way: &str, title: &str) {
    let way = WAYS.iter().find(|w| w.0 == way);
    let row = rows().into_iter().find(|r| r.title == title);
    match (way, row) {
        (Some((_, write)), Some(row)) => write(black_box(&row), &mut Reused::new(&row), 0..row.records),
        _ => usage(),
    }
}

fn usage() -> ! {
    eprintln!("usage: variant-bench [ROUNDS] | rows | count WAY RECORD | reading [ROUNDS]");
    exit(2)
}

fn main() {
    let args: Vec<String> = std::env::args().skip(1).collect();
    let number = |rounds: &str| rounds.parse().unwrap_or_else(|_| usage());
    match args.iter().map(String::as_str).collect::<Vec<_>>()[..] {
        [] => table(25),
        ["rows"] => rows().iter().for_each(|r| println!("{}|{}", r.title, r.records)),
        ["count", way, title] => count(way, title),
        ["reading"] => reading::table(25),
        ["reading", rounds] => reading::table(number(rounds)),
        [rounds] => table(number(rounds)),
        _ => usage(),
    }
}
