//! How long it takes to judge records, as `Record::read` does.
use crate::cases::{names, scans, Order};
use crate::{plain::PlainBuilder, row, Case, Row, BLOCK, RECORDS};
use std::hint::black_box;
use std::time::Instant;
use variant_writer::Record;

/// A dictionary and a value.
type Pair = (Vec<u8>, Vec<u8>);

fn rows() -> [Row; 4] {
    [
        row("8 mixed fields".into(), Case::Scans(scans(RECORDS)), RECORDS, 8, 8),
        row("16,000 fields, mixed".into(), Case::Fields(names(16_000, 8, Order::Mixed), false), 1, 16_000, 8),
        row("64 objects of 250 fields in each other".into(), Case::Wide(64, names(249, 8, Order::Mixed)), 1, 16_000, 8),
        row("list of 100,000".into(), Case::List(100_000), 1, 100_000, 0),
    ]
}

/// The records of a row, written.
fn written(row: &Row) -> Vec<Pair> {
    let mut p = PlainBuilder::new(true);
    let pair = |i| {
        p.clear();
        row.case.write(&mut p, i);
        (p.dictionary().to_vec(), p.value().to_vec())
    };
    (0..row.records).map(pair).collect()
}

/// The time for a record, in nanoseconds: of each block the best of all rounds.
fn measure(pairs: &[Pair], rounds: usize) -> f64 {
    let once = |block: &[Pair]| {
        let start = Instant::now();
        for (dictionary, value) in black_box(block) {
            assert!(Record::read(dictionary, value).is_ok());
        }
        start.elapsed().as_nanos() as f64
    };
    let best = |block| (0..rounds).map(|_| once(block)).fold(f64::INFINITY, f64::min);
    pairs.chunks(BLOCK).map(best).sum::<f64>() / pairs.len() as f64
}

pub fn table(rounds: usize) {
    println!("| Record | bytes | judged | a byte |");
    println!("|---|---|---|---|");
    for row in rows() {
        let pairs = written(&row);
        let bytes = pairs.iter().map(|(dictionary, value)| dictionary.len() + value.len()).sum::<usize>() as f64 / pairs.len() as f64;
        let time = measure(&pairs, rounds);
        println!("| {} | {bytes:.0} | {time:.0} | {:.2} |", row.title, time / bytes);
    }
}
