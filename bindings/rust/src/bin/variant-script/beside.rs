//! The calls that need no builder.
use crate::parse::{bytes, date, packed, scale, signed, signed64, unsigned, Expected};
use crate::session::{buffer, hex, output, setting};
use crate::sha256::sha256;
use std::fmt::Write;
use variant_writer::{
    batch_add, batch_start, find_field, find_first_integer, write_packed_decimal, write_small_values, BatchReader, Date, Record, Refusal,
    VariantBuilder,
};

pub const VERBS: [&str; 11] =
    ["days", "civil", "packdec", "readdec", "batchstart", "batchadd", "batchread", "read", "field", "firstint", "small"];

/// Adds the answer line: what the call tells, or the refusal.
pub fn answer(verb: &str, rest: &[&str], out: &mut String) -> Expected<()> {
    let told = match verb {
        "read" | "field" | "firstint" => of_record(verb, rest)?,
        _ => told(verb, rest)?.map(|told| format!("ok {told}")),
    };
    match told {
        Ok(told) => writeln!(out, "{told}"),
        Err(refusal) => writeln!(out, "refused {}", refusal.number()),
    }
    .map_err(|e| e.to_string())
}

/// What stands behind the `ok` of an answer.
fn told(verb: &str, rest: &[&str]) -> Expected<Result<String, Refusal>> {
    Ok(match (verb, rest) {
        ("days", [y, m, d]) => date(y, m, d)?.days().map(|n| n.to_string()),
        ("days", _) => return Err("days Y M D".into()),
        ("civil", [n]) => Date::from_days(signed64(n)?).map(|d| format!("{} {} {}", d.year, d.month, d.day)),
        ("civil", _) => return Err("civil N".into()),
        ("packdec", [s, n, rest @ ..]) if rest.len() <= 1 => form(scale(s)?, signed(n, 128)?, output(rest)?),
        ("packdec", _) => return Err("packdec SCALE N [out=N]".into()),
        ("readdec", _) => {
            let (scale, bytes) = packed(rest)?;
            decimal(scale, &bytes)
        }
        ("batchstart", _) => {
            let [size] = words(rest, &["out"], ["4096"])?;
            let mut file = buffer(unsigned(size)?)?;
            batch_start(&mut file).map(|used| used_bytes(&file, used))
        }
        ("batchadd", _) => added(rest)?,
        ("small", [length, rest @ ..]) => {
            let [size] = words(rest, &["out"], ["2000000"])?;
            small(unsigned(length)?, buffer(unsigned(size)?)?)
        }
        ("small", _) => return Err("small LENGTH [out=N]".into()),
        _ => {
            let [file] = words(rest, &["file"], [""])?;
            records(&bytes(file)?)
        }
    })
}

/// The answer to a call that judges a dictionary and a value.
fn of_record(verb: &str, rest: &[&str]) -> Expected<Result<String, Refusal>> {
    let keys = if verb == "field" { &["value", "dict", "name"][..] } else { &["value", "dict"] };
    let [value, dictionary, name] = byte_words(rest, keys)?;
    let none = || "none".into();
    Ok(match verb {
        "read" => Record::read(&dictionary, &value).map(|_| "ok".into()),
        "field" => find_field(&dictionary, &value, &name)
            .map(|found| found.map_or_else(none, |place| format!("ok at={} len={}", place.start, place.len()))),
        _ => find_first_integer(&dictionary, &value)
            .map(|found| found.map_or_else(none, |(id, number)| format!("ok id={id} number={number}"))),
    })
}

/// The bytes of words KEY=BYTES; a key alone has none, as one that is left out, and of one that comes again the last counts.
fn byte_words(rest: &[&str], keys: &[&str]) -> Expected<[Vec<u8>; 3]> {
    let mut given = [const { Vec::new() }; 3];
    for word in rest {
        let alone = keys.iter().position(|key| key == word).map(|at| (at, ""));
        let (at, digits) = alone.map_or_else(|| setting(word, keys), Ok)?;
        given[at] = bytes(digits)?;
    }
    Ok(given)
}

fn hexadecimal(bytes: &[u8]) -> String {
    let mut digits = String::new();
    hex(bytes, &mut digits);
    digits
}

/// The small values of a length: how many, the bytes of their file, and its digest.
fn small(length: usize, mut out: Vec<u8>) -> Result<String, Refusal> {
    let written = write_small_values(length, &mut out)?;
    let count = BatchReader::new(&out[..written])?.count();
    Ok(format!("count={count} bytes={written} sha256={}", hexadecimal(&sha256(&out[..written]))))
}

/// The packed decimal of a number.
fn form(scale: u8, integer: i128, mut out: Vec<u8>) -> Result<String, Refusal> {
    let written = write_packed_decimal(integer, scale, &mut out)?;
    Ok(hexadecimal(&out[..written]))
}

/// The decimal that is stored for packed decimal, read off a builder's value: a first byte, the scale and the integer.
fn decimal(scale: u8, bytes: &[u8]) -> Result<String, Refusal> {
    let mut builder = VariantBuilder::with_capacity(18, 0, 0, 0);
    builder.append_packed(None, scale, bytes)?;
    let value = builder.value();
    let (code, integer) = (value[0] >> 2, &value[2..]);
    let sign = if integer.last().is_some_and(|top| top >> 7 == 1) { -1 } else { 0 };
    let integer = integer.iter().rev().fold(sign, |n: i128, byte| n << 8 | i128::from(*byte));
    Ok(format!("dec{} {} {integer}", 4 << (code - 8), value[1]))
}

/// The words KEY=WORD over the default words; of a key that comes again the last counts.
fn words<'s, const K: usize>(rest: &[&'s str], keys: &[&str; K], mut words: [&'s str; K]) -> Expected<[&'s str; K]> {
    for word in rest {
        let (at, word) = setting(word, keys)?;
        words[at] = word;
    }
    Ok(words)
}

fn used_bytes(file: &[u8], used: usize) -> String {
    format!("file={}", hexadecimal(&file[..used]))
}

/// A record behind all bytes of a file, in a buffer of the size that the call says: where that is less, the used count exceeds it.
fn added(rest: &[&str]) -> Expected<Result<String, Refusal>> {
    let [file, dictionary, value, size] = words(rest, &["file", "dict", "value", "out"], ["", "", "", "4096"])?;
    let (file, dictionary, value) = (bytes(file)?, bytes(dictionary)?, bytes(value)?);
    let mut lent = buffer(unsigned(size)?)?;
    let held = file.len().min(lent.len());
    lent[..held].copy_from_slice(&file[..held]);
    Ok(batch_add(&mut lent, file.len(), &dictionary, &value).map(|used| used_bytes(&lent, used)))
}

/// A file's records, a bad one as its number, and the length of its tail.
fn records(file: &[u8]) -> Result<String, Refusal> {
    let reader = BatchReader::new(file)?;
    let tail = reader.tail();
    let shown: Vec<String> = reader
        .map(|record| match record {
            Ok(record) => format!("{}/{} ", hexadecimal(record.dictionary), hexadecimal(record.value)),
            Err(refusal) => format!("!{} ", refusal.number()),
        })
        .collect();
    Ok(format!("records={} {}tail={tail}", shown.len(), shown.concat()))
}
