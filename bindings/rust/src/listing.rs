//! A readable listing of a value and its dictionary, for people. Not proved, but for the judging of the bytes.
use crate::record::{LIST, OBJECT, SHORT_TEXT};
use crate::Record;
use std::fmt::Write;

/// The dictionary's names and the value as an indented listing; `None` where `Record::read` refuses them.
pub fn listing(value: &[u8], dictionary: &[u8]) -> Option<String> {
    let record = Record::read(dictionary, value).ok()?;
    let mut out = format!("dictionary: {} names\n", record.names().len());
    for (id, name) in record.names().enumerate() {
        writeln!(out, "  {id} {}", escaped(name)).ok()?;
    }
    out.push_str("value: ");
    list(record, 1, &mut out)?;
    Some(out)
}

fn list(record: Record, depth: usize, out: &mut String) -> Option<()> {
    let (first, payload) = record.value().split_first()?;
    let indent = 2 * depth;
    match first & 3 {
        SHORT_TEXT => writeln!(out, "text {}", text(payload)).ok(),
        OBJECT => {
            writeln!(out, "object of {}", record.fields().len()).ok()?;
            record.fields().try_for_each(|(name, part)| {
                write!(out, "{:indent$}{}: ", "", escaped(name)).ok()?;
                list(part, depth + 1, out)
            })
        }
        LIST => {
            writeln!(out, "list of {}", record.elements().len()).ok()?;
            record.elements().try_for_each(|part| {
                write!(out, "{:indent$}", "").ok()?;
                list(part, depth + 1, out)
            })
        }
        _ => writeln!(out, "{}", scalar(first >> 2, payload)?).ok(),
    }
}

fn escaped(name: &[u8]) -> String {
    String::from_utf8_lossy(name).escape_debug().to_string()
}

/// A scalar by its type's code, from its payload.
fn scalar(code: u8, payload: &[u8]) -> Option<String> {
    let signed = |at: usize, size: usize| -> Option<i128> {
        let stored = payload.get(at..at + size)?;
        let n = stored.iter().rev().fold(0u128, |n, b| n << 8 | u128::from(*b));
        Some((n << (128 - 8 * size)) as i128 >> (128 - 8 * size))
    };
    let decimal = |size| Some(point(signed(1, size)?, usize::from(payload[0])));
    let moment = |unit: i128, zone: &str| Some(timestamp(signed(0, 8)?, unit, zone));
    let bytes = || payload.get(4..);
    Some(match code {
        0 => "null".into(),
        1 => "true".into(),
        2 => "false".into(),
        3..=6 => format!("int{} {}", 8 << (code - 3), signed(0, 1 << (code - 3))?),
        7 => format!("double {:?}", f64::from_bits(signed(0, 8)? as u64)),
        8..=10 => format!("decimal{} {}", 4 << (code - 8), decimal(4 << (code - 8))?),
        11 => format!("date {}", date(signed(0, 4)?)),
        12 => moment(1_000_000, " UTC")?,
        13 => moment(1_000_000, "")?,
        14 => format!("float {:?}", f32::from_bits(signed(0, 4)? as u32)),
        15 => format!("binary {}", hex(bytes()?)),
        16 => format!("String {}", text(bytes()?)),
        17 => format!("time {}", clock(signed(0, 8)?, 1_000_000)),
        18 => moment(1_000_000_000, " UTC")?,
        19 => moment(1_000_000_000, "")?,
        20 => format!("uuid {}", hex(payload.get(..16)?)),
        _ => return None,
    })
}

fn text(bytes: &[u8]) -> String {
    format!("{:?}", String::from_utf8_lossy(bytes))
}

fn hex(bytes: &[u8]) -> String {
    bytes.iter().map(|b| format!("{b:02x}")).collect()
}

/// A decimal with its point.
fn point(integer: i128, scale: usize) -> String {
    let digits = format!("{:0>1$}", integer.unsigned_abs(), scale + 1);
    let (whole, part) = digits.split_at(digits.len() - scale);
    let sign = if integer < 0 { "-" } else { "" };
    let dot = if scale == 0 { "" } else { "." };
    format!("{sign}{whole}{dot}{part}")
}

fn timestamp(n: i128, unit: i128, zone: &str) -> String {
    let day = 86_400 * unit;
    format!("timestamp {} {}{zone}", date(n.div_euclid(day)), clock(n.rem_euclid(day), unit))
}

/// A time of the day, in parts of a second.
fn clock(n: i128, unit: i128) -> String {
    let (seconds, part) = (n.div_euclid(unit), n.rem_euclid(unit));
    let digits = unit.ilog10() as usize;
    format!("{:02}:{:02}:{:02}.{part:0digits$}", seconds / 3600, seconds / 60 % 60, seconds % 60)
}

/// The date of a day counted from 1970, by the Gregorian calendar; years run from March, in eras of 400.
fn date(day: i128) -> String {
    let from_era = day + 719_468;
    let (era, d) = (from_era.div_euclid(146_097), from_era.rem_euclid(146_097));
    let year = (d - d / 1_460 + d / 36_524 - d / 146_096) / 365;
    let d = d - (365 * year + year / 4 - year / 100);
    let month = (5 * d + 2) / 153;
    let (y, m) = (400 * era + year, if month < 10 { month + 3 } else { month - 9 });
    format!("{:04}-{m:02}-{:02}", if m <= 2 { y + 1 } else { y }, d - (153 * month + 2) / 5 + 1)
}
