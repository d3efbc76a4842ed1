//! The words of a script: numbers, bytes and scalars. An error says what was expected.
use variant_writer::{Civil, Date, Variant};

pub type Expected<T> = Result<T, String>;

/// A whole number in base 10 or 16 as Python takes it: a sign or none, then in base 16 `0x` or none, single underscores between digits.
fn integer(word: &str, base: u32) -> Option<i128> {
    let digits = word.strip_prefix(['+', '-']).unwrap_or(word);
    let hexadecimal = digits.strip_prefix("0x").or(digits.strip_prefix("0X")).filter(|_| base == 16);
    let digits = hexadecimal.map_or(digits, |d| d.strip_prefix('_').unwrap_or(d));
    let plain = digits.split('_').all(|part| !part.is_empty() && part.bytes().all(|d| d.is_ascii_hexdigit()));
    let sign = if word.starts_with('-') { "-" } else { "" };
    i128::from_str_radix(&format!("{sign}{}", digits.replace('_', "")), base).ok().filter(|_| plain)
}

/// A number of so many bits, with a sign.
pub fn signed(word: &str, bits: u32) -> Expected<i128> {
    let top = i128::MAX >> (128 - bits);
    integer(word, 10).filter(|n| (-top - 1..=top).contains(n)).ok_or_else(|| format!("a number of {bits} bits, with a sign, for {word:?}"))
}

pub fn signed64(word: &str) -> Expected<i64> {
    Ok(signed(word, 64)? as i64)
}

/// A number from 0 to 2^64 - 1.
pub fn unsigned(word: &str) -> Expected<usize> {
    let n = integer(word, 10).and_then(|n| n.try_into().ok());
    n.ok_or_else(|| format!("a number from 0 to 2^64 - 1 for {word:?}"))
}

/// A float's bits, in hexadecimal.
fn bits(word: &str, size: u32) -> Expected<u64> {
    let n = integer(word, 16).filter(|n| n >> size == 0);
    n.map(|n| n as u64).ok_or_else(|| format!("{size} bits in hexadecimal for {word:?}"))
}

/// HEX, or COUNTxHEX for HEX repeated.
pub fn bytes(word: &str) -> Expected<Vec<u8>> {
    let expected = || format!("hexadecimal bytes or COUNTxHEX for {word:?}");
    let (count, digits) = match word.split_once('x') {
        Some((count, digits)) => (unsigned(count)?, digits),
        None => (1, word),
    };
    let once = hexadecimal(digits).ok_or_else(expected)?;
    let len = once.len().checked_mul(count).filter(|n| room::<u8>(*n)).ok_or_else(expected)?;
    match once[..] {
        [byte] => Ok(vec![byte; len]),
        _ if len == once.len() => Ok(once),
        _ => Ok(once.repeat(count)),
    }
}

fn hexadecimal(digits: &str) -> Option<Vec<u8>> {
    let digit = |d: u8| (d as char).to_digit(16);
    let pair = |p: &[u8]| Some((digit(p[0])? << 4 | digit(*p.get(1)?)?) as u8);
    digits.as_bytes().chunks(2).map(pair).collect()
}

/// Whether memory for so many can be had.
pub fn room<T>(n: usize) -> bool {
    Vec::<T>::new().try_reserve_exact(n).is_ok()
}

/// A call's name, and the words after it.
pub fn name<'w, 's>(rest: &'w [&'s str]) -> Expected<(Option<Vec<u8>>, &'w [&'s str])> {
    match rest {
        ["-", rest @ ..] => Ok((None, rest)),
        [word, rest @ ..] if word.starts_with("name=") => Ok((Some(bytes(&word[5..])?), rest)),
        _ => Ok((None, rest)),
    }
}

/// A scalar; `hold` gets the bytes of one that has bytes.
pub fn scalar<'h>(words: &[&str], hold: &'h mut Vec<u8>) -> Expected<Variant<'h>> {
    use Variant::*;
    Ok(match *words {
        ["null"] => Null,
        ["true"] => BooleanTrue,
        ["false"] => BooleanFalse,
        ["int8", n] => Int8(signed(n, 8)? as i8),
        ["int16", n] => Int16(signed(n, 16)? as i16),
        ["int32", n] => Int32(signed(n, 32)? as i32),
        ["int64", n] => Int64(signed64(n)?),
        ["date", n] => Date(signed(n, 32)? as i32),
        ["time", n] => Time(signed64(n)?),
        ["tsmicros", n] => TimestampMicros(signed64(n)?),
        ["tsntzmicros", n] => TimestampNtzMicros(signed64(n)?),
        ["tsnanos", n] => TimestampNanos(signed64(n)?),
        ["tsntznanos", n] => TimestampNtzNanos(signed64(n)?),
        ["float", n] => Float(f32::from_bits(bits(n, 32)? as u32)),
        ["double", n] => Double(f64::from_bits(bits(n, 64)?)),
        ["dec4", s, n] => Decimal4 { scale: scale(s)?, integer: signed(n, 32)? as i32 },
        ["dec8", s, n] => Decimal8 { scale: scale(s)?, integer: signed64(n)? },
        ["dec16", s, n] => Decimal16 { scale: scale(s)?, integer: signed(n, 128)? },
        [kind] => held(kind, "", hold)?,
        [kind, word] => held(kind, word, hold)?,
        _ => return Err(unknown(words)),
    })
}

/// A date, or one and a time of day.
pub fn civil(words: &[&str]) -> Expected<Civil> {
    Ok(match *words {
        ["ymd", y, m, d] => Civil::Date(date(y, m, d)?),
        ["ymdts", y, m, d, time] => Civil::TimestampMicros(date(y, m, d)?, signed64(time)?),
        ["ymdtsntz", y, m, d, time] => Civil::TimestampNtzMicros(date(y, m, d)?, signed64(time)?),
        _ => return Err(unknown(words)),
    })
}

pub fn date(year: &str, month: &str, day: &str) -> Expected<Date> {
    Ok(Date { year: signed64(year)?, month: signed64(month)?, day: signed64(day)? })
}

fn unknown(words: &[&str]) -> String {
    format!("a scalar (as `null`, `int8 N`, `dec4 SCALE N`, `text BYTES`) for {:?}", words.join(" "))
}

pub fn scale(word: &str) -> Expected<u8> {
    unsigned(word)?.try_into().map_err(|_| format!("a scale from 0 to 255 for {word:?}"))
}

/// The scale and the bytes of packed decimal.
pub fn packed(words: &[&str]) -> Expected<(u8, Vec<u8>)> {
    match *words {
        [s] => Ok((scale(s)?, Vec::new())),
        [s, word] => Ok((scale(s)?, bytes(word)?)),
        _ => Err(format!("SCALE [BYTES] for {:?}", words.join(" "))),
    }
}

/// A scalar that has bytes.
fn held<'h>(kind: &str, word: &str, hold: &'h mut Vec<u8>) -> Expected<Variant<'h>> {
    if !["binary", "string", "short", "text", "uuid"].contains(&kind) {
        return Err(unknown(&[kind, word]));
    }
    *hold = bytes(word)?;
    Ok(match kind {
        "binary" => Variant::Binary(hold),
        "string" => Variant::String(hold),
        "short" => Variant::ShortString(hold),
        "text" => Variant::Text(hold),
        _ => Variant::Uuid(hold[..].try_into().map_err(|_| "16 bytes of a UUID")?),
    })
}
