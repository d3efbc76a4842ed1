//! A run of calls: each line's call made, and its answer worded.
use crate::parse::{bytes, civil, name, packed, room, scalar, unsigned, Expected};
use crate::{beside, poke};
use std::fmt::Write;
use variant_writer::{listing, Refusal, VariantBuilder};

const VERBS: &str = "a call: new, register, append, open, close, rollback, unique, mark, return, finish, days, civil, packdec, readdec, \
    batchstart, batchadd, batchread, read, field, firstint, small, poke, dump or dumpvalue";
const SETTINGS: [&str; 8] = ["unique", "value", "namebytes", "names", "entries", "fill", "floor", "undo"];

pub struct Session {
    builder: Option<VariantBuilder<'static>>,
    listing: bool,
}

impl Session {
    pub fn new(listing: bool) -> Self {
        Session { builder: None, listing }
    }

    /// Makes the line's call and adds its answer line; of a line without a call, nothing.
    pub fn answer(&mut self, line: &str, out: &mut String) -> Expected<()> {
        let said = line.split('#').next().unwrap_or("");
        let words: Vec<&str> = said.split(blank).filter(|word| !word.is_empty()).collect();
        let Some((&verb, rest)) = words.split_first() else { return Ok(()) };
        match (verb, &mut self.builder) {
            ("new", _) => self.start(settings(rest, &SETTINGS, [0, 4096, 1024, 64, 256, 0, 1, 64])?, out),
            _ if beside::VERBS.contains(&verb) => beside::answer(verb, rest, out),
            (_, Some(builder)) => answer_on(builder, verb, rest, self.listing, out),
            (_, None) => answer_without(verb, rest, out),
        }
    }

    /// A fresh builder, over storage all filled; a refused one leaves none.
    fn start(&mut self, [unique, value, text, names, entries, fill, floor, undo]: [usize; 8], out: &mut String) -> Expected<()> {
        let mut builder = lent(self.builder.take(), [value, text, names, entries, undo], fill)?;
        builder.words_mut().fill(0);
        if builder.marks().iter().any(|n| *n != 0) {
            builder.marks_mut().fill(0);
        }
        match builder.reset_with_floor(unique != 0, floor) {
            Ok(()) => {
                self.builder = Some(builder);
                out.push_str("new\n");
            }
            refused => word(refused, out),
        }
        Ok(())
    }
}

/// A builder over storage of these sizes, filled: the old one's where it has them.
fn lent(old: Option<VariantBuilder<'static>>, sizes: [usize; 5], fill: usize) -> Expected<VariantBuilder<'static>> {
    let (byte, [value, text, names, entries, undo]) = (fill as u8, sizes);
    if let Some(mut builder) = old {
        let s = builder.storage_mut();
        if [s.value.len(), s.text.len(), s.ends.len(), s.entries.len(), s.undo.len()] == sizes {
            s.value.fill(byte);
            s.text.fill(byte);
            s.ends.fill(fill);
            s.entries.fill(fill);
            s.undo.fill(fill);
            return Ok(builder);
        }
    }
    if ![value, text].into_iter().all(room::<u8>) || ![names, entries, undo].into_iter().all(room::<usize>) {
        return Err("storage of a size that memory has".into());
    }
    let builder = VariantBuilder::lend(vec![byte; value], vec![byte; text], vec![fill; names], vec![fill; entries]);
    Ok(builder.lend_undo(vec![fill; undo]))
}

/// The answer to a line but `new`: its call, poke or dump made on the builder.
fn answer_on(builder: &mut VariantBuilder, verb: &str, rest: &[&str], listing: bool, out: &mut String) -> Expected<()> {
    match (verb, rest) {
        ("finish", _) => finish(builder, rest, listing, out)?,
        ("poke", _) => {
            poke::poke(builder, rest)?;
            out.push_str("poked\n");
        }
        ("dump", []) => poke::dump(builder, out),
        ("dumpvalue", []) => {
            out.push_str("value ");
            hex(builder.storage_mut().value, out);
            out.push('\n');
        }
        _ => word(call(builder, verb, rest)?, out),
    }
    Ok(())
}

/// The same where there is no builder. A line that is no call is found out on one without storage; of a poke, which may fit or not by
/// the storage, nothing is read.
fn answer_without(verb: &str, rest: &[&str], out: &mut String) -> Expected<()> {
    if verb != "poke" || rest.is_empty() {
        answer_on(&mut VariantBuilder::with_capacity(0, 0, 0, 0), verb, rest, false, &mut String::new())?;
    }
    out.push_str("no builder\n");
    Ok(())
}

/// What parts words, as Python has it: white space, and the four separators of ASCII.
fn blank(c: char) -> bool {
    c.is_whitespace() || ('\x1c'..='\x1f').contains(&c)
}

/// The words KEY=N over the default numbers.
fn settings<const K: usize>(rest: &[&str], keys: &[&str; K], mut numbers: [usize; K]) -> Expected<[usize; K]> {
    for word in rest {
        let (at, n) = setting(word, keys)?;
        numbers[at] = unsigned(n)?;
    }
    Ok(numbers)
}

/// A word KEY=SETTING: the key's place, and the setting.
pub fn setting<'s>(word: &'s str, keys: &[&str]) -> Expected<(usize, &'s str)> {
    let parted = word.split_once('=').and_then(|(key, setting)| Some((keys.iter().position(|k| *k == key)?, setting)));
    parted.ok_or_else(|| format!("KEY=.., KEY one of {}, for {word:?}", keys.join(" ")))
}

/// The calls whose answer is `ok` or a refusal. A line that is no call changes nothing.
fn call(b: &mut VariantBuilder, verb: &str, rest: &[&str]) -> Expected<Result<(), Refusal>> {
    Ok(match (verb, rest) {
        ("register", []) => b.add_field_name(&[]),
        ("register", [word, ..]) => b.add_field_name(&bytes(word)?),
        ("append", _) => append(b, rest)?,
        ("open", _) => open(b, rest)?,
        ("close", []) => close(b),
        ("rollback", []) => b.rollback(),
        ("unique", ["0"]) => b.with_validate_unique_fields(false),
        ("unique", ["1"]) => b.with_validate_unique_fields(true),
        ("unique", _) => return Err("unique 0|1".into()),
        ("mark", []) => b.mark().map(|_| ()),
        ("return", [n]) if n.bytes().all(|d| d.is_ascii_digit()) => b.return_to(unsigned(n)?),
        ("return", _) => return Err("return N, N in digits alone".into()),
        ("close" | "rollback" | "mark" | "dump" | "dumpvalue", _) => return Err(format!("nothing after `{verb}`")),
        _ => return Err(format!("{VERBS}, for {verb:?}")),
    })
}

/// What the table of marks holds for a container that has none yet is free: it is made zeros, as the model has it.
fn open(b: &mut VariantBuilder, rest: &[&str]) -> Expected<Result<(), Refusal>> {
    let depth = b.words()[2];
    let opened = match name(rest)? {
        (name, ["list"]) => b.new_list(name.as_deref()),
        (name, ["object"]) => b.new_object(name.as_deref()),
        _ => return Err("open [name=BYTES|-] list|object".into()),
    };
    if opened.is_ok() {
        poke::clear_marks(b, depth);
    }
    Ok(opened)
}

fn append(b: &mut VariantBuilder, rest: &[&str]) -> Expected<Result<(), Refusal>> {
    let (name, words) = name(rest)?;
    let name = name.as_deref();
    Ok(match words {
        ["ymd" | "ymdts" | "ymdtsntz", ..] => b.append_civil(name, civil(words)?),
        ["packed", words @ ..] => {
            let (scale, bytes) = packed(words)?;
            b.append_packed(name, scale, &bytes)
        }
        _ => b.append_value(name, scalar(words, &mut Vec::new())?),
    })
}

/// Document 01 leaves free what a close leaves in the entries that it frees: they are put back, since the model does not sort them in place.
fn close(b: &mut VariantBuilder) -> Result<(), Refusal> {
    let numbers = b.words()[1].saturating_mul(2);
    let entries = b.storage_mut().entries;
    let before = entries[..numbers.min(entries.len())].to_vec();
    b.close()?;
    b.storage_mut().entries[..before.len()].copy_from_slice(&before);
    Ok(())
}

fn finish(b: &mut VariantBuilder, rest: &[&str], list: bool, out: &mut String) -> Expected<()> {
    let mut dictionary = output(rest)?;
    let finished = b.finish(&mut dictionary);
    let Ok(written) = finished else {
        word(finished.map(|_| ()), out);
        return Ok(());
    };
    let dictionary = &dictionary[..written];
    out.push_str("ok value=");
    hex(b.value(), out);
    out.push_str(" dict=");
    hex(dictionary, out);
    out.push('\n');
    if list {
        out.push_str(&listing(b.value(), dictionary).unwrap_or("no listing: the bytes are no Variant\n".into()));
    }
    Ok(())
}

/// The output of a call, of the size that it says.
pub fn output(rest: &[&str]) -> Expected<Vec<u8>> {
    let [size] = settings(rest, &["out"], [4096])?;
    buffer(size)
}

/// Zeros to be lent.
pub fn buffer(size: usize) -> Expected<Vec<u8>> {
    if !room::<u8>(size) {
        return Err("an output of a size that memory has".into());
    }
    Ok(vec![0; size])
}

fn word(answer: Result<(), Refusal>, out: &mut String) {
    match answer {
        Ok(()) => out.push_str("ok\n"),
        Err(refusal) => writeln!(out, "refused {}", refusal.number()).unwrap_or_default(),
    }
}

pub fn hex(bytes: &[u8], out: &mut String) {
    const DIGITS: &[u8; 16] = b"0123456789abcdef";
    out.reserve(2 * bytes.len());
    for b in bytes {
        out.push(DIGITS[usize::from(b >> 4)] as char);
        out.push(DIGITS[usize::from(b & 15)] as char);
    }
}
