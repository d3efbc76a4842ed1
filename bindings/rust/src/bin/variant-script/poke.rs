//! Pokes, which overwrite state words, marks or storage, and dumps of them. The places of the words are those of crates/ffi/specs/Words.antt,
//! those of the marks' numbers of crates/semantics/specs/Record.antt.
use crate::parse::{bytes, unsigned, Expected};
use crate::session::hex;
use std::fmt::{self, Write};
use variant_writer::{Storage, VariantBuilder};

/// The counts with their places, in the order of a dump, and the places of the other words before the containers.
const COUNTS: [(&str, usize); 5] = [("value_used", 0), ("names_used", 3), ("namebytes_used", 4), ("entries_used", 1), ("open", 2)];
const UNIQUE_MARK: usize = 5;
const FINISHED: usize = 6;
const FLOOR: usize = 7;
const UNDO_USED: usize = 8;
/// Where the containers begin, each of so many words, and behind them a word for each: how many elements it has, if it is a list.
const CONTAINERS: usize = 9;
const SIZE: usize = 11;
const ELEMENTS: usize = CONTAINERS + SIZE * 64;
const VALUE: usize = 0;
const ENTRIES: usize = 1;
const OPEN: usize = 2;
const NAMES: usize = 3;
const TEXT: usize = 4;
/// A container's starting marks are its first four words, in this order, and that of the undo records.
const STARTS: [&str; 4] = ["value", "names", "namebytes", "entries"];
const ENTRY: usize = 4;
const OBJECT: usize = 7;
const UNIQUE: usize = 8;
const UNDO: usize = 9;
/// How many marks are set.
const SET: usize = 10;
/// The numbers of a mark, in the order of the table.
const NUMBERS: [&str; 7] = ["value", "names", "namebytes", "entries", "undo", "count", "unique"];

/// Where the words of container i begin.
fn place(i: usize) -> usize {
    CONTAINERS + SIZE * i
}

/// Where the numbers of mark k, from 1, of container i begin in the table.
fn slot(i: usize, k: usize) -> usize {
    7 * (16 * i + k - 1)
}

/// The marks of container i made zeros.
pub fn clear_marks(b: &mut VariantBuilder, i: usize) {
    let marks = slot(i, 1)..slot(i + 1, 1);
    if b.marks()[marks.clone()].iter().any(|n| *n != 0) {
        b.marks_mut()[marks].fill(0);
    }
}

pub fn poke(b: &mut VariantBuilder, words: &[&str]) -> Expected<()> {
    let (&what, rest) = words.split_first().ok_or("what to poke")?;
    let at = |table: &[(&str, usize)]| table.iter().find(|(key, _)| *key == what).map(|(_, at)| *at);
    if let Some(at) = at(&COUNTS).or(at(&[("floor", FLOOR), ("undo_used", UNDO_USED)])) {
        b.words_mut()[at] = number(rest, 0)?;
    } else if let "unique" | "finished" = what {
        b.words_mut()[if what == "unique" { UNIQUE_MARK } else { FINISHED }] = flag(rest, 0)?;
    } else if what == "sorted" {
        // the record has no such mark: the line is taken, and changes nothing
        flag(rest, 0)?;
    } else if what == "container" {
        let i = number(rest, 0)?;
        let (counts_and_containers, elements) = b.words_mut().split_at_mut(ELEMENTS);
        let own = counts_and_containers[CONTAINERS..].chunks_mut(SIZE).nth(i).ok_or("a container from 0 to 63")?;
        container(own, &mut elements[i], &rest[1..])?;
        if rest[1] == "all" {
            clear_marks(b, i);
        }
    } else if what == "mark" {
        let (at, n) = numbered(rest)?;
        b.marks_mut()[at] = n;
    } else {
        storage(b.storage_mut(), what, rest)?;
    }
    Ok(())
}

/// The word at a place.
fn given<'s>(words: &[&'s str], at: usize) -> Expected<&'s str> {
    words.get(at).copied().ok_or_else(|| "more words".into())
}

fn number(words: &[&str], at: usize) -> Expected<usize> {
    unsigned(given(words, at)?)
}

/// 1, or anything else for 0.
fn flag(words: &[&str], at: usize) -> Expected<usize> {
    Ok((given(words, at)? == "1").into())
}

/// The place of a mark's number in the table, and what it becomes.
fn numbered(words: &[&str]) -> Expected<(usize, usize)> {
    let (i, k, key) = (number(words, 0)?, number(words, 1)?, given(words, 2)?);
    if i > 63 || !(1..=16).contains(&k) {
        return Err("a container from 0 to 63 and a mark from 1 to 16".into());
    }
    let at = NUMBERS.iter().position(|n| *n == key);
    let at = at.ok_or_else(|| format!("value, names, namebytes, entries, count, undo or unique for {key:?}"))?;
    let n = if key == "unique" { flag(words, 3)? } else { number(words, 3)? };
    Ok((slot(i, k) + at, n))
}

fn kind(words: &[&str], at: usize) -> Expected<usize> {
    match given(words, at)? {
        "list" => Ok(0),
        "object" => Ok(1),
        word => Err(format!("list or object for {word:?}")),
    }
}

/// The three words of a parent's entry.
fn entry(words: &[&str], at: usize) -> Expected<[usize; 3]> {
    match given(words, at)? {
        "new" => Ok([0; 3]),
        _ => Ok([1, number(words, at + 1)?, number(words, at + 2)?]),
    }
}

/// A container's own words, or some of them, or its elements; all is read before any is written.
fn container(own: &mut [usize], elements: &mut usize, words: &[&str]) -> Expected<()> {
    let key = given(words, 0)?;
    if let Some(at) = STARTS.iter().position(|s| *s == key) {
        own[at] = number(words, 1)?;
        return Ok(());
    }
    match key {
        "count" => *elements = number(words, 1)?,
        "undo" => own[UNDO] = number(words, 1)?,
        "marks" => own[SET] = number(words, 1)?,
        "kind" => own[OBJECT] = kind(words, 1)?,
        "unique" => own[UNIQUE] = flag(words, 1)?,
        "entry" => own[ENTRY..OBJECT].copy_from_slice(&entry(words, 1)?),
        "all" => {
            let mut all = [0; SIZE];
            for (at, n) in all[..ENTRY].iter_mut().enumerate() {
                *n = number(words, 1 + at)?;
            }
            all[OBJECT] = kind(words, 5)?;
            all[UNIQUE] = flag(words, 6)?;
            all[ENTRY..OBJECT].copy_from_slice(&entry(words, 7)?);
            own.copy_from_slice(&all);
            *elements = 0;
        }
        _ => return Err(format!("value, names, namebytes, entries, count, undo, marks, kind, unique, entry or all for {key:?}")),
    }
    Ok(())
}

fn storage(s: Storage, what: &str, words: &[&str]) -> Expected<()> {
    let buffer = match what {
        "value" => s.value,
        "namebytes" => s.text,
        "nameend" => {
            let (k, n) = (number(words, 0)?, number(words, 1)?);
            *s.ends.get_mut(k).ok_or("a name end that is lent")? = n;
            return Ok(());
        }
        "entry" | "undo" => {
            let (k, id, offset) = (number(words, 0)?, number(words, 1)?, number(words, 2)?);
            let pairs = if what == "entry" { s.entries } else { s.undo };
            let pair = pairs.chunks_exact_mut(2).nth(k).ok_or("an entry or a record that is lent")?;
            pair.copy_from_slice(&[id, offset]);
            return Ok(());
        }
        _ => return Err(format!("a field of the record or the storage for {what:?}")),
    };
    let (at, data) = (number(words, 0)?, bytes(given(words, 1)?)?);
    let end = at.checked_add(data.len()).filter(|end| *end <= buffer.len()).ok_or("bytes that end within the buffer")?;
    buffer[at..end].copy_from_slice(&data);
    Ok(())
}

/// The record and the used parts of the storage in one line, free numbers as `-`; of broken storage the record alone.
pub fn dump(b: &mut VariantBuilder, out: &mut String) {
    let (words, marks) = (b.words(), *b.marks());
    out.push_str("dump");
    for (key, at) in COUNTS {
        put(out, format_args!(" {key}={}", words[at]));
    }
    let flag = |at: usize| u8::from(words[at] != 0);
    put(out, format_args!(" unique={} sorted=- finished={}", flag(UNIQUE_MARK), flag(FINISHED)));
    put(out, format_args!(" undo_used={} floor={}", words[UNDO_USED], words[FLOOR]));
    for i in 0..words[OPEN].min(64) {
        let own = &words[place(i)..place(i + 1)];
        dump_container(i, own, words[ELEMENTS + i], out);
        for k in 1..=own[SET].min(16) {
            dump_mark(i, k, own[OBJECT] != 0, &marks[slot(i, k)..slot(i, k + 1)], out);
        }
    }
    let s = b.storage_mut();
    if broken(&words, &marks, &s) {
        out.push_str(" broken\n");
        return;
    }
    dump_storage(&words, &s, out);
    out.push('\n');
}

/// Writing into text cannot fail.
fn put(out: &mut String, words: fmt::Arguments) {
    out.write_fmt(words).unwrap_or_default();
}

fn dump_container(i: usize, own: &[usize], elements: usize, out: &mut String) {
    let kind = if own[OBJECT] != 0 { "object" } else { "list" };
    let [value, names, text, entries] = [own[0], own[1], own[2], own[3]];
    put(out, format_args!(" c{i}={kind}:{value},{names},{text},{entries}:{}:", u8::from(own[UNIQUE] != 0)));
    match (i, own[ENTRY]) {
        (0, _) => out.push('-'),
        (_, 0) => out.push_str("new"),
        _ => put(out, format_args!("replaced,{},{}", own[ENTRY + 1], own[ENTRY + 2])),
    }
    match own[OBJECT] {
        0 => put(out, format_args!(":count={elements}")),
        _ => out.push_str(":count=-"),
    }
    put(out, format_args!(":undo={}:marks={}", own[UNDO], own[SET]));
}

fn dump_mark(i: usize, k: usize, object: bool, mark: &[usize], out: &mut String) {
    let [value, names, text, entries, undo, count] = [mark[0], mark[1], mark[2], mark[3], mark[4], mark[5]];
    put(out, format_args!(" m{i}.{k}={value},{names},{text},{entries},"));
    match object {
        true => out.push('-'),
        false => put(out, format_args!("{count}")),
    }
    put(out, format_args!(",{undo}:{}", u8::from(mark[6] != 0)));
}

/// One of the numbers exceeds the one in its place.
fn exceeds(low: &[usize], high: &[usize]) -> bool {
    low.iter().zip(high).any(|(l, h)| l > h)
}

/// Number 1 of a call that reads all name ends.
fn broken(words: &[usize], marks: &[usize], s: &Storage) -> bool {
    let used = [words[VALUE], words[NAMES], words[TEXT], words[ENTRIES], words[UNDO_USED]];
    let bytes = |n: usize| n.min(u32::MAX as usize);
    let lent = [bytes(s.value.len()), s.ends.len(), bytes(s.text.len()), s.entries.len() / 2, s.undo.len() / 2];
    if exceeds(&used, &lent) || words[OPEN] > 64 || !(1..=4).contains(&words[FLOOR]) {
        return true;
    }
    let mut low = [0; 5];
    for i in 0..words[OPEN] {
        let starts = starts(words, i);
        if exceeds(&low, &starts) {
            return true;
        }
        low = starts;
    }
    let ends = &s.ends[..used[1]];
    exceeds(&low, &used)
        || miscounted(words)
        || (0..words[OPEN]).any(|i| misplaced(words, marks, i, &used))
        || !ends.is_sorted()
        || ends.last().copied().unwrap_or(0) != used[2]
}

/// The starting marks of container i.
fn starts(words: &[usize], i: usize) -> [usize; 5] {
    let own = &words[place(i)..place(i + 1)];
    [own[0], own[1], own[2], own[3], own[UNDO]]
}

/// Whether an open list counts more elements than its data has bytes, and one more for a child open in it. The starting marks are in order.
fn miscounted(words: &[usize]) -> bool {
    (0..words[OPEN]).any(|i| {
        let child = i + 1 < words[OPEN];
        let end = if child { words[place(i + 1)] } else { words[VALUE] };
        words[place(i) + OBJECT] == 0 && words[ELEMENTS + i] > end - words[place(i)] + usize::from(child)
    })
}

/// Whether container i has over 16 marks, or marks that fall, lie below its starting marks or exceed the used counts or its list's count.
fn misplaced(words: &[usize], marks: &[usize], i: usize, used: &[usize; 5]) -> bool {
    let (set, list) = (words[place(i) + SET], words[place(i) + OBJECT] == 0);
    let mut low = (starts(words, i), 0);
    for k in 1..=set.min(16) {
        let mark = &marks[slot(i, k)..slot(i, k + 1)];
        if exceeds(&low.0, mark) || list && low.1 > mark[5] {
            return true;
        }
        low = ([mark[0], mark[1], mark[2], mark[3], mark[4]], mark[5]);
    }
    set > 16 || exceeds(&low.0, used) || list && low.1 > words[ELEMENTS + i]
}

fn dump_storage(words: &[usize], s: &Storage, out: &mut String) {
    out.push_str(" value=");
    hex(&s.value[..words[VALUE]], out);
    out.push_str(" names=");
    let mut start = 0;
    for (i, end) in s.ends[..words[NAMES]].iter().enumerate() {
        out.push_str(if i == 0 { "" } else { "," });
        hex(&s.text[start..*end], out);
        start = *end;
    }
    for i in 0..words[OPEN] {
        put(out, format_args!(" e{i}="));
        if words[place(i) + OBJECT] == 0 {
            out.push('-');
            continue;
        }
        let end = if i + 1 < words[OPEN] { words[place(i + 1) + 3] } else { words[ENTRIES] };
        dump_pairs(&s.entries[2 * words[place(i) + 3]..2 * end], out);
    }
    out.push_str(" u=");
    dump_pairs(&s.undo[..2 * words[UNDO_USED]], out);
}

/// Entries or undo records: id and offset of each.
fn dump_pairs(numbers: &[usize], out: &mut String) {
    for (k, pair) in numbers.chunks(2).enumerate() {
        out.push_str(if k == 0 { "" } else { "," });
        put(out, format_args!("{}@{}", pair[0], pair[1]));
    }
}
