// Licensed to the Apache Software Foundation (ASF) under one
// or more contributor license agreements.  See the NOTICE file
// distributed with this work for additional information
// regarding copyright ownership.  The ASF licenses this file
// to you under the Apache License, Version 2.0 (the
// "License"); you may not use this file except in compliance
// with the License.  You may obtain a copy of the License at
//
//   http://www.apache.org/licenses/LICENSE-2.0
//
// Unless required by applicable law or agreed to in writing,
// software distributed under the License is distributed on an
// "AS IS" BASIS, WITHOUT WARRANTIES OR CONDITIONS OF ANY
// KIND, either express or implied.  See the License for the
// specific language governing permissions and limitations
// under the License.

// The names of the calls are derived from `VariantBuilder`, `ListBuilder` and `ObjectBuilder` of parquet-variant 60.1.0, src/builder.rs,
// src/builder/list.rs and src/builder/object.rs (see NOTICE). Changed: one builder over storage that does not grow, calls linked.
use crate::variant::Numbers;
use crate::words::Words;
use crate::{sys, Civil, Refusal, Variant, MARKS, WORDS};
use std::ops::{Deref, DerefMut};

/// How many undo records a builder of its own has room for.
const UNDO_RECORDS: usize = 32;

/// The table of marks of every builder in which none was set yet.
static NO_MARKS: [usize; MARKS] = [0; MARKS];

/// One of the five storages: the builder's own, or lent.
pub enum Buffer<'a, T> {
    Owned(Vec<T>),
    Lent(&'a mut [T]),
}

/// The five storages as slices: value bytes, name bytes, the end of each name, the entries, one for each field of an open object, of two
/// numbers, id and offset, and the undo records, one for each field replaced under a mark, of two numbers, id and former offset.
pub struct Storage<'b> {
    pub value: &'b mut [u8],
    pub text: &'b mut [u8],
    pub ends: &'b mut [usize],
    pub entries: &'b mut [usize],
    pub undo: &'b mut [usize],
}

/// A builder of one Variant value and its dictionary, over storage of its own or lent.
///
/// Storage does not grow: a call for which it is too small is refused with 12 (names), 13 (entries), 14 (value bytes) or 23 (undo records),
/// and may be made again after `grow` or `grow_undo`. A refused call changes nothing. A name is `Some` in an object and `None` elsewhere.
///
/// A field takes an entry until its object is closed or rolled back. A list takes none, however long it is: of storage it needs its
/// value bytes alone.
///
/// `mark` and `return_to` take back what came into the innermost container since then. A builder in which no mark is set has no table of
/// marks and, unless `lend_undo` gave it one, no undo storage: the first mark makes them, and `reset` keeps them.
///
/// Offsets, ids and the dictionary's numbers take as few bytes as hold them, but no fewer than the floor: 1, or what `with_floor`,
/// `lend_with_floor` or `reset_with_floor` was given, 1 to 4. Containers' counts and the lengths of Binary and String do not follow it.
pub struct VariantBuilder<'a> {
    words: Words,
    /// `words_mut` wrote each of them
    whole: bool,
    value: Buffer<'a, u8>,
    text: Buffer<'a, u8>,
    ends: Buffer<'a, usize>,
    entries: Buffer<'a, usize>,
    /// none before the first mark, unless it was lent
    undo: Option<Buffer<'a, usize>>,
    /// none before the first mark
    marks: Option<Box<[usize; MARKS]>>,
    /// the floor that it was made with, 1 to 4
    floor: usize,
}

/// A linked call over the builder's words, marks and storage, then the arguments given; the marks are read, or those named are written.
macro_rules! call {
    ($b:ident . $f:ident ($($x:expr),*)) => {
        call!($b.$f[$b.marks.as_deref().unwrap_or(&NO_MARKS)]($($x),*))
    };
    ($b:ident . $f:ident [$marks:expr] ($($x:expr),*)) => {{
        let (value, text, ends, entries) = (&mut *$b.value, &mut *$b.text, &mut *$b.ends, &mut *$b.entries);
        let undo = $b.undo.as_deref_mut().unwrap_or_default();
        // SAFETY: the pointers are those of slices and arrays borrowed here, the written ones mutably, so apart from all others
        let number = unsafe {
            sys::$f(
                $b.words.as_mut_ptr(),
                $marks,
                value.as_mut_ptr(), value.len(),
                text.as_mut_ptr(), text.len(),
                ends.as_mut_ptr(), ends.len(),
                entries.as_mut_ptr(), entries.len(),
                undo.as_mut_ptr(), undo.len(),
                $($x),*
            )
        };
        answer(number)
    }};
}

/// A linked call's answer: only 0 is done, whatever other numbers there are.
pub(crate) fn answer(number: u8) -> Result<(), Refusal> {
    Refusal::of(number).map_or(Ok(()), Err)
}

impl VariantBuilder<'static> {
    /// With room for 4096 value bytes, 64 names of 1024 bytes together, 128 fields in the objects open at one time, and 32 undo records.
    pub fn new() -> Self {
        Self::with_capacity(4096, 1024, 64, 128)
    }

    /// With room for so many value bytes, name bytes, names, and entries: fields in the objects open at one time; and for 32 undo records.
    pub fn with_capacity(value: usize, text: usize, names: usize, entries: usize) -> Self {
        Self::lend(vec![0; value], vec![0; text], vec![0; names], vec![0; 2 * entries])
    }

    /// As `new`, with this floor. One that is not 1 to 4 is refused with 24, and nothing is made.
    pub fn with_floor(floor: usize) -> Result<Self, Refusal> {
        Self::new().at_floor(floor)
    }

    /// Larger storage of the builder's own, with what it holds; none gets smaller.
    pub fn grow(&mut self, value: usize, text: usize, names: usize, entries: usize) {
        self.value.grow(value);
        self.text.grow(text);
        self.ends.grow(names);
        self.entries.grow(2 * entries);
    }

    /// Room for so many undo records, if it is more than before.
    pub fn grow_undo(&mut self, records: usize) {
        self.own_undo().grow(2 * records);
    }
}

impl Default for VariantBuilder<'static> {
    fn default() -> Self {
        Self::new()
    }
}

impl<'a> VariantBuilder<'a> {
    /// Over lent storage, of any size and content: value bytes, name bytes, a number for each name, two numbers for each entry.
    pub fn lend(
        value: impl Into<Buffer<'a, u8>>,
        text: impl Into<Buffer<'a, u8>>,
        ends: impl Into<Buffer<'a, usize>>,
        entries: impl Into<Buffer<'a, usize>>,
    ) -> Self {
        let (value, text, ends, entries) = (value.into(), text.into(), ends.into(), entries.into());
        let mut builder =
            VariantBuilder { words: Words::unwritten(), whole: false, value, text, ends, entries, undo: None, marks: None, floor: 1 };
        builder.reset(false);
        builder
    }

    /// With this undo storage, of any size and content: two numbers for each record. Without it a builder has room for 32 of its own.
    pub fn lend_undo(mut self, undo: impl Into<Buffer<'a, usize>>) -> Self {
        self.undo = Some(undo.into());
        self
    }

    /// The undo storage; the builder's own where none was lent.
    fn own_undo(&mut self) -> &mut Buffer<'a, usize> {
        self.undo.get_or_insert_with(|| vec![0; 2 * UNDO_RECORDS].into())
    }

    /// As `lend`, with this floor. One that is not 1 to 4 is refused with 24, and nothing is made.
    pub fn lend_with_floor(
        value: impl Into<Buffer<'a, u8>>,
        text: impl Into<Buffer<'a, u8>>,
        ends: impl Into<Buffer<'a, usize>>,
        entries: impl Into<Buffer<'a, usize>>,
        floor: usize,
    ) -> Result<Self, Refusal> {
        Self::lend(value, text, ends, entries).at_floor(floor)
    }

    fn at_floor(mut self, floor: usize) -> Result<Self, Refusal> {
        self.reset_with_floor(false, floor)?;
        Ok(self)
    }

    /// A fresh builder over the same storage, with the same floor; objects start with this uniqueness mark (`new` and `lend`: off).
    pub fn reset(&mut self, unique: bool) {
        self.reset_with_floor(unique, self.floor).expect("the floor was taken before")
    }

    /// As `reset`, with this floor. One that is not 1 to 4 is refused with 24, and the builder is as it was.
    pub fn reset_with_floor(&mut self, unique: bool, floor: usize) -> Result<(), Refusal> {
        // SAFETY: the pointer is a mutable borrow's
        answer(unsafe { sys::variant_new(self.words.as_mut_ptr(), unique, floor) })?;
        self.floor = floor;
        Ok(())
    }

    /// A name given beforehand, or while containers are open: a new one belongs to the innermost and goes when that one is
    /// rolled back.
    pub fn add_field_name(&mut self, name: &[u8]) -> Result<(), Refusal> {
        call!(self.variant_add_field_name(name.as_ptr(), name.len()))
    }

    /// A scalar: the top value, or the innermost container's next.
    pub fn append_value<'v>(&mut self, name: Option<&[u8]>, value: impl Into<Variant<'v>>) -> Result<(), Refusal> {
        let (named, name) = (name.is_some(), name.unwrap_or_default());
        let (at, len) = (name.as_ptr(), name.len());
        match value.into().numbers() {
            Numbers::Fixed { code, z, low, scale } => {
                call!(self.variant_append_value(named, at, len, code, z, low, scale))
            }
            Numbers::Bytes(kind, bytes) => {
                call!(self.variant_append_bytes(named, at, len, kind, bytes.as_ptr(), bytes.len()))
            }
            Numbers::Uuid(uuid) => call!(self.variant_append_uuid(named, at, len, &uuid)),
        }
    }

    /// A date, or one and a time of day, stored as the `Date`, `TimestampMicros` or `TimestampNtzMicros` that it is; otherwise as
    /// `append_value`. One that is not in the calendar is refused with 17.
    pub fn append_civil(&mut self, name: Option<&[u8]>, civil: impl Into<Civil>) -> Result<(), Refusal> {
        let (named, name) = (name.is_some(), name.unwrap_or_default());
        let (code, date, time) = civil.into().numbers();
        call!(self.variant_append_civil(named, name.as_ptr(), name.len(), code, date.year, date.month, date.day, time))
    }

    /// Packed decimal: two digits a byte, high half first, and in the last low half C or F for plus, D for minus; 1 to 20 bytes. What is
    /// appended is the smallest of the three decimals that holds the number, by its magnitude; otherwise as `append_value`. What is no packed
    /// decimal is refused with 18, a magnitude or a scale too large with 7.
    pub fn append_packed(&mut self, name: Option<&[u8]>, scale: u8, bytes: &[u8]) -> Result<(), Refusal> {
        let (named, name) = (name.is_some(), name.unwrap_or_default());
        call!(self.variant_append_packed(named, name.as_ptr(), name.len(), scale, bytes.as_ptr(), bytes.len()))
    }

    /// A list, open until it is closed or rolled back.
    pub fn new_list(&mut self, name: Option<&[u8]>) -> Result<(), Refusal> {
        let (named, name) = (name.is_some(), name.unwrap_or_default());
        call!(self.variant_new_list(named, name.as_ptr(), name.len()))
    }

    /// An object, open until it is closed or rolled back.
    pub fn new_object(&mut self, name: Option<&[u8]>) -> Result<(), Refusal> {
        let (named, name) = (name.is_some(), name.unwrap_or_default());
        call!(self.variant_new_object(named, name.as_ptr(), name.len()))
    }

    /// The innermost container closed: `finish` of the Rust crate's `ListBuilder` and `ObjectBuilder`.
    pub fn close(&mut self) -> Result<(), Refusal> {
        call!(self.variant_close())
    }

    /// The innermost container taken back, with its name if that was new: what the Rust crate does on `drop`.
    pub fn rollback(&mut self) -> Result<(), Refusal> {
        call!(self.variant_rollback())
    }

    /// A mark in the innermost container, to be returned to: its number, from 1 as set, to 16. It ends with its container. Each field that is
    /// replaced in an object with a mark takes an undo record.
    ///
    /// A seventeenth mark, and one outside any container, is refused with 22.
    ///
    /// ```
    /// use variant_writer::{listing, VariantBuilder};
    ///
    /// let mut builder = VariantBuilder::new();
    /// builder.new_object(None)?;
    /// builder.append_value(Some(b"weight"), 4131i16)?;
    /// let weighed = builder.mark()?;
    /// builder.append_value(Some(b"weight"), 9999i16)?;
    /// builder.append_value(Some(b"moving"), true)?;
    /// builder.return_to(weighed)?;
    /// builder.append_value(Some(b"moving"), false)?;
    /// builder.close()?;
    /// let mut dictionary = [0; 64];
    /// let written = builder.finish(&mut dictionary)?;
    /// let listed = listing(builder.value(), &dictionary[..written]).expect("a Variant");
    /// assert!(listed.ends_with("value: object of 2\n  moving: false\n  weight: int16 4131\n"));
    /// # Ok::<(), variant_writer::Refusal>(())
    /// ```
    pub fn mark(&mut self) -> Result<usize, Refusal> {
        call!(self.variant_mark[made(&mut self.marks)]())?;
        self.own_undo();
        Ok(self.words.marks())
    }

    /// Back to a mark of the innermost container: its fields or elements, names, used bytes, replaced offsets and uniqueness mark are as they
    /// were. The mark stays set, later ones are gone, and the undo records taken since then are free. One that is not set is refused with 22.
    pub fn return_to(&mut self, mark: usize) -> Result<(), Refusal> {
        call!(self.variant_return_to(mark))
    }

    /// The uniqueness mark of the innermost object, for later calls.
    pub fn with_validate_unique_fields(&mut self, unique: bool) -> Result<(), Refusal> {
        call!(self.variant_with_validate_unique_fields(unique))
    }

    /// The dictionary's bytes into the start of `out`; how many. The value's are `value()`. Later calls are refused until `reset`.
    pub fn finish(&mut self, out: &mut [u8]) -> Result<usize, Refusal> {
        let mut written = 0;
        call!(self.variant_finish(out.as_mut_ptr(), out.len(), &mut written))?;
        Ok(written)
    }

    /// The value bytes written so far: after `finish`, the value.
    pub fn value(&self) -> &[u8] {
        &self.value[..self.words.value().min(self.value.len())]
    }

    /// The state words (`crates/ffi/specs/Words.antt`); those of a container that is not open may be anything.
    pub fn words(&self) -> [usize; WORDS] {
        self.words.all(self.whole)
    }

    /// The state words, to be changed at will: any words are a builder, and a call on those that fit no run is refused with 1.
    pub fn words_mut(&mut self) -> &mut [usize; WORDS] {
        let whole = std::mem::replace(&mut self.whole, true);
        self.words.all_mut(whole)
    }

    /// The table of marks (`mark_at` of `crates/semantics/specs/Record.antt`): seven numbers for each of 16 marks of each of 64 containers. Those that
    /// are not set may be anything.
    pub fn marks(&self) -> &[usize; MARKS] {
        self.marks.as_deref().unwrap_or(&NO_MARKS)
    }

    /// The table of marks, to be changed at will, as the words.
    pub fn marks_mut(&mut self) -> &mut [usize; MARKS] {
        made(&mut self.marks)
    }

    /// The storage, to be changed at will, as the words.
    pub fn storage_mut(&mut self) -> Storage<'_> {
        let undo = self.undo.as_deref_mut().unwrap_or_default();
        Storage { value: &mut self.value, text: &mut self.text, ends: &mut self.ends, entries: &mut self.entries, undo }
    }
}

/// The table of marks, made of zeros where there was none.
fn made(marks: &mut Option<Box<[usize; MARKS]>>) -> &mut [usize; MARKS] {
    marks.get_or_insert_with(|| vec![0; MARKS].try_into().expect("as many as the table has"))
}

impl<T: Clone + Default> Buffer<'_, T> {
    fn grow(&mut self, len: usize) {
        if let Buffer::Owned(v) = self {
            v.resize(len.max(v.len()), T::default());
        }
    }
}

impl<T> From<Vec<T>> for Buffer<'_, T> {
    fn from(v: Vec<T>) -> Self {
        Buffer::Owned(v)
    }
}

impl<'a, T> From<&'a mut [T]> for Buffer<'a, T> {
    fn from(s: &'a mut [T]) -> Self {
        Buffer::Lent(s)
    }
}

impl<'a, T, const N: usize> From<&'a mut [T; N]> for Buffer<'a, T> {
    fn from(s: &'a mut [T; N]) -> Self {
        Buffer::Lent(s)
    }
}

impl<T> Deref for Buffer<'_, T> {
    type Target = [T];
    fn deref(&self) -> &[T] {
        match self {
            Buffer::Owned(v) => v,
            Buffer::Lent(s) => s,
        }
    }
}

impl<T> DerefMut for Buffer<'_, T> {
    fn deref_mut(&mut self) -> &mut [T] {
        match self {
            Buffer::Owned(v) => v,
            Buffer::Lent(s) => s,
        }
    }
}

#[cfg(test)]
mod tests {
    use super::{answer, Refusal};

    #[test]
    fn only_0_is_done() {
        assert_eq!(answer(0), Ok(()));
        for number in 1..=u8::MAX {
            let refusal = answer(number).expect_err("a refusal");
            assert_eq!(refusal.number(), number);
            assert_eq!(refusal == Refusal::Unknown(number), !matches!(number, 1..=24 | 26));
            assert!(refusal.to_string().starts_with(&format!("refused {number}: ")));
        }
    }
}
