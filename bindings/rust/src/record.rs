//! Records that were read: a dictionary and a value, judged together, and the parts of the value.
//!
//! Judging, a field by its name and the first integer are proved calls. The iterators are not: they walk bytes that were judged, and over any
//! others they would give wrong parts, never panic.
use crate::builder::answer;
use crate::{sys, Refusal};
use std::ops::Range;

/// A dictionary and one value over its names, both accepted.
///
/// ```
/// use variant_writer::{Record, Refusal};
///
/// let dictionary = [1, 3, 0, 1, 2, 3, b'b', b'a', b'c'];
/// let value = [2, 2, 1, 0, 2, 0, 9, 12, 1, 2, 1, 2, 0, 2, 12, 7];
/// let record = Record::read(&dictionary, &value)?;
/// assert_eq!(record.field(b"b").map(|b| b.value()), Some(&[12, 1][..]));
/// assert_eq!(record.field(b"a").and_then(|a| a.field(b"c")).map(|c| c.value()), Some(&[12, 7][..]));
/// assert_eq!(record.field(b"c"), None);
/// assert_eq!(record.first_integer(), Some((0, 1)));
/// assert!(record.fields().map(|(name, _)| name).eq([b"a", b"b"]));
/// assert_eq!(Record::read(&dictionary[1..], &value), Err(Refusal::Malformed));
/// assert_eq!(Record::read(&dictionary, &value[1..]), Err(Refusal::NotInGrammar));
/// # Ok::<(), Refusal>(())
/// ```
#[derive(Clone, Copy, Debug, PartialEq, Eq, Hash)]
pub struct Record<'a> {
    metadata: &'a [u8],
    value: &'a [u8],
}

impl<'a> Record<'a> {
    /// Judges a dictionary and a value, each of up to 4,294,967,295 bytes. What is no whole dictionary is refused with 19, then what is not one
    /// value of the grammar over its names with 20.
    pub fn read(metadata: &'a [u8], value: &'a [u8]) -> Result<Self, Refusal> {
        // SAFETY: the pointers are those of slices borrowed here
        answer(unsafe { sys::variant_read(metadata.as_ptr(), metadata.len(), value.as_ptr(), value.len()) })?;
        Ok(Record { metadata, value })
    }

    /// The dictionary.
    pub fn metadata(&self) -> &'a [u8] {
        self.metadata
    }

    /// The value.
    pub fn value(&self) -> &'a [u8] {
        self.value
    }

    /// The value of an object's field of this name: a part of these bytes, with the same dictionary. None where there is no such field, or the
    /// value is no object. The whole record is judged again by each call; to see all fields, `fields` is quicker.
    pub fn field(&self, name: &[u8]) -> Option<Record<'a>> {
        let place = find_field(self.metadata, self.value, name).ok()??;
        Some(self.part(self.value.get(place)?))
    }

    /// The id and the number of an object's first field, in order of names, that is int8 to int64. None where no field is, or the value is no
    /// object. A date is no integer.
    pub fn first_integer(&self) -> Option<(usize, i64)> {
        find_first_integer(self.metadata, self.value).ok()?
    }

    /// The dictionary's names, by their ids.
    ///
    /// ```
    /// # use variant_writer::Record;
    /// assert!(Record::read(&[1, 2, 0, 1, 2, b'b', b'a'], &[0])?.names().eq([b"b", b"a"]));
    /// # Ok::<(), variant_writer::Refusal>(())
    /// ```
    pub fn names(&self) -> impl ExactSizeIterator<Item = &'a [u8]> + Clone {
        let names = Names::of(self.metadata).unwrap_or_default();
        (0..names.count).map(move |id| names.at(id))
    }

    /// An object's fields, in order of names; of another value, none.
    pub fn fields(&self) -> impl ExactSizeIterator<Item = (&'a [u8], Record<'a>)> + Clone {
        let (record, names) = (*self, Names::of(self.metadata).unwrap_or_default());
        let parts = self.parts(OBJECT);
        (0..parts.count).map(move |i| {
            let value = parts.data.get(parts.offsets.at(i)..).unwrap_or(&[]);
            (names.at(parts.ids.at(i)), record.part(size(value).and_then(|size| value.get(..size)).unwrap_or(&[])))
        })
    }

    /// A list's elements, in order; of another value, none.
    ///
    /// ```
    /// # use variant_writer::Record;
    /// let list = Record::read(&[1, 0, 0], &[3, 2, 0, 2, 3, 12, 5, 0])?;
    /// assert!(list.elements().map(|part| part.value()).eq([&[12, 5][..], &[0]]));
    /// # Ok::<(), variant_writer::Refusal>(())
    /// ```
    pub fn elements(&self) -> impl ExactSizeIterator<Item = Record<'a>> + Clone {
        let (record, parts) = (*self, self.parts(LIST));
        (0..parts.count).map(move |i| record.part(parts.data.get(parts.offsets.at(i)..parts.offsets.at(i + 1)).unwrap_or(&[])))
    }

    fn part(&self, value: &'a [u8]) -> Record<'a> {
        Record { value, ..*self }
    }

    /// The parts of a container of this kind; of another value, none.
    fn parts(&self, kind: u8) -> Parts<'a> {
        self.value.first().filter(|first| **first & 3 == kind).and_then(|_| Parts::of(self.value)).unwrap_or_default()
    }
}

/// Where in the value an object's field of this name lies, as `Record::field` finds it; the pair is judged by the same call, and refused as by
/// `Record::read`.
///
/// ```
/// use variant_writer::{find_field, Refusal};
///
/// let dictionary = [1, 1, 0, 1, b'a'];
/// assert_eq!(find_field(&dictionary, &[2, 1, 0, 0, 2, 12, 7], b"a"), Ok(Some(5..7)));
/// assert_eq!(find_field(&dictionary, &[2, 1, 0, 0, 2, 12, 7], b"b"), Ok(None));
/// assert_eq!(find_field(&dictionary, &[2, 1, 0, 0, 2, 12], b"b"), Err(Refusal::NotInGrammar));
/// ```
pub fn find_field(metadata: &[u8], value: &[u8], name: &[u8]) -> Result<Option<Range<usize>>, Refusal> {
    let (mut kind, mut start, mut end) = (1, 0, 0);
    let (m, v, n) = ((metadata.as_ptr(), metadata.len()), (value.as_ptr(), value.len()), (name.as_ptr(), name.len()));
    // SAFETY: the pointers are those of slices borrowed here, and mutable borrows', of three numbers
    answer(unsafe { sys::variant_field(m.0, m.1, v.0, v.1, n.0, n.1, &mut kind, &mut start, &mut end) })?;
    Ok((kind == 0).then_some(start..end))
}

/// The id and the number of an object's first integer, as `Record::first_integer` finds it; the pair is judged by the same call, and refused as
/// by `Record::read`.
pub fn find_first_integer(metadata: &[u8], value: &[u8]) -> Result<Option<(usize, i64)>, Refusal> {
    let (mut kind, mut id, mut number) = (1, 0, 0);
    let (m, v) = ((metadata.as_ptr(), metadata.len()), (value.as_ptr(), value.len()));
    // SAFETY: as above
    answer(unsafe { sys::variant_first_integer(m.0, m.1, v.0, v.1, &mut kind, &mut id, &mut number) })?;
    Ok((kind == 0).then_some((id, number)))
}

/// The kinds of a value, by the low bits of its first byte; 0 is a scalar.
pub(crate) const SHORT_TEXT: u8 = 1;
pub(crate) const OBJECT: u8 = 2;
pub(crate) const LIST: u8 = 3;

/// The payload bytes of a scalar by its code; of 15 and 16 those of the length stored.
const PAYLOADS: [usize; 21] = [0, 0, 0, 1, 2, 4, 8, 8, 5, 9, 17, 4, 8, 8, 4, 4, 4, 8, 8, 8, 16];

/// How many bytes the value takes that stands first.
fn size(bytes: &[u8]) -> Option<usize> {
    let first = *bytes.first()?;
    let code = usize::from(first >> 2);
    Some(match first & 3 {
        SHORT_TEXT => 1 + code,
        OBJECT | LIST => {
            let parts = Parts::of(bytes)?;
            bytes.len() - parts.data.len() + parts.offsets.at(parts.count)
        }
        _ => 1 + PAYLOADS.get(code)? + if matches!(code, 15 | 16) { Numbers::new(bytes, 1, 4, 1)?.at(0) } else { 0 },
    })
}

/// Stored numbers of one width, end to end.
#[derive(Clone, Copy, Default)]
struct Numbers<'a> {
    bytes: &'a [u8],
    width: usize,
}

impl<'a> Numbers<'a> {
    fn new(bytes: &'a [u8], from: usize, width: usize, count: usize) -> Option<Self> {
        let size = count.checked_mul(width)?;
        Some(Numbers { bytes: bytes.get(from..from.checked_add(size)?)?, width })
    }

    /// One of them; 0 where it is none.
    fn at(&self, i: usize) -> usize {
        let stored = self.bytes.get(i.saturating_mul(self.width)..).and_then(|rest| rest.get(..self.width)).unwrap_or(&[]);
        stored.iter().rev().fold(0, |n, byte| n << 8 | usize::from(*byte))
    }
}

/// The names of a dictionary.
#[derive(Clone, Copy, Default)]
struct Names<'a> {
    count: usize,
    ends: Numbers<'a>,
    text: &'a [u8],
}

impl<'a> Names<'a> {
    fn of(dictionary: &'a [u8]) -> Option<Self> {
        let width = usize::from(dictionary.first()? >> 6) + 1;
        let count = Numbers::new(dictionary, 1, width, 1)?.at(0);
        let ends = Numbers::new(dictionary, 1 + width, width, count.checked_add(1)?)?;
        Some(Names { count, ends, text: &dictionary[1 + width + ends.bytes.len()..] })
    }

    /// One of them; no bytes where it is none.
    fn at(&self, id: usize) -> &'a [u8] {
        self.text.get(self.ends.at(id)..self.ends.at(id.saturating_add(1))).unwrap_or(&[])
    }
}

/// The parts of a list or an object. A list has no ids; the last offset is the size of the data, behind which other bytes may stand.
#[derive(Clone, Copy, Default)]
struct Parts<'a> {
    count: usize,
    ids: Numbers<'a>,
    offsets: Numbers<'a>,
    data: &'a [u8],
}

impl<'a> Parts<'a> {
    fn of(bytes: &'a [u8]) -> Option<Self> {
        let first = usize::from(*bytes.first()?);
        let (id_width, large) = if first & 3 == usize::from(OBJECT) { ((first >> 4 & 3) + 1, first >> 6 & 1) } else { (0, first >> 4 & 1) };
        let (offset_width, count_width) = ((first >> 2 & 3) + 1, 1 + 3 * large);
        let count = Numbers::new(bytes, 1, count_width, 1)?.at(0);
        let ids = Numbers::new(bytes, 1 + count_width, id_width, count)?;
        let from = 1 + count_width + ids.bytes.len();
        let offsets = Numbers::new(bytes, from, offset_width, count.checked_add(1)?)?;
        Some(Parts { count, ids, offsets, data: &bytes[from + offsets.bytes.len()..] })
    }
}
