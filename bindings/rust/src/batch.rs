//! Batch files: a version byte, then records one behind the other, each a dictionary and a value. What these hold is not judged
//! until a record is read.
use crate::builder::answer;
use crate::{sys, Record, Refusal};
use std::iter::FusedIterator;

/// An empty batch at the start of lent bytes; how many of them are used, 1. No bytes are refused with 14.
pub fn batch_start(file: &mut [u8]) -> Result<usize, Refusal> {
    // SAFETY: the pointer is a mutable borrow's
    answer(unsafe { sys::variant_batch_start(file.as_mut_ptr(), file.len()) })?;
    Ok(1)
}

/// A record behind the first `used` of lent bytes; how many are used then. Of the file only the version is looked at, and nothing but the
/// record is written.
///
/// More used bytes than lent ones are refused with 1, then what is no batch, no used bytes or another version, with 21, then a record that does
/// not fit the bytes behind the used ones, or a four-byte count, with 14.
///
/// ```
/// use variant_writer::{batch_add, batch_start, Refusal};
///
/// let mut file = [7; 16];
/// let mut used = batch_start(&mut file)?;
/// used = batch_add(&mut file, used, &[1, 0, 0], &[12, 5])?;
/// assert_eq!(file, [1, 0, 0, 0, 9, 0, 0, 0, 3, 1, 0, 0, 12, 5, 7, 7]);
/// assert_eq!((used, batch_add(&mut file, used, &[], &[])), (14, Err(Refusal::ValueFull)));
/// # Ok::<(), Refusal>(())
/// ```
pub fn batch_add(file: &mut [u8], mut used: usize, dictionary: &[u8], value: &[u8]) -> Result<usize, Refusal> {
    let (file, len) = (file.as_mut_ptr(), file.len());
    // SAFETY: the pointers are those of slices and a number borrowed here, the written ones mutably, so apart from all others
    answer(unsafe { sys::variant_batch_add(file, len, &mut used, dictionary.as_ptr(), dictionary.len(), value.as_ptr(), value.len()) })?;
    Ok(used)
}

/// A batch file that grows with its records.
///
/// ```
/// use variant_writer::{BatchReader, BatchWriter};
///
/// let mut batch = BatchWriter::new();
/// batch.add(&[1, 0, 0], &[12, 5])?;
/// batch.add(&[1, 0, 0], &[12, 6])?;
///
/// // the file is cut within its second record: the tail is taken off, and adding goes on
/// let mut file = batch.into_bytes();
/// file.truncate(25);
/// let tail = BatchReader::new(&file)?.tail();
/// assert_eq!(tail, 11);
/// file.truncate(file.len() - tail);
/// let mut batch = BatchWriter::from_bytes(file);
/// batch.add(&[1, 0, 0], &[12, 7])?;
///
/// let records = BatchReader::new(batch.as_bytes())?.collect::<Result<Vec<_>, _>>()?;
/// assert_eq!(records.iter().map(|record| record.value).collect::<Vec<_>>(), [[12, 5], [12, 7]]);
/// # Ok::<(), variant_writer::Refusal>(())
/// ```
#[derive(Clone, Debug)]
pub struct BatchWriter {
    file: Vec<u8>,
}

impl BatchWriter {
    /// An empty batch.
    pub fn new() -> Self {
        let mut file = vec![0];
        batch_start(&mut file).expect("a byte is room for the version");
        BatchWriter { file }
    }

    /// Goes on with a file. Any bytes will do: where they are no batch, each `add` is refused with 21. Records added behind a partial tail need
    /// not come out as they were added: `BatchReader::tail` says how many bytes to take off before.
    pub fn from_bytes(file: Vec<u8>) -> Self {
        BatchWriter { file }
    }

    /// A record behind the others. One that does not fit a four-byte count, of more than 4,294,967,291 bytes, is refused with 14.
    pub fn add(&mut self, dictionary: &[u8], value: &[u8]) -> Result<(), Refusal> {
        let used = self.file.len();
        let size = dictionary.len().saturating_add(value.len()).saturating_add(8);
        // what no count holds is refused, and needs no room
        if size - 4 <= u32::MAX as usize {
            self.file.resize(used + size, 0);
        }
        let added = batch_add(&mut self.file, used, dictionary, value);
        if added.is_err() {
            self.file.truncate(used);
        }
        added.map(|_| ())
    }

    /// The file.
    pub fn as_bytes(&self) -> &[u8] {
        &self.file
    }

    /// The file, handed over.
    pub fn into_bytes(self) -> Vec<u8> {
        self.file
    }
}

impl Default for BatchWriter {
    fn default() -> Self {
        Self::new()
    }
}

/// A record of a batch file: the parts of the file's bytes that its dictionary and its value occupy.
#[derive(Clone, Copy, Debug, PartialEq, Eq, Hash)]
pub struct BatchRecord<'a> {
    pub dictionary: &'a [u8],
    pub value: &'a [u8],
}

impl<'a> BatchRecord<'a> {
    /// Judges what it holds, as `Record::read` does.
    ///
    /// ```
    /// use variant_writer::{BatchReader, BatchWriter};
    ///
    /// let mut batch = BatchWriter::new();
    /// batch.add(&[1, 1, 0, 1, b'a'], &[2, 1, 0, 0, 2, 12, 5])?;
    /// for record in BatchReader::new(batch.as_bytes())? {
    ///     assert_eq!(record?.read()?.first_integer(), Some((0, 5)));
    /// }
    /// # Ok::<(), variant_writer::Refusal>(())
    /// ```
    pub fn read(&self) -> Result<Record<'a>, Refusal> {
        Record::read(self.dictionary, self.value)
    }
}

/// The records of a batch file that are wholly present, in order. A record with a count below four, or with a dictionary length that does not
/// fit it, is an error, 19, and reading goes on behind it.
///
/// ```
/// use variant_writer::{BatchReader, BatchRecord, Refusal};
///
/// let file = [1, 0, 0, 0, 2, 7, 7, 0, 0, 0, 5, 0, 0, 0, 1, 9, 0, 0];
/// let mut records = BatchReader::new(&file)?;
/// assert_eq!(records.next(), Some(Err(Refusal::Malformed)));
/// assert_eq!(records.next(), Some(Ok(BatchRecord { dictionary: &[9], value: &[] })));
/// assert_eq!((records.next(), records.tail()), (None, 2));
/// assert_eq!(BatchReader::new(&[2]).err(), Some(Refusal::NotBatch));
/// # Ok::<(), Refusal>(())
/// ```
#[derive(Clone, Debug)]
pub struct BatchReader<'a> {
    file: &'a [u8],
    place: usize,
}

impl<'a> BatchReader<'a> {
    /// At the first record. What is no batch, no bytes or another version, is refused with 21.
    pub fn new(file: &'a [u8]) -> Result<Self, Refusal> {
        step(file, 1)?;
        Ok(BatchReader { file, place: 1 })
    }

    /// How many bytes stand behind the last record that is wholly present: the partial tail, 0 where there is none. Before the last record is
    /// read this walks the rest.
    pub fn tail(&self) -> usize {
        let mut place = self.place;
        loop {
            match self.step(place) {
                Step::Record(_, next) => place = next,
                Step::Tail(len) => return len,
            }
        }
    }

    fn step(&self, place: usize) -> Step<'a> {
        step(self.file, place).expect("the version was asked before")
    }
}

impl<'a> Iterator for BatchReader<'a> {
    type Item = Result<BatchRecord<'a>, Refusal>;

    fn next(&mut self) -> Option<Self::Item> {
        match self.step(self.place) {
            Step::Record(record, next) => {
                self.place = next;
                Some(record)
            }
            Step::Tail(_) => None,
        }
    }
}

impl FusedIterator for BatchReader<'_> {}

/// What stands at a place: a record, and the place behind it, or the tail, and its length.
enum Step<'a> {
    Record(Result<BatchRecord<'a>, Refusal>, usize),
    Tail(usize),
}

fn step(file: &[u8], place: usize) -> Result<Step<'_>, Refusal> {
    let (mut kind, mut dictionary, mut value, mut next, mut tail) = (0, 0, 0, 0, 0);
    let (at, len) = (file.as_ptr(), file.len());
    // SAFETY: the first pointer is a slice's, borrowed here; the others are mutable borrows', of five numbers
    answer(unsafe { sys::variant_batch_record_at(at, len, place, &mut kind, &mut dictionary, &mut value, &mut next, &mut tail) })?;
    Ok(match kind {
        0 => Step::Record(Ok(BatchRecord { dictionary: &file[dictionary..value], value: &file[value..next] }), next),
        1 => Step::Record(Err(Refusal::Malformed), next),
        _ => Step::Tail(tail),
    })
}
