//! Variant values of Apache Parquet, written and read by proved code: safe Rust calls over the crates `ffi` and `reader_ffi` of this repository.
//!
//! ```
//! use variant_writer::{Record, Variant, VariantBuilder};
//!
//! let mut builder = VariantBuilder::new();
//! builder.new_object(None)?;
//! builder.append_value(Some(b"b"), 1i8)?;
//! builder.append_value(Some(b"a"), Variant::Int8(2))?;
//! builder.close()?;
//! let mut dictionary = [0; 64];
//! let n = builder.finish(&mut dictionary)?;
//! assert_eq!(builder.value(), [2, 2, 1, 0, 2, 0, 4, 12, 1, 12, 2]);
//! assert_eq!(dictionary[..n], [1, 2, 0, 1, 2, b'b', b'a']);
//!
//! let record = Record::read(&dictionary[..n], builder.value())?;
//! assert_eq!(record.field(b"a").map(|a| a.value()), Some(&[12, 2][..]));
//! # Ok::<(), variant_writer::Refusal>(())
//! ```
//!
//! docs/FORMAT.md of the repository says what the bytes and the calls are. Proved is what the linked calls do (`crates/ffi`,
//! `crates/reader_ffi`); this crate only hands slices to them, walks the parts of a record that they accepted, and lists it for people to read.
mod batch;
mod builder;
mod date;
mod listing;
mod packed;
mod record;
mod refusal;
mod small;
pub mod sys;
mod variant;
mod words;

pub use batch::{batch_add, batch_start, BatchReader, BatchRecord, BatchWriter};
pub use builder::{Buffer, Storage, VariantBuilder};
pub use date::{Civil, Date};
pub use listing::listing;
pub use packed::write_packed_decimal;
pub use record::{find_field, find_first_integer, Record};
pub use refusal::Refusal;
pub use small::{small_values, write_small_values};
pub use variant::Variant;

/// How many state words a builder has: 9 counts, 64 containers of 11 words, and for each how many elements it has, if it is a list
/// (`crates/ffi/specs/Words.antt`).
pub const WORDS: usize = 777;

/// How many numbers the table of marks has: seven for each of 16 marks of each of 64 containers.
pub const MARKS: usize = 7168;
