//! The calls of the crates `ffi` and `reader_ffi` as they are linked: declarations only.
//!
//! # Safety
//!
//! A call demands nothing of what the words and the storage hold, and is proved for all of it. The caller owes what no proof of it
//! can see: each pointer is valid for the call, for as many items as the length behind it says (the words: `WORDS`; the table of marks:
//! `MARKS`; a UUID: 16; a number: one), for writing where it is `*mut`; and what is written overlaps nothing else that the call is given.
//!
//! Only `variant_mark` writes into the table of marks, and of what is there only marks that are set are read.
//!
//! An answer is 0, or the number of a refusal (`Refusal`), and then all is as it was.
use crate::{MARKS, WORDS};

pub type Words = *mut [usize; WORDS];

/// The table of marks, to be read.
pub type Marks = *const [usize; MARKS];

#[rustfmt::skip]
extern "C" {
    /// Any floor but 1 to 4 is refused with 24, and the words are as they were.
    pub fn variant_new(words: Words, unique: bool, floor: usize) -> u8;

    pub fn variant_add_field_name(
        words: Words,
        marks: Marks,
        value: *const u8, value_len: usize,
        text: *mut u8, text_len: usize,
        ends: *mut usize, ends_len: usize,
        entries: *const usize, entries_len: usize,
        undo: *const usize, undo_len: usize,
        name: *const u8, name_len: usize,
    ) -> u8;

    pub fn variant_close(
        words: Words,
        marks: Marks,
        value: *mut u8, value_len: usize,
        text: *const u8, text_len: usize,
        ends: *const usize, ends_len: usize,
        entries: *mut usize, entries_len: usize,
        undo: *const usize, undo_len: usize,
    ) -> u8;

    pub fn variant_rollback(
        words: Words,
        marks: Marks,
        value: *const u8, value_len: usize,
        text: *const u8, text_len: usize,
        ends: *const usize, ends_len: usize,
        entries: *mut usize, entries_len: usize,
        undo: *const usize, undo_len: usize,
    ) -> u8;

    /// One mark more in the innermost container; how many are set there then is its number. A seventeenth, or one outside any container, is
    /// refused with 22.
    pub fn variant_mark(
        words: Words,
        marks: *mut [usize; MARKS],
        value: *const u8, value_len: usize,
        text: *const u8, text_len: usize,
        ends: *const usize, ends_len: usize,
        entries: *const usize, entries_len: usize,
        undo: *const usize, undo_len: usize,
    ) -> u8;

    /// Back to a mark of the innermost container, counted from 1, which stays set; later ones are gone. One that is not set is refused with 22.
    pub fn variant_return_to(
        words: Words,
        marks: Marks,
        value: *const u8, value_len: usize,
        text: *const u8, text_len: usize,
        ends: *const usize, ends_len: usize,
        entries: *mut usize, entries_len: usize,
        undo: *const usize, undo_len: usize,
        mark: usize,
    ) -> u8;

    pub fn variant_append_value(
        words: Words,
        marks: Marks,
        value: *mut u8, value_len: usize,
        text: *mut u8, text_len: usize,
        ends: *mut usize, ends_len: usize,
        entries: *mut usize, entries_len: usize,
        undo: *mut usize, undo_len: usize,
        named: bool,
        name: *const u8, name_len: usize,
        code: u8,
        z: i64,
        low: u64,
        scale: u8,
    ) -> u8;

    /// By its code: 11, a date; 12 and 13, a timestamp in UTC and one without time zone, of a date and a time of day in microseconds. Any
    /// other code is refused with 7, a date not in the calendar, or a time outside the day, with 17.
    pub fn variant_append_civil(
        words: Words,
        marks: Marks,
        value: *mut u8, value_len: usize,
        text: *mut u8, text_len: usize,
        ends: *mut usize, ends_len: usize,
        entries: *mut usize, entries_len: usize,
        undo: *mut usize, undo_len: usize,
        named: bool,
        name: *const u8, name_len: usize,
        code: u8,
        year: i64,
        month: i64,
        day: i64,
        time: i64,
    ) -> u8;

    /// Packed decimal, two digits a byte, and a scale. No bytes, more than 20, a digit above 9 or another sign than C, D and F are refused
    /// with 18, then a magnitude or a scale too large with 7.
    pub fn variant_append_packed(
        words: Words,
        marks: Marks,
        value: *mut u8, value_len: usize,
        text: *mut u8, text_len: usize,
        ends: *mut usize, ends_len: usize,
        entries: *mut usize, entries_len: usize,
        undo: *mut usize, undo_len: usize,
        named: bool,
        name: *const u8, name_len: usize,
        scale: u8,
        bytes: *const u8, bytes_len: usize,
    ) -> u8;

    /// The shortest packed decimal of high * 2^64 + low at the start of `out`, its length into `written`. A magnitude or a scale too large is
    /// refused with 7, then an output too short with 14.
    pub fn variant_write_packed_decimal(
        high: i64,
        low: u64,
        scale: u8,
        out: *mut u8, out_len: usize,
        written: *mut usize,
    ) -> u8;

    /// The version byte of a batch at the start of `file`, of which 1 byte is used then; a `file` of no bytes is refused with 14.
    pub fn variant_batch_start(file: *mut u8, file_len: usize) -> u8;

    /// A record behind the first `used` bytes of `file`, and `used` is how many they are with it. A used count above the length is refused with
    /// 1, then used bytes that are no batch with 21, then a record that does not fit the rest of `file`, or a four-byte count, with 14.
    pub fn variant_batch_add(
        file: *mut u8, file_len: usize,
        used: *mut usize,
        dictionary: *const u8, dictionary_len: usize,
        value: *const u8, value_len: usize,
    ) -> u8;

    /// What stands at a place of `file`, below 1 as at 1; what is no batch is refused with 21. Into `kind`: 0, a whole record, its dictionary
    /// from `dictionary` up to `value`, its value up to `next`, where the next record begins; 1, a bad record, of which only `next` is told;
    /// 2, the tail, only its byte count into `tail`. What is not told stays as it was.
    pub fn variant_batch_record_at(
        file: *const u8, file_len: usize,
        place: usize,
        kind: *mut u8,
        dictionary: *mut usize,
        value: *mut usize,
        next: *mut usize,
        tail: *mut usize,
    ) -> u8;

    /// A metadata that is no whole dictionary is refused with 19, then a value that is not one of the grammar over its names with 20.
    pub fn variant_read(
        metadata: *const u8, metadata_len: usize,
        value: *const u8, value_len: usize,
    ) -> u8;

    /// The pair is judged as by `variant_read`. Into `kind`: 0, the value is an object with a field of this name, whose value lies from `start` up
    /// to `end` of `value`; 1, there is no such field, and `start` and `end` stay as they were.
    pub fn variant_field(
        metadata: *const u8, metadata_len: usize,
        value: *const u8, value_len: usize,
        name: *const u8, name_len: usize,
        kind: *mut u8,
        start: *mut usize,
        end: *mut usize,
    ) -> u8;

    /// The pair is judged as by `variant_read`. Into `kind`: 0, the value is an object with a field that is int8 to int64, and `id` and `number` are
    /// those of the first one in order of names; 1, there is no such field, and they stay as they were.
    pub fn variant_first_integer(
        metadata: *const u8, metadata_len: usize,
        value: *const u8, value_len: usize,
        kind: *mut u8,
        id: *mut usize,
        number: *mut i64,
    ) -> u8;

    /// Every value of `length` bytes, 1 to 3, that is read over the dictionary 01 00 00, as a batch file at the start of `out`, its length into
    /// `written`. Any other length is refused with 26, then an output too short with 14.
    pub fn variant_write_small_values(
        length: usize,
        out: *mut u8, out_len: usize,
        written: *mut usize,
    ) -> u8;

    /// The day number of a date, counted from 1970-01-01, into `days`; refused with 17.
    pub fn variant_days_of(year: i64, month: i64, day: i64, days: *mut i32) -> u8;

    /// The date of a day number, into `year`, `month` and `day`; refused with 17.
    pub fn variant_date_of(days: i64, year: *mut i64, month: *mut i64, day: *mut i64) -> u8;

    /// Of kind 0, binary; 1, String; 2, short text; 3, plain text. Any other kind is refused with 7, as an unknown code is.
    pub fn variant_append_bytes(
        words: Words,
        marks: Marks,
        value: *mut u8, value_len: usize,
        text: *mut u8, text_len: usize,
        ends: *mut usize, ends_len: usize,
        entries: *mut usize, entries_len: usize,
        undo: *mut usize, undo_len: usize,
        named: bool,
        name: *const u8, name_len: usize,
        kind: u8,
        bytes: *const u8, bytes_len: usize,
    ) -> u8;

    pub fn variant_append_uuid(
        words: Words,
        marks: Marks,
        value: *mut u8, value_len: usize,
        text: *mut u8, text_len: usize,
        ends: *mut usize, ends_len: usize,
        entries: *mut usize, entries_len: usize,
        undo: *mut usize, undo_len: usize,
        named: bool,
        name: *const u8, name_len: usize,
        uuid: *const [u8; 16],
    ) -> u8;

    pub fn variant_new_list(
        words: Words,
        marks: Marks,
        value: *const u8, value_len: usize,
        text: *mut u8, text_len: usize,
        ends: *mut usize, ends_len: usize,
        entries: *mut usize, entries_len: usize,
        undo: *mut usize, undo_len: usize,
        named: bool,
        name: *const u8, name_len: usize,
    ) -> u8;

    pub fn variant_new_object(
        words: Words,
        marks: Marks,
        value: *const u8, value_len: usize,
        text: *mut u8, text_len: usize,
        ends: *mut usize, ends_len: usize,
        entries: *mut usize, entries_len: usize,
        undo: *mut usize, undo_len: usize,
        named: bool,
        name: *const u8, name_len: usize,
    ) -> u8;

    pub fn variant_with_validate_unique_fields(
        words: Words,
        marks: Marks,
        value: *const u8, value_len: usize,
        text: *const u8, text_len: usize,
        ends: *const usize, ends_len: usize,
        entries: *const usize, entries_len: usize,
        undo: *const usize, undo_len: usize,
        unique: bool,
    ) -> u8;

    pub fn variant_finish(
        words: Words,
        marks: Marks,
        value: *const u8, value_len: usize,
        text: *const u8, text_len: usize,
        ends: *const usize, ends_len: usize,
        entries: *const usize, entries_len: usize,
        undo: *const usize, undo_len: usize,
        out: *mut u8, out_len: usize,
        written: *mut usize,
    ) -> u8;
}
