//! Each number of the table by a short run; a refused call leaves words, storage and output as they were.
mod common;
#[path = "common/unchanged.rs"]
mod unchanged;

use common::{call_unnamed, Lent, LENT};
use unchanged::{all_refused, finish, refused};
use variant_writer::{batch_add, batch_start, sys, BatchReader, Date, Record, Refusal, Variant, VariantBuilder};

fn object(unique: bool) -> VariantBuilder<'static> {
    let mut b = VariantBuilder::new();
    b.reset(unique);
    b.new_object(None).unwrap();
    b
}

#[test]
fn foreign_words() {
    let mut b = VariantBuilder::new();
    b.words_mut().fill(usize::MAX);
    all_refused(1, &mut b);
    assert_eq!(b.value().len(), 4096);
}

/// A floor that is not 1 to 4 is found at every call, finished or not; one that is counts from the next call on.
#[test]
fn foreign_floor() {
    let mut b = VariantBuilder::new();
    b.new_list(None).unwrap();
    for floor in [0, 5, usize::MAX] {
        b.words_mut()[7] = floor;
        all_refused(1, &mut b);
    }
    b.words_mut()[7] = 4;
    b.close().unwrap();
    assert_eq!(b.value(), [15, 0, 0, 0, 0, 0]);
    b.words_mut()[7] = 1;
    finish(&mut b, 3).unwrap();
    all_refused(2, &mut b);
    b.words_mut()[7] = 0;
    all_refused(1, &mut b);
}

#[test]
fn foreign_storage() {
    let mut b = object(false);
    b.append_value(Some(b"a"), ()).unwrap();
    b.storage_mut().ends[0] = 2;
    refused(1, &mut b, |b| b.close());
    b.storage_mut().ends[0] = 1;
    b.close().unwrap();
}

#[test]
fn order_of_calls() {
    let mut b = VariantBuilder::new();
    refused(3, &mut b, |b| b.close());
    refused(3, &mut b, |b| b.rollback());
    refused(3, &mut b, |b| b.with_validate_unique_fields(true));
    refused(5, &mut b, |b| b.append_value(Some(b"a"), ()));
    refused(15, &mut b, |b| finish(b, 9));
    b.new_list(None).unwrap();
    refused(3, &mut b, |b| b.with_validate_unique_fields(true));
    refused(4, &mut b, |b| finish(b, 9));
    refused(5, &mut b, |b| b.new_list(Some(b"a")));
    b.close().unwrap();
    refused(6, &mut b, |b| b.append_value(None, ()));
    refused(6, &mut b, |b| b.new_object(None));
    refused(16, &mut b, |b| finish(b, 2));
    finish(&mut b, 3).unwrap();
    refused(2, &mut b, |b| b.append_value(None, ()));
    refused(2, &mut b, |b| finish(b, 9));
}

#[test]
fn arguments() {
    let mut b = object(true);
    refused(5, &mut b, |b| b.append_value(None, ()));
    for x in [
        Variant::Time(-1),
        Variant::Time(86_400_000_000),
        Variant::Decimal4 { integer: 0, scale: 39 },
        Variant::Decimal4 { integer: 1_000_000_000, scale: 0 },
        Variant::Decimal8 { integer: -1_000_000_000_000_000_000, scale: 0 },
        Variant::Decimal16 { integer: 10i128.pow(38), scale: 0 },
        Variant::Decimal16 { integer: i128::MIN, scale: 0 },
    ] {
        refused(7, &mut b, |b| b.append_value(Some(b"a"), x));
    }
    for packed in [&[][..], &[0x5e], &[0xac], &[0; 21]] {
        refused(18, &mut b, |b| b.append_packed(Some(b"a"), 39, packed));
    }
    refused(7, &mut b, |b| b.append_packed(Some(b"a"), 39, &[0x5c]));
    for day in [0, 30] {
        refused(17, &mut b, |b| b.append_civil(Some(b"a"), Date { year: 2024, month: 2, day }));
    }
    for x in [Variant::Text(b"\xff"), Variant::String(b"\xc3"), Variant::ShortString(&[97; 64])] {
        refused(8, &mut b, |b| b.append_value(Some(b"a"), x));
    }
    refused(9, &mut b, |b| b.append_value(Some(b"\xed\xa0\x80"), ()));
    b.append_value(Some(b"a"), ()).unwrap();
    refused(10, &mut b, |b| b.append_value(Some(b"a"), ()));
    refused(10, &mut b, |b| b.new_list(Some(b"a")));
    b.with_validate_unique_fields(false).unwrap();
    b.append_value(Some(b"a"), ()).unwrap();
    b.close().unwrap();
    assert_eq!(b.value(), [2, 1, 0, 1, 2, 0, 0]);
}

#[test]
fn depth() {
    let mut b = VariantBuilder::new();
    for _ in 0..64 {
        b.new_list(None).unwrap();
    }
    refused(11, &mut b, |b| b.new_list(None));
    for _ in 0..64 {
        b.close().unwrap();
    }
    finish(&mut b, 3).unwrap();
}

#[test]
fn full_and_grown() {
    let mut b = VariantBuilder::with_capacity(0, 2, 2, 1);
    refused(14, &mut b, |b| b.append_value(None, ()));
    refused(12, &mut b, |b| b.add_field_name(b"abc"));
    b.add_field_name(b"a").unwrap();
    b.add_field_name(b"b").unwrap();
    refused(12, &mut b, |b| b.add_field_name(b""));
    b.new_object(None).unwrap();
    b.new_list(Some(b"a")).unwrap();
    refused(14, &mut b, |b| b.append_value(None, ()));
    refused(14, &mut b, |b| b.close());
    b.grow(100, 0, 0, 0);
    b.append_value(None, ()).unwrap();
    b.close().unwrap();
    refused(13, &mut b, |b| b.append_value(Some(b"b"), ()));
    refused(13, &mut b, |b| b.new_list(Some(b"b")));
    b.grow(0, 0, 0, 2);
    b.append_value(Some(b"b"), ()).unwrap();
    b.close().unwrap();
    finish(&mut b, 9).unwrap();
    assert_eq!(b.value(), [2, 2, 0, 1, 0, 5, 6, 3, 1, 0, 1, 0, 0]);
}

#[test]
fn marks() {
    let mut b = VariantBuilder::new().lend_undo(vec![9; 3]);
    refused(22, &mut b, |b| b.mark().map(|_| ()));
    refused(22, &mut b, |b| b.return_to(1));
    b.new_object(None).unwrap();
    refused(22, &mut b, |b| b.return_to(1));
    b.append_value(Some(b"a"), ()).unwrap();
    for number in 1..=16 {
        assert_eq!(b.mark(), Ok(number));
    }
    refused(22, &mut b, |b| b.mark().map(|_| ()));
    refused(22, &mut b, |b| b.return_to(0));
    refused(22, &mut b, |b| b.return_to(17));
    b.append_value(Some(b"a"), true).unwrap();
    refused(23, &mut b, |b| b.append_value(Some(b"a"), ()));
    refused(23, &mut b, |b| b.new_list(Some(b"a")));
    b.return_to(1).unwrap();
    b.append_value(Some(b"a"), false).unwrap();
    b.close().unwrap();
    assert_eq!(b.value(), [2, 1, 0, 1, 2, 0, 8]);
}

/// A batch file's refusals, and that of a record, behind which reading goes on.
#[test]
fn batch_files() {
    for (number, mut file, used) in [(1, vec![2], 2), (21, vec![2; 99], 1), (21, vec![1; 99], 0), (14, vec![1; 8], 1)] {
        let before = file.clone();
        assert_eq!(batch_add(&mut file, used, &[], &[]), Err(Refusal::of(number).unwrap()));
        assert_eq!(file, before);
    }
    assert_eq!(batch_start(&mut []), Err(Refusal::ValueFull));
    assert_eq!(BatchReader::new(&[]).map(|_| ()), Err(Refusal::NotBatch));
    let records = BatchReader::new(&[1, 0, 0, 0, 3, 0, 0, 0, 0, 0, 0, 5, 0, 0, 0, 2, 9]).unwrap();
    assert_eq!(records.map(|record| record.unwrap_err().number()).collect::<Vec<_>>(), [19, 19]);
}

/// A record that is read: the dictionary is judged first.
#[test]
fn records() {
    for (number, dictionary, value) in [(19, &[1, 0, 0, 0][..], &[][..]), (20, &[1, 0, 0], &[]), (20, &[1, 0, 0], &[84])] {
        assert_eq!(Record::read(dictionary, value), Err(Refusal::of(number).unwrap()));
    }
    assert_eq!(Record::read(&[1, 0, 0], &[0]).map(|record| record.value()), Ok(&[0][..]));
}

#[test]
fn numbers_and_refusals() {
    for number in 0..=255 {
        assert_eq!(Refusal::of(number).map(Refusal::number), (number != 0).then_some(number));
    }
}

/// The word call's kinds of bytes: those above 3 are refused with 7, where no earlier row holds, and change nothing.
#[test]
fn kinds_of_bytes() {
    let mut lent = LENT;
    let append = |lent: &mut Lent, kind| call_unnamed!(lent.variant_append_bytes(kind, b"hi".as_ptr(), 2));
    for kind in 0..=u8::MAX {
        assert_eq!(unsafe { sys::variant_new(&mut lent.words, false, 1) }, 0);
        let before = lent.words;
        let answer = append(&mut lent, kind);
        assert_eq!(answer, if kind < 4 { 0 } else { 7 }, "kind {kind}");
        assert!(kind < 4 || lent.words == before);
    }
    lent.words[6] = 1;
    assert_eq!(append(&mut lent, 4), 2);
}
