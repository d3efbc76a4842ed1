//! Marks: up to 16 in the innermost container, numbered from 1 as set. A return brings all back as it was at the mark, which stays set, and
//! drops the later ones. Each field replaced in an object with a mark takes an undo record. The edges are those of the readings 31 to 43 of
//! tools/model/README.md.
#[path = "common/unchanged.rs"]
mod unchanged;

use unchanged::{all_refused, finish, refused};
use variant_writer::{Refusal, VariantBuilder, MARKS};

/// Where the word of the used undo records stands.
const UNDO_USED: usize = 8;
/// Where a container's starting undo count and the number of its marks stand among its words.
const UNDO: usize = 9;
const SET: usize = 10;

/// The words of the container at a depth from 0.
fn container(depth: usize) -> usize {
    9 + 11 * depth
}

/// The count of elements of the list at a depth from 0.
fn elements(depth: usize) -> usize {
    713 + depth
}

/// A number of a mark, counted from 1, of the container at a depth from 0.
fn number_of(depth: usize, mark: usize, at: usize) -> usize {
    7 * (16 * depth + mark - 1) + at
}

type Calls = fn(&mut VariantBuilder) -> Result<(), Refusal>;

/// A builder with so much undo storage, of two numbers a record, on which the calls are made.
fn made(undo: usize, calls: Calls) -> VariantBuilder<'static> {
    let mut b = VariantBuilder::new().lend_undo(vec![9; undo]);
    calls(&mut b).unwrap();
    b
}

/// Sets a mark, whose number must be this.
fn mark(b: &mut VariantBuilder, number: usize) {
    assert_eq!(b.mark(), Ok(number));
}

/// A refused mark.
fn no_mark(number: u8, b: &mut VariantBuilder) {
    refused(number, b, |b| b.mark().map(|_| ()));
}

/// All that is open closed, then the value and the dictionary.
fn finished(b: &mut VariantBuilder) -> (Vec<u8>, Vec<u8>) {
    while b.words()[2] > 0 {
        b.close().unwrap();
    }
    let mut out = [7; 999];
    let n = b.finish(&mut out).unwrap();
    (b.value().to_vec(), out[..n].to_vec())
}

/// The two runs have the same value and the same dictionary.
fn same(calls: Calls, without: Calls) {
    assert_eq!(finished(&mut made(64, calls)), finished(&mut made(0, without)));
}

#[test]
fn sixteen_in_a_container() {
    let (mut b, kinds) = (VariantBuilder::new(), [(|b| b.new_object(None)) as Calls, |b| b.new_list(None)]);
    for open in kinds {
        b.reset(false);
        no_mark(22, &mut b);
        open(&mut b).unwrap();
        (1..=16).for_each(|n| mark(&mut b, n));
        no_mark(22, &mut b);
        b.return_to(16).unwrap();
        no_mark(22, &mut b);
        b.return_to(15).unwrap();
        mark(&mut b, 16);
        b.close().unwrap();
        no_mark(22, &mut b);
    }
}

/// Each has its own, which end with it and cannot be reached while a child is open.
#[test]
fn of_the_innermost() {
    let mut b = VariantBuilder::new();
    b.new_list(None).unwrap();
    mark(&mut b, 1);
    mark(&mut b, 2);
    b.new_object(None).unwrap();
    refused(22, &mut b, |b| b.return_to(1));
    mark(&mut b, 1);
    refused(22, &mut b, |b| b.return_to(2));
    b.return_to(1).unwrap();
    b.close().unwrap();
    b.return_to(2).unwrap();
    b.new_object(None).unwrap();
    refused(22, &mut b, |b| b.return_to(1));
    b.rollback().unwrap();
    b.return_to(1).unwrap();
    refused(22, &mut b, |b| b.return_to(2));
    assert_eq!(finished(&mut b).0, [3, 0, 0]);
}

#[test]
fn the_mark_stays_and_later_ones_go() {
    let mut b = made(0, |b| b.new_list(None));
    for n in 1..=3 {
        mark(&mut b, n);
        b.append_value(None, n as i8).unwrap();
    }
    for _ in 0..2 {
        b.return_to(2).unwrap();
        refused(22, &mut b, |b| b.return_to(3));
        b.append_value(None, true).unwrap();
    }
    mark(&mut b, 3);
    b.append_value(None, 9i8).unwrap();
    b.return_to(3).unwrap();
    assert_eq!(finished(&mut b).0, [3, 2, 0, 2, 3, 12, 1, 4]);
}

#[test]
fn not_set() {
    let mut b = VariantBuilder::new();
    for n in [0, 1, usize::MAX] {
        refused(22, &mut b, |b| b.return_to(n));
    }
    b.new_object(None).unwrap();
    for n in [0, 1, 16, 17] {
        refused(22, &mut b, |b| b.return_to(n));
    }
    mark(&mut b, 1);
    for n in [0, 2, 17, usize::MAX] {
        refused(22, &mut b, |b| b.return_to(n));
    }
    b.return_to(1).unwrap();
    b.close().unwrap();
    refused(22, &mut b, |b| b.return_to(1));
    finish(&mut b, 9).unwrap();
    all_refused(2, &mut b);
}

/// Fields, names, used bytes and children between a mark and the return to it are as if they had not come.
#[test]
fn struck_out() {
    same(
        |b| {
            b.new_object(None)?;
            b.append_value(Some(b"b"), 1i8)?;
            b.mark()?;
            b.append_value(Some(b"a"), 2i8)?;
            b.add_field_name(b"c")?;
            b.new_list(Some(b"d"))?;
            b.append_value(None, ())?;
            b.close()?;
            b.mark()?;
            b.new_object(Some(b"e"))?;
            b.append_value(Some(b"f"), "text")?;
            b.rollback()?;
            b.return_to(1)?;
            b.append_value(Some(b"c"), 3i8)
        },
        |b| {
            b.new_object(None)?;
            b.append_value(Some(b"b"), 1i8)?;
            b.append_value(Some(b"c"), 3i8)
        },
    );
}

/// The offset from before each mark, however often a field was replaced since, by values and by children.
#[test]
fn replaced_offsets() {
    same(
        |b| {
            b.new_object(None)?;
            b.append_value(Some(b"a"), 1i8)?;
            b.append_value(Some(b"b"), 2i8)?;
            b.mark()?;
            b.append_value(Some(b"a"), 3i8)?;
            b.append_value(Some(b"b"), 4i8)?;
            b.append_value(Some(b"a"), 5i8)?;
            b.mark()?;
            b.new_list(Some(b"b"))?;
            b.close()?;
            b.append_value(Some(b"a"), 6i8)?;
            b.return_to(2)?;
            b.new_object(Some(b"a"))?;
            b.rollback()?;
            b.return_to(1)
        },
        |b| {
            b.new_object(None)?;
            b.append_value(Some(b"a"), 1i8)?;
            b.append_value(Some(b"b"), 2i8)
        },
    );
    let mut b = made(4, |b| {
        b.new_object(None)?;
        b.append_value(Some(b"a"), 1i8)?;
        b.append_value(Some(b"a"), 2i8)?;
        b.mark()?;
        b.append_value(Some(b"a"), 3i8)?;
        b.append_value(Some(b"a"), 4i8)?;
        b.return_to(1)
    });
    assert_eq!(finished(&mut b).0, [2, 1, 0, 2, 4, 12, 1, 12, 2]);
}

/// A field that came after the mark and was replaced goes with its records.
#[test]
fn fields_from_after_the_mark() {
    let mut b = made(2, |b| {
        b.new_object(None)?;
        b.mark()?;
        b.append_value(Some(b"a"), 1i8)?;
        b.append_value(Some(b"a"), 2i8)
    });
    assert_eq!((b.words()[UNDO_USED], &b.storage_mut().undo[..]), (1, &[0, 0][..]));
    refused(23, &mut b, |b| b.append_value(Some(b"a"), 3i8));
    b.return_to(1).unwrap();
    assert_eq!((b.words()[..5].to_vec(), b.words()[UNDO_USED]), (vec![0, 0, 1, 0, 0], 0));
    assert_eq!(finished(&mut b), (vec![2, 0, 0], vec![1, 0, 0]));
}

/// A replacement before the first mark takes no record, nor one in another object than the marked one.
#[test]
fn replacements_without_a_mark() {
    let mut b = made(0, |b| {
        b.new_object(None)?;
        b.append_value(Some(b"a"), 1i8)?;
        b.append_value(Some(b"a"), 2i8)?;
        b.mark()?;
        b.new_object(Some(b"b"))?;
        b.append_value(Some(b"a"), 1i8)?;
        b.append_value(Some(b"a"), 2i8)?;
        b.close()
    });
    refused(23, &mut b, |b| b.append_value(Some(b"a"), 3i8));
    refused(23, &mut b, |b| b.new_list(Some(b"a")));
    b.append_value(Some(b"c"), 3i8).unwrap();
    assert_eq!(b.words()[UNDO_USED], 0);
}

/// A record is free again after a return to an earlier mark, a roll back of the replacing child and the object's end.
#[test]
fn records_free_again() {
    let mut b = made(2, |b| {
        b.new_object(None)?;
        b.append_value(Some(b"a"), 1i8)?;
        b.mark()?;
        b.append_value(Some(b"a"), 2i8)?;
        b.mark().map(|_| ())
    });
    refused(23, &mut b, |b| b.append_value(Some(b"a"), 3i8));
    b.return_to(2).unwrap();
    refused(23, &mut b, |b| b.append_value(Some(b"a"), 3i8));
    b.return_to(1).unwrap();
    b.new_list(Some(b"a")).unwrap();
    assert_eq!((b.words()[UNDO_USED], b.words()[container(1) + UNDO]), (1, 1));
    b.rollback().unwrap();
    assert_eq!(b.words()[UNDO_USED], 0);
    b.new_object(Some(b"a")).unwrap();
    b.append_value(Some(b"b"), 1i8).unwrap();
    mark(&mut b, 1);
    refused(23, &mut b, |b| b.append_value(Some(b"b"), 2i8));
    b.close().unwrap();
    assert_eq!(b.words()[UNDO_USED], 1);
    refused(23, &mut b, |b| b.append_value(Some(b"a"), 3i8));
    b.rollback().unwrap();
    assert_eq!(b.words()[UNDO_USED], 0);
}

/// Half as many records as numbers are lent, rounded down; without a loan 32, and more after `grow_undo`.
#[test]
fn room_for_records() {
    let replaced = |b: &mut VariantBuilder, records: usize| {
        b.new_object(None).unwrap();
        b.append_value(Some(b"a"), ()).unwrap();
        mark(b, 1);
        (0..records).for_each(|_| b.append_value(Some(b"a"), ()).unwrap());
        refused(23, b, |b| b.append_value(Some(b"a"), ()));
    };
    for n in 0..6 {
        replaced(&mut made(n, |_| Ok(())), n / 2);
    }
    let mut b = VariantBuilder::new();
    replaced(&mut b, 32);
    b.grow_undo(33);
    b.append_value(Some(b"a"), ()).unwrap();
    refused(23, &mut b, |b| b.append_value(Some(b"a"), ()));
    b.grow_undo(1);
    b.return_to(1).unwrap();
    b.reset(false);
    replaced(&mut b, 33);
    b.reset(false);
    let (mut value, mut text, mut ends, mut entries, mut undo) = ([0; 9], [0; 9], [0; 9], [0; 9], [7; 5]);
    replaced(&mut VariantBuilder::lend(&mut value, &mut text, &mut ends, &mut entries).lend_undo(&mut undo), 2);
    assert_eq!(undo, [0, 0, 0, 1, 7]);
}

/// What marks need is made by the first one that is set, and kept.
#[test]
fn made_by_the_first_mark() {
    let mut b = VariantBuilder::new();
    no_mark(22, &mut b);
    b.new_object(None).unwrap();
    assert_eq!(b.marks(), &[0; MARKS]);
    assert_eq!(b.storage_mut().undo.len(), 0);
    mark(&mut b, 1);
    assert_eq!(b.storage_mut().undo.len(), 64);
    let table = b.marks().as_ptr();
    b.reset(false);
    b.new_object(None).unwrap();
    b.append_value(Some(b"a"), 1i8).unwrap();
    mark(&mut b, 1);
    assert_eq!((b.marks().as_ptr(), &b.marks()[..8]), (table, &[2, 1, 1, 1, 0, 0, 0, 0][..]));
    assert_eq!(b.storage_mut().undo.len(), 64);
}

/// Of an object the one that was set since then is gone.
#[test]
fn uniqueness() {
    for unique in [false, true] {
        let mut b = VariantBuilder::new();
        b.reset(unique);
        b.new_object(None).unwrap();
        b.append_value(Some(b"a"), ()).unwrap();
        mark(&mut b, 1);
        b.with_validate_unique_fields(!unique).unwrap();
        mark(&mut b, 2);
        b.with_validate_unique_fields(unique).unwrap();
        for (to, unique) in [(2, !unique), (1, unique)] {
            b.return_to(to).unwrap();
            match unique {
                true => refused(10, &mut b, |b| b.append_value(Some(b"a"), ())),
                false => b.append_value(Some(b"a"), ()).unwrap(),
            }
        }
    }
}

/// Elements, and children among them.
#[test]
fn in_a_list() {
    let mut b = made(0, |b| b.new_list(None));
    b.append_value(None, true).unwrap();
    mark(&mut b, 1);
    for _ in 0..300 {
        b.append_value(None, ()).unwrap();
    }
    b.new_list(None).unwrap();
    b.close().unwrap();
    mark(&mut b, 2);
    b.new_object(None).unwrap();
    b.rollback().unwrap();
    assert_eq!(b.words()[elements(0)], 302);
    b.return_to(2).unwrap();
    assert_eq!(b.words()[elements(0)], 302);
    b.return_to(1).unwrap();
    assert_eq!(b.words()[elements(0)], 1);
    b.append_value(None, 5i8).unwrap();
    assert_eq!(finished(&mut b).0, [3, 2, 0, 1, 3, 4, 12, 5]);
}

/// 16 marks in each of 64 containers.
#[test]
fn depth() {
    let mut b = VariantBuilder::with_capacity(64, 1, 1, 64);
    for depth in 0..64 {
        b.new_object((depth > 0).then_some(b"a")).unwrap();
        (1..=16).for_each(|n| mark(&mut b, n));
        no_mark(22, &mut b);
    }
    refused(11, &mut b, |b| b.new_list(Some(b"a")));
    for depth in (0..64).rev() {
        assert_eq!(b.words()[container(depth) + SET], 16);
        b.return_to(16).unwrap();
        b.return_to(1).unwrap();
        refused(22, &mut b, |b| b.return_to(2));
        b.append_value(Some(b"a"), true).unwrap();
        b.close().unwrap();
    }
    assert_eq!(finished(&mut b), (vec![2, 1, 0, 0, 1, 4], vec![17, 1, 0, 1, b'a']));
}

/// 22 comes after 1 and 2; 23 after 10, 12 and 13, which ask of other fields, and before 14.
#[test]
fn place_among_the_rows() {
    let mut b = VariantBuilder::with_capacity(2, 1, 1, 1).lend_undo(vec![]);
    b.new_object(None).unwrap();
    b.append_value(Some(b"a"), ()).unwrap();
    mark(&mut b, 1);
    b.with_validate_unique_fields(true).unwrap();
    refused(10, &mut b, |b| b.append_value(Some(b"a"), "long"));
    refused(12, &mut b, |b| b.append_value(Some(b"b"), ()));
    b.with_validate_unique_fields(false).unwrap();
    refused(23, &mut b, |b| b.append_value(Some(b"a"), "long"));
    b.grow(0, 2, 2, 0);
    refused(13, &mut b, |b| b.append_value(Some(b"b"), ()));
    b = b.lend_undo(vec![0; 2]);
    refused(14, &mut b, |b| b.append_value(Some(b"a"), "long"));
    b.append_value(Some(b"a"), ()).unwrap();
    b.words_mut()[6] = 1;
    refused(2, &mut b, |b| b.return_to(9));
    no_mark(2, &mut b);
    b.words_mut()[7] = 0;
    refused(1, &mut b, |b| b.return_to(9));
    no_mark(1, &mut b);
}

/// An object with two marks, (2, 1, 1, 1, 0) and (4, 1, 1, 1, 1): the numbers in their order in the table. Used are (8, 2, 2, 2, 2).
fn two_marks() -> VariantBuilder<'static> {
    made(4, |b| {
        b.new_object(None)?;
        b.append_value(Some(b"a"), 1i8)?;
        b.mark()?;
        b.append_value(Some(b"a"), 2i8)?;
        b.mark()?;
        b.append_value(Some(b"a"), 3i8)?;
        b.append_value(Some(b"b"), 4i8)
    })
}

/// A call that reads no storage is accepted.
fn whole(b: &mut VariantBuilder) {
    b.with_validate_unique_fields(false).unwrap();
}

/// Marks that fall, lie below the starting marks or exceed the used counts, by one: 1 at every call.
#[test]
fn altered_marks() {
    let b = two_marks();
    assert_eq!(b.marks()[..14], [2, 1, 1, 1, 0, 0, 0, 4, 1, 1, 1, 1, 0, 0]);
    assert_eq!([0, 3, 4, 1, UNDO_USED].map(|at| b.words()[at]), [8, 2, 2, 2, 2]);
    for (at, used) in [8, 2, 2, 2, 2].into_iter().enumerate() {
        let mut b = two_marks();
        let later = b.marks()[number_of(0, 2, at)];
        b.marks_mut()[number_of(0, 1, at)] = later;
        whole(&mut b);
        b.marks_mut()[number_of(0, 1, at)] = later + 1;
        all_refused(1, &mut b);

        let mut b = two_marks();
        b.marks_mut()[number_of(0, 2, at)] = used;
        whole(&mut b);
        b.marks_mut()[number_of(0, 2, at)] = used + 1;
        all_refused(1, &mut b);

        let mut b = two_marks();
        let (start, first) = (container(0) + if at == 4 { UNDO } else { at }, b.marks()[number_of(0, 1, at)]);
        b.words_mut()[start] = first;
        whole(&mut b);
        b.words_mut()[start] = first + 1;
        all_refused(1, &mut b);
    }
}

/// The count is a list's: it neither falls nor exceeds the list's own. Of an object it is free.
#[test]
fn altered_counts() {
    let mut b = made(0, |b| b.new_list(None));
    for n in 1..=2 {
        b.append_value(None, ()).unwrap();
        mark(&mut b, n);
    }
    b.append_value(None, ()).unwrap();
    for (first, second, number) in [(1, 2, 0), (2, 2, 0), (3, 2, 1), (3, 3, 0), (3, 4, 1), (0, 0, 0), (0, usize::MAX, 1)] {
        b.marks_mut()[number_of(0, 1, 5)] = first;
        b.marks_mut()[number_of(0, 2, 5)] = second;
        match number {
            0 => refused(22, &mut b, |b| b.return_to(3)),
            _ => all_refused(number, &mut b),
        }
    }
    let mut b = two_marks();
    b.marks_mut()[number_of(0, 1, 5)] = usize::MAX;
    b.return_to(1).unwrap();
    b.close().unwrap();
    assert_eq!(b.value(), [2, 1, 0, 0, 2, 12, 1]);
}

/// Over 16; of outer containers, too; and what is not set is not read.
#[test]
fn altered_numbers_of_marks() {
    let mut b = VariantBuilder::new();
    for depth in 0..64 {
        b.new_object((depth > 0).then_some(b"a")).unwrap();
        (1..=16).for_each(|n| mark(&mut b, n));
    }
    for depth in 0..64 {
        for n in [17, usize::MAX] {
            b.words_mut()[container(depth) + SET] = n;
            all_refused(1, &mut b);
        }
        b.words_mut()[container(depth) + SET] = 16;
        b.marks_mut()[number_of(depth, 16, 0)] = 1;
        all_refused(1, &mut b);
        b.words_mut()[container(depth) + SET] = 15;
        whole(&mut b);
    }
    for depth in 0..64 {
        b.words_mut()[container(depth) + SET] = 0;
    }
    b.marks_mut().fill(usize::MAX);
    mark(&mut b, 1);
    b.return_to(1).unwrap();
}

/// The used undo records fit their storage, and the starting undo counts do not fall.
#[test]
fn altered_undo_counts() {
    let mut b = two_marks();
    b.words_mut()[UNDO_USED] = 4;
    all_refused(1, &mut b);
    b.words_mut()[UNDO_USED] = usize::MAX;
    all_refused(1, &mut b);
    b.words_mut()[UNDO_USED] = 2;
    refused(23, &mut b, |b| b.new_object(Some(b"b")));
    b.return_to(2).unwrap();
    b.new_object(Some(b"a")).unwrap();
    assert_eq!(b.words()[container(1) + UNDO], 2);
    for undo in [3, usize::MAX] {
        b.words_mut()[container(1) + UNDO] = undo;
        all_refused(1, &mut b);
    }
    b.words_mut()[container(1) + UNDO] = 1;
    whole(&mut b);
    b.words_mut()[container(0) + SET] = 0;
    b.words_mut()[container(0) + UNDO] = 1;
    whole(&mut b);
    b.words_mut()[container(0) + UNDO] = 2;
    all_refused(1, &mut b);
}

/// A replacing child under a mark has a record, so that its starting undo count is not its parent's: else it cannot be rolled back, but be closed.
#[test]
fn a_child_without_its_record() {
    let opened = || {
        made(4, |b| {
            b.new_object(None)?;
            b.append_value(Some(b"a"), 1i8)?;
            b.mark()?;
            b.new_list(Some(b"a"))
        })
    };
    let mut b = opened();
    b.words_mut()[container(1) + UNDO] = 0;
    refused(1, &mut b, |b| b.rollback());
    b.close().unwrap();
    let mut b = opened();
    b.words_mut()[container(1) + UNDO] = 0;
    b.words_mut()[container(0) + SET] = 0;
    b.rollback().unwrap();
    assert_eq!(finished(&mut b).0, [2, 1, 0, 0, 2, 12, 1]);
    let mut b = opened();
    b.rollback().unwrap();
    assert_eq!(b.words()[UNDO_USED], 0);
    assert_eq!(finished(&mut b).0, [2, 1, 0, 0, 2, 12, 1]);
}

/// What the records hold is not asked: an id without an entry is passed over, and an offset is written as it stands.
#[test]
fn altered_records() {
    let mut b = two_marks();
    b.storage_mut().undo.copy_from_slice(&[7, 5, 0, 9]);
    b.return_to(1).unwrap();
    assert_eq!(b.storage_mut().entries[..2], [0, 9]);
    refused(1, &mut b, |b| b.close());
    b.storage_mut().entries[1] = 2;
    b.close().unwrap();
    let mut b = two_marks();
    b.storage_mut().undo.copy_from_slice(&[0, 1, 0, 9]);
    b.return_to(1).unwrap();
    b.close().unwrap();
    assert_eq!(b.value(), [2, 1, 0, 1, 2, 12, 1]);
}

/// A return reads the innermost entries, a mark reads nothing.
#[test]
fn what_is_read() {
    let mut b = two_marks();
    b.storage_mut().entries[1] = 9;
    mark(&mut b, 3);
    refused(1, &mut b, |b| b.return_to(1));
    refused(1, &mut b, |b| b.return_to(9));
    b.storage_mut().entries[1] = 8;
    b.storage_mut().ends[0] = 7;
    refused(22, &mut b, |b| b.return_to(9));
    b.return_to(1).unwrap();
    refused(1, &mut b, |b| b.close());
}

/// An outer mark is held to the used counts as they are, so it may lie beyond a child's start until that one is rolled back.
#[test]
fn beyond_a_child() {
    let mut b = made(0, |b| {
        b.new_list(None)?;
        b.mark()?;
        b.new_list(None)?;
        b.append_value(None, ())
    });
    b.marks_mut()[number_of(0, 1, 0)] = 1;
    refused(3, &mut b, |b| b.with_validate_unique_fields(false));
    b.rollback().unwrap();
    all_refused(1, &mut b);
}
