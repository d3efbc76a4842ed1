//! Lists take no entries, however long they are. Their offsets are had again by walking their data at close, which is refused with 1 where words or
//! storage were altered and the data is not as many whole values as the list counts. The edges are those of the readings 22 to 30 of
//! tools/model/README.md.
#[path = "common/layout.rs"]
mod layout;
#[path = "common/unchanged.rs"]
mod unchanged;

use layout::{count, list, stored, width};
use unchanged::{all_refused, finish, refused};
use variant_writer::{Variant, VariantBuilder};

/// Where the words stand that count elements, the outermost container's first.
const ELEMENTS: usize = 713;

/// Without names and entries, and with a list open.
fn opened(value: usize) -> VariantBuilder<'static> {
    let mut b = VariantBuilder::with_capacity(value, 0, 0, 0);
    b.new_list(None).unwrap();
    b
}

/// An open list with these bytes as data, which counts so many elements.
fn altered(data: &[u8], count: usize) -> VariantBuilder<'static> {
    let mut b = opened(128);
    b.storage_mut().value[..data.len()].copy_from_slice(data);
    b.words_mut()[0] = data.len();
    b.words_mut()[ELEMENTS] = count;
    b
}

fn bytes(hex: &str) -> Vec<u8> {
    (0..hex.len()).step_by(2).map(|at| u8::from_str_radix(&hex[at..at + 2], 16).unwrap()).collect()
}

#[test]
fn long_lists() {
    for (floor, n) in (1..=4).flat_map(|floor| [0, 1, 255, 256, 65_535, 65_536, 100_000].map(|n| (floor, n))) {
        let expected = list(floor, n, &[4]);
        let mut b = VariantBuilder::lend_with_floor(vec![9; expected.len()], vec![], vec![], vec![], floor).unwrap();
        b.new_list(None).unwrap();
        for _ in 0..n {
            b.append_value(None, true).unwrap();
        }
        b.close().unwrap();
        assert!(b.value() == expected, "floor {floor}, {n} elements");
    }
}

/// Texts of 1 to 200 bytes, 100,000 of them.
#[test]
fn a_long_list_of_texts() {
    let sizes: Vec<usize> = (0..100_000).map(|k| 1 + 7 * k % 200).collect();
    let mut b = opened(12_000_000);
    let (mut data, mut offsets) = (Vec::new(), Vec::new());
    for size in sizes {
        let text = vec![b'a' + (size % 26) as u8; size];
        offsets.push(data.len());
        match size {
            ..64 => data.push(4 * size as u8 + 1),
            _ => data.extend([vec![16 << 2], stored(4, [size])].concat()),
        }
        data.extend(&text);
        b.append_value(None, Variant::Text(&text)).unwrap();
    }
    b.close().unwrap();
    offsets.push(data.len());
    let w = width(1, data.len());
    let first = (3 + 4 * (w - 1) + 16) as u8;
    assert!(b.value() == [vec![first], count(100_000), stored(w, offsets), data].concat());
}

/// In a byte less than the header takes the list stays open.
#[test]
fn no_room_for_the_header() {
    for n in [0, 255, 256, 100_000] {
        let expected = list(1, n, &[0]);
        let mut b = opened(expected.len() - 1);
        for _ in 0..n {
            b.append_value(None, ()).unwrap();
        }
        refused(14, &mut b, |b| b.close());
        b.grow(expected.len(), 0, 0, 0);
        b.close().unwrap();
        assert!(b.value() == expected);
    }
}

/// Number 13 is left for objects.
#[test]
fn without_entries() {
    let mut b = VariantBuilder::with_capacity(64, 1, 1, 0);
    b.new_list(None).unwrap();
    b.append_value(None, 1i8).unwrap();
    b.new_object(None).unwrap();
    refused(13, &mut b, |b| b.append_value(Some(b"a"), ()));
    refused(13, &mut b, |b| b.new_list(Some(b"a")));
    b.close().unwrap();
    b.new_list(None).unwrap();
    b.append_value(None, true).unwrap();
    b.append_value(None, false).unwrap();
    b.close().unwrap();
    b.close().unwrap();
    assert_eq!(b.value(), [3, 3, 0, 2, 5, 12, 12, 1, 2, 0, 0, 3, 2, 0, 1, 2, 4, 8]);
}

/// A child rolled back is an element no more, and no entry of an object around goes with it.
#[test]
fn rolled_back() {
    let mut b = VariantBuilder::with_capacity(64, 2, 2, 2);
    b.new_object(None).unwrap();
    b.append_value(Some(b"a"), ()).unwrap();
    b.new_list(Some(b"b")).unwrap();
    b.append_value(None, true).unwrap();
    b.new_list(None).unwrap();
    b.append_value(None, ()).unwrap();
    b.new_object(None).unwrap();
    assert_eq!((b.words()[ELEMENTS + 1], b.words()[ELEMENTS + 2]), (2, 2));
    b.rollback().unwrap();
    assert_eq!((b.words()[ELEMENTS + 1], b.words()[ELEMENTS + 2]), (2, 1));
    b.rollback().unwrap();
    assert_eq!((b.words()[1], b.words()[ELEMENTS + 1]), (2, 1));
    b.close().unwrap();
    b.close().unwrap();
    finish(&mut b, 7).unwrap();
    assert_eq!(b.value(), [2, 2, 0, 1, 0, 1, 6, 0, 3, 1, 0, 1, 4]);
}

/// One value of two bytes: to count more than the bytes is 1 at every call, to count another number of values at close.
#[test]
fn altered_counts() {
    let mut b = opened(16);
    b.append_value(None, 5i8).unwrap();
    for n in [3, 4, usize::MAX] {
        b.words_mut()[ELEMENTS] = n;
        all_refused(1, &mut b);
    }
    for n in [0, 2] {
        b.words_mut()[ELEMENTS] = n;
        refused(1, &mut b, |b| b.close());
        refused(4, &mut b, |b| finish(b, 9));
    }
    b.words_mut()[ELEMENTS] = 1;
    b.close().unwrap();
    assert_eq!(b.value(), [3, 1, 0, 2, 12, 5]);
}

/// With a child open a list may count one more than its bytes. One that counts none cannot lose the child, but the child can be closed.
#[test]
fn a_child_among_them() {
    let mut b = opened(16);
    b.append_value(None, ()).unwrap();
    b.new_list(None).unwrap();
    b.words_mut()[ELEMENTS] = 3;
    all_refused(1, &mut b);
    b.words_mut()[ELEMENTS] = 0;
    refused(1, &mut b, |b| b.rollback());
    b.close().unwrap();
    refused(1, &mut b, |b| b.close());
    b.words_mut()[ELEMENTS] = 2;
    b.close().unwrap();
    assert_eq!(b.value(), [3, 2, 0, 1, 4, 0, 3, 0, 0]);
}

/// Of every list, not only of the innermost.
#[test]
fn counts_of_outer_lists() {
    let mut b = opened(600);
    for _ in 1..64 {
        b.new_list(None).unwrap();
    }
    for depth in 0..64 {
        b.words_mut()[ELEMENTS + depth] += 1;
        all_refused(1, &mut b);
        b.words_mut()[ELEMENTS + depth] -= 1;
    }
    for _ in 0..64 {
        b.close().unwrap();
    }
    finish(&mut b, 3).unwrap();
}

/// Of an object the count is free.
#[test]
fn counts_of_objects() {
    for n in [1, usize::MAX] {
        let mut b = VariantBuilder::new();
        b.new_object(None).unwrap();
        b.words_mut()[ELEMENTS] = n;
        b.new_list(Some(b"a")).unwrap();
        b.rollback().unwrap();
        b.append_value(Some(b"a"), ()).unwrap();
        b.close().unwrap();
        assert_eq!(b.value(), [2, 1, 0, 0, 1, 0]);
    }
}

/// What entries there may be in a list's range is not read, and they are free again after it.
#[test]
fn foreign_entries() {
    let mut b = VariantBuilder::with_capacity(16, 0, 0, 1);
    b.new_list(None).unwrap();
    b.append_value(None, ()).unwrap();
    b.storage_mut().entries.copy_from_slice(&[9, 99]);
    b.words_mut()[1] = 1;
    refused(5, &mut b, |b| b.append_value(Some(b"a"), ()));
    b.close().unwrap();
    assert_eq!((b.value(), b.words()[1]), (&[3, 1, 0, 1, 0][..], 0));
}

/// One value each, measured by its first byte, unused bits passed over, and stored lengths: not two, nor none, and cut short not one.
#[test]
fn whole_values() {
    for hex in [
        "00",
        "0c05",
        "01",
        "057f",
        "3c00000000",
        "4001000000ff",
        "030000",
        "230000",
        "e30000",
        "020000",
        "820000",
        "130000000000",
        "420000000000",
        "0301ee01fc",
        "0201ffee01fc",
        "0b01eeeeee010000fc",
        "3e01eeeeeeeeeeeeeeee01000000fc",
    ] {
        let data = bytes(hex);
        let mut b = altered(&data, 1);
        b.close().unwrap();
        assert_eq!(b.value(), list(1, 1, &data), "{hex}");
        for n in [0, 2] {
            refused(1, &mut altered(&data, n), |b| b.close());
        }
        for cut in 1..data.len() {
            refused(1, &mut altered(&data[..cut], 1), |b| b.close());
        }
    }
}

/// Type codes above 20, and lengths past the data, some of them so large that 32 bits do not hold the sum.
#[test]
fn no_values() {
    for code in 21..64 {
        refused(1, &mut altered(&[4 * code], 1), |b| b.close());
    }
    for hex in [
        "3cffffffff",
        "3cfbffffff",
        "40fcffffff",
        "130000",
        "420000",
        "1f0000004000000000",
        "7e0000002000000000",
        "7effffffff00000000",
        "0f00faffffff",
        "3e00ffffffff",
    ] {
        refused(1, &mut altered(&bytes(hex), 1), |b| b.close());
    }
}

/// It comes before 2 and 14, and at close only.
#[test]
fn its_place() {
    let mut b = opened(1);
    b.append_value(None, ()).unwrap();
    b.storage_mut().value[0] = 21 << 2;
    for finished in [1, 0] {
        b.words_mut()[6] = finished;
        refused(1, &mut b, |b| b.close());
    }
    b.storage_mut().value[0] = 0;
    refused(14, &mut b, |b| b.close());
    b.words_mut()[6] = 1;
    refused(2, &mut b, |b| b.close());
    let mut b = altered(&[21 << 2], 1);
    b.append_value(None, ()).unwrap();
    b.new_list(None).unwrap();
    b.rollback().unwrap();
    refused(1, &mut b, |b| b.close());
    b.rollback().unwrap();
}
