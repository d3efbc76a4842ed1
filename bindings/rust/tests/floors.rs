//! Builders with a floor for widths: offsets, ids and dictionary numbers take no fewer bytes; counts and the lengths of Binary and String
//! do not follow it. Any other floor than 1 to 4 is refused with 24, and nothing is made.
#[path = "common/layout.rs"]
mod layout;

use layout::{count, list, stored, width};
use variant_writer::{sys, Refusal, Variant, VariantBuilder, WORDS};

const BAD: [usize; 5] = [0, 5, 6, 256, usize::MAX];

fn builder(floor: usize) -> VariantBuilder<'static> {
    let mut b = VariantBuilder::with_floor(floor).unwrap();
    b.grow(70_000, 70_000, 300, 300);
    b
}

/// The dictionary of a finish that is accepted.
fn finished(b: &mut VariantBuilder) -> Vec<u8> {
    let mut out = vec![7; 80_000];
    let n = b.finish(&mut out).unwrap();
    out.truncate(n);
    out
}

/// An object of one field.
fn object(floor: usize, id: usize, field: &[u8]) -> Vec<u8> {
    let (w, id_width) = (width(floor, field.len()), width(floor, id));
    let first = 2 + 4 * (w - 1) + 16 * (id_width - 1);
    [vec![first as u8], count(1), stored(id_width, [id]), stored(w, [0, field.len()]), field.to_vec()].concat()
}

/// The dictionary of names in ascending order.
fn dictionary(floor: usize, names: &[Vec<u8>]) -> Vec<u8> {
    let total = names.concat().len();
    let w = width(floor, total.max(names.len()));
    let ends = names.iter().scan(0, |end, name| {
        *end += name.len();
        Some(*end)
    });
    let sorted = if names.is_empty() { 0 } else { 16 };
    let first = (1 + sorted + 64 * (w - 1)) as u8;
    [vec![first], stored(w, [names.len(), 0]), stored(w, ends), names.concat()].concat()
}

#[test]
fn nothing_in_them() {
    let empty = |floor, open: fn(&mut VariantBuilder) -> Result<(), Refusal>| {
        let mut b = builder(floor);
        open(&mut b).and_then(|()| b.close()).unwrap();
        (b.value().to_vec(), finished(&mut b))
    };
    assert_eq!(empty(2, |b| b.new_object(None)), (vec![0x16, 0, 0, 0], vec![0x41, 0, 0, 0, 0]));
    for floor in 1..=4 {
        let (value, names) = empty(floor, |b| b.new_object(None));
        assert_eq!(value, [vec![(2 + 20 * (floor - 1)) as u8], count(0), stored(floor, [0])].concat());
        assert_eq!(names, dictionary(floor, &[]));
        assert_eq!(empty(floor, |b| b.new_list(None)), (list(floor, 0, &[]), names));
    }
}

/// Data that ends at the edges of the widths 1 and 2, in a list and in an object; a Binary's length is of four bytes.
#[test]
fn data_sizes() {
    for (floor, size) in (1..=4).flat_map(|floor| [255, 256, 65_535, 65_536].map(|size| (floor, size))) {
        let payload = vec![9; size - 5];
        let binary = [vec![15 << 2], stored(4, [size - 5]), payload.clone()].concat();
        let mut b = builder(floor);
        b.new_list(None).unwrap();
        b.append_value(None, Variant::Binary(&payload)).unwrap();
        b.close().unwrap();
        assert!(b.value() == list(floor, 1, &binary), "floor {floor}, a list of {size}");
        b.reset(false);
        b.new_object(None).unwrap();
        b.append_value(Some(b"a"), Variant::Binary(&payload)).unwrap();
        b.close().unwrap();
        assert!(b.value() == object(floor, 0, &binary), "floor {floor}, an object of {size}");
    }
}

#[test]
fn counts() {
    for (floor, n) in (1..=4).flat_map(|floor| [255, 256].map(|n| (floor, n))) {
        let mut b = builder(floor);
        b.new_list(None).unwrap();
        for _ in 0..n {
            b.append_value(None, true).unwrap();
        }
        b.close().unwrap();
        assert_eq!(b.value(), list(floor, n, &[4]), "floor {floor}, count {n}");
    }
}

/// The largest id 255 and 256, and the dictionary of so many names.
#[test]
fn ids() {
    for (floor, id) in (1..=4).flat_map(|floor| [255, 256].map(|id| (floor, id))) {
        let names: Vec<Vec<u8>> = (0..=id).map(|k| format!("{k:03}").into_bytes()).collect();
        let mut b = builder(floor);
        for name in &names {
            b.add_field_name(name).unwrap();
        }
        b.new_object(None).unwrap();
        b.append_value(Some(&names[id]), true).unwrap();
        b.close().unwrap();
        assert_eq!(b.value(), object(floor, id, &[4]), "floor {floor}, id {id}");
        assert_eq!(finished(&mut b), dictionary(floor, &names), "floor {floor}, id {id}");
    }
}

#[test]
fn name_bytes() {
    for (floor, size) in (1..=4).flat_map(|floor| [255, 256, 65_535, 65_536].map(|size| (floor, size))) {
        let names = [b"a".to_vec(), vec![b'b'; size - 1]];
        let mut b = builder(floor);
        names.iter().try_for_each(|name| b.add_field_name(name)).unwrap();
        b.append_value(None, ()).unwrap();
        assert_eq!(b.value(), [0]);
        assert!(finished(&mut b) == dictionary(floor, &names), "floor {floor}, size {size}");
    }
}

#[test]
fn other_floors() {
    for floor in BAD {
        let refusal = VariantBuilder::with_floor(floor).err();
        assert_eq!(refusal, Some(Refusal::FloorOutOfRange));
        assert_eq!(refusal.map(Refusal::number), Some(24));
        let (mut value, mut text, mut ends, mut entries) = ([9; 3], [9; 3], [9; 3], [9; 3]);
        let lent = VariantBuilder::lend_with_floor(&mut value, &mut text, &mut ends, &mut entries, floor);
        assert_eq!(lent.err(), refusal);
        assert_eq!((value, text, ends, entries), ([9; 3], [9; 3], [9; 3], [9; 3]));
        let mut words = [7; WORDS];
        // SAFETY: the pointer is a mutable borrow's
        assert_eq!(unsafe { sys::variant_new(&mut words, true, floor) }, 24);
        assert_eq!(words, [7; WORDS]);
    }
}

#[test]
fn lent_and_reset() {
    let (mut value, mut text, mut ends, mut entries) = ([9; 16], [9; 4], [9; 4], [9; 4]);
    let mut b = VariantBuilder::lend_with_floor(&mut value, &mut text, &mut ends, &mut entries, 3).unwrap();
    let empty_list = |b: &mut VariantBuilder| {
        b.new_list(None).and_then(|()| b.close()).unwrap();
        b.value().len()
    };
    assert_eq!(empty_list(&mut b), 5);
    for floor in BAD {
        let before = b.words();
        assert_eq!(b.reset_with_floor(false, floor), Err(Refusal::FloorOutOfRange));
        assert_eq!(b.words(), before);
    }
    b.reset(true);
    assert_eq!((empty_list(&mut b), b.words()[5]), (5, 1));
    b.reset_with_floor(false, 4).unwrap();
    assert_eq!((empty_list(&mut b), b.words()[5]), (6, 0));
    b.words_mut()[7] = 9;
    b.reset(false);
    assert_eq!(empty_list(&mut b), 6);
}

#[test]
fn without_a_floor_it_is_1() {
    let lent = VariantBuilder::lend(vec![], vec![], vec![], vec![]);
    for mut b in [VariantBuilder::new(), VariantBuilder::with_capacity(9, 9, 9, 9), VariantBuilder::default(), lent] {
        assert_eq!(b.words()[7], 1);
        b.reset(true);
        assert_eq!(b.words()[7], 1);
    }
}
