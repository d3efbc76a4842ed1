//! Records read: what is accepted and what is refused, with 19 and 20; fields by name, the first integer, the parts in order.
//!
//! The numbers are those of tools/model/READINGS_A6_A11_A12_A13.md.
#[path = "common/layout.rs"]
mod layout;

use layout::{count, list, stored, width};
use variant_writer::{listing, sys, BatchReader, BatchWriter, Record, Refusal, Variant, VariantBuilder};

/// Bytes of hexadecimal digits, blanks between them.
fn hex(digits: &str) -> Vec<u8> {
    let digits: String = digits.split(' ').collect();
    (0..digits.len()).step_by(2).map(|at| u8::from_str_radix(&digits[at..at + 2], 16).unwrap()).collect()
}

/// The refusal's number, 0 where the record is accepted.
fn judged(dictionary: &[u8], value: &[u8]) -> u8 {
    Record::read(dictionary, value).map_or_else(Refusal::number, |_| 0)
}

/// The number for a dictionary beside null.
fn names(dictionary: &str) -> u8 {
    judged(&hex(dictionary), &[0])
}

const EMPTY: [u8; 3] = [1, 0, 0];

/// The number for a value over no names.
fn value(value: &str) -> u8 {
    judged(&EMPTY, &hex(value))
}

/// b, a, a: unsorted, and a name twice.
const NAMES: &str = "01 03 00010203 62 61 61";

/// The number for a value over those names.
fn named(value: &str) -> u8 {
    judged(&hex(NAMES), &hex(value))
}

fn dictionary(names: &[Vec<u8>]) -> Vec<u8> {
    let text = names.concat();
    let w = width(1, text.len().max(names.len()));
    let ends = names.iter().scan(0, |end, name| {
        *end += name.len();
        Some(*end)
    });
    [vec![1 + 64 * (w as u8 - 1)], stored(w, [names.len(), 0].into_iter().chain(ends)), text].concat()
}

/// A list or an object around one value; the object's field has id 0.
fn around(is_list: bool, value: &[u8]) -> Vec<u8> {
    if is_list {
        list(2, 1, value)
    } else {
        [&[6, 1, 0], &stored(2, [0, value.len()])[..], value].concat()
    }
}

/// 1: nothing but the dictionary.
#[test]
fn whole_dictionary() {
    assert_eq!((names("01 00 00"), names("01 00 00 00"), names("01 00"), names("")), (0, 19, 19, 19));
}

/// 2: the version; offsets that begin with 0, never fall and end with the bytes.
#[test]
fn dictionary_layout() {
    assert_eq!((names("02 00 00"), names("00 00 00")), (19, 19));
    assert_eq!((names("01 01 00 01 61"), names("01 01 01 01 61"), names("01 01 00 02 61")), (0, 19, 19));
    assert_eq!((names("01 02 00 00 01 61"), names("01 02 00 02 01 61")), (0, 19));
}

/// 3: unused bits are zero, and no code is above 20.
#[test]
fn unused_bits() {
    assert_eq!((names("21 00 00"), value("82 00 00")), (19, 20));
    assert_eq!(["23 00 00", "43 00 00", "83 00 00", "54", "fc"].map(value), [20; 5]);
}

/// 4: each name is UTF-8 by itself.
#[test]
fn names_utf8() {
    assert_eq!((names("01 01 00 02 c3a9"), names("01 02 00 01 02 c3a9"), names("01 01 00 01 ff")), (0, 19, 19));
}

/// 5: the mark only if names ascend strictly.
#[test]
fn sorted_mark() {
    assert_eq!(["11 00 00", "11 01 00 01 61", "11 02 00 01 02 61 62"].map(names), [0; 3]);
    assert_eq!(["11 02 00 01 02 62 61", "11 02 00 01 02 61 61"].map(names), [19; 2]);
}

/// 6: without the mark nothing is said of the names.
#[test]
fn equal_names() {
    assert_eq!(["01 02 00 01 02 62 61", "01 02 00 01 02 61 61"].map(names), [0; 2]);
}

/// 7: every width, and the large bit with any count.
#[test]
fn any_width() {
    assert_eq!(["01 00 00", "41 0000 0000", "81 000000 000000", "c1 00000000 00000000"].map(names), [0; 4]);
    assert_eq!(["03 00 00", "07 00 0000", "0b 00 000000", "0f 00 00000000", "13 00000000 00"].map(value), [0; 5]);
    assert_eq!(["02 00 00", "12 00 00", "22 00 00", "32 00 00", "36 00 0000", "42 00000000 00"].map(value), [0; 6]);
    assert_eq!(["12 01 0100 00 01 00", "22 01 010000 00 01 00", "72 01000000 01000000 00 01 00"].map(named), [0; 3]);
}

/// 8: a list's data is its elements.
#[test]
fn list_data() {
    assert_eq!(["03 01 00 01 00", "03 02 00 02 03 0c05 00"].map(value), [0; 2]);
    assert_eq!(["03 00 01 00", "03 01 00 02 00 00", "03 02 00 01 03 0c05 00", "03 01 01 01 00", "03 01 00 02 00"].map(value), [20; 5]);
}

/// 9: values that no offset names may stand in an object's data.
#[test]
fn replaced_values() {
    assert_eq!((value("02 00 01 00"), named("02 01 00 02 03 0c05 00"), named("02 01 00 01 04 00 03 00 00")), (0, 0, 0));
}

/// 10: they are of the grammar, too.
#[test]
fn replaced_values_judged() {
    assert_eq!(["02 00 01 54", "02 00 02 05 ff", "02 00 01 0c", "02 00 06 20 27 00000000"].map(value), [20; 4]);
    assert_eq!((value("02 00 06 20 26 00000000"), named("02 00 06 02 01 03 00 01 00"), named("02 00 06 02 01 02 00 01 00")), (0, 20, 0));
}

/// 11: each offset is the start of a value, no two alike.
#[test]
fn offsets() {
    assert_eq!((named("02 01 00 00 01 00"), named("02 01 00 01 01 00"), named("02 01 00 01 02 0c 05")), (0, 20, 20));
    assert_eq!((named("02 02 01 00 01 00 02 00 00"), named("02 02 01 00 00 00 02 00 00")), (0, 20));
}

/// 12: ids of strictly ascending names, by their bytes.
#[test]
fn ids() {
    let two = |ids: &str| named(&format!("02 02 {ids} 00 01 02 00 00"));
    assert_eq!(["01 00", "02 00", "00 01", "00 00", "01 02", "02 01", "01 03"].map(two), [0, 0, 20, 20, 20, 20, 20]);
}

/// 13: at most 64 containers, empty and replaced ones among them, whichever kinds.
#[test]
fn nesting() {
    let dictionary = hex(NAMES);
    for (lists, replaced) in [(true, false), (false, false), (false, true)] {
        let wrap = |value: Vec<u8>, list| match replaced {
            true => [&[6, 0], &stored(2, [value.len()])[..], &value].concat(),
            false => around(list, &value),
        };
        let mut nested = hex("02 00 00");
        for level in 2..=64 {
            nested = wrap(nested, lists && level % 2 == 0);
        }
        assert_eq!((judged(&dictionary, &nested), judged(&dictionary, &wrap(nested, lists))), (0, 20));
    }
}

/// 14: a part of 4,294,967,295 bytes is not too long, and a value of one more is. The zeros take up no memory until they are written.
#[test]
fn longest() {
    let len = u32::MAX as usize;
    if Vec::<u8>::new().try_reserve_exact(len + 1).is_err() {
        return;
    }
    let mut bytes = vec![0; len + 1];
    bytes[..5].copy_from_slice(&[&[60], &stored(4, [len - 5])[..]].concat());
    assert_eq!(judged(&EMPTY, &bytes[..len]), 0);
    bytes[..5].copy_from_slice(&[&[60], &stored(4, [len - 4])[..]].concat());
    assert_eq!(judged(&EMPTY, &bytes), 20);
    bytes[..13].copy_from_slice(&[&[0xc1], &stored(4, [1, 0, len - 12])[..]].concat());
    assert_eq!(judged(&bytes, &[0]), 19);
}

/// 15: no bytes are no value, and two values are not one.
#[test]
fn one_value() {
    assert_eq!((value(""), value("00"), value("00 00")), (20, 0, 20));
}

/// 16: a name stands for itself, whichever of its ids the field has.
#[test]
fn field_by_name() {
    let dictionary = hex(NAMES);
    for id in [1, 2] {
        let value = [2, 1, id, 0, 2, 12, 7];
        let record = Record::read(&dictionary, &value).unwrap();
        assert_eq!(record.field(b"a").map(|part| part.value()), Some(&[12, 7][..]));
        assert_eq!([&b"b"[..], b"", b"aa", b"\xff"].map(|name| record.field(name)), [None; 4]);
    }
}

/// 17: only the fields of the value given; the part handed back is a record itself.
#[test]
fn fields_of_parts() {
    let (dictionary, value) = (hex("01 03 00010203 61 62 63"), hex("02 01 00 00 0e  02 02 01 02 00 05 07  03 01 00 01 08  0c 09"));
    let record = Record::read(&dictionary, &value).unwrap();
    assert_eq!((record.field(b"b"), record.first_integer()), (None, None));
    let inner = record.field(b"a").unwrap();
    assert_eq!((inner.metadata(), inner.value()), (record.metadata(), &value[5..]));
    assert_eq!((Record::read(&dictionary, inner.value()), inner.first_integer()), (Ok(inner), Some((2, 9))));
    let list = inner.field(b"b").unwrap();
    assert_eq!((list.field(b"a"), list.first_integer(), list.fields().len()), (None, None, 0));
    assert_eq!(list.elements().map(|part| part.value()).collect::<Vec<_>>(), [[8]]);
}

/// 18: the stored id, of the first name whose field is int8 to int64; a date is none.
#[test]
fn first_integer() {
    let dictionary = hex("41 0500 00000100020003000400 0500 65 64 63 62 61");
    for (value, number) in [("0c 80", -128), ("10 0080", -32_768), ("14 ffffff7f", 2_147_483_647), ("18 0000000000000080", i64::MIN)] {
        // a is a date, b a text, c a list of a number, d the number, e another
        let values = ["2c 01000000", "05 31", "03 01 00 02 0c01", value, "0c 01"].map(hex);
        let starts = (0..=5).map(|n| values[..n].iter().map(Vec::len).sum::<usize>() as u8);
        let object = [vec![2, 5, 4, 3, 2, 1, 0], starts.collect(), values.concat()].concat();
        assert_eq!(Record::read(&dictionary, &object).unwrap().first_integer(), Some((1, number)));
    }
    assert_eq!(Record::read(&EMPTY, &[12, 5]).unwrap().first_integer(), None);
}

/// 19: the whole pair is judged before anything is searched, the dictionary first; a refused call writes nothing, nor does one that finds none.
#[test]
fn judged_first() {
    for (dictionary, value, expected) in [
        ("01 00", "", 19),
        ("01 01 00 01 61", "02 01 00 00 03 0c05 54", 20),
        ("01 01 00 01 61", "02 01 00 00 02 0c05", 0),
        ("01 01 00 01 62", "02 01 00 00 01 00", 0),
    ] {
        let (d, v) = (hex(dictionary), hex(value));
        let (mut kinds, mut start, mut end, mut id, mut number) = ([7, 7], 7, 7, 7, 7);
        // SAFETY: the pointers are borrows', with their lengths
        let answers = unsafe {
            [
                sys::variant_field(d.as_ptr(), d.len(), v.as_ptr(), v.len(), b"a".as_ptr(), 1, &mut kinds[0], &mut start, &mut end),
                sys::variant_first_integer(d.as_ptr(), d.len(), v.as_ptr(), v.len(), &mut kinds[1], &mut id, &mut number),
            ]
        };
        assert_eq!(answers, [expected; 2]);
        let found = dictionary.ends_with("61") && expected == 0;
        assert_eq!(
            kinds,
            if found {
                [0, 0]
            } else if expected == 0 {
                [1, 1]
            } else {
                [7, 7]
            }
        );
        assert_eq!((start, end, id, number), if found { (5, 7, 0, 5) } else { (7, 7, 7, 7) });
    }
}

/// The scalars' ranges at their edges.
#[test]
fn scalars() {
    for (value, expected) in [
        ("20 26 ffc99a3b", 0),
        ("20 26 00ca9a3b", 20),
        ("20 00 0136 65c4", 0),
        ("20 00 0036 65c4", 20),
        ("24 26 ffff63a7b3b6e00d", 0),
        ("24 00 000064a7b3b6e00d", 20),
        ("28 27 00000000000000000000000000000000", 20),
        ("28 26 ffffffff3f228a097ac4865aa84c3b4b", 0),
        ("28 26 0000000040228a097ac4865aa84c3b4b", 20),
        ("44 ff5f971d14000000", 0),
        ("44 0060d71d14000000", 20),
        ("44 ffffffffffffffff", 20),
        ("40 02000000 c3a9", 0),
        ("40 02000000 a9c3", 20),
        ("3c 02000000 a9c3", 0),
        ("3c 03000000 a9c3", 20),
        ("50 00000000000000000000000000000000", 0),
        ("50 000000000000000000000000000000", 20),
    ] {
        assert_eq!(self::value(value), expected, "{value}");
    }
}

/// Numbers in an order that a fixed start gives.
struct Random(u64);

impl Random {
    fn below(&mut self, n: usize) -> usize {
        self.0 ^= self.0 << 13;
        self.0 ^= self.0 >> 7;
        self.0 ^= self.0 << 17;
        (self.0 % n as u64) as usize
    }
}

/// Names and data in no order; each field is found, and all come in order of names.
#[test]
fn many_fields() {
    let (mut random, fields) = (Random(6), 16_000);
    let mut numbers: Vec<usize> = (0..fields).collect();
    (1..fields).for_each(|i| numbers.swap(i, random.below(i + 1)));
    let name = |n: usize| format!("{n:05}").into_bytes();
    let dictionary = dictionary(&numbers.iter().map(|n| name(*n)).collect::<Vec<_>>());
    let mut ids = vec![0; fields];
    numbers.iter().enumerate().for_each(|(id, n)| ids[*n] = id);
    // the value of name n is int32 n; the data is in yet another order
    let int32 = |n: usize| [vec![20], stored(4, [n])].concat();
    let places: Vec<usize> = ids.iter().map(|id| id * 7 % fields).collect();
    let mut data = vec![0; 5 * fields];
    places.iter().enumerate().for_each(|(n, at)| data[5 * at..][..5].copy_from_slice(&int32(n)));
    let offsets = places.iter().map(|at| 5 * at).chain([data.len()]);
    let header = [vec![0x5a], count(fields), stored(2, ids.iter().copied()), stored(3, offsets)].concat();
    let value = [header, data].concat();
    let record = Record::read(&dictionary, &value).unwrap();
    assert_eq!(record.first_integer(), Some((ids[0], 0)));
    assert_eq!((record.names().len(), record.fields().len()), (fields, fields));
    for (n, (found, part)) in record.fields().enumerate() {
        assert_eq!((found, part.value()), (&name(n)[..], &int32(n)[..]));
    }
    for n in [0, 1, 7_777, fields - 1] {
        assert_eq!(record.field(&name(n)).unwrap().value(), int32(n));
    }
    assert_eq!(record.field(&name(fields)), None);
}

/// A record with all kinds of value, replaced ones among them, and how it is finished.
fn written(floor: usize) -> (Vec<u8>, Vec<u8>) {
    let mut b = VariantBuilder::new();
    b.reset_with_floor(false, floor).unwrap();
    b.new_object(None).unwrap();
    b.append_value(Some(b"tag"), "999000000012345").unwrap();
    b.append_value(Some(b"weight"), Variant::Decimal4 { integer: 4125, scale: 1 }).unwrap();
    b.append_value(Some(b"tag"), Variant::String("Kühlraum".as_bytes())).unwrap();
    b.new_list(Some(b"readings")).unwrap();
    for tenths in [4131i16, 4128, 4125] {
        b.append_value(None, tenths).unwrap();
        b.new_object(None).unwrap();
        b.append_value(Some("größe".as_bytes()), Variant::Time(86_399_999_999)).unwrap();
        b.append_value(Some(b"at"), Variant::Date(19_949)).unwrap();
        b.close().unwrap();
    }
    b.close().unwrap();
    b.append_value(Some(b"id"), Variant::Uuid([7; 16])).unwrap();
    b.append_value(Some(b"count"), 300i64).unwrap();
    b.close().unwrap();
    let mut dictionary = [0; 256];
    let n = b.finish(&mut dictionary).unwrap();
    (dictionary[..n].to_vec(), b.value().to_vec())
}

/// Each part is a record, and a field is found by its name; how many parts there are.
fn parts(record: Record) -> usize {
    assert_eq!(Record::read(record.metadata(), record.value()), Ok(record));
    assert!(record.fields().all(|(name, part)| record.names().any(|n| n == name) && record.field(name) == Some(part)));
    record.fields().map(|(_, part)| part).chain(record.elements()).map(|part| 1 + parts(part)).sum()
}

#[test]
fn finished_records() {
    let mut batch = BatchWriter::new();
    for floor in 1..=4 {
        let (dictionary, value) = written(floor);
        batch.add(&dictionary, &value).unwrap();
    }
    for record in BatchReader::new(batch.as_bytes()).unwrap() {
        let record = record.unwrap().read().unwrap();
        let names: Vec<_> = record.fields().map(|(name, _)| name).collect();
        assert_eq!(names, [&b"count"[..], b"id", b"readings", b"tag", b"weight"]);
        assert_eq!((record.first_integer(), parts(record)), (Some((6, 300)), 17));
        assert!(listing(record.value(), record.metadata()).unwrap().contains("\n      größe: time 23:59:59.999999\n"));
    }
    assert_eq!(BatchReader::new(&[1, 0, 0, 0, 5, 0, 0, 0, 0, 0]).unwrap().next().unwrap().unwrap().read(), Err(Refusal::Malformed));
}

/// A byte altered, put in or taken out, or the end cut off: refused, or a record all the same, all of whose parts are records.
#[test]
fn mutants() {
    let (mut random, mut refused) = (Random(19), [0; 21]);
    for round in 0..10_000 {
        let (mut dictionary, mut value) = written(1 + round % 4);
        let mutant = if random.below(3) == 0 { &mut dictionary } else { &mut value };
        let (at, byte) = (random.below(mutant.len()), random.below(256) as u8);
        match random.below(6) {
            0 => mutant.insert(at, byte),
            1 => drop(mutant.remove(at)),
            2 => mutant.truncate(at),
            3 => mutant[at] = mutant[at].wrapping_add(1),
            4 => mutant[at] = mutant[at].wrapping_sub(1),
            _ => mutant[at] = byte,
        }
        let number = judged(&dictionary, &value);
        refused[usize::from(number)] += 1;
        match Record::read(&dictionary, &value) {
            Ok(record) => assert_eq!(listing(&value, &dictionary).is_some(), parts(record) > 0),
            Err(_) => assert_eq!(listing(&value, &dictionary), None),
        }
    }
    let [accepted, bad_dictionary, bad_value] = [0, 19, 20].map(|number| refused[number]);
    assert_eq!(accepted + bad_dictionary + bad_value, 10_000);
    assert!([accepted, bad_dictionary, bad_value].iter().all(|n| *n > 1_000), "{accepted} {bad_dictionary} {bad_value}");
}
