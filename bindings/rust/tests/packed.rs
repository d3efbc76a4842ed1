//! Packed decimal: appended as the smallest decimal that holds the number, and written from one; what is none is refused with 18.
use variant_writer::{sys, write_packed_decimal, Refusal, Variant, VariantBuilder};

const MOST: i128 = 10i128.pow(38) - 1;

/// The bytes of hexadecimal digits.
fn bytes(digits: &str) -> Vec<u8> {
    let pair = |at| u8::from_str_radix(&digits[at..at + 2], 16).unwrap();
    (0..digits.len()).step_by(2).map(pair).collect()
}

/// The shortest form: the decimal digits, a zero before them where they are even in number, and the sign.
fn form(integer: i128) -> Vec<u8> {
    let digits = integer.unsigned_abs().to_string();
    let zero = if digits.len() % 2 == 0 { "0" } else { "" };
    bytes(&format!("{zero}{digits}{}", if integer < 0 { 'd' } else { 'c' }))
}

/// The smallest decimal that holds a number.
fn smallest(integer: i128, scale: u8) -> Variant<'static> {
    match integer.unsigned_abs() {
        0..=999_999_999 => Variant::Decimal4 { integer: integer as i32, scale },
        1_000_000_000..=999_999_999_999_999_999 => Variant::Decimal8 { integer: integer as i64, scale },
        _ => Variant::Decimal16 { integer, scale },
    }
}

/// The value, or the number of the refusal, which leaves the builder as it was.
fn stored(scale: u8, bytes: &[u8]) -> Result<Vec<u8>, u8> {
    let mut b = VariantBuilder::new();
    let (words, value) = (b.words(), b.storage_mut().value.to_vec());
    match b.append_packed(None, scale, bytes) {
        Ok(()) => Ok(b.value().to_vec()),
        Err(refusal) => {
            assert!(b.words() == words && b.storage_mut().value == value, "{refusal} changed something");
            Err(refusal.number())
        }
    }
}

fn plain(x: Variant) -> Vec<u8> {
    let mut b = VariantBuilder::new();
    b.append_value(None, x).unwrap();
    b.value().to_vec()
}

/// Both signs of each power of ten, one less and one more, with other numbers of each length.
fn numbers() -> Vec<i128> {
    let powers = (0..=37).map(|k| 10i128.pow(k)).flat_map(|n| [n - 1, n, n + 1, n * 7 + n / 3]);
    powers.chain([MOST - 1, MOST, 1 << 63, 1 << 64, (1 << 64) - 1]).flat_map(|n| [n, -n]).collect()
}

#[test]
fn stored_as_the_smallest_decimal() {
    for (at, n) in numbers().into_iter().enumerate() {
        let scale = (at % 39) as u8;
        assert_eq!(stored(scale, &form(n)), Ok(plain(smallest(n, scale))), "{n}");
    }
    for (edge, codes) in [(10i128.pow(9), [8, 9]), (10i128.pow(18), [9, 10])] {
        for n in [edge, -edge] {
            assert_eq!([stored(0, &form(n - n.signum())).unwrap()[0], stored(0, &form(n)).unwrap()[0]], codes.map(|code| code * 4));
        }
    }
    assert_eq!(stored(38, &[0x5c]), Ok(vec![32, 38, 5, 0, 0, 0]));
}

/// C and F are plus, D is minus; minus zero is zero. Zeros in front change nothing, to 20 bytes.
#[test]
fn signs_and_zeros() {
    for n in numbers() {
        let mut spelled = form(n);
        while spelled.len() < 20 {
            spelled.insert(0, 0);
            assert_eq!(stored(2, &spelled), Ok(plain(smallest(n, 2))));
        }
        *spelled.last_mut().unwrap() ^= if n < 0 { 0 } else { 0xC ^ 0xF };
        assert_eq!(stored(2, &spelled), Ok(plain(smallest(n, 2))));
    }
    for zero in ["0c", "0d", "0f", "000d", "000000000000000000000000000000000000000d"] {
        assert_eq!(stored(3, &bytes(zero)), Ok(vec![32, 3, 0, 0, 0, 0]));
    }
}

/// Each byte alone: a digit and a sign.
#[test]
fn every_byte() {
    for byte in 0..=u8::MAX {
        let (digit, sign) = (i128::from(byte >> 4), byte & 15);
        let n = if sign == 0xD { -digit } else { digit };
        let expected = if digit <= 9 && [0xC, 0xD, 0xF].contains(&sign) { Ok(plain(smallest(n, 0))) } else { Err(18) };
        assert_eq!(stored(0, &[byte]), expected, "{byte:02x}");
    }
}

/// No bytes, more than 20, whatever they hold, and a digit above 9 in each place.
#[test]
fn no_packed_decimal() {
    assert_eq!(stored(0, &[]), Err(18));
    for len in [21, 22, 40, 255, 256, 1000] {
        let mut zeros = vec![0; len];
        zeros[len - 1] = 0x0c;
        assert_eq!(stored(0, &zeros), Err(18), "{len}");
    }
    for (len, place) in (1..=20).flat_map(|len| (0..2 * len).map(move |place| (len, place))) {
        let mut digits = "1".repeat(2 * len - 1) + "c";
        for wrong in "abcdef".chars().filter(|c| place < 2 * len - 1 || "abe".contains(*c)) {
            digits.replace_range(place..=place, &wrong.to_string());
            assert_eq!(stored(0, &bytes(&digits)), Err(18), "{digits}");
        }
    }
    assert_eq!(Refusal::NotPacked.number(), 18);
}

/// Numbers of 39 digits are too large, also those that 128 bits would cut to small ones; so is a scale above 38. 18 comes before 7.
#[test]
fn too_large() {
    let wrapped = "340282366920938463463374607431768211461"; // 2^128 + 5
    for digits in ["1".to_owned() + &"0".repeat(38), "9".repeat(39), wrapped.into()] {
        for sign in ["c", "d", "f"] {
            assert_eq!(stored(0, &bytes(&(digits.clone() + sign))), Err(7), "{digits}");
        }
    }
    for scale in 0..=u8::MAX {
        assert_eq!(stored(scale, &[0x0c]).err(), (scale > 38).then_some(7));
        assert_eq!(stored(scale, &[0x0a]), Err(18));
    }
}

/// Bytes behind the form are as they were; a refused call writes none, and no length.
#[test]
fn written() {
    for n in numbers() {
        let expected = form(n);
        for spare in [0, 1, 7] {
            let mut out = vec![9; expected.len() + spare];
            assert_eq!(write_packed_decimal(n, 38, &mut out), Ok(expected.len()), "{n}");
            assert_eq!(out, [&expected[..], &vec![9; spare]].concat());
        }
        for len in 0..expected.len() {
            let mut out = vec![9; len];
            assert_eq!(write_packed_decimal(n, 0, &mut out), Err(Refusal::ValueFull), "{n}");
            assert_eq!(out, vec![9; len]);
        }
        assert_eq!(stored(7, &expected), Ok(plain(smallest(n, 7))));
    }
    assert_eq!((form(0), form(10), form(-5)), (vec![0x0c], vec![1, 0x0c], vec![0x5d]));
}

#[test]
fn not_written() {
    let too_large = [MOST + 1, -MOST - 1, i128::MAX, i128::MIN, i128::MIN + 1].map(|n| (n, 0));
    for ((n, scale), len) in too_large.into_iter().chain([(0, 39), (5, 255)]).flat_map(|case| [(case, 0), (case, 20), (case, 99)]) {
        let (mut out, mut length) = (vec![9; len], 7);
        assert_eq!(write_packed_decimal(n, scale, &mut out), Err(Refusal::OutOfRange), "{n}");
        let (high, low) = ((n >> 64) as i64, n as u64);
        // SAFETY: the pointers are those of mutable borrows, apart from each other
        assert_eq!(unsafe { sys::variant_write_packed_decimal(high, low, scale, out.as_mut_ptr(), len, &mut length) }, 7);
        assert_eq!((out, length), (vec![9; len], 7));
    }
    let (mut out, mut length) = ([9; 1], 7);
    // SAFETY: as above
    assert_eq!(unsafe { sys::variant_write_packed_decimal(0, 10, 0, out.as_mut_ptr(), 1, &mut length) }, 14);
    assert_eq!((out, length), ([9], 7));
}

#[test]
fn named_in_an_object() {
    let mut b = VariantBuilder::new();
    b.new_object(None).unwrap();
    b.append_packed(Some(b"weight"), 1, &[0x04, 0x12, 0x5c]).unwrap();
    b.append_packed(Some(b"tare"), 2, &[0x12, 0x34, 0x56, 0x78, 0x90, 0x1d]).unwrap();
    b.close().unwrap();
    let mut names = [0; 32];
    let n = b.finish(&mut names).unwrap();
    let listed = variant_writer::listing(b.value(), &names[..n]).unwrap();
    assert!(listed.contains("\n  tare: decimal8 -123456789.01\n  weight: decimal4 412.5\n"), "{listed}");
}

/// 18 comes after 1, 2, 5 and 6, and before 7, 9, 10, 12, 13 and 14; 7 comes next; where neither holds the others come as for any scalar.
#[test]
fn place_among_the_rows() {
    let number = |b: &mut VariantBuilder, name: Option<&[u8]>, scale: u8, byte: u8| {
        let (words, value) = (b.words(), b.storage_mut().value.to_vec());
        let number = b.append_packed(name, scale, &[byte]).map_or_else(Refusal::number, |()| 0);
        assert!(number == 0 || b.words() == words && b.storage_mut().value == value);
        number
    };
    let all = |b: &mut VariantBuilder, name: Option<&[u8]>| [(39, 0x5e), (39, 0x5c), (38, 0x5c)].map(|(s, byte)| number(b, name, s, byte));

    let mut b = VariantBuilder::with_capacity(6, 1, 1, 1);
    assert_eq!(all(&mut b, Some(b"a")), [5, 5, 5]);
    assert_eq!(all(&mut b, None), [18, 7, 0]);
    assert_eq!(all(&mut b, None), [6, 6, 6]);
    b.finish(&mut [0; 3]).unwrap();
    assert_eq!(all(&mut b, None), [2, 2, 2]);
    b.words_mut()[7] = 5;
    assert_eq!(all(&mut b, None), [1, 1, 1]);

    let mut b = VariantBuilder::with_capacity(12, 1, 1, 1);
    b.reset(true);
    b.new_object(None).unwrap();
    assert_eq!(all(&mut b, None), [5, 5, 5]);
    assert_eq!(all(&mut b, Some(b"\xff")), [18, 7, 9]);
    assert_eq!(all(&mut b, Some(b"ab")), [18, 7, 12]);
    assert_eq!(all(&mut b, Some(b"a")), [18, 7, 0]);
    assert_eq!(all(&mut b, Some(b"a")), [18, 7, 10]);
    assert_eq!(all(&mut b, Some(b"b")), [18, 7, 12]);
    b.grow(0, 9, 9, 0);
    assert_eq!(all(&mut b, Some(b"b")), [18, 7, 13]);
    b.grow(0, 0, 0, 9);
    assert_eq!(all(&mut b, Some(b"b")), [18, 7, 0]);
    assert_eq!(all(&mut b, Some(b"c")), [18, 7, 14]);
}
