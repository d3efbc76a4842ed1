//! A scalar of each type, and the edges of document 01.
use variant_writer::{Variant, VariantBuilder};

fn value(x: Variant) -> Vec<u8> {
    let mut b = VariantBuilder::new();
    b.append_value(None, x).unwrap();
    b.value().to_vec()
}

fn stored(code: u8, payload: &[u8]) -> Vec<u8> {
    [&[code * 4], payload].concat()
}

#[test]
fn numbers() {
    assert_eq!(value(true.into()), [4]);
    assert_eq!(value(false.into()), [8]);
    assert_eq!(value(Variant::Int32(-7)), stored(5, &(-7i32).to_le_bytes()));
    assert_eq!(value(Variant::Int64(i64::MIN)), stored(6, &i64::MIN.to_le_bytes()));
    assert_eq!(value(Variant::Date(-1)), stored(11, &[255; 4]));
    assert_eq!(value(Variant::TimestampMicros(-2)), stored(12, &(-2i64).to_le_bytes()));
    assert_eq!(value(Variant::TimestampNtzMicros(3)), stored(13, &3i64.to_le_bytes()));
    assert_eq!(value(Variant::Time(86_399_999_999)), stored(17, &86_399_999_999i64.to_le_bytes()));
    assert_eq!(value(Variant::TimestampNanos(4)), stored(18, &4i64.to_le_bytes()));
    assert_eq!(value(Variant::TimestampNtzNanos(5)), stored(19, &5i64.to_le_bytes()));
}

#[test]
fn decimals() {
    let n = 10i128.pow(38) - 1;
    for integer in [n, -n, 0, -1, 1 << 64, -(1 << 64)] {
        let expected = stored(10, &[&[38], &integer.to_le_bytes()[..]].concat());
        assert_eq!(value(Variant::Decimal16 { integer, scale: 38 }), expected);
    }
    assert_eq!(value(Variant::Decimal4 { integer: -9, scale: 2 }), [32, 2, 247, 255, 255, 255]);
    assert_eq!(value(Variant::Decimal8 { integer: 9, scale: 0 }), [36, 0, 9, 0, 0, 0, 0, 0, 0, 0]);
}

#[test]
fn bits_of_floats_are_kept() {
    for bits in [0, 0x7f80_0001, 0xffc0_1234, 0x8000_0000] {
        assert_eq!(value(f32::from_bits(bits).into()), stored(14, &bits.to_le_bytes()));
    }
    for bits in [0, 0x7ff0_0000_0000_0001, u64::MAX] {
        assert_eq!(value(f64::from_bits(bits).into()), stored(7, &bits.to_le_bytes()));
    }
}

#[test]
fn bytes() {
    assert_eq!(value(Variant::Binary(&[255])), [60, 1, 0, 0, 0, 255]);
    assert_eq!(value(Variant::String(b"hi")), [64, 2, 0, 0, 0, 104, 105]);
    assert_eq!(value(Variant::ShortString(b"hi")), [9, 104, 105]);
    assert_eq!(value(Variant::Uuid(*b"0123456789abcdef")), stored(20, b"0123456789abcdef"));
    assert_eq!(value(Variant::Text(&[97; 63])).len(), 64);
    assert_eq!(value(Variant::Text(&[97; 64])).len(), 69);
}

#[test]
fn lists_of_255_and_256() {
    for (count, size) in [(255, 513), (256, 775)] {
        let mut b = VariantBuilder::with_capacity(1000, 0, 0, 256);
        b.new_list(None).unwrap();
        for _ in 0..count {
            b.append_value(None, ()).unwrap();
        }
        b.close().unwrap();
        assert_eq!(b.value().len(), size);
    }
}
