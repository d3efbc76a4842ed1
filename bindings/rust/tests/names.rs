//! Names registered with containers open: a new one belongs to the innermost, and goes when that one is rolled back.
//! The bytes are those of the model (tools/model) under A1.
use variant_writer::{Refusal, VariantBuilder};

fn builder(calls: impl FnOnce(&mut VariantBuilder) -> Result<(), Refusal>) -> VariantBuilder<'static> {
    let mut b = VariantBuilder::new();
    calls(&mut b).unwrap();
    b
}

/// Value and dictionary of a finish that is accepted.
fn finished(b: &mut VariantBuilder) -> (String, String) {
    let mut out = [7; 32];
    let n = b.finish(&mut out).unwrap();
    let hex = |bytes: &[u8]| bytes.iter().map(|x| format!("{x:02x}")).collect();
    (hex(b.value()), hex(&out[..n]))
}

#[test]
fn used_as_fields() {
    let mut b = builder(|b| {
        b.new_object(None)?;
        b.add_field_name(b"c")?;
        b.new_list(Some(b"a"))?;
        b.add_field_name(b"b")?;
        b.add_field_name(b"c")?;
        b.close()?;
        b.append_value(Some(b"b"), true)?;
        b.append_value(Some(b"c"), 1i8)?;
        b.close()
    });
    assert_eq!(finished(&mut b), ("020301020000030406030000040c01".to_string(), "010300010203636162".to_string()));
}

#[test]
fn gone_with_their_container() {
    for depth in [1, 2, 64] {
        let mut b = VariantBuilder::new();
        b.add_field_name(b"a").unwrap();
        for _ in 0..depth {
            b.new_list(None).unwrap();
        }
        b.add_field_name(b"b").unwrap();
        b.add_field_name(b"a").unwrap();
        assert_eq!(b.words()[3..5], [2, 2]);
        b.rollback().unwrap();
        assert_eq!(b.words()[3..5], [1, 1]);
        b.add_field_name(b"c").unwrap();
        for _ in 1..depth {
            b.close().unwrap();
        }
        if depth == 1 {
            b.append_value(None, ()).unwrap();
        }
        assert_eq!(finished(&mut b).1, "11020001026163", "depth {depth}");
    }
}

#[test]
fn the_parents_after_a_close() {
    let mut b = builder(|b| {
        b.new_object(None)?;
        b.new_list(Some(b"a"))?;
        b.add_field_name(b"b")?;
        b.close()?;
        b.rollback()?;
        b.append_value(None, ())
    });
    assert_eq!(finished(&mut b), ("00".to_string(), "010000".to_string()));
}

/// The uniqueness mark, the entries and the value bytes are not asked; the names' room and their UTF-8 are, and finish waits.
#[test]
fn rows() {
    let mut b = VariantBuilder::with_capacity(1, 2, 2, 1);
    b.reset(true);
    b.new_object(None).unwrap();
    b.append_value(Some(b"a"), ()).unwrap();
    b.add_field_name(b"a").unwrap();
    assert_eq!(b.add_field_name(b"\xff"), Err(Refusal::NameNotText));
    b.add_field_name(b"b").unwrap();
    assert_eq!(b.add_field_name(b"c"), Err(Refusal::NamesFull));
    assert_eq!(b.append_value(Some(b"a"), ()), Err(Refusal::NameLive));
    assert_eq!(b.append_value(Some(b"b"), ()), Err(Refusal::EntriesFull));
    assert_eq!(b.finish(&mut [0; 9]), Err(Refusal::ContainerOpen));
    assert_eq!(b.words()[..5], [1, 1, 1, 2, 2]);
}
