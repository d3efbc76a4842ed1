//! The twelve marked outcomes of document 01, over storage of its own and lent, one builder for all.
use variant_writer::{Refusal, Variant, VariantBuilder};

type Calls = fn(&mut VariantBuilder) -> Result<(), Refusal>;
const EMPTY: &str = "010000";

const OUTCOMES: [(Calls, &str, &str); 12] = [
    (|b| b.append_value(None, ()), "00", EMPTY),
    (|b| b.append_value(None, 5i8), "0c05", EMPTY),
    (|b| b.append_value(None, -2i16), "10feff", EMPTY),
    (|b| b.append_value(None, "hi"), "096869", EMPTY),
    (|b| b.new_list(None).and_then(|()| b.close()), "030000", EMPTY),
    (|b| b.new_object(None).and_then(|()| b.close()), "020000", EMPTY),
    (list_in_list, "03010003030000", EMPTY),
    (two_fields, "020201000200040c010c02", "01020001026261"),
    (replaced, "02010002040c010c02", "1101000161"),
    (replacing_child_rolled_back, "02010000020c01", "1101000161"),
    (all_rolled_back, "00", "010000"),
    (new_child_rolled_back, "020200010002040c010c02", "11020001026263"),
];

fn list_in_list(b: &mut VariantBuilder) -> Result<(), Refusal> {
    b.new_list(None)?;
    b.new_list(None)?;
    b.close()?;
    b.close()
}

fn two_fields(b: &mut VariantBuilder) -> Result<(), Refusal> {
    b.new_object(None)?;
    b.append_value(Some(b"b"), 1i8)?;
    b.append_value(Some(b"a"), 2i8)?;
    b.close()
}

fn replaced(b: &mut VariantBuilder) -> Result<(), Refusal> {
    b.new_object(None)?;
    b.append_value(Some(b"a"), 1i8)?;
    b.append_value(Some(b"a"), 2i8)?;
    b.close()
}

fn replacing_child_rolled_back(b: &mut VariantBuilder) -> Result<(), Refusal> {
    b.new_object(None)?;
    b.append_value(Some(b"a"), 1i8)?;
    b.new_list(Some(b"a"))?;
    b.rollback()?;
    b.close()
}

fn all_rolled_back(b: &mut VariantBuilder) -> Result<(), Refusal> {
    b.new_object(None)?;
    b.append_value(Some(b"b"), 1i8)?;
    b.rollback()?;
    b.append_value(None, Variant::Null)
}

fn new_child_rolled_back(b: &mut VariantBuilder) -> Result<(), Refusal> {
    b.new_object(None)?;
    b.append_value(Some(b"b"), 1i8)?;
    b.new_list(Some(b"a"))?;
    b.rollback()?;
    b.append_value(Some(b"c"), 2i8)?;
    b.close()
}

fn hex(bytes: &[u8]) -> String {
    bytes.iter().map(|b| format!("{b:02x}")).collect()
}

fn all(b: &mut VariantBuilder) {
    for (i, (calls, value, dictionary)) in OUTCOMES.into_iter().enumerate() {
        b.reset(false);
        calls(b).unwrap();
        let mut out = [0; 16];
        let n = b.finish(&mut out).unwrap();
        assert_eq!((hex(b.value()), hex(&out[..n])), (value.into(), dictionary.into()), "outcome {}", i + 1);
    }
}

#[test]
fn owned() {
    all(&mut VariantBuilder::new());
    all(&mut VariantBuilder::with_capacity(11, 2, 2, 3));
}

#[test]
fn lent() {
    let (mut value, mut text, mut ends, mut entries) = ([9; 11], [9; 2], [9; 2], [9; 6]);
    all(&mut VariantBuilder::lend(&mut value, &mut text, &mut ends, &mut entries));
    assert_eq!(value, [2, 2, 0, 1, 0, 2, 4, 12, 1, 12, 2]);
    assert_eq!(text, *b"bc");
}
