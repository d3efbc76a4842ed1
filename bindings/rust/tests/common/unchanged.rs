//! Refused calls, which change nothing.
use variant_writer::{Date, Refusal, Variant, VariantBuilder};

/// The call is refused with that number and changes nothing.
pub fn refused(number: u8, b: &mut VariantBuilder, call: impl FnOnce(&mut VariantBuilder) -> Result<(), Refusal>) {
    let before = all(b);
    let refusal = call(b).unwrap_err();
    assert_eq!(refusal.number(), number);
    assert!(refusal.to_string().starts_with(&format!("refused {number}: ")));
    assert!(all(b) == before, "{refusal} changed something");
}

fn all(b: &mut VariantBuilder) -> ([Vec<usize>; 5], [Vec<u8>; 2]) {
    let (words, marks) = (b.words().to_vec(), b.marks().to_vec());
    let s = b.storage_mut();
    ([words, marks, s.ends.to_vec(), s.entries.to_vec(), s.undo.to_vec()], [s.value.to_vec(), s.text.to_vec()])
}

/// Every call is refused with that number.
pub fn all_refused(number: u8, b: &mut VariantBuilder) {
    refused(number, b, |b| b.add_field_name(b"a"));
    refused(number, b, |b| b.append_value(None, ()));
    refused(number, b, |b| b.append_value(None, "a"));
    refused(number, b, |b| b.append_value(None, Variant::Uuid([0; 16])));
    refused(number, b, |b| b.append_civil(None, Date { year: 1970, month: 1, day: 1 }));
    refused(number, b, |b| b.append_packed(None, 0, &[0x5c]));
    refused(number, b, |b| b.new_list(None));
    refused(number, b, |b| b.new_object(None));
    refused(number, b, |b| b.close());
    refused(number, b, |b| b.rollback());
    refused(number, b, |b| b.with_validate_unique_fields(true));
    refused(number, b, |b| b.mark().map(|_| ()));
    refused(number, b, |b| b.return_to(1));
    refused(number, b, |b| finish(b, 9));
}

/// The output of a refused one is as it was.
pub fn finish(b: &mut VariantBuilder, size: usize) -> Result<(), Refusal> {
    let mut out = vec![7; size];
    let answer = b.finish(&mut out).map(|_| ());
    assert!(answer.is_ok() || out == vec![7; size]);
    answer
}
