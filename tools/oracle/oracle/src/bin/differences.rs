//! Prints what parquet-variant 60.1.0 does where document 01 says or might say otherwise.
//! Each line: the matter, what the Rust does. Document 01's answer is in docs/DIFFERENCES.md.
use chrono::{DateTime, NaiveTime, TimeZone, Utc};
use parquet_variant::*;
use std::panic::{AssertUnwindSafe, catch_unwind};

fn hex(bytes: &[u8]) -> String {
    bytes.iter().map(|b| format!("{b:02x}")).collect()
}

fn done(builder: VariantBuilder) -> String {
    let (dictionary, value) = builder.finish();
    format!("{} {}", hex(&value), hex(&dictionary))
}

fn one<'a>(v: impl Into<Variant<'a, 'a>>) -> String {
    let mut b = VariantBuilder::new();
    b.append_value(v);
    done(b)
}

fn main() {
    std::panic::set_hook(Box::new(|_| {}));

    // 1. The clause "runs in which the Rust keeps an offset moved by a call that 10 refused".
    let mut b = VariantBuilder::new();
    let mut o = b.new_object();
    o.insert("a", 1i8);
    o.insert("b", 2i8);
    o = o.with_validate_unique_fields(true);
    assert!(o.try_insert("a", 3i8).is_err());
    assert!(o.try_new_list("a").is_err());
    assert!(o.try_new_object("a").is_err());
    o.finish();
    println!("a=1 b=2, three refused a's: {} (a still at 0)", done(b));

    // 2. ".. or by a replacing child since rolled back", also with the child's own children.
    let mut b = VariantBuilder::new();
    let mut o = b.new_object();
    o.insert("a", 1i8);
    o.insert("b", 2i8);
    {
        let mut l = o.new_list("a");
        l.append_value(9i8);
        let mut inner = l.new_object();
        inner.insert("a", 9i8);
        inner.insert("new", 9i8);
        inner.finish();
    } // dropped: rolled back
    drop(o.new_object("a"));
    o.finish();
    println!("a=1 b=2, two replacing children dropped: {} (a still at 0)", done(b));

    // 3. The uniqueness mark on a list: the Rust has it, and the list's children inherit it.
    let mut b = VariantBuilder::new();
    let mut l = b.new_list().with_validate_unique_fields(true);
    let mut o = l.new_object();
    o.insert("a", 1i8);
    let again = o.try_insert("a", 2i8).is_err();
    o.finish();
    l.finish();
    println!("mark set on a list, then a twice in its object: second refused = {again}; {}", done(b));

    // 4. The mark at the top level, after calls: the Rust has it.
    let mut b = VariantBuilder::new();
    b.add_field_name("a");
    let mut b = b.with_validate_unique_fields(true);
    let mut o = b.new_object();
    o.insert("a", 1i8);
    let again = o.try_insert("a", 2i8).is_err();
    o.finish();
    println!("mark set after a register, then a twice: second refused = {again}; {}", done(b));

    // 5. The leap second at the day's end.
    let leap = NaiveTime::from_num_seconds_from_midnight_opt(86_399, 1_999_999_000).unwrap();
    println!("time 23:59:60.999999: {} (86,400,999,999 microseconds)", one(leap));
    let leap = NaiveTime::from_num_seconds_from_midnight_opt(43_199, 1_500_000_000).unwrap();
    println!("time 11:59:60.5: {} (same bytes as 12:00:00.5)", one(leap));

    // 6. Scales.
    println!("Decimal4 of scale 9: {}; of scale 10: {:?}",
        one(VariantDecimal4::try_new(1, 9).unwrap()),
        VariantDecimal4::try_new(1, 10).map_err(|e| e.to_string()));
    println!("Decimal8 of scale 18: {}; of scale 19: {:?}",
        one(VariantDecimal8::try_new(1, 18).unwrap()),
        VariantDecimal8::try_new(1, 19).map_err(|e| e.to_string()));
    println!("Decimal16 of scale 38: {}; of scale 39: {:?}",
        one(VariantDecimal16::try_new(1, 38).unwrap()),
        VariantDecimal16::try_new(1, 39).map_err(|e| e.to_string()));

    // 7. Dates and timestamps outside chrono's types, and nanoseconds outside i64.
    println!("timestamp of i64::MAX microseconds in chrono: {:?}", DateTime::from_timestamp_micros(i64::MAX));
    println!("last date of chrono: {}; first: {}",
        one(chrono::NaiveDate::MAX), one(chrono::NaiveDate::MIN));
    let far = Utc.with_ymd_and_hms(9999, 1, 1, 0, 0, 0).unwrap();
    let panicked = catch_unwind(AssertUnwindSafe(|| one(Variant::TimestampNanos(far)))).is_err();
    println!("year 9999 as nanoseconds: panics = {panicked}");

    // 8. A null field by the trait VariantBuilderExt.
    let mut b = VariantBuilder::new();
    let mut o = b.new_object();
    ObjectFieldBuilder::new("a", &mut o).append_null();
    o.finish();
    println!("ObjectFieldBuilder::append_null under a: {} (nothing inserted)", done(b));

    // 9. A refused finish takes the builder with it: by the types, nothing can follow.
    println!("try_finish of an empty builder: {:?}", VariantBuilder::new().try_finish().map_err(|e| e.to_string()));

    // 10. A forgotten child is neither closed nor rolled back.
    let mut b = VariantBuilder::new();
    let mut l = b.new_list();
    std::mem::forget(l.new_list());
    l.finish();
    println!("mem::forget of a list's empty child: {} (an element without bytes)", done(b));

    // 11. The plain-text choice.
    println!("plain text of 63 and 64 bytes: {} and {} value bytes",
        one("a".repeat(63).as_str()).split(' ').next().unwrap().len() / 2,
        one("a".repeat(64).as_str()).split(' ').next().unwrap().len() / 2);
}
